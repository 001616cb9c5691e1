/* Calls each function of the library, with right and with wrong arguments, and ends with the number of the first line whose
 * answer is wrong. */
#include "fancy_regex.h"

#include <stdio.h>
#include <string.h>

#define WANT(condition) \
    do { \
        if (!(condition)) { \
            fprintf(stderr, "calls: line %d: %s\n", __LINE__, #condition); \
            return 1; \
        } \
    } while (0)

static int right_calls(void) {
    fancy_regex regex = FANCY_REGEX_EMPTY;
    fancy_regex_span span, spans[4];
    fancy_regex_query known = {1, true, true};
    uint64_t looks = 0;
    char name[8];
    WANT(fancy_regex_build(&regex, "(a)|(b)", 7, NULL) == FANCY_REGEX_DONE);
    WANT(fancy_regex_groups(&regex) == 3);
    WANT(fancy_regex_find(&regex, "xxb", 3, 0, &span) == FANCY_REGEX_DONE && span.start == 2 && span.end == 3);
    WANT(fancy_regex_find(&regex, "xxb", 3, 0, NULL) == FANCY_REGEX_DONE);
    WANT(fancy_regex_is_match(&regex, "xxb", 3, 0) == FANCY_REGEX_DONE);
    WANT(fancy_regex_is_match(&regex, "xxb", 3, 3) == FANCY_REGEX_NO_MATCH);
    WANT(fancy_regex_find_counted(&regex, "xxb", 3, &known, &span, &looks) == FANCY_REGEX_DONE && span.end == 3 && looks > 0);
    WANT(fancy_regex_find(&regex, "xxb", 3, 3, &span) == FANCY_REGEX_NO_MATCH && span.start == FANCY_REGEX_UNSET);
    WANT(fancy_regex_find_by(&regex, "xxb", 3, &known, &span) == FANCY_REGEX_DONE && span.start == 2);
    WANT(fancy_regex_captures(&regex, "xxb", 3, 0, spans, 4) == FANCY_REGEX_DONE);
    WANT(spans[0].start == 2 && spans[1].start == FANCY_REGEX_UNSET && spans[2].end == 3 && spans[3].end == FANCY_REGEX_UNSET);
    WANT(fancy_regex_captures_by(&regex, "xxb", 3, &known, spans, 1) == FANCY_REGEX_DONE && spans[0].end == 3);
    WANT(fancy_regex_captures(&regex, "xxb", 3, 0, NULL, 0) == FANCY_REGEX_DONE);
    WANT(fancy_regex_fault_text(&regex, NULL, 0) == 0);
    WANT(fancy_regex_fault_place(&regex) == FANCY_REGEX_UNSET);
    WANT(fancy_regex_group_name(&regex, 1, name, sizeof name) == 0);
    WANT(fancy_regex_build(&regex, "(?<day>a)\\1", 11, NULL) != FANCY_REGEX_NULL_POINTER);
    WANT(fancy_regex_build(&regex, "(?<day>a)\\k<day>", 16, NULL) == FANCY_REGEX_DONE);
    WANT(fancy_regex_group_name(&regex, 1, name, sizeof name) == 3 && memcmp(name, "day", 3) == 0);
    WANT(fancy_regex_group_name(&regex, 1, NULL, 0) == 3 && fancy_regex_group_name(&regex, 2, name, 8) == 0);
    WANT(fancy_regex_find_counted(&regex, "xaa", 3, &known, &span, &looks) == FANCY_REGEX_DONE && span.end == 3 && looks == 0);
    fancy_regex_free(&regex);
    fancy_regex_free(&regex);
    return 0;
}

/* Whether a walk finds just these matches. */
static bool walks(const char *pattern, const char *text, const char *wanted) {
    fancy_regex regex = FANCY_REGEX_EMPTY;
    fancy_regex_walk walk = FANCY_REGEX_WALK;
    fancy_regex_span span;
    char found[64] = "";
    size_t length = 0;
    if (fancy_regex_build(&regex, pattern, strlen(pattern), NULL) != FANCY_REGEX_DONE) return false;
    while (length < 48 && fancy_regex_next(&regex, text, strlen(text), &walk, &span, 1) == FANCY_REGEX_DONE)
        length += (size_t)sprintf(found + length, "%zu..%zu ", span.start, span.end);
    bool ended = fancy_regex_next(&regex, text, strlen(text), &walk, &span, 1) == FANCY_REGEX_NO_MATCH;
    fancy_regex_free(&regex);
    return ended && strcmp(found, wanted) == 0;
}

static int iteration(void) {
    fancy_regex_walk walk = FANCY_REGEX_WALK;
    WANT(walks("\\w+(?=!)", "so fancy! even with! iterators!", "3..8 15..19 21..30 "));
    WANT(walks("a*", "ba\xc3\xa9", "0..0 1..2 4..4 "));
    WANT(walks("", "\xc3\xa9", "0..0 2..2 "));
    WANT(walks("\\Ga?", "aab", "0..1 1..2 "));
    WANT(walks("\\G[ab]\\K", "aab", "1..1 3..3 "));
    WANT(walks("x", "aab", ""));
    WANT(fancy_regex_next(NULL, "a", 1, &walk, NULL, 1) == FANCY_REGEX_NULL_POINTER);
    return 0;
}

static int rows(void) {
    fancy_regex regex = FANCY_REGEX_EMPTY;
    fancy_regex_query query = {1, false, true};
    fancy_regex_span spans[3];
    size_t count = 9;
    WANT(fancy_regex_find_row(&regex, "a", 1, &query, spans, 3, &count) == FANCY_REGEX_EMPTY_HANDLE && count == 0);
    WANT(fancy_regex_build(&regex, "a+|(?=c)", 8, NULL) == FANCY_REGEX_DONE);
    WANT(fancy_regex_find_row(&regex, "abaabca", 7, &query, spans, 3, &count) == FANCY_REGEX_DONE && count == 2);
    WANT(spans[0].start == 2 && spans[0].end == 4 && spans[1].start == 5 && spans[1].end == 5);
    WANT(fancy_regex_find_row(&regex, "abababa", 7, &query, spans, 2, &count) == FANCY_REGEX_DONE && count == 2);
    WANT(spans[0].start == 2 && spans[0].end == 3 && spans[1].start == 4 && spans[1].end == 5);
    WANT(fancy_regex_find_row(&regex, "abab", 4, &query, spans, 3, &count) == FANCY_REGEX_DONE && count == 1 && spans[0].start == 2);
    WANT(fancy_regex_find_row(&regex, "abb", 3, &query, spans, 3, &count) == FANCY_REGEX_NO_MATCH && count == 0);
    WANT(fancy_regex_find_row(&regex, "\xc3\xa9", 2, &query, spans, 3, &count) == FANCY_REGEX_OFF_BOUNDARY && count == 0);
    WANT(fancy_regex_find_row(&regex, "", 0, &query, spans, 3, &count) == FANCY_REGEX_PAST_END && count == 0);
    WANT(fancy_regex_find_row(&regex, "a", 1, &query, spans, 0, &count) == FANCY_REGEX_NULL_POINTER);
    WANT(fancy_regex_find_row(&regex, "a", 1, &query, NULL, 3, &count) == FANCY_REGEX_NULL_POINTER);
    fancy_regex_free(&regex);
    return 0;
}

static int lists(void) {
    fancy_regex regex = FANCY_REGEX_EMPTY;
    fancy_regex_span spans[4];
    size_t count = 9;
    char text[16];
    memset(text, '#', sizeof text);
    WANT(fancy_regex_find_all(&regex, "a", 1, spans, 4, &count) == FANCY_REGEX_EMPTY_HANDLE && count == 0);
    WANT(fancy_regex_build(&regex, "(b),?", 5, NULL) == FANCY_REGEX_DONE);
    WANT(fancy_regex_find_all(&regex, "ab,b", 4, spans, 4, &count) == FANCY_REGEX_DONE && count == 2);
    WANT(spans[0].start == 1 && spans[0].end == 3 && spans[1].start == 3 && spans[1].end == 4);
    WANT(fancy_regex_find_all(&regex, "ab,b", 4, NULL, 0, &count) == FANCY_REGEX_DONE && count == 2);
    WANT(fancy_regex_split(&regex, "ab,bc", 5, spans, 4, &count) == FANCY_REGEX_DONE && count == 3);
    WANT(spans[0].end == 1 && spans[1].start == 3 && spans[1].end == 3 && spans[2].start == 4 && spans[2].end == 5);
    WANT(fancy_regex_replace_all(&regex, "ab,bc", 5, "<$1>", 4, text, 16, &count) == FANCY_REGEX_DONE && count == 8);
    WANT(memcmp(text, "a<b><b>c########", 16) == 0);
    WANT(fancy_regex_replace_all(&regex, "ab,bc", 5, "$$", 2, text, 2, &count) == FANCY_REGEX_DONE && count == 4 && memcmp(text, "a$b>", 4) == 0);
    WANT(fancy_regex_replace_all(&regex, "ab", 2, "\xff", 1, text, 16, &count) == FANCY_REGEX_NOT_UTF8 && count == 0);
    WANT(fancy_regex_split(&regex, "\xff", 1, spans, 4, &count) == FANCY_REGEX_NOT_UTF8 && count == 0);
    WANT(fancy_regex_split(&regex, "a", 1, spans, 4, NULL) == FANCY_REGEX_NULL_POINTER);
    WANT(fancy_regex_split(&regex, "a", SIZE_MAX, spans, 4, &count) == FANCY_REGEX_TOO_LONG);
    WANT(fancy_regex_set_find(&regex, "a", 1, 0, NULL, 0, &count) == FANCY_REGEX_NO_SET);
    fancy_regex_free(&regex);
    return 0;
}

static int sets(void) {
    fancy_regex set = FANCY_REGEX_EMPTY;
    fancy_regex_member members[3];
    fancy_regex_span span;
    const char *patterns = "\\d+\\w+\\.\\d+(?<=\\$)\\d+\\.\\d+";
    const size_t ends[] = {3, 6, 11, 26}, falling[] = {3, 2, 5};
    size_t count = 9;
    WANT(strlen(patterns) == 26);
    WANT(fancy_regex_set_build(&set, patterns, ends, 4, NULL) == FANCY_REGEX_DONE);
    WANT(fancy_regex_set_find(&set, "$29.99", 6, 0, members, 3, &count) == FANCY_REGEX_DONE && count == 3);
    WANT(members[0].pattern == 0 && members[0].start == 1 && members[0].end == 3);
    WANT(members[1].pattern == 1 && members[2].pattern == 3 && members[2].end == 6);
    WANT(fancy_regex_set_find(&set, "--", 2, 0, members, 3, &count) == FANCY_REGEX_DONE && count == 0);
    WANT(fancy_regex_set_find(&set, "$29.99", 6, 3, members, 3, &count) == FANCY_REGEX_DONE && count == 1 && members[0].pattern == 2);
    WANT(fancy_regex_set_find(&set, "\xc3\xa9", 2, 1, members, 3, &count) == FANCY_REGEX_OFF_BOUNDARY && count == 0);
    WANT(fancy_regex_set_find(&set, "a", 1, 2, members, 3, &count) == FANCY_REGEX_PAST_END);
    WANT(fancy_regex_set_captures(&set, "\xc3\xa9", 2, 1, members, 3, &count) == FANCY_REGEX_OFF_BOUNDARY && count == 0);
    WANT(fancy_regex_find(&set, "1", 1, 0, &span) == FANCY_REGEX_NO_REGEX && fancy_regex_groups(&set) == 0);
    WANT(fancy_regex_fault_text(&set, NULL, 0) == strlen("the handle holds no regex"));
    WANT(fancy_regex_set_build(&set, patterns, falling, 3, NULL) == FANCY_REGEX_WRONG_ENDS);
    WANT(fancy_regex_set_build(&set, "a(b", ends, 1, NULL) == FANCY_REGEX_NO_PATTERN && fancy_regex_fault_place(&set) != FANCY_REGEX_UNSET);
    WANT(fancy_regex_set_build(&set, "a\xff""b", ends, 1, NULL) == FANCY_REGEX_NOT_UTF8);
    WANT(fancy_regex_set_build(&set, NULL, NULL, 0, NULL) == FANCY_REGEX_DONE);
    WANT(fancy_regex_set_find(&set, "a", 1, 0, members, 3, &count) == FANCY_REGEX_DONE && count == 0);
    WANT(fancy_regex_set_build(&set, NULL, ends, 1, NULL) == FANCY_REGEX_NULL_POINTER);
    WANT(fancy_regex_set_build(&set, "a", NULL, 1, NULL) == FANCY_REGEX_NULL_POINTER);
    fancy_regex_free(&set);
    return 0;
}

/* Whether this is a group of the member with this number, with this span. */
static bool is_group(fancy_regex_member group, size_t pattern, size_t start, size_t end) {
    return group.pattern == pattern && group.start == start && group.end == end;
}

static int set_groups(void) {
    fancy_regex set = FANCY_REGEX_EMPTY;
    fancy_regex_query within = {2, true, false};
    fancy_regex_member groups[8];
    const size_t ends[] = {8, 9, 12};
    size_t count = 9;
    memset(groups, 7, sizeof groups);
    WANT(fancy_regex_set_captures(&set, "a", 1, 0, groups, 8, &count) == FANCY_REGEX_EMPTY_HANDLE && count == 0);
    WANT(fancy_regex_set_build(&set, "(a)|(b)cx(b)", ends, 3, NULL) == FANCY_REGEX_DONE);
    WANT(fancy_regex_set_captures(&set, "-bca", 4, 0, groups, 8, &count) == FANCY_REGEX_DONE && count == 5);
    WANT(is_group(groups[0], 0, 1, 3) && is_group(groups[1], 0, FANCY_REGEX_UNSET, FANCY_REGEX_UNSET) && is_group(groups[2], 0, 1, 2));
    WANT(is_group(groups[3], 2, 1, 2) && is_group(groups[4], 2, 1, 2) && groups[5].pattern > 7);
    WANT(fancy_regex_set_captures(&set, "-bca", 4, 0, NULL, 0, &count) == FANCY_REGEX_DONE && count == 5);
    WANT(fancy_regex_set_captures_by(&set, "-bca", 4, &within, groups, 2, &count) == FANCY_REGEX_DONE && count == 3);
    WANT(is_group(groups[0], 0, 3, 4) && is_group(groups[1], 0, 3, 4) && is_group(groups[2], 0, 1, 2));
    WANT(fancy_regex_set_find_by(&set, "-bca", 4, &within, groups, 8, &count) == FANCY_REGEX_DONE && count == 1 && is_group(groups[0], 0, 3, 4));
    WANT(fancy_regex_set_captures(&set, "--", 2, 0, groups, 8, &count) == FANCY_REGEX_DONE && count == 0);
    WANT(fancy_regex_set_captures(&set, "\xff", 1, 0, groups, 8, &count) == FANCY_REGEX_NOT_UTF8 && count == 0);
    WANT(fancy_regex_set_captures(&set, "a", 1, 2, groups, 8, &count) == FANCY_REGEX_PAST_END);
    WANT(fancy_regex_set_captures_by(&set, "a", 1, NULL, groups, 8, &count) == FANCY_REGEX_NULL_POINTER && count == 0);
    WANT(fancy_regex_set_captures(&set, "a", 1, 0, NULL, 8, &count) == FANCY_REGEX_NULL_POINTER);
    WANT(fancy_regex_set_captures(&set, "a", 1, 0, groups, 8, NULL) == FANCY_REGEX_NULL_POINTER);
    WANT(fancy_regex_set_captures(&set, "a", SIZE_MAX, 0, groups, 8, &count) == FANCY_REGEX_TOO_LONG);
    WANT(fancy_regex_set_captures(&set, "a", 1, 0, groups, SIZE_MAX / 8, &count) == FANCY_REGEX_TOO_LONG);
    WANT(fancy_regex_build(&set, "a", 1, NULL) == FANCY_REGEX_DONE);
    WANT(fancy_regex_set_captures(&set, "a", 1, 0, groups, 8, &count) == FANCY_REGEX_NO_SET && count == 0);
    fancy_regex_free(&set);
    return 0;
}

/* Whether just these bytes are marked. */
static bool marks(const bool *table, const char *bytes) {
    for (int byte = 0; byte < 256; byte++)
        if (table[byte] != (byte != 0 && strchr(bytes, byte) != NULL)) return false;
    return true;
}

static int questions(void) {
    fancy_regex regex = FANCY_REGEX_EMPTY;
    bool table[256] = {true};
    char text[16];
    size_t length = 9;
    WANT(fancy_regex_start_bytes(&regex, "fn|let|impl", 11, NULL, table) == FANCY_REGEX_DONE && marks(table, "fli"));
    WANT(fancy_regex_start_bytes(&regex, "a?", 2, NULL, table) == FANCY_REGEX_NO_MATCH && marks(table, "fli"));
    WANT(fancy_regex_required_bytes(&regex, "a?b", 3, NULL, table) == FANCY_REGEX_DONE && marks(table, "b"));
    WANT(fancy_regex_groups(&regex) == 0 && fancy_regex_fault_text(&regex, NULL, 0) == 0);
    WANT(fancy_regex_required_bytes(&regex, "a)", 2, NULL, table) == FANCY_REGEX_NO_PATTERN && fancy_regex_fault_place(&regex) == 1);
    WANT(fancy_regex_start_bytes(&regex, "\xff", 1, NULL, table) == FANCY_REGEX_NOT_UTF8 && marks(table, "b"));
    WANT(fancy_regex_start_bytes(&regex, "a", 1, NULL, NULL) == FANCY_REGEX_NULL_POINTER);
    WANT(fancy_regex_escape("a.b", 3, text, sizeof text, &length) == FANCY_REGEX_DONE && length == 4 && memcmp(text, "a\\.b", 4) == 0);
    WANT(fancy_regex_escape(".\n", 2, NULL, 0, &length) == FANCY_REGEX_DONE && length == 4);
    WANT(fancy_regex_escape("\xff", 1, text, sizeof text, &length) == FANCY_REGEX_NOT_UTF8 && length == 0);
    WANT(fancy_regex_escape("a", 1, text, sizeof text, NULL) == FANCY_REGEX_NULL_POINTER);
    WANT(fancy_regex_build(&regex, "(?<day>a)(?<b>b)", 16, NULL) == FANCY_REGEX_DONE);
    WANT(fancy_regex_group_names(&regex, text, sizeof text, &length) == FANCY_REGEX_DONE && length == 7 && memcmp(text, "\nday\nb\n", 7) == 0);
    WANT(fancy_regex_group_names(&regex, NULL, 0, &length) == FANCY_REGEX_DONE && length == 7);
    WANT(fancy_regex_template_check(&regex, "$day-${b}$$", 11, false) == FANCY_REGEX_DONE);
    WANT(fancy_regex_template_check(&regex, "\\g<day>", 7, true) == FANCY_REGEX_DONE);
    WANT(fancy_regex_template_check(&regex, "$1", 2, false) == FANCY_REGEX_REFUSED);
    WANT(fancy_regex_template_check(&regex, "$", 1, false) == FANCY_REGEX_NO_PATTERN && fancy_regex_fault_place(&regex) == 0);
    WANT(fancy_regex_template_check(&regex, "\xff", 1, false) == FANCY_REGEX_NOT_UTF8);
    fancy_regex_free(&regex);
    WANT(fancy_regex_template_check(&regex, "a", 1, false) == FANCY_REGEX_EMPTY_HANDLE);
    WANT(fancy_regex_group_names(&regex, NULL, 0, &length) == FANCY_REGEX_EMPTY_HANDLE && length == 0);
    return 0;
}

static int mixed_sets(void) {
    fancy_regex set = FANCY_REGEX_EMPTY;
    fancy_regex_options options[2] = {FANCY_REGEX_OPTIONS, FANCY_REGEX_OPTIONS};
    fancy_regex_member members[2];
    const size_t ends[] = {1, 2}, falling[] = {2, 1};
    size_t count = 9;
    options[0].case_insensitive = true;
    WANT(fancy_regex_set_build_mixed(&set, "aa", ends, 2, options) == FANCY_REGEX_DONE);
    WANT(fancy_regex_set_find(&set, "bA", 2, 0, members, 2, &count) == FANCY_REGEX_DONE && count == 1 && members[0].pattern == 0);
    WANT(fancy_regex_set_find(&set, "ba", 2, 0, members, 2, &count) == FANCY_REGEX_DONE && count == 2 && members[1].pattern == 1);
    WANT(fancy_regex_set_build_mixed(&set, "a)", ends, 2, options) == FANCY_REGEX_NO_PATTERN && fancy_regex_fault_place(&set) == 0);
    WANT(fancy_regex_set_build_mixed(&set, "aa", falling, 2, options) == FANCY_REGEX_WRONG_ENDS);
    WANT(fancy_regex_set_build_mixed(&set, NULL, NULL, 0, NULL) == FANCY_REGEX_DONE);
    WANT(fancy_regex_set_build_mixed(&set, "aa", ends, 2, NULL) == FANCY_REGEX_NULL_POINTER);
    fancy_regex_free(&set);
    return 0;
}

static int options(void) {
    fancy_regex regex = FANCY_REGEX_EMPTY;
    fancy_regex_options options = FANCY_REGEX_OPTIONS;
    fancy_regex_span span;
    options.case_insensitive = true;
    WANT(fancy_regex_build(&regex, "\xc3\x89", 2, &options) == FANCY_REGEX_DONE);
    WANT(fancy_regex_find(&regex, "\xc3\xa9", 2, 0, &span) == FANCY_REGEX_DONE && span.end == 2);
    options.unicode_mode = false;
    WANT(fancy_regex_build(&regex, "\\w", 2, &options) == FANCY_REGEX_DONE);
    WANT(fancy_regex_find(&regex, "\xc3\xa9""a", 3, 0, &span) == FANCY_REGEX_DONE && span.start == 2);
    options.backtrack_limit = 1;
    WANT(fancy_regex_build(&regex, "(a|b|ab)*\\1c", 12, &options) == FANCY_REGEX_DONE);
    WANT(fancy_regex_find(&regex, "abababababababab", 16, 0, &span) == FANCY_REGEX_LIMIT);
    WANT(fancy_regex_is_match(&regex, "abababababababab", 16, 0) == FANCY_REGEX_LIMIT);
    WANT(fancy_regex_fault_text(&regex, NULL, 0) > 0);
    fancy_regex_free(&regex);
    return 0;
}

/* Groups that call themselves or each other, with so many calls that their bodies stand in the program once. */
static int grammars(void) {
    fancy_regex regex = FANCY_REGEX_EMPTY;
    fancy_regex_options options = FANCY_REGEX_OPTIONS;
    fancy_regex_span span, spans[2];
    fancy_regex_member members[2];
    const char *sum = "(?<e>\\d+|\\(\\g<e>[-+*/]\\g<e>\\))", *text = "((1+2)*(3-(4/5)))";
    const char *both = "(a\\g<1>?\\g<1>?b)(?<e>\\d+|\\(\\g<e>[-+*/]\\g<e>\\))";
    const size_t ends[] = {16, 46};
    size_t count = 9;
    WANT(strlen(sum) == 30 && strlen(both) == 46);
    WANT(fancy_regex_build(&regex, sum, 30, NULL) == FANCY_REGEX_DONE);
    WANT(fancy_regex_captures(&regex, text, 17, 0, spans, 2) == FANCY_REGEX_DONE && spans[0].end == 17 && spans[1].start == 0 && spans[1].end == 17);
    WANT(fancy_regex_find(&regex, text, 17, 7, &span) == FANCY_REGEX_DONE && span.start == 7 && span.end == 16);
    WANT(fancy_regex_find(&regex, text, 16, 0, &span) == FANCY_REGEX_DONE && span.start == 1 && span.end == 6);
    options.backtrack_limit = 9;
    WANT(fancy_regex_build(&regex, sum, 30, &options) == FANCY_REGEX_DONE && fancy_regex_is_match(&regex, text, 17, 0) == FANCY_REGEX_DONE);
    options.backtrack_limit = 8;
    WANT(fancy_regex_build(&regex, sum, 30, &options) == FANCY_REGEX_DONE && fancy_regex_is_match(&regex, text, 17, 0) == FANCY_REGEX_LIMIT);
    options = (fancy_regex_options)FANCY_REGEX_OPTIONS;
    options.leftmost_longest = true;
    WANT(fancy_regex_build(&regex, sum, 30, &options) == FANCY_REGEX_DONE);
    WANT(fancy_regex_find(&regex, text, 17, 0, &span) == FANCY_REGEX_DONE && span.end == 17);
    options.has_max_prog_size = true;
    options.max_prog_size = 1000;
    WANT(fancy_regex_build(&regex, sum, 30, &options) == FANCY_REGEX_REFUSED);
    WANT(walks("(a\\g<1>?\\g<1>?b)", "aabaabbab", "1..3 3..7 7..9 "));
    WANT(fancy_regex_set_build(&regex, both, ends, 2, NULL) == FANCY_REGEX_DONE);
    WANT(fancy_regex_set_find(&regex, "xaabb1", 6, 0, members, 2, &count) == FANCY_REGEX_DONE && count == 1);
    WANT(members[0].pattern == 0 && members[0].start == 1 && members[0].end == 5);
    fancy_regex_free(&regex);
    return 0;
}

static int wrong_calls(void) {
    fancy_regex regex = FANCY_REGEX_EMPTY;
    fancy_regex_query begin = {0, false, true};
    fancy_regex_span span;
    uint64_t looks;
    char text[16];
    WANT(fancy_regex_build(NULL, "a", 1, NULL) == FANCY_REGEX_NULL_POINTER);
    WANT(fancy_regex_build(&regex, NULL, 1, NULL) == FANCY_REGEX_NULL_POINTER);
    WANT(fancy_regex_build(&regex, "a", SIZE_MAX, NULL) == FANCY_REGEX_TOO_LONG);
    WANT(fancy_regex_build(&regex, NULL, 0, NULL) == FANCY_REGEX_DONE);
    WANT(fancy_regex_build(&regex, "\xff", 1, NULL) == FANCY_REGEX_NOT_UTF8);
    WANT(fancy_regex_find(&regex, "a", 1, 0, &span) == FANCY_REGEX_NO_REGEX);
    WANT(fancy_regex_build(&regex, "a)", 2, NULL) == FANCY_REGEX_NO_PATTERN);
    WANT(fancy_regex_fault_place(&regex) == 1);
    WANT(fancy_regex_fault_text(&regex, text, sizeof text) > sizeof text && memcmp(text, "Parsing error at", 16) == 0);
    WANT(fancy_regex_groups(&regex) == 0 && fancy_regex_groups(NULL) == 0);
    fancy_regex_free(&regex);
    WANT(fancy_regex_find(&regex, "a", 1, 0, &span) == FANCY_REGEX_EMPTY_HANDLE);
    WANT(fancy_regex_is_match(&regex, "a", 1, 0) == FANCY_REGEX_EMPTY_HANDLE);
    WANT(fancy_regex_build(&regex, "a", 1, NULL) == FANCY_REGEX_DONE);
    WANT(fancy_regex_build(&regex, NULL, 1, NULL) == FANCY_REGEX_NULL_POINTER && fancy_regex_groups(&regex) == 1);
    WANT(fancy_regex_find(NULL, "a", 1, 0, &span) == FANCY_REGEX_NULL_POINTER);
    WANT(fancy_regex_is_match(NULL, "a", 1, 0) == FANCY_REGEX_NULL_POINTER);
    WANT(fancy_regex_find(&regex, NULL, 1, 0, &span) == FANCY_REGEX_NULL_POINTER);
    WANT(fancy_regex_find(&regex, "a", SIZE_MAX, 0, &span) == FANCY_REGEX_TOO_LONG);
    span.start = looks = 7;
    WANT(fancy_regex_find_by(&regex, "a", 1, NULL, &span) == FANCY_REGEX_NULL_POINTER && span.start == FANCY_REGEX_UNSET);
    WANT(fancy_regex_find_counted(&regex, "a", SIZE_MAX, &begin, &span, &looks) == FANCY_REGEX_TOO_LONG && looks == 0);
    WANT(fancy_regex_find(&regex, "a\xff", 2, 0, &span) == FANCY_REGEX_NOT_UTF8);
    WANT(fancy_regex_find(&regex, "a", 1, 2, &span) == FANCY_REGEX_PAST_END);
    WANT(fancy_regex_find(&regex, "\xc3\xa9", 2, 1, &span) == FANCY_REGEX_OFF_BOUNDARY);
    WANT(fancy_regex_captures(&regex, "a", 1, 0, NULL, 1) == FANCY_REGEX_NULL_POINTER);
    WANT(fancy_regex_find_counted(&regex, "a", 1, &begin, &span, NULL) == FANCY_REGEX_NULL_POINTER);
    WANT(fancy_regex_captures(&regex, "a", 1, 0, &span, SIZE_MAX / 2) == FANCY_REGEX_TOO_LONG);
    WANT(fancy_regex_find(&regex, "a", 1, 0, &span) == FANCY_REGEX_DONE);
    fancy_regex_free(&regex);
    fancy_regex_free(NULL);
    return 0;
}

int main(void) {
    if (right_calls() != 0 || iteration() != 0 || rows() != 0 || lists() != 0 || sets() != 0 || set_groups() != 0 || mixed_sets() != 0 || questions() != 0 || options() != 0 || grammars() != 0 || wrong_calls() != 0) return 1;
    printf("calls: done\n");
    return 0;
}
