/* Random calls: patterns, texts, options, places, handles and lengths, right and wrong; tests what can be told of each answer, and
 * counts how they ended.
 *
 *     random_calls [CALLS [SEED]]
 */
#include "fancy_regex.h"

#include <inttypes.h>
#include <stdio.h>
#include <stdlib.h>
#include <string.h>

#define HANDLES 4
#define LONGEST 24

/* Ends the run where an answer cannot be right. */
static void wrong(int line) {
    fprintf(stderr, "random_calls: wrong answer, line %d\n", line);
    abort();
}

static uint64_t state = 88172645463325252u;

static uint64_t below(uint64_t limit) {
    state ^= state << 13;
    state ^= state >> 7;
    state ^= state << 17;
    return (state >> 11) % limit;
}

/* A pattern or a text of a few pieces; one in sixteen has a byte that is not UTF-8. */
static size_t any_text(char *text, const char *const *pieces, size_t count) {
    size_t length = 0, left = below(9);
    while (left-- > 0) {
        const char *piece = pieces[below(count)];
        size_t more = strlen(piece);
        if (length + more > LONGEST) break;
        memcpy(text + length, piece, more);
        length += more;
    }
    if (length < LONGEST && below(16) == 0) text[length++] = (char)(0x80 + below(128));
    return length;
}

static size_t any_pattern(char *text) {
    static const char *const pieces[] = {"a", "b", "\xc3\xa9", ".", "\\w", "\\b", "^", "$", "(", ")", "(?:", "(?=", "(?!", "(?<=", "(?<n>", "(?>", "\\1", "\\k<n>", "\\g<1>", "\\G", "\\K", "*", "+", "?", "{2}", "|", "[ab]", "[^a]", "(?(1)", "(?~", "(?i)", "(a)", "(a|b)*", "(?=b)"};
    return any_text(text, pieces, sizeof pieces / sizeof *pieces);
}

static size_t any_haystack(char *text) {
    static const char *const pieces[] = {"a", "b", "A", "ab", "\xc3\xa9", "\xf0\x9f\x98\x80", "\n", " ", "aa", "ba"};
    return any_text(text, pieces, sizeof pieces / sizeof *pieces);
}

static fancy_regex_options any_options(void) {
    fancy_regex_options options = FANCY_REGEX_OPTIONS;
    options.backtrack_limit = 1 + below(2000);
    options.has_max_prog_size = below(8) == 0;
    options.max_prog_size = below(200);
    options.case_insensitive = below(4) == 0;
    options.multi_line = below(4) == 0;
    options.ignore_whitespace = below(8) == 0;
    options.dot_matches_new_line = below(4) == 0;
    options.crlf = below(8) == 0;
    options.unicode_mode = below(4) != 0;
    options.find_not_empty = below(8) == 0;
    options.ignore_numbered_groups = below(8) == 0;
    options.seek = below(2) == 0;
    options.oniguruma_mode = below(8) == 0;
    options.leftmost_longest = below(8) == 0;
    return options;
}

/* Whether a span that a call wrote may be one of a text of this length. */
static bool is_span(fancy_regex_span span, size_t length) {
    bool unset = span.start == FANCY_REGEX_UNSET && span.end == FANCY_REGEX_UNSET;
    return unset || (span.start <= span.end && span.end <= length);
}

static int32_t any_search(fancy_regex *regex) {
    char text[LONGEST];
    size_t length = any_haystack(text), claimed = below(32) == 0 ? SIZE_MAX - below(9) : length;
    size_t position = below(length + 2);
    const char *at = below(32) == 0 ? NULL : text;
    fancy_regex_span spans[6];
    if (below(4) == 0) {
        fancy_regex_query query = {position, false, below(2) == 0};
        uint64_t looks = 0;
        int32_t answer = fancy_regex_find_counted(regex, at, claimed, &query, &spans[0], &looks);
        if (answer == FANCY_REGEX_DONE && !is_span(spans[0], length)) wrong(__LINE__);
        return answer;
    }
    if (below(2) == 0) {
        int32_t answer = fancy_regex_find(regex, at, claimed, position, &spans[0]);
        if (answer == FANCY_REGEX_DONE && !is_span(spans[0], length)) wrong(__LINE__);
        if (fancy_regex_is_match(regex, at, claimed, position) != answer) wrong(__LINE__);
        return answer;
    }
    size_t room = below(7);
    int32_t answer = fancy_regex_captures(regex, at, claimed, position, spans, room);
    for (size_t i = 0; answer == FANCY_REGEX_DONE && i < room; i++)
        if (!is_span(spans[i], length)) wrong(__LINE__);
    return answer;
}

/* Room that is filled with a mark, to see that nothing is written after what a call tells. */
#define MARK 0x5a

static void marked(void *room, size_t bytes) {
    memset(room, MARK, bytes);
}

static void want_marks(const void *room, size_t from, size_t bytes) {
    for (size_t i = from; i < bytes; i++)
        if (((const unsigned char *)room)[i] != MARK) wrong(__LINE__);
}

/* Whether a walk finds just the spans that a call listed; with a fault both end with one. */
static void want_walk(fancy_regex *regex, const char *text, size_t length, const fancy_regex_span *spans, size_t listed, size_t count) {
    fancy_regex_walk walk = FANCY_REGEX_WALK;
    fancy_regex_span found;
    size_t walked = 0;
    for (; fancy_regex_next(regex, text, length, &walk, &found, 1) == FANCY_REGEX_DONE; walked++)
        if (walked < listed && (found.start != spans[walked].start || found.end != spans[walked].end)) wrong(__LINE__);
    if (walked != count) wrong(__LINE__);
}

/* Whether searches one after another, each of which begins where the match before it ended, find just the spans of a row. A row ends with
 * an empty match, where there is no more room, and where the next search has no match. */
static void want_row(fancy_regex *regex, const char *text, size_t length, fancy_regex_query query, const fancy_regex_span *spans, size_t room, size_t count, int32_t answer) {
    fancy_regex_span found;
    for (size_t i = 0; i < count; i++) {
        if (fancy_regex_find_by(regex, text, length, &query, &found) != FANCY_REGEX_DONE) wrong(__LINE__);
        if (!is_span(found, length) || found.start != spans[i].start || found.end != spans[i].end) wrong(__LINE__);
        if (found.start >= found.end) {
            if (i + 1 != count) wrong(__LINE__);
            return;
        }
        query.position = found.end;
    }
    if (count == room) return;
    int32_t next = fancy_regex_find_by(regex, text, length, &query, &found);
    if (count == 0 ? next != answer : next == FANCY_REGEX_DONE) wrong(__LINE__);
}

static int32_t any_row(fancy_regex *regex) {
    char text[LONGEST];
    size_t length = any_haystack(text), claimed = below(32) == 0 ? SIZE_MAX - below(9) : length;
    const char *at = below(32) == 0 ? NULL : text;
    fancy_regex_query query = {below(length + 2), false, below(4) != 0};
    fancy_regex_span spans[8];
    size_t room = below(9), count = 77;
    marked(spans, sizeof spans);
    int32_t answer = fancy_regex_find_row(regex, at, claimed, &query, below(32) == 0 ? NULL : spans, room, &count);
    if (count > room || (answer == FANCY_REGEX_DONE) != (count > 0)) wrong(__LINE__);
    want_marks(spans, count * sizeof *spans, sizeof spans);
    if (answer != FANCY_REGEX_NULL_POINTER && answer != FANCY_REGEX_MEMORY) want_row(regex, at, claimed, query, spans, room, count, answer);
    return answer;
}

static int32_t any_list(fancy_regex *regex) {
    char text[LONGEST];
    size_t length = any_haystack(text), claimed = below(32) == 0 ? SIZE_MAX - below(9) : length;
    const char *at = below(32) == 0 ? NULL : text;
    fancy_regex_span spans[32];
    size_t room = below(33), count = 77;
    marked(spans, sizeof spans);
    int32_t answer = fancy_regex_find_all(regex, at, claimed, spans, room, &count);
    size_t listed = count < room ? count : room;
    want_marks(spans, listed * sizeof *spans, sizeof spans);
    if (answer != FANCY_REGEX_DONE) {
        if (count != 0) wrong(__LINE__);
        return answer;
    }
    for (size_t i = 0; i < listed; i++)
        if (!is_span(spans[i], length) || (i > 0 && spans[i].start < spans[i - 1].end)) wrong(__LINE__);
    want_walk(regex, at, length, spans, listed, count);
    return answer;
}

/* The pieces of a text, one after another, are the text with each match replaced by nothing. */
static int32_t any_split(fancy_regex *regex) {
    char text[LONGEST], joined[LONGEST], replaced[LONGEST];
    size_t length = any_haystack(text), count = 77, filled = 0, whole = 77;
    fancy_regex_span pieces[LONGEST + 2];
    int32_t answer = fancy_regex_split(regex, text, length, pieces, LONGEST + 2, &count);
    if (answer != FANCY_REGEX_DONE) {
        if (count != 0) wrong(__LINE__);
        return answer;
    }
    for (size_t i = 0; i < count; i++) {
        if (!is_span(pieces[i], length)) wrong(__LINE__);
        memcpy(joined + filled, text + pieces[i].start, pieces[i].end - pieces[i].start);
        filled += pieces[i].end - pieces[i].start;
    }
    if (fancy_regex_replace_all(regex, text, length, NULL, 0, replaced, LONGEST, &whole) != FANCY_REGEX_DONE) wrong(__LINE__);
    if (whole != filled || memcmp(joined, replaced, filled) != 0) wrong(__LINE__);
    return answer;
}

static int32_t any_replacement(fancy_regex *regex) {
    static const char *const pieces[] = {"$1", "${n}", "$$", "-", "$", "${", "\xc3\xa9", "$0"};
    char text[LONGEST], with[LONGEST], out[64];
    size_t length = any_haystack(text), with_length = any_text(with, pieces, sizeof pieces / sizeof *pieces);
    size_t room = below(sizeof out + 1), whole = 77;
    marked(out, sizeof out);
    int32_t answer = fancy_regex_replace_all(regex, text, length, below(32) == 0 ? NULL : with, with_length, out, room, &whole);
    if (answer != FANCY_REGEX_DONE && whole != 0) wrong(__LINE__);
    want_marks(out, whole < room ? whole : room, sizeof out);
    return answer;
}

static int32_t any_set(fancy_regex *set) {
    char patterns[4 * LONGEST];
    size_t ends[4], count = below(5), length = 0;
    fancy_regex_options options[4];
    for (size_t i = 0; i < 4; i++) options[i] = any_options();
    for (size_t i = 0; i < count; i++) {
        length += any_pattern(patterns + length);
        ends[i] = below(64) == 0 ? below(9) : length;
    }
    if (count > 0) ends[count - 1] = length;
    const char *at = below(64) == 0 ? NULL : patterns;
    if (below(3) == 0) return fancy_regex_set_build_mixed(set, at, ends, count, below(16) == 0 ? NULL : options);
    return fancy_regex_set_build(set, at, ends, count, below(4) == 0 ? NULL : &options[0]);
}

static int32_t any_set_search(fancy_regex *set) {
    char text[LONGEST];
    size_t length = any_haystack(text), position = below(length + 2), room = below(5), count = 77;
    fancy_regex_member members[4];
    marked(members, sizeof members);
    int32_t answer = fancy_regex_set_find(set, below(32) == 0 ? NULL : text, length, position, members, room, &count);
    if (answer != FANCY_REGEX_DONE && count != 0) wrong(__LINE__);
    size_t written = count < room ? count : room;
    want_marks(members, written * sizeof *members, sizeof members);
    for (size_t i = 0; i < written; i++)
        if (members[i].pattern > 3 || members[i].start > members[i].end || members[i].end > length) wrong(__LINE__);
    return answer;
}

/* Of the groups of the members that match, those with number 0 are the members themselves. */
static int32_t any_set_groups(fancy_regex *set) {
    char text[LONGEST];
    size_t length = any_haystack(text), position = below(length + 2), room = below(65), count = 77, found = 0, matching = 0;
    fancy_regex_member groups[64], members[4];
    const char *at = below(32) == 0 ? NULL : text;
    fancy_regex_query query = {position, false, below(4) != 0};
    marked(groups, sizeof groups);
    int32_t answer = fancy_regex_set_captures_by(set, at, length, &query, groups, room, &count);
    if (answer != FANCY_REGEX_DONE && count != 0) wrong(__LINE__);
    size_t written = count < room ? count : room;
    want_marks(groups, written * sizeof *groups, sizeof groups);
    int32_t again = fancy_regex_set_find_by(set, at, length, &query, members, 4, &matching);
    if (answer == FANCY_REGEX_MEMORY || again == FANCY_REGEX_MEMORY) return answer;
    if (again != answer || matching > count) wrong(__LINE__);
    for (size_t i = 0; i < written; i++) {
        fancy_regex_span span = {groups[i].start, groups[i].end};
        bool whole = i == 0 || groups[i].pattern != groups[i - 1].pattern;
        if (!is_span(span, length)) wrong(__LINE__);
        if (whole && (found >= matching || memcmp(&groups[i], &members[found++], sizeof *members) != 0)) wrong(__LINE__);
    }
    if (count <= room && found != matching) wrong(__LINE__);
    return answer;
}

static int32_t any_question(fancy_regex *regex) {
    char text[64];
    size_t place = fancy_regex_fault_place(regex), room = below(sizeof text + 1);
    if (place != FANCY_REGEX_UNSET && place > 4 * LONGEST) wrong(__LINE__);
    marked(text, sizeof text);
    size_t length = fancy_regex_fault_text(regex, text, room);
    if (place != FANCY_REGEX_UNSET && length == 0) wrong(__LINE__);
    want_marks(text, length < room ? length : room, sizeof text);
    fancy_regex_group_name(regex, below(6), text, below(sizeof text + 1));
    return fancy_regex_groups(regex) > 0 ? FANCY_REGEX_DONE : FANCY_REGEX_NO_MATCH;
}

/* The names of all groups are those that are asked for one by one. */
static int32_t any_names(fancy_regex *regex) {
    char lines[256], name[64];
    size_t room = below(8) == 0 ? below(sizeof lines) : sizeof lines, whole = 77, at = 0, groups = fancy_regex_groups(regex);
    marked(lines, sizeof lines);
    int32_t answer = fancy_regex_group_names(regex, lines, room, &whole);
    if (answer != FANCY_REGEX_DONE && whole != 0) wrong(__LINE__);
    want_marks(lines, whole < room ? whole : room, sizeof lines);
    if (answer != FANCY_REGEX_DONE || whole > room) return answer;
    for (size_t group = 0; group < groups; group++) {
        size_t length = fancy_regex_group_name(regex, group, name, sizeof name);
        if (at + length + 1 > whole || memcmp(lines + at, name, length) != 0 || lines[at + length] != '\n') wrong(__LINE__);
        at += length + 1;
    }
    if (at != whole) wrong(__LINE__);
    return answer;
}

static const char *const template_pieces[] = {"$1", "${n}", "$$", "-", "$", "${", "\xc3\xa9", "$0", "\\g<n>", "\\1", "\\"};

static int32_t any_check(fancy_regex *regex) {
    char with[LONGEST];
    size_t length = any_text(with, template_pieces, sizeof template_pieces / sizeof *template_pieces);
    return fancy_regex_template_check(regex, below(32) == 0 ? NULL : with, length, below(2) == 0);
}

/* The pattern of a text matches just the text. */
static int32_t any_escape(fancy_regex *regex) {
    static const char *const pieces[] = {"a", ".", "\\", "(", "\xc3\xa9", "\n", "#", " ", "*", "{"};
    char text[LONGEST], pattern[2 * LONGEST];
    size_t length = any_text(text, pieces, sizeof pieces / sizeof *pieces), whole = 77;
    size_t room = below(8) == 0 ? below(sizeof pattern) : sizeof pattern;
    marked(pattern, sizeof pattern);
    int32_t answer = fancy_regex_escape(below(32) == 0 ? NULL : text, length, pattern, room, &whole);
    if (answer != FANCY_REGEX_DONE && whole != 0) wrong(__LINE__);
    want_marks(pattern, whole < room ? whole : room, sizeof pattern);
    if (answer != FANCY_REGEX_DONE || whole > room || regex == NULL) return answer;
    fancy_regex_span span;
    int32_t built = fancy_regex_build(regex, pattern, whole, NULL);
    if (built == FANCY_REGEX_MEMORY) return answer;
    if (built != FANCY_REGEX_DONE || fancy_regex_find(regex, text, length, 0, &span) != FANCY_REGEX_DONE) wrong(__LINE__);
    if (span.start != 0 || span.end != length) wrong(__LINE__);
    return answer;
}

/* The bytes of a pattern that is built: each match starts at a marked one, and its text has each required one. */
static int32_t any_bytes(fancy_regex *regex) {
    char pattern[LONGEST], text[LONGEST];
    bool starts[256], required[256];
    fancy_regex fault = FANCY_REGEX_EMPTY;
    fancy_regex_options options = any_options();
    fancy_regex_span span;
    size_t length = any_pattern(pattern), searched = any_haystack(text);
    marked(starts, sizeof starts);
    int32_t known = fancy_regex_start_bytes(below(64) == 0 ? NULL : &fault, below(32) == 0 ? NULL : pattern, length, &options, starts);
    if (known != FANCY_REGEX_DONE) want_marks(starts, 0, sizeof starts);
    if (known < 0 && known != FANCY_REGEX_NULL_POINTER && fancy_regex_fault_text(&fault, NULL, 0) == 0) wrong(__LINE__);
    int32_t asked = fancy_regex_required_bytes(&fault, pattern, length, &options, required);
    if (asked == FANCY_REGEX_NO_MATCH) wrong(__LINE__);
    fancy_regex_free(&fault);
    if (asked != FANCY_REGEX_DONE || fancy_regex_build(regex, pattern, length, &options) != FANCY_REGEX_DONE) return known;
    if (fancy_regex_find(regex, text, searched, 0, &span) != FANCY_REGEX_DONE) return known;
    if (known == FANCY_REGEX_DONE && !starts[(unsigned char)text[span.start]]) wrong(__LINE__);
    for (int byte = 0; byte < 256; byte++)
        if (required[byte] && memchr(text, byte, searched) == NULL) wrong(__LINE__);
    return known;
}

static int32_t any_build(fancy_regex *regex) {
    char pattern[LONGEST];
    size_t length = any_pattern(pattern);
    fancy_regex_options options = any_options();
    if (below(64) == 0) return fancy_regex_build(regex, NULL, length, &options);
    return fancy_regex_build(regex, pattern, length, below(4) == 0 ? NULL : &options);
}

/* A kind of call, and how often it is drawn. */
struct kind {
    const char *name;
    int32_t (*call)(fancy_regex *);
    unsigned share;
};

static int32_t any_free(fancy_regex *regex) {
    fancy_regex_free(regex);
    return FANCY_REGEX_DONE;
}

static const struct kind kinds[] = {
    {"build", any_build, 5}, {"search", any_search, 8}, {"row", any_row, 4}, {"find_all", any_list, 3}, {"split", any_split, 2},
    {"replace_all", any_replacement, 3}, {"set_build", any_set, 3}, {"set_find", any_set_search, 4}, {"set_groups", any_set_groups, 2}, {"questions", any_question, 2},
    {"names", any_names, 1}, {"check", any_check, 1}, {"escape", any_escape, 1}, {"bytes", any_bytes, 2}, {"free", any_free, 1},
};

#define KINDS (sizeof kinds / sizeof *kinds)
#define ENDS 15

static size_t any_kind(void) {
    uint64_t drawn = below(42);
    size_t kind = 0;
    while (drawn >= kinds[kind].share) drawn -= kinds[kind++].share;
    return kind;
}

static void print_ends(uint64_t ends[KINDS][ENDS]) {
    printf("%-12s", "answer");
    for (size_t kind = 0; kind < KINDS; kind++) printf("%12s", kinds[kind].name);
    for (int end = 0; end < ENDS; end++) {
        printf("\n%-12d", 1 - end);
        for (size_t kind = 0; kind < KINDS; kind++) printf("%12" PRIu64, ends[kind][end]);
    }
    printf("\n");
}

int main(int count, char **arguments) {
    uint64_t calls = count > 1 ? strtoull(arguments[1], NULL, 10) : 100000;
    if (count > 2) state = strtoull(arguments[2], NULL, 10) | 1;
    fancy_regex handles[HANDLES] = {FANCY_REGEX_EMPTY, FANCY_REGEX_EMPTY, FANCY_REGEX_EMPTY, FANCY_REGEX_EMPTY};
    static uint64_t ends[KINDS][ENDS];
    size_t again = KINDS, at = 0;
    for (uint64_t i = 0; i < calls; i++) {
        size_t kind = again < KINDS ? again : any_kind();
        if (again == KINDS) at = below(HANDLES);
        fancy_regex *regex = below(64) == 0 ? NULL : &handles[at];
        int32_t answer = kinds[kind].call(regex);
        ends[kind][1 - answer]++;
        /* (most patterns are refused: a build that fails is mostly tried again, so that searches have something to search for) */
        bool builds = kinds[kind].call == any_build || kinds[kind].call == any_set;
        again = builds && answer != FANCY_REGEX_DONE && below(8) != 0 ? kind : KINDS;
    }
    for (size_t i = 0; i < HANDLES; i++) fancy_regex_free(&handles[i]);
    print_ends(ends);
    return 0;
}
