/* fancy_regex: regular expressions with look-around, back references and more.
 *
 * A regex, or a set of patterns, is owned by a handle, `fancy_regex`, which the caller keeps as a value and passes by its address:
 *
 *     fancy_regex regex = FANCY_REGEX_EMPTY;
 *     if (fancy_regex_build(&regex, "(\\d+)-(\\d+)", 11, NULL) == FANCY_REGEX_DONE) { ... }
 *     fancy_regex_free(&regex);
 *
 * Patterns and texts have lengths: no zero byte ends them, and one within them is a character as others. All offsets are in bytes.
 *
 * What the caller owes, since no callee can see it in C:
 *
 * - A pointer that is not null leads to what its type says, for as long as the call runs, and nothing else writes it then. A
 *   text and its length name bytes that are all there. What a call writes into overlaps nothing else that it is given.
 * - A handle is FANCY_REGEX_EMPTY or what these functions made of it. Its two fields are never written by hand, and a handle is
 *   not copied and then used twice, as a `FILE` is not.
 * - No two calls on one handle overlap, not even two searches. A handle may move to another thread between calls, if a lock or
 *   the start or end of a thread puts the calls in order, and the program's heap serves every thread. Calls on different handles share nothing and may overlap.
 * - The fields of type bool are true or false. A text is UTF-8 where the field `is_utf8` of a query says so, and the text of a
 *   walk stays as it is from the first call to the last.
 * - The program's malloc, realloc and free are one allocator, which aligns a block to each power of two up to 16 that divides its
 *   size. None of these functions is called in a signal handler, or in the forked child of a process with threads.
 * - A thread that builds has room on its stack: reading the deepest pattern took less than 224 KB. That is measured, not proved.
 * - The functions fancy_regex_raw_* are called through the others alone: they test neither pointers nor lengths.
 *
 * All else is tested, and answered by an error code: a null pointer, an empty handle, a handle with no regex or no set, a length
 * that no object can have, a text that is not UTF-8, and a place past the end of the text or inside a character. Where more than one
 * thing is wrong, the code is that of one of them. After each error but those of building, the handle holds the regex or the set
 * that it held before. FANCY_REGEX_MEMORY may be the answer of each call that returns a code.
 *
 * A handle keeps the memory of its last search for one match or its groups, and gives it to the next one, which then allocates little or
 * nothing; after a search that went through more than 65,536 bytes it is given back. No answer depends on it.
 */
#ifndef FANCY_REGEX_H
#define FANCY_REGEX_H

#include <stdbool.h>
#include <stddef.h>
#include <stdint.h>

#ifdef __cplusplus
extern "C" {
#endif

/* How a call ended. */
enum {
    FANCY_REGEX_NO_MATCH = 0,      /* there is no match */
    FANCY_REGEX_DONE = 1,          /* there is a match, or the call did what was asked */
    FANCY_REGEX_EMPTY_HANDLE = -1, /* the handle is empty */
    FANCY_REGEX_NO_REGEX = -2,     /* the handle holds no regex: a set, or a fault of building */
    FANCY_REGEX_NOT_UTF8 = -3,     /* the pattern, the text or what replaces a match is not UTF-8 */
    FANCY_REGEX_PAST_END = -4,     /* the place is past the end of the text */
    FANCY_REGEX_OFF_BOUNDARY = -5, /* the place is inside a character */
    FANCY_REGEX_NO_PATTERN = -6,   /* the text is no pattern: see fancy_regex_fault_place */
    FANCY_REGEX_REFUSED = -7,      /* the pattern cannot be compiled: see fancy_regex_fault_text */
    FANCY_REGEX_LIMIT = -8,        /* a search went back more often than backtrack_limit, or held more than 1,000,000 branches open */
    FANCY_REGEX_MEMORY = -9,       /* memory ran out */
    FANCY_REGEX_NULL_POINTER = -10, /* a pointer is null where a value is needed, or a walk has no room for a span */
    FANCY_REGEX_TOO_LONG = -11,    /* a length of more than PTRDIFF_MAX bytes, which no object can have */
    FANCY_REGEX_NO_SET = -12,      /* the handle holds no set: a regex, or a fault of building */
    FANCY_REGEX_WRONG_ENDS = -13   /* the ends of the patterns of a set fall */
};

/* An offset that is not there: that of a group that took no part in the match, or the place of a fault that has none. */
#define FANCY_REGEX_UNSET ((size_t)-1)

/* A handle. Its fields are the library's own. */
typedef struct fancy_regex {
    void *at;
    bool live;
} fancy_regex;

/* A handle that holds nothing. */
#define FANCY_REGEX_EMPTY {NULL, false}

/* From the byte offset `start` to the byte offset `end`, exclusive; both are FANCY_REGEX_UNSET where nothing matched. */
typedef struct fancy_regex_span {
    size_t start;
    size_t end;
} fancy_regex_span;

/* A member of a set that matches: its number from 0, and the span of its match, or that of a group of its match, which is
 * FANCY_REGEX_UNSET twice where the group took no part. */
typedef struct fancy_regex_member {
    size_t pattern;
    size_t start;
    size_t end;
} fancy_regex_member;

/* How a pattern is built. Begin with FANCY_REGEX_OPTIONS, and change what differs. */
typedef struct fancy_regex_options {
    size_t backtrack_limit;      /* how often one search by a backtracking program may go back: 1,000,000 */
    size_t max_prog_size;        /* the most instructions of a backtracking program, if has_max_prog_size; calls count as what they write */
    bool has_max_prog_size;      /* whether max_prog_size is a cap: false */
    bool case_insensitive;       /* upper and lower case are the same, as after (?i) */
    bool multi_line;             /* ^ and $ match at each line, as after (?m) */
    bool ignore_whitespace;      /* blanks and comments in the pattern are skipped, as after (?x) */
    bool dot_matches_new_line;   /* . matches a newline too, as after (?s) */
    bool crlf;                   /* a carriage return with a newline ends a line, as after (?R) */
    bool unicode_mode;           /* classes and cases are those of Unicode, not of ASCII: true */
    bool find_not_empty;         /* no empty match is found */
    bool ignore_numbered_groups; /* unnamed groups do not capture if the pattern has a named one */
    bool seek;                   /* a backtracking program skips places at which no match can start; the matches are the same */
    bool oniguruma_mode;         /* a dialect close to Oniguruma's: \< \>, reversed counts, repeated quantifiers are read as it does */
    bool leftmost_longest;       /* the longest match at each place is found, not the first */
} fancy_regex_options;

#define FANCY_REGEX_OPTIONS \
    {1000000, 0, false, false, false, false, false, false, true, false, false, false, false, false}

/* How a text is searched. */
typedef struct fancy_regex_query {
    size_t position; /* the byte offset at which the search begins */
    bool is_utf8;    /* whether the text is known to be UTF-8: it is not tested then, and the behaviour is undefined where it is not */
    bool continues;  /* whether \G matches at `position`: true but where a walk over all matches steps over an empty one */
} fancy_regex_query;

/* The library's own functions, which the functions below call once they have tested the pointers and lengths. Call those. */
int32_t fancy_regex_raw_build(fancy_regex *regex, const uint8_t *pattern, size_t length, const fancy_regex_options *options);
void fancy_regex_raw_free(fancy_regex *regex);
int32_t fancy_regex_raw_is_match(fancy_regex *regex, const uint8_t *text, size_t length, const fancy_regex_query *query);
int32_t fancy_regex_raw_find(fancy_regex *regex, const uint8_t *text, size_t length, const fancy_regex_query *query, fancy_regex_span *span);
int32_t fancy_regex_raw_find_counted(fancy_regex *regex, const uint8_t *text, size_t length, const fancy_regex_query *query, fancy_regex_span *span, uint64_t *looks);
int32_t fancy_regex_raw_find_row(fancy_regex *regex, const uint8_t *text, size_t length, const fancy_regex_query *query, fancy_regex_span *spans, size_t room, size_t *count);
int32_t fancy_regex_raw_captures(fancy_regex *regex, const uint8_t *text, size_t length, const fancy_regex_query *query, fancy_regex_span *spans, size_t room);
int32_t fancy_regex_raw_find_all(fancy_regex *regex, const uint8_t *text, size_t length, bool is_utf8, fancy_regex_span *spans, size_t room, size_t *count);
int32_t fancy_regex_raw_split(fancy_regex *regex, const uint8_t *text, size_t length, bool is_utf8, fancy_regex_span *pieces, size_t room, size_t *count);
int32_t fancy_regex_raw_replace_all(fancy_regex *regex, const uint8_t *text, size_t length, bool is_utf8, const uint8_t *with, size_t with_length, uint8_t *out, size_t room, size_t *out_length);
int32_t fancy_regex_raw_set_build(fancy_regex *set, const uint8_t *patterns, size_t length, const size_t *ends, size_t count, const fancy_regex_options *options);
int32_t fancy_regex_raw_set_build_mixed(fancy_regex *set, const uint8_t *patterns, size_t length, const size_t *ends, size_t count, const fancy_regex_options *options, size_t options_count);
int32_t fancy_regex_raw_set_find(fancy_regex *set, const uint8_t *text, size_t length, const fancy_regex_query *query, fancy_regex_member *members, size_t room, size_t *count);
int32_t fancy_regex_raw_set_captures(fancy_regex *set, const uint8_t *text, size_t length, const fancy_regex_query *query, fancy_regex_member *groups, size_t room, size_t *count);
int32_t fancy_regex_raw_start_bytes(fancy_regex *fault, const uint8_t *pattern, size_t length, const fancy_regex_options *options, bool *table, size_t room);
int32_t fancy_regex_raw_required_bytes(fancy_regex *fault, const uint8_t *pattern, size_t length, const fancy_regex_options *options, bool *table, size_t room);
int32_t fancy_regex_raw_template_check(fancy_regex *regex, const uint8_t *with, size_t length, bool is_python);
int32_t fancy_regex_raw_escape(const uint8_t *text, size_t length, uint8_t *out, size_t room, size_t *out_length);
int32_t fancy_regex_raw_group_names(fancy_regex *regex, uint8_t *out, size_t room, size_t *out_length);
size_t fancy_regex_raw_groups(fancy_regex *regex);
size_t fancy_regex_raw_group_name(fancy_regex *regex, size_t group, uint8_t *out, size_t room);
size_t fancy_regex_raw_fault_place(fancy_regex *regex);
size_t fancy_regex_raw_fault_text(fancy_regex *regex, uint8_t *out, size_t room);

/* Whether there may be an object of `count` items of `size` bytes there; with no items the pointer may be null. */
static inline int32_t fancy_regex_test(const void *at, size_t count, size_t size) {
    if (at == NULL && count != 0) return FANCY_REGEX_NULL_POINTER;
    return count > (size_t)PTRDIFF_MAX / size ? FANCY_REGEX_TOO_LONG : FANCY_REGEX_DONE;
}

/* The bytes, or, of no bytes, an address that is not null. */
static inline const uint8_t *fancy_regex_bytes(const void *at) {
    return at != NULL ? (const uint8_t *)at : (const uint8_t *)"";
}

/* The options, or the default ones for null. */
static inline const fancy_regex_options *fancy_regex_options_or_default(const fancy_regex_options *options) {
    static const fancy_regex_options defaults = FANCY_REGEX_OPTIONS;
    return options != NULL ? options : &defaults;
}

/* Builds a regex from the `length` bytes of `pattern` into the handle, which is emptied first. `options` may be null: the
 * default ones. With FANCY_REGEX_NOT_UTF8, NO_PATTERN and REFUSED the handle holds the fault, for fancy_regex_fault_text, with MEMORY
 * it may; it has to be freed all the same. With NULL_POINTER and TOO_LONG the handle stays as it was. */
static inline int32_t fancy_regex_build(fancy_regex *regex, const char *pattern, size_t length, const fancy_regex_options *options) {
    int32_t tested = fancy_regex_test(pattern, length, 1);
    if (regex == NULL) return FANCY_REGEX_NULL_POINTER;
    if (tested != FANCY_REGEX_DONE) return tested;
    return fancy_regex_raw_build(regex, fancy_regex_bytes(pattern), length, fancy_regex_options_or_default(options));
}

/* Frees what the handle holds. It is empty afterwards, and may be built again. Null, and an empty handle, are let be. */
static inline void fancy_regex_free(fancy_regex *regex) {
    if (regex != NULL) fancy_regex_raw_free(regex);
}

/* The search that the query describes; the answers are those of fancy_regex_find. */
static inline int32_t fancy_regex_find_by(fancy_regex *regex, const char *text, size_t length, const fancy_regex_query *query, fancy_regex_span *span) {
    fancy_regex_span ignored = {FANCY_REGEX_UNSET, FANCY_REGEX_UNSET};
    int32_t tested = fancy_regex_test(text, length, 1);
    if (span != NULL) *span = ignored;
    if (regex == NULL || query == NULL) return FANCY_REGEX_NULL_POINTER;
    if (tested != FANCY_REGEX_DONE) return tested;
    return fancy_regex_raw_find(regex, fancy_regex_bytes(text), length, query, span != NULL ? span : &ignored);
}

/* A row of matches: the first match of the search that the query describes, and those of searches that begin where the match before them
 * ended, and else are as the query says. Writes their spans into `spans`, as many as its `room`, which is 1 or more, has place for, and how
 * many there are into `count`. An empty match is the last one of its row, and a row may end before the matches do. The answers are those
 * of fancy_regex_find for the first match; without one the count is 0. Null `spans` and no room are FANCY_REGEX_NULL_POINTER. */
static inline int32_t fancy_regex_find_row(fancy_regex *regex, const char *text, size_t length, const fancy_regex_query *query, fancy_regex_span *spans, size_t room, size_t *count) {
    int32_t tested = fancy_regex_test(text, length, 1);
    int32_t roomy = fancy_regex_test(spans, room, sizeof(fancy_regex_span));
    if (count != NULL) *count = 0;
    if (regex == NULL || query == NULL || count == NULL || spans == NULL || room == 0) return FANCY_REGEX_NULL_POINTER;
    if (tested != FANCY_REGEX_DONE) return tested;
    if (roomy != FANCY_REGEX_DONE) return roomy;
    return fancy_regex_raw_find_row(regex, fancy_regex_bytes(text), length, query, spans, room, count);
}

/* Whether the search that the query describes has a match; the answers are those of fancy_regex_is_match. */
static inline int32_t fancy_regex_is_match_by(fancy_regex *regex, const char *text, size_t length, const fancy_regex_query *query) {
    int32_t tested = fancy_regex_test(text, length, 1);
    if (regex == NULL || query == NULL) return FANCY_REGEX_NULL_POINTER;
    if (tested != FANCY_REGEX_DONE) return tested;
    return fancy_regex_raw_is_match(regex, fancy_regex_bytes(text), length, query);
}

/* As fancy_regex_find_by, and writes into `looks`, which must not be null, a count of the looks at the text that the linear engine
 * makes: 0 where nothing is searched and for a pattern that is not plain, which has look-around, a reference or another fancy part, or
 * is built with find_not_empty; for a plain pattern at most W * (N + 1), where N is the number of bytes from the place of the search to
 * the end of the text, 0 past the end, and W is a number that the pattern and its options give; and, where the search answers, at least
 * one for each place at which it tries to begin a match. */
static inline int32_t fancy_regex_find_counted(fancy_regex *regex, const char *text, size_t length, const fancy_regex_query *query, fancy_regex_span *span, uint64_t *looks) {
    fancy_regex_span ignored = {FANCY_REGEX_UNSET, FANCY_REGEX_UNSET};
    int32_t tested = fancy_regex_test(text, length, 1);
    if (span != NULL) *span = ignored;
    if (looks != NULL) *looks = 0;
    if (regex == NULL || query == NULL || looks == NULL) return FANCY_REGEX_NULL_POINTER;
    if (tested != FANCY_REGEX_DONE) return tested;
    return fancy_regex_raw_find_counted(regex, fancy_regex_bytes(text), length, query, span != NULL ? span : &ignored, looks);
}

/* The search that the query describes; the answers are those of fancy_regex_captures. */
static inline int32_t fancy_regex_captures_by(fancy_regex *regex, const char *text, size_t length, const fancy_regex_query *query, fancy_regex_span *spans, size_t room) {
    fancy_regex_span none = {FANCY_REGEX_UNSET, FANCY_REGEX_UNSET};
    int32_t tested = fancy_regex_test(text, length, 1);
    int32_t roomy = fancy_regex_test(spans, room, sizeof(fancy_regex_span));
    if (regex == NULL || query == NULL) return FANCY_REGEX_NULL_POINTER;
    if (tested != FANCY_REGEX_DONE) return tested;
    if (roomy != FANCY_REGEX_DONE) return roomy;
    return fancy_regex_raw_captures(regex, fancy_regex_bytes(text), length, query, spans != NULL ? spans : &none, room);
}

/* Searches the `length` bytes of `text` for the first match that starts at the byte offset `position` or later; \G matches at
 * `position`. Answers FANCY_REGEX_DONE and its span, or FANCY_REGEX_NO_MATCH, or a fault; the span is unset then. `span` may be
 * null where only the answer is of interest. The faults are NULL_POINTER, TOO_LONG, EMPTY_HANDLE, NO_REGEX, NOT_UTF8, PAST_END,
 * OFF_BOUNDARY, LIMIT and MEMORY. Each call tests that the whole text is UTF-8: whoever searches one long text often says so by
 * fancy_regex_find_by, or walks over it by fancy_regex_next. */
static inline int32_t fancy_regex_find(fancy_regex *regex, const char *text, size_t length, size_t position, fancy_regex_span *span) {
    fancy_regex_query query = {position, false, true};
    return fancy_regex_find_by(regex, text, length, &query, span);
}

/* Answers FANCY_REGEX_DONE where fancy_regex_find finds a match, FANCY_REGEX_NO_MATCH where it finds none, or a fault, one of those of
 * fancy_regex_find. It may read less of the text: for many patterns it stops at the first sign of a match. */
static inline int32_t fancy_regex_is_match(fancy_regex *regex, const char *text, size_t length, size_t position) {
    fancy_regex_query query = {position, false, true};
    return fancy_regex_is_match_by(regex, text, length, &query);
}

/* As fancy_regex_find, and writes the spans of the groups into `spans`, which has `room` of them: group 0, the whole match,
 * first. Where there are more spans than groups, the others are unset. Without a match `spans` stays as it is. With no room `spans`
 * may be null. */
static inline int32_t fancy_regex_captures(fancy_regex *regex, const char *text, size_t length, size_t position, fancy_regex_span *spans, size_t room) {
    fancy_regex_query query = {position, false, true};
    return fancy_regex_captures_by(regex, text, length, &query, spans, room);
}

/* Where a walk over all matches of one text stands. Begin with FANCY_REGEX_WALK. Its fields are the library's own. */
typedef struct fancy_regex_walk {
    size_t next;
    size_t last;
    bool known;
    bool stepped;
} fancy_regex_walk;

#define FANCY_REGEX_WALK {0, FANCY_REGEX_UNSET, false, false}

/* The byte offset a character after `place`. */
static inline size_t fancy_regex_step(const char *text, size_t length, size_t place) {
    place++;
    while (place < length && ((unsigned char)text[place] & 0xc0) == 0x80) place++;
    return place;
}

/* The next match of a walk from left to right, none overlapping another, with the answers of fancy_regex_captures; `room` is 1 or
 * more. Each call of a walk has the same text, which stays as it is from the first to the last. Whether the text is UTF-8 is tested
 * by the first call only. After FANCY_REGEX_NO_MATCH or a fault the walk is at its end, and what follows is NO_MATCH. A null `walk`,
 * null `spans` and no room are FANCY_REGEX_NULL_POINTER, and the walk stays where it is. */
static inline int32_t fancy_regex_next(fancy_regex *regex, const char *text, size_t length, fancy_regex_walk *walk, fancy_regex_span *spans, size_t room) {
    if (walk == NULL || spans == NULL || room == 0) return FANCY_REGEX_NULL_POINTER;
    while (walk->next <= length && walk->next != FANCY_REGEX_UNSET) {
        fancy_regex_query query = {walk->next, walk->known, !walk->stepped};
        int32_t answer = fancy_regex_captures_by(regex, text, length, &query, spans, room);
        if (answer != FANCY_REGEX_DONE) {
            walk->next = FANCY_REGEX_UNSET;
            return answer;
        }
        bool empty = spans[0].start >= spans[0].end, again = empty && spans[0].end == walk->last;
        walk->known = true;
        walk->stepped = empty && spans[0].end == walk->next;
        walk->next = empty ? fancy_regex_step(text, length, spans[0].end) : spans[0].end;
        if (again) continue;
        walk->last = spans[0].end;
        return FANCY_REGEX_DONE;
    }
    return FANCY_REGEX_NO_MATCH;
}

/* Writes the spans of all matches of the text, from left to right and none overlapping another, into the `room` spans of `spans`, as
 * many as there is room for, and how many there are into `count`. The answer is FANCY_REGEX_DONE, also where there is no match, or a
 * fault; the count is 0 then and no span is written. With no room `spans` may be null: the matches are counted. The faults are those
 * of fancy_regex_find but PAST_END and OFF_BOUNDARY. */
static inline int32_t fancy_regex_find_all(fancy_regex *regex, const char *text, size_t length, fancy_regex_span *spans, size_t room, size_t *count) {
    fancy_regex_span none = {FANCY_REGEX_UNSET, FANCY_REGEX_UNSET};
    int32_t tested = fancy_regex_test(text, length, 1);
    int32_t roomy = fancy_regex_test(spans, room, sizeof(fancy_regex_span));
    if (count != NULL) *count = 0;
    if (regex == NULL || count == NULL) return FANCY_REGEX_NULL_POINTER;
    if (tested != FANCY_REGEX_DONE) return tested;
    if (roomy != FANCY_REGEX_DONE) return roomy;
    return fancy_regex_raw_find_all(regex, fancy_regex_bytes(text), length, false, spans != NULL ? spans : &none, room, count);
}

/* As fancy_regex_find_all, with the spans of the pieces between the matches, and last that of the rest: one more than there are
 * matches. */
static inline int32_t fancy_regex_split(fancy_regex *regex, const char *text, size_t length, fancy_regex_span *pieces, size_t room, size_t *count) {
    fancy_regex_span none = {FANCY_REGEX_UNSET, FANCY_REGEX_UNSET};
    int32_t tested = fancy_regex_test(text, length, 1);
    int32_t roomy = fancy_regex_test(pieces, room, sizeof(fancy_regex_span));
    if (count != NULL) *count = 0;
    if (regex == NULL || count == NULL) return FANCY_REGEX_NULL_POINTER;
    if (tested != FANCY_REGEX_DONE) return tested;
    if (roomy != FANCY_REGEX_DONE) return roomy;
    return fancy_regex_raw_split(regex, fancy_regex_bytes(text), length, false, pieces != NULL ? pieces : &none, room, count);
}

/* Writes the text with each match replaced by what the `with_length` bytes of `with` stand for there into the `room` bytes of `out`,
 * cut off where there is too little room, and with no zero byte after it; and its whole length into `out_length`. In `with`, $1,
 * ${1}, $name and ${name} stand for the text of a group, and $$ for a $; a name is as long as it can be, a group that is not there or
 * took no part has no text, and another $ stands for itself. The answers are those of fancy_regex_find_all, and FANCY_REGEX_NOT_UTF8
 * is of the text or of `with`. With no room `out` may be null: the length is told. A text that is cut off may end inside a
 * character. */
static inline int32_t fancy_regex_replace_all(fancy_regex *regex, const char *text, size_t length, const char *with, size_t with_length, char *out, size_t room, size_t *out_length) {
    uint8_t none = 0;
    int32_t tested = fancy_regex_test(text, length, 1);
    int32_t stood = fancy_regex_test(with, with_length, 1);
    int32_t roomy = fancy_regex_test(out, room, 1);
    if (out_length != NULL) *out_length = 0;
    if (regex == NULL || out_length == NULL) return FANCY_REGEX_NULL_POINTER;
    if (tested != FANCY_REGEX_DONE) return tested;
    if (stood != FANCY_REGEX_DONE) return stood;
    if (roomy != FANCY_REGEX_DONE) return roomy;
    return fancy_regex_raw_replace_all(regex, fancy_regex_bytes(text), length, false, fancy_regex_bytes(with), with_length, out != NULL ? (uint8_t *)out : &none, room, out_length);
}

/* Builds a set of `count` patterns into the handle, which is emptied first. The patterns stand one after another in `patterns`, and
 * `ends` are the byte offsets at which each of them ends: for "ab" and "c" they are "abc", 2 and 3. All have the same options; null
 * are the default ones. An end that is less than the one before it is FANCY_REGEX_WRONG_ENDS, and a pattern that is not UTF-8
 * FANCY_REGEX_NOT_UTF8; else the answers are those of fancy_regex_build, and the fault is that of the first pattern that is refused,
 * its place within that pattern. With WRONG_ENDS, NOT_UTF8, NO_PATTERN and REFUSED the handle holds the fault, for
 * fancy_regex_fault_text, with MEMORY it may; it has to be freed all the same. With NULL_POINTER and TOO_LONG it stays as it was. */
static inline int32_t fancy_regex_set_build(fancy_regex *set, const char *patterns, const size_t *ends, size_t count, const fancy_regex_options *options) {
    size_t none = 0;
    int32_t counted = fancy_regex_test(ends, count, sizeof(size_t));
    if (set == NULL) return FANCY_REGEX_NULL_POINTER;
    if (counted != FANCY_REGEX_DONE) return counted;
    size_t length = count != 0 ? ends[count - 1] : 0;
    int32_t tested = fancy_regex_test(patterns, length, 1);
    if (tested != FANCY_REGEX_DONE) return tested;
    return fancy_regex_raw_set_build(set, fancy_regex_bytes(patterns), length, ends != NULL ? ends : &none, count, fancy_regex_options_or_default(options));
}

/* As fancy_regex_set_build, where each pattern has its own options: `options` has `count` of them. A search of this set asks each member
 * at each place; one of patterns with the same options is faster. */
static inline int32_t fancy_regex_set_build_mixed(fancy_regex *set, const char *patterns, const size_t *ends, size_t count, const fancy_regex_options *options) {
    size_t none = 0;
    int32_t counted = fancy_regex_test(ends, count, sizeof(size_t));
    int32_t chosen = fancy_regex_test(options, count, sizeof(fancy_regex_options));
    if (set == NULL) return FANCY_REGEX_NULL_POINTER;
    if (counted != FANCY_REGEX_DONE) return counted;
    if (chosen != FANCY_REGEX_DONE) return chosen;
    size_t length = count != 0 ? ends[count - 1] : 0;
    int32_t tested = fancy_regex_test(patterns, length, 1);
    if (tested != FANCY_REGEX_DONE) return tested;
    return fancy_regex_raw_set_build_mixed(set, fancy_regex_bytes(patterns), length, ends != NULL ? ends : &none, count, fancy_regex_options_or_default(options), count);
}

/* The search that the query describes; the answers are those of fancy_regex_set_find. */
static inline int32_t fancy_regex_set_find_by(fancy_regex *set, const char *text, size_t length, const fancy_regex_query *query, fancy_regex_member *members, size_t room, size_t *count) {
    fancy_regex_member none = {0, 0, 0};
    int32_t tested = fancy_regex_test(text, length, 1);
    int32_t roomy = fancy_regex_test(members, room, sizeof(fancy_regex_member));
    if (count != NULL) *count = 0;
    if (set == NULL || query == NULL || count == NULL) return FANCY_REGEX_NULL_POINTER;
    if (tested != FANCY_REGEX_DONE) return tested;
    if (roomy != FANCY_REGEX_DONE) return roomy;
    return fancy_regex_raw_set_find(set, fancy_regex_bytes(text), length, query, members != NULL ? members : &none, room, count);
}

/* The search that the query describes; the answers are those of fancy_regex_set_captures. */
static inline int32_t fancy_regex_set_captures_by(fancy_regex *set, const char *text, size_t length, const fancy_regex_query *query, fancy_regex_member *groups, size_t room, size_t *count) {
    fancy_regex_member none = {0, 0, 0};
    int32_t tested = fancy_regex_test(text, length, 1);
    int32_t roomy = fancy_regex_test(groups, room, sizeof(fancy_regex_member));
    if (count != NULL) *count = 0;
    if (set == NULL || query == NULL || count == NULL) return FANCY_REGEX_NULL_POINTER;
    if (tested != FANCY_REGEX_DONE) return tested;
    if (roomy != FANCY_REGEX_DONE) return roomy;
    return fancy_regex_raw_set_captures(set, fancy_regex_bytes(text), length, query, groups != NULL ? groups : &none, room, count);
}

/* Writes the members of a set that match at the earliest place from `position` on at which one of them does, in order of their
 * numbers, into the `room` members of `members`, as many as there is room for, and how many there are into `count`; \G matches at
 * `position`. A match may start after that place, by \K. The answer is FANCY_REGEX_DONE, with a count of 0 where no member
 * matches, or a fault; the count is 0 then and no member is written. With no room `members` may be null. The faults are those of
 * fancy_regex_find, with NO_SET in the place of NO_REGEX; the search of each member that is asked may pass its limit. */
static inline int32_t fancy_regex_set_find(fancy_regex *set, const char *text, size_t length, size_t position, fancy_regex_member *members, size_t room, size_t *count) {
    fancy_regex_query query = {position, false, true};
    return fancy_regex_set_find_by(set, text, length, &query, members, room, count);
}

/* As fancy_regex_set_find, with the groups: `groups` is given, for each member that matches, all groups of its match in order of their
 * numbers, the first of them group 0, the whole match. So a member with a pattern of two groups fills three places, each with its number.
 * The count is that of all groups of all members that match. */
static inline int32_t fancy_regex_set_captures(fancy_regex *set, const char *text, size_t length, size_t position, fancy_regex_member *groups, size_t room, size_t *count) {
    fancy_regex_query query = {position, false, true};
    return fancy_regex_set_captures_by(set, text, length, &query, groups, room, count);
}

/* Marks in `table`, which has 256 places, the bytes that the matches of a regex start with that is built of this pattern with these
 * options: each match starts at a byte whose place is true. The answer is FANCY_REGEX_DONE; or FANCY_REGEX_NO_MATCH where a match may
 * be empty or the bytes are not known, and the table stays as it is; or a fault of building, and the table stays as it is. The pattern
 * is not built, and may be one that is refused. `options` may be null: the default ones. The handle `fault` is emptied first, and
 * holds the fault, if there is one, for fancy_regex_fault_text; with NULL_POINTER and TOO_LONG it stays as it was. */
static inline int32_t fancy_regex_start_bytes(fancy_regex *fault, const char *pattern, size_t length, const fancy_regex_options *options, bool table[256]) {
    int32_t tested = fancy_regex_test(pattern, length, 1);
    if (fault == NULL || table == NULL) return FANCY_REGEX_NULL_POINTER;
    if (tested != FANCY_REGEX_DONE) return tested;
    return fancy_regex_raw_start_bytes(fault, fancy_regex_bytes(pattern), length, fancy_regex_options_or_default(options), table, 256);
}

/* As fancy_regex_start_bytes, with bytes that each text has in which the pattern matches; of a part that may be left out none are
 * known. The answer is never FANCY_REGEX_NO_MATCH. */
static inline int32_t fancy_regex_required_bytes(fancy_regex *fault, const char *pattern, size_t length, const fancy_regex_options *options, bool table[256]) {
    int32_t tested = fancy_regex_test(pattern, length, 1);
    if (fault == NULL || table == NULL) return FANCY_REGEX_NULL_POINTER;
    if (tested != FANCY_REGEX_DONE) return tested;
    return fancy_regex_raw_required_bytes(fault, fancy_regex_bytes(pattern), length, fancy_regex_options_or_default(options), table, 256);
}

/* Whether each reference of the `length` bytes of `with` is to a group of the regex, and each $ begins something; with `is_python` the
 * references are \g<name>, \g<1> and \1, and the sign is \. The answer is FANCY_REGEX_DONE, or the first fault from the left:
 * FANCY_REGEX_REFUSED for a group that is not there, also for a number above 0 where groups have names, and FANCY_REGEX_NO_PATTERN for a
 * sign that begins nothing; or NULL_POINTER, TOO_LONG, EMPTY_HANDLE, NO_REGEX, NOT_UTF8 or MEMORY. */
static inline int32_t fancy_regex_template_check(fancy_regex *regex, const char *with, size_t length, bool is_python) {
    int32_t tested = fancy_regex_test(with, length, 1);
    if (regex == NULL) return FANCY_REGEX_NULL_POINTER;
    if (tested != FANCY_REGEX_DONE) return tested;
    return fancy_regex_raw_template_check(regex, fancy_regex_bytes(with), length, is_python);
}

/* Writes a pattern that matches exactly the text into the `room` bytes of `out`, cut off where there is too little room, and with no
 * zero byte after it; and the length of the whole pattern into `out_length`. The answer is FANCY_REGEX_DONE, or NULL_POINTER, TOO_LONG,
 * NOT_UTF8 or MEMORY; the length is 0 then. With no room `out` may be null: the length is told. No fault is kept. */
static inline int32_t fancy_regex_escape(const char *text, size_t length, char *out, size_t room, size_t *out_length) {
    uint8_t none = 0;
    int32_t tested = fancy_regex_test(text, length, 1);
    int32_t roomy = fancy_regex_test(out, room, 1);
    if (out_length == NULL) return FANCY_REGEX_NULL_POINTER;
    *out_length = 0;
    if (tested != FANCY_REGEX_DONE) return tested;
    if (roomy != FANCY_REGEX_DONE) return roomy;
    return fancy_regex_raw_escape(fancy_regex_bytes(text), length, out != NULL ? (uint8_t *)out : &none, room, out_length);
}

/* Writes the names of all groups of the regex, in UTF-8, a line for each group in order of their numbers, into the `room` bytes of `out`,
 * cut off where there is too little room; and the length of all lines into `out_length`. Each line ends in a newline; that of a group
 * without a name, as group 0, is empty. The answer is FANCY_REGEX_DONE, or NULL_POINTER, TOO_LONG, EMPTY_HANDLE, NO_REGEX or MEMORY; the
 * length is 0 then. With no room `out` may be null: the length is told. */
static inline int32_t fancy_regex_group_names(fancy_regex *regex, char *out, size_t room, size_t *out_length) {
    uint8_t none = 0;
    int32_t roomy = fancy_regex_test(out, room, 1);
    if (out_length != NULL) *out_length = 0;
    if (regex == NULL || out_length == NULL) return FANCY_REGEX_NULL_POINTER;
    if (roomy != FANCY_REGEX_DONE) return roomy;
    return fancy_regex_raw_group_names(regex, out != NULL ? (uint8_t *)out : &none, room, out_length);
}

/* The number of groups, the whole match included; 0 where the handle holds no regex. */
static inline size_t fancy_regex_groups(fancy_regex *regex) {
    return regex != NULL ? fancy_regex_raw_groups(regex) : 0;
}

/* Writes the name of the group with this number, in UTF-8, into the `room` bytes of `out`, cut off where there is too little room, and
 * with no zero byte after it. Returns the length of the whole name, 0 where the group has none or there is no such group or regex,
 * and where `out` is null but has room, or more room than an object can have. */
static inline size_t fancy_regex_group_name(fancy_regex *regex, size_t group, char *out, size_t room) {
    uint8_t none = 0;
    if (regex == NULL || fancy_regex_test(out, room, 1) != FANCY_REGEX_DONE) return 0;
    return fancy_regex_raw_group_name(regex, group, out != NULL ? (uint8_t *)out : &none, room);
}

/* The byte offset in the pattern at which its first error stands, if the fault that the handle keeps is FANCY_REGEX_NO_PATTERN; else
 * FANCY_REGEX_UNSET. */
static inline size_t fancy_regex_fault_place(fancy_regex *regex) {
    return regex != NULL ? fancy_regex_raw_fault_place(regex) : FANCY_REGEX_UNSET;
}

/* Writes the text of the fault that the handle keeps into the `room` bytes of `out`, cut off where there is too little room, and
 * with no zero byte after it. A handle keeps its last fault, of building or of a later call, until it is built again or freed;
 * EMPTY_HANDLE, NULL_POINTER and TOO_LONG are not kept. Returns the length of the whole text, 0 only where no fault is kept, and where
 * `out` is null but has room, or more room than an object can have. It takes no memory. */
static inline size_t fancy_regex_fault_text(fancy_regex *regex, char *out, size_t room) {
    uint8_t none = 0;
    if (regex == NULL || fancy_regex_test(out, room, 1) != FANCY_REGEX_DONE) return 0;
    return fancy_regex_raw_fault_text(regex, out != NULL ? (uint8_t *)out : &none, room);
}

#ifdef __cplusplus
}
#endif

#endif
