/* oniguruma PATTERN: writes the span of each match in the text on standard input as START..END, a line for each. Characters,
   classes and cases are those of Unicode. Status: 0, or 2 where the pattern or a search fails.
   oniguruma: writes the version. */
#include <limits.h>
#include <oniguruma.h>
#include <stdio.h>
#include <string.h>

#include "text.h"

static int fail(const char *what, int code) {
    UChar message[ONIG_MAX_ERROR_MESSAGE_LEN];
    onig_error_code_to_str(message, code);
    fprintf(stderr, "oniguruma: %s: %s\n", what, message);
    return 2;
}

/* Writes the spans of all matches. Returns 0, or the error of a search. */
static int write_spans(regex_t *regex, OnigRegion *region, struct text text) {
    const UChar *bytes = (const UChar *)text.bytes;
    const UChar *end = bytes + text.length;
    size_t at = 0;
    while (at <= text.length) {
        int found = onig_search(regex, bytes, end, bytes + at, end, region, ONIG_OPTION_NONE);
        if (found < 0)
            return found == ONIG_MISMATCH ? 0 : found;
        size_t from = region->beg[0], to = region->end[0];
        write_span(from, to);
        at = to > from ? to : next_character(text, to);
    }
    return 0;
}

int main(int count, char **words) {
    if (count == 1) {
        puts(onig_version());
        return 0;
    }
    if (count != 2)
        return 2;
    OnigEncoding encodings[] = {ONIG_ENCODING_UTF8};
    onig_initialize(encodings, 1);
    onig_set_retry_limit_in_match(ULONG_MAX);
    onig_set_retry_limit_in_search(ULONG_MAX);
    onig_set_subexp_call_max_nest_level(INT_MAX);
    const UChar *pattern = (const UChar *)words[1];
    regex_t *regex;
    OnigErrorInfo info;
    int error = onig_new(&regex, pattern, pattern + strlen(words[1]), ONIG_OPTION_CAPTURE_GROUP, ONIG_ENCODING_UTF8,
                         ONIG_SYNTAX_ONIGURUMA, &info);
    if (error != ONIG_NORMAL)
        return fail("pattern", error);
    struct text text = read_text();
    if (!onigenc_is_valid_mbc_string(ONIG_ENCODING_UTF8, (const UChar *)text.bytes, (const UChar *)text.bytes + text.length)) {
        fprintf(stderr, "oniguruma: input is not UTF-8\n");
        return 2;
    }
    error = write_spans(regex, onig_region_new(), text);
    fflush(stdout);
    return error == 0 ? 0 : fail("search", error);
}
