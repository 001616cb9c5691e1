/* pcre2 interpreter|jit PATTERN: writes the span of each match in the text on standard input as START..END, a line for each.
   Characters, classes and cases are those of Unicode. Status: 0, or 2 where the pattern or a search fails.
   pcre2: writes the version. */
#define PCRE2_CODE_UNIT_WIDTH 8
#include <pcre2.h>
#include <stdio.h>
#include <string.h>

#include "text.h"

static int fail(const char *what, int code) {
    PCRE2_UCHAR message[256];
    pcre2_get_error_message(code, message, sizeof message);
    fprintf(stderr, "pcre2: %s: %s\n", what, message);
    return 2;
}

/* Writes the spans of all matches. Returns 0, or the error of a search. */
static int write_spans(const pcre2_code *code, pcre2_match_data *data, pcre2_match_context *context, struct text text) {
    PCRE2_SIZE at = 0;
    PCRE2_SIZE *span = pcre2_get_ovector_pointer(data);
    while (at <= text.length) {
        /* the text was checked by the first search */
        uint32_t options = at == 0 ? 0 : PCRE2_NO_UTF_CHECK;
        int found = pcre2_match(code, (PCRE2_SPTR)text.bytes, text.length, at, options, data, context);
        if (found < 0)
            return found == PCRE2_ERROR_NOMATCH ? 0 : found;
        write_span(span[0], span[1]);
        at = span[1] > span[0] ? span[1] : next_character(text, span[1]);
    }
    return 0;
}

int main(int count, char **words) {
    if (count == 1) {
        char version[64];
        pcre2_config(PCRE2_CONFIG_VERSION, version);
        puts(version);
        return 0;
    }
    if (count != 3)
        return 2;
    int error;
    PCRE2_SIZE place;
    pcre2_code *code =
        pcre2_compile((PCRE2_SPTR)words[2], PCRE2_ZERO_TERMINATED, PCRE2_UTF | PCRE2_UCP, &error, &place, NULL);
    if (code == NULL)
        return fail("pattern", error);
    pcre2_match_context *context = pcre2_match_context_create(NULL);
    pcre2_set_match_limit(context, UINT32_MAX);
    if (strcmp(words[1], "jit") == 0) {
        error = pcre2_jit_compile(code, PCRE2_JIT_COMPLETE);
        if (error != 0)
            return fail("jit", error);
        pcre2_jit_stack_assign(context, NULL, pcre2_jit_stack_create(1 << 16, 1 << 26, NULL));
    }
    pcre2_match_data *data = pcre2_match_data_create_from_pattern(code, NULL);
    error = write_spans(code, data, context, read_text());
    fflush(stdout);
    return error == 0 ? 0 : fail("search", error);
}
