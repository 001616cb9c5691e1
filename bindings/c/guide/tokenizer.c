/* Takes a line of source apart into tokens, by one set of patterns. */
#include "fancy_regex.h"

#include <stdio.h>
#include <string.h>

static const char *const kinds[] = {"blank", "keyword", "number", "name", "operator", "unknown"};
/* A pattern for each kind. Where several match, the first counts. */
static const char *const patterns[] = {"\\s+", "(?:if|else)\\b", "\\d+(?!\\w)", "[a-z_]\\w*", "[-+*/=<>]=?", "(?s)."};

int main(void) {
    const char *text = "if width >= 80 12em";
    fancy_regex set = FANCY_REGEX_EMPTY;
    fancy_regex_member first;
    char joined[128] = "";
    size_t ends[6], count, place = 0;
    for (size_t i = 0; i < 6; i++) ends[i] = strlen(strcat(joined, patterns[i]));
    int32_t answer = fancy_regex_set_build(&set, joined, ends, 6, NULL);
    while (answer == FANCY_REGEX_DONE) {
        answer = fancy_regex_set_find(&set, text, strlen(text), place, &first, 1, &count);
        if (answer != FANCY_REGEX_DONE || count == 0) break;
        if (first.pattern != 0) printf("%s at %zu..%zu\n", kinds[first.pattern], first.start, first.end);
        place = first.end;
    }
    fancy_regex_free(&set);
    return answer == FANCY_REGEX_DONE ? 0 : 1;
}
