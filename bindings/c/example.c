/* Finds a pattern in a text: prints the span of each match, and of its groups.
 *
 *     example PATTERN TEXT
 */
#include "fancy_regex.h"

#include <stdio.h>
#include <stdlib.h>
#include <string.h>

static int tell_fault(fancy_regex *regex, int32_t answer) {
    char text[256];
    size_t length = fancy_regex_fault_text(regex, text, sizeof text);
    size_t place = fancy_regex_fault_place(regex);
    if (length == 0) fprintf(stderr, "example: the call ended with %d\n", (int)answer);
    else fprintf(stderr, "example: %.*s\n", (int)(length < sizeof text ? length : sizeof text), text);
    if (place != FANCY_REGEX_UNSET) fprintf(stderr, "example: the fault is at byte %zu of the pattern\n", place);
    fancy_regex_free(regex);
    return 2;
}

static void print_groups(const fancy_regex_span *spans, size_t groups) {
    for (size_t i = 0; i < groups; i++) {
        if (spans[i].start == FANCY_REGEX_UNSET) {
            printf(i == 0 ? "-" : " -");
        } else {
            printf(i == 0 ? "%zu..%zu" : " %zu..%zu", spans[i].start, spans[i].end);
        }
    }
    printf("\n");
}

int main(int count, char **arguments) {
    if (count != 3) {
        fprintf(stderr, "usage: example PATTERN TEXT\n");
        return 2;
    }
    const char *pattern = arguments[1], *text = arguments[2];
    fancy_regex regex = FANCY_REGEX_EMPTY;
    fancy_regex_walk walk = FANCY_REGEX_WALK;
    int32_t answer = fancy_regex_build(&regex, pattern, strlen(pattern), NULL);
    if (answer != FANCY_REGEX_DONE) return tell_fault(&regex, answer);

    size_t groups = fancy_regex_groups(&regex);
    fancy_regex_span *spans = malloc(groups * sizeof *spans);
    if (spans == NULL) answer = FANCY_REGEX_MEMORY;
    while (answer == FANCY_REGEX_DONE) {
        answer = fancy_regex_next(&regex, text, strlen(text), &walk, spans, groups);
        if (answer == FANCY_REGEX_DONE) print_groups(spans, groups);
    }
    free(spans);
    if (answer < 0) return tell_fault(&regex, answer);
    fancy_regex_free(&regex);
    return 0;
}
