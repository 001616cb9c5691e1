/* Options, faults of patterns, and a limit that a search passes. */
#include "fancy_regex.h"

#include <stdio.h>
#include <string.h>

static void search(const char *pattern, const char *text, const fancy_regex_options *options) {
    fancy_regex regex = FANCY_REGEX_EMPTY;
    fancy_regex_span span;
    char fault[128];
    int32_t answer = fancy_regex_build(&regex, pattern, strlen(pattern), options);
    if (answer == FANCY_REGEX_DONE) answer = fancy_regex_find(&regex, text, strlen(text), 0, &span);
    if (answer == FANCY_REGEX_DONE) {
        printf("%s: %zu..%zu\n", pattern, span.start, span.end);
    } else if (answer == FANCY_REGEX_NO_MATCH) {
        printf("%s: no match\n", pattern);
    } else {
        size_t length = fancy_regex_fault_text(&regex, fault, sizeof fault);
        printf("%s: %.*s\n", pattern, (int)(length < sizeof fault ? length : sizeof fault), fault);
    }
    fancy_regex_free(&regex);
}

int main(void) {
    fancy_regex_options options = FANCY_REGEX_OPTIONS;
    options.case_insensitive = true;
    options.backtrack_limit = 10000;
    search("straße", "STRAẞE", &options);
    search("a(b|c", "", &options);
    search("(?<=a+)b", "", &options);
    search("(a+)+\\1b", "aaaaaaaaaaaaaaaaaaaaaaaaaaaa", &options);
    return 0;
}
