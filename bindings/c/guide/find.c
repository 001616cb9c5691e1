#include "fancy_regex.h"
#include <stdio.h>
int main(void) {
    fancy_regex regex = FANCY_REGEX_EMPTY;
    fancy_regex_span span;
    if (fancy_regex_build(&regex, "\\w+(?=!)", 8, NULL) == FANCY_REGEX_DONE &&
        fancy_regex_find(&regex, "so fancy!", 9, 0, &span) == FANCY_REGEX_DONE)
        printf("%zu..%zu\n", span.start, span.end);
    fancy_regex_free(&regex);
}
