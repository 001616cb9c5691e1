/* All settings of a text, with the groups of each. */
#include "fancy_regex.h"

#include <stdio.h>
#include <string.h>

int main(void) {
    const char *pattern = "(\\w+)=(\\w+)?", *text = "width=80 height=24 title=";
    fancy_regex regex = FANCY_REGEX_EMPTY;
    fancy_regex_walk walk = FANCY_REGEX_WALK;
    fancy_regex_span groups[3];
    int32_t answer = fancy_regex_build(&regex, pattern, strlen(pattern), NULL);
    while (answer == FANCY_REGEX_DONE) {
        answer = fancy_regex_next(&regex, text, strlen(text), &walk, groups, 3);
        if (answer != FANCY_REGEX_DONE) break;
        printf("%zu..%zu: %.*s", groups[0].start, groups[0].end, (int)(groups[1].end - groups[1].start), text + groups[1].start);
        if (groups[2].start == FANCY_REGEX_UNSET) printf(" is nothing\n");
        else printf(" is %.*s\n", (int)(groups[2].end - groups[2].start), text + groups[2].start);
    }
    fancy_regex_free(&regex);
    return answer == FANCY_REGEX_NO_MATCH ? 0 : 1;
}
