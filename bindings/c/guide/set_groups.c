/* The groups of all members of a set that match at the earliest place: for each member its number, the match, and each group. */
#include "fancy_regex.h"

#include <stdio.h>

int main(void) {
    fancy_regex set = FANCY_REGEX_EMPTY;
    fancy_regex_member groups[8];
    size_t count = 0;
    const size_t ends[] = {13, 16}; /* the patterns (\d\d):(\d\d) and \w+ */
    if (fancy_regex_set_build(&set, "(\\d\\d):(\\d\\d)\\w+", ends, 2, NULL) == FANCY_REGEX_DONE)
        fancy_regex_set_captures(&set, "at 12:30", 8, 2, groups, 8, &count);
    for (size_t i = 0; i < count && i < 8; i++)
        printf("%zu: %zu..%zu\n", groups[i].pattern, groups[i].start, groups[i].end);
    fancy_regex_free(&set);
    return count == 4 ? 0 : 1;
}
