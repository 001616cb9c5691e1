/* Replaces matches by a template, and splits a text at its matches. */
#include "fancy_regex.h"

#include <stdio.h>
#include <string.h>

int main(void) {
    const char *names = "Springsteen, Bruce; Mitchell, Joni", *list = "a, b,c ,d";
    fancy_regex name = FANCY_REGEX_EMPTY, comma = FANCY_REGEX_EMPTY;
    fancy_regex_span pieces[8];
    char out[64];
    size_t length = 0, count = 0;
    fancy_regex_build(&name, "(?<last>\\w+), (?<first>\\w+)", 27, NULL);
    fancy_regex_replace_all(&name, names, strlen(names), "$first $last", 12, out, sizeof out, &length);
    printf("%.*s\n", (int)(length < sizeof out ? length : sizeof out), out);
    fancy_regex_build(&comma, "\\s*,\\s*", 7, NULL);
    fancy_regex_split(&comma, list, strlen(list), pieces, 8, &count);
    for (size_t i = 0; i < count && i < 8; i++)
        printf("[%.*s]\n", (int)(pieces[i].end - pieces[i].start), list + pieces[i].start);
    fancy_regex_free(&name);
    fancy_regex_free(&comma);
    return count == 4 ? 0 : 1;
}
