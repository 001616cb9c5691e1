/* What the peers in C share: the text of standard input, and the lines of standard output. */
#include <stddef.h>
#include <stdio.h>
#include <stdlib.h>

struct text {
    char *bytes;
    size_t length;
};

/* Reads standard input to its end. Ends the process with status 2 where memory runs out or a read fails. */
static struct text read_text(void) {
    struct text text = {NULL, 0};
    size_t room = 0;
    for (;;) {
        if (text.length == room) {
            room = room == 0 ? 1 << 16 : 2 * room;
            text.bytes = realloc(text.bytes, room);
            if (text.bytes == NULL)
                exit(2);
        }
        size_t count = fread(text.bytes + text.length, 1, room - text.length, stdin);
        text.length += count;
        if (count == 0) {
            if (ferror(stdin))
                exit(2);
            return text;
        }
    }
}

/* The offset after the character at an offset, also where that is the end. */
static size_t next_character(struct text text, size_t at) {
    at++;
    while (at < text.length && (text.bytes[at] & 0xC0) == 0x80)
        at++;
    return at;
}

/* Puts a number's decimal digits into the bytes that end at `end`. Returns where they begin. */
static char *put_number(char *end, size_t number) {
    do {
        *--end = '0' + number % 10;
        number /= 10;
    } while (number > 0);
    return end;
}

/* Writes a line START..END. */
static void write_span(size_t start, size_t end) {
    char line[48];
    char *last = line + sizeof line;
    char *first = last;
    *--first = '\n';
    first = put_number(first, end);
    *--first = '.';
    *--first = '.';
    first = put_number(first, start);
    fwrite_unlocked(first, 1, last - first, stdout);
}
