/* The heap of the library: it asks these three functions for memory, and they ask the C library. Link this file with
 * libfancy_regex_ffi.a. */
#include <stdbool.h>
#include <stddef.h>
#include <stdlib.h>

/* Whether there was memory, and where; without memory the address is one that is not null and is never used. */
struct rattle_tried {
    bool ok;
    void *p;
};

static char no_memory;

static struct rattle_tried tried(void *p) {
    return (struct rattle_tried){p != NULL, p != NULL ? p : &no_memory};
}

/* `size` bytes at a multiple of `align`, which divides 16. A block of no bytes is one of `align` bytes. */
struct rattle_tried rattle_alloc(size_t size, size_t align) {
    return tried(malloc(size != 0 ? size : align));
}

/* The block with `size` bytes, of which the first `kept` are as they were. */
struct rattle_tried rattle_realloc(void *p, size_t kept, size_t size, size_t align) {
    (void)kept;
    return tried(realloc(p, size != 0 ? size : align));
}

void rattle_dealloc(void *p) {
    free(p);
}
