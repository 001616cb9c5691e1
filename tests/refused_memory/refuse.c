/* Refuses one request for memory of the program that it is loaded into: LD_PRELOAD names the shared library that is built of this
 * file.
 *
 * The environment's REFUSE is the number of the request that is refused, from 1; with 0, or without it, none is. A new block and a
 * change of a block's size are a request each. What the loader asks for before the program begins is not counted. At the program's
 * exit a line `requests: MADE refused: 0` or `requests: MADE refused: 1` goes to standard error.
 *
 * For programs of one thread. No header is included, so that a compiler without the C library's headers builds it too. */
typedef __SIZE_TYPE__ size_t;

extern void *dlsym(void *handle, const char *name);
extern int *__errno_location(void);
extern char *getenv(const char *name);
extern void *memcpy(void *to, const void *from, size_t size);
extern int snprintf(char *to, size_t size, const char *format, ...);
extern unsigned long strtoul(const char *text, char **end, int base);
extern long write(int file, const void *from, size_t size);

/* The handle by which dlsym finds the definition that comes after this library's. */
#define NEXT ((void *)-1)
#define OUT_OF_MEMORY 12
#define STANDARD_ERROR 2

static void *(*next_malloc)(size_t);
static void *(*next_calloc)(size_t, size_t);
static void *(*next_realloc)(void *, size_t);
static void *(*next_aligned)(size_t, size_t);
static int (*next_posix)(void **, size_t, size_t);
static void (*next_free)(void *);

static int counts;
static unsigned long wanted;
static unsigned long made;

static int refuses(void) {
    if (!counts)
        return 0;
    made += 1;
    return made == wanted;
}

static void *no_block(void) {
    *__errno_location() = OUT_OF_MEMORY;
    return 0;
}

/* Blocks for what dlsym itself asks for while it finds the functions above. They are never freed. */
static _Alignas(16) char early[4096];
static size_t early_used;

static void *early_block(size_t size) {
    size_t start = early_used;
    if (size > sizeof early - start)
        return no_block();
    early_used = (start + size + 15) & ~(size_t)15;
    return early + start;
}

static int is_early(const void *block) {
    return (const char *)block >= early && (const char *)block < early + sizeof early;
}

static void find_functions(void) {
    static int began;
    if (began)
        return;
    began = 1;
    *(void **)&next_free = dlsym(NEXT, "free");
    *(void **)&next_realloc = dlsym(NEXT, "realloc");
    *(void **)&next_aligned = dlsym(NEXT, "aligned_alloc");
    *(void **)&next_posix = dlsym(NEXT, "posix_memalign");
    *(void **)&next_calloc = dlsym(NEXT, "calloc");
    *(void **)&next_malloc = dlsym(NEXT, "malloc");
}

void *malloc(size_t size) {
    find_functions();
    if (next_malloc == 0)
        return early_block(size);
    return refuses() ? no_block() : next_malloc(size);
}

void *calloc(size_t count, size_t size) {
    find_functions();
    if (next_malloc == 0)
        return size != 0 && count > sizeof early / size ? no_block() : early_block(count * size);
    return refuses() ? no_block() : next_calloc(count, size);
}

void *realloc(void *block, size_t size) {
    find_functions();
    if (refuses())
        return no_block();
    if (block == 0 || !is_early(block))
        return next_realloc(block, size);
    void *moved = next_malloc(size);
    size_t left = (size_t)(early + sizeof early - (char *)block);
    return moved == 0 ? 0 : memcpy(moved, block, size < left ? size : left);
}

void *aligned_alloc(size_t align, size_t size) {
    find_functions();
    return refuses() ? no_block() : next_aligned(align, size);
}

int posix_memalign(void **block, size_t align, size_t size) {
    find_functions();
    return refuses() ? OUT_OF_MEMORY : next_posix(block, align, size);
}

void free(void *block) {
    find_functions();
    if (block != 0 && !is_early(block))
        next_free(block);
}

__attribute__((constructor)) static void begin(void) {
    const char *number = getenv("REFUSE");
    find_functions();
    wanted = number != 0 ? strtoul(number, 0, 10) : 0;
    counts = 1;
}

__attribute__((destructor)) static void end(void) {
    char line[96];
    counts = 0;
    int length = snprintf(line, sizeof line, "requests: %lu refused: %d\n", made, wanted != 0 && wanted <= made);
    if (length > 0 && write(STANDARD_ERROR, line, (size_t)length) < 0)
        return;
}
