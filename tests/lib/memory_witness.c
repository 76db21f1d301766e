/* Stands between a program and the C library's memory, where it is preloaded (LD_PRELOAD), for
 * tests/program/refused_memory and tests/program/cases. No header is read, so a compiler alone builds it.
 *
 * REFUSED_FROM and REFUSED_TO in the environment are the first and the last request that are refused,
 * counted from 1; without them none is. MEMORY_WITNESS names a file of 4,096 bytes, whose first words of
 * 64 bits are at each moment, also after a crash: the requests made, those refused, the blocks that
 * the program holds, the bytes that it holds, and the most bytes that it has held. */

typedef unsigned long word;

struct counts {
    word requests, refused, blocks, bytes, most_bytes;
};

extern void *__libc_malloc(word size);
extern void *__libc_calloc(word count, word size);
extern void *__libc_realloc(void *block, word size);
extern void *__libc_memalign(word alignment, word size);
extern void __libc_free(void *block);
extern word malloc_usable_size(void *block);
extern int *__errno_location(void);
extern char *getenv(const char *name);
extern word strtoul(const char *digits, char **end, int base);
extern int open(const char *path, int flags, ...);
extern void *mmap(void *place, word size, int protection, int flags, int file, long offset);

enum { READ_AND_WRITE = 2, PAGES_READ_AND_WRITE = 3, SHARED = 1, OUT_OF_MEMORY = 12 };

static struct counts unseen;
static struct counts *counts = &unseen;
static word refused_from, refused_to;

static word number_in(const char *name)
{
    const char *digits = getenv(name);
    return digits ? strtoul(digits, 0, 10) : 0;
}

__attribute__((constructor)) static void begin(void)
{
    const char *path = getenv("MEMORY_WITNESS");
    int file = path ? open(path, READ_AND_WRITE) : -1;
    void *page = file < 0 ? (void *)-1 : mmap(0, 4096, PAGES_READ_AND_WRITE, SHARED, file, 0);
    refused_from = number_in("REFUSED_FROM");
    refused_to = number_in("REFUSED_TO");
    if (page != (void *)-1)
        counts = page;
}

/* Whether this request is refused, and if so, says why, as the C library does and relies on when it starts a thread. */
static int is_refused(void)
{
    word number = __atomic_add_fetch(&counts->requests, 1, __ATOMIC_SEQ_CST);
    int refused = refused_from <= number && number <= refused_to;
    if (refused) {
        __atomic_add_fetch(&counts->refused, 1, __ATOMIC_SEQ_CST);
        *__errno_location() = OUT_OF_MEMORY;
    }
    return refused;
}

static void *taken(void *block)
{
    if (block) {
        word bytes = __atomic_add_fetch(&counts->bytes, malloc_usable_size(block), __ATOMIC_SEQ_CST);
        word most = __atomic_load_n(&counts->most_bytes, __ATOMIC_SEQ_CST);
        while (most < bytes &&
               !__atomic_compare_exchange_n(&counts->most_bytes, &most, bytes, 0, __ATOMIC_SEQ_CST, __ATOMIC_SEQ_CST))
            ;
        __atomic_add_fetch(&counts->blocks, 1, __ATOMIC_SEQ_CST);
    }
    return block;
}

static void given_back(word bytes)
{
    __atomic_sub_fetch(&counts->bytes, bytes, __ATOMIC_SEQ_CST);
    __atomic_sub_fetch(&counts->blocks, 1, __ATOMIC_SEQ_CST);
}

void *malloc(word size)
{
    return is_refused() ? 0 : taken(__libc_malloc(size));
}

void *calloc(word count, word size)
{
    return is_refused() ? 0 : taken(__libc_calloc(count, size));
}

void *memalign(word alignment, word size)
{
    return is_refused() ? 0 : taken(__libc_memalign(alignment, size));
}

void *aligned_alloc(word alignment, word size)
{
    return memalign(alignment, size);
}

int posix_memalign(void **place, word alignment, word size)
{
    void *block = memalign(alignment, size);
    if (!block)
        return OUT_OF_MEMORY;
    *place = block;
    return 0;
}

/* A refused block stays as it was. */
void *realloc(void *block, word size)
{
    word bytes = block ? malloc_usable_size(block) : 0;
    void *moved = is_refused() ? 0 : __libc_realloc(block, size);
    if (moved && block)
        given_back(bytes);
    return taken(moved);
}

void free(void *block)
{
    if (block)
        given_back(malloc_usable_size(block));
    __libc_free(block);
}
