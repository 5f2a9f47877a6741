/* Stands between a program and malloc, and refuses one allocation. The file that the environment's COUNT names has two numbers: which
   allocation is refused, and how many there were so far; they are in a file since a program may end without a word to this library.
   Nothing is included, so that a compiler without the C library's headers compiles it too. */

typedef __SIZE_TYPE__ size_t;

extern void *__libc_malloc(size_t);
extern void *__libc_calloc(size_t, size_t);
extern void *__libc_realloc(void *, size_t);
extern void *__libc_memalign(size_t, size_t);
extern int *__errno_location(void);
extern char *getenv(const char *);
extern int open(const char *, int, ...);
extern void *mmap(void *, size_t, int, int, int, long);

enum { OUT_OF_MEMORY = 12, READ_AND_WRITE = 2, READABLE = 1, WRITABLE = 2, SHARED = 1 };

static long none[2];
static long *shared;

/* Whether this allocation is the one that is refused. */
static int refused(void) {
    if (!shared) {
        const char *name = getenv("COUNT");
        int file = name ? open(name, READ_AND_WRITE) : -1;
        void *at = file < 0 ? (void *)-1 : mmap(0, sizeof none, READABLE | WRITABLE, SHARED, file, 0);
        shared = at == (void *)-1 ? none : at;
    }
    if (__atomic_add_fetch(&shared[1], 1, __ATOMIC_SEQ_CST) != shared[0]) return 0;
    *__errno_location() = OUT_OF_MEMORY;
    return 1;
}

void *malloc(size_t size) { return refused() ? 0 : __libc_malloc(size); }
void *calloc(size_t count, size_t size) { return refused() ? 0 : __libc_calloc(count, size); }
void *realloc(void *old, size_t size) { return refused() ? 0 : __libc_realloc(old, size); }
void *aligned_alloc(size_t align, size_t size) { return refused() ? 0 : __libc_memalign(align, size); }
void *memalign(size_t align, size_t size) { return refused() ? 0 : __libc_memalign(align, size); }
int posix_memalign(void **to, size_t align, size_t size) {
    if (refused()) return OUT_OF_MEMORY;
    *to = __libc_memalign(align, size);
    return *to ? 0 : OUT_OF_MEMORY;
}
