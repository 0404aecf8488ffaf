/* Counts a program's allocations and the bytes that they take, and refuses one of them. Preloaded by tests/growths/count and others.
   REFUSE: the number of the allocation that is refused, counting from 1; 0 for none. The count goes to descriptor 9, or where BYTES is
   set the most bytes that were in use at one time.
   EACH: several such numbers, each with a space after it. The program is begun once, and runs on from there for each, since to begin it
   takes longer than what it does. After each run both outputs have a zero byte, and standard output its status and another one. */
/* The C library, declared here, so that a machine without its headers can compile this. */
typedef unsigned long size_t;
extern char *getenv(const char *);
extern long atol(const char *);
extern int snprintf(char *, size_t, const char *, ...);
extern void *memcpy(void *, const void *, size_t);
extern long write(int, const void *, size_t);
extern long strtol(const char *, char **, int);
extern int fork(void);
extern int waitpid(int, int *, int);
extern unsigned alarm(unsigned);
extern long syscall(long, ...);
extern int *__errno_location(void);
extern void *__libc_malloc(size_t);
extern void *__libc_calloc(size_t, size_t);
extern void *__libc_realloc(void *, size_t);
extern void *__libc_memalign(size_t, size_t);
extern void __libc_free(void *);

static long made;
static long refused = -1;
static long used;
static long most;

/* What stands right before each block: its size, and how far in front of it the C library's own block begins. */
struct head {
    size_t size;
    size_t offset;
};

static struct head *head_of(void *block) { return (struct head *)block - 1; }

static void *no_memory(void)
{
    *__errno_location() = 12 /* ENOMEM */;
    return 0;
}

static int is_refused(void)
{
    if (refused < 0) {
        const char *word = getenv("REFUSE");
        refused = word ? atol(word) : 0;
    }
    return __atomic_add_fetch(&made, 1, __ATOMIC_SEQ_CST) == refused;
}

/* So many bytes more are in use, or fewer. */
static void count(long bytes)
{
    long now = __atomic_add_fetch(&used, bytes, __ATOMIC_SEQ_CST);
    long before = __atomic_load_n(&most, __ATOMIC_SEQ_CST);
    while (now > before && !__atomic_compare_exchange_n(&most, &before, now, 0, __ATOMIC_SEQ_CST, __ATOMIC_SEQ_CST))
        ;
}

/* The block of this size in what the C library gave, or none where it gave none. */
static void *counted(char *own, size_t offset, size_t size)
{
    if (!own)
        return 0;
    struct head *head = head_of(own + offset);
    head->size = size;
    head->offset = offset;
    count((long)size);
    return own + offset;
}

/* Whether a block of this size has room for its head, too. */
static int has_room(size_t size, size_t offset) { return size <= (size_t)-1 / 2 - offset; }

void *malloc(size_t size)
{
    if (is_refused() || !has_room(size, 16))
        return no_memory();
    return counted(__libc_malloc(size + 16), 16, size);
}

void *calloc(size_t items, size_t bytes)
{
    size_t size;
    if (is_refused() || __builtin_mul_overflow(items, bytes, &size) || !has_room(size, 16))
        return no_memory();
    return counted(__libc_calloc(1, size + 16), 16, size);
}

static void *aligned(size_t align, size_t size)
{
    size_t offset = align < 16 ? 16 : align;
    if (is_refused() || !has_room(size, offset))
        return no_memory();
    return counted(__libc_memalign(offset, size + offset), offset, size);
}

void *memalign(size_t align, size_t size) { return aligned(align, size); }
void *aligned_alloc(size_t align, size_t size) { return aligned(align, size); }

int posix_memalign(void **to, size_t align, size_t size)
{
    void *block = aligned(align, size);
    if (!block)
        return 12 /* ENOMEM */;
    *to = block;
    return 0;
}

void free(void *block)
{
    if (!block)
        return;
    struct head *head = head_of(block);
    count(-(long)head->size);
    __libc_free((char *)block - head->offset);
}

size_t malloc_usable_size(void *block) { return block ? head_of(block)->size : 0; }

/* The bytes of the old block count until those of the new one do, and no longer. */
void *realloc(void *block, size_t size)
{
    if (!block)
        return malloc(size);
    struct head *head = head_of(block);
    size_t before = head->size, offset = head->offset;
    if (is_refused() || !has_room(size, offset))
        return no_memory();
    char *own = (char *)block - offset;
    if (offset == 16) {
        own = __libc_realloc(own, size + 16);
    } else {
        own = __libc_memalign(offset, size + offset);
        if (own) {
            memcpy(own + offset, block, before < size ? before : size);
            __libc_free((char *)block - offset);
        }
    }
    if (!own)
        return 0;
    count(-(long)before);
    return counted(own, offset, size);
}

__attribute__((destructor)) static void tell(void)
{
    char text[32];
    int length = snprintf(text, sizeof text, "%ld", getenv("BYTES") ? most : made);
    if (write(9, text, (size_t)length) < 0)
        return;
}

/* A program with threads ends by this, and then no destructor runs. */
void _exit(int status)
{
    tell();
    for (;;)
        syscall(231 /* exit_group */, status);
}

/* Here, before its main, a program runs on for each of several numbers. One that hangs is ended after ten minutes. */
__attribute__((constructor)) static void run_each(void)
{
    char text[32], *word = getenv("EACH");
    while (word && *word) {
        refused = strtol(word, &word, 10);
        int status = 0, child = fork();
        if (!child) {
            alarm(600);
            return;
        }
        waitpid(child, &status, 0);
        int length = snprintf(text, sizeof text, "%c%d%c", 0, status, 0);
        if (write(1, text, (size_t)length) < length || write(2, text, 1) < 1 || !*++word)
            _exit(1);
    }
}
