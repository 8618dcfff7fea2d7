// Loaded before a program by LD_PRELOAD: refuses the allocations, reads and writes that the
// environment names, and tells what the program asked for and left.
//
// REFUSE_ALLOCATION=N    the Nth allocation, counted from 1, answers NULL
// REFUSE_ALLOCATIONS=N   the Nth and each later one does
// FAIL_READ=N, FAIL_WRITE=N     the Nth read or write fails with EIO
// SHORT_READS=1, SHORT_WRITES=1 each read or write moves at most one byte
// REPORT=FILE            at the end: 'ALLOCATIONS READS WRITES LEFT ASKED MOST'. LEFT counts the
//                        blocks that were not freed; ASKED the bytes of all allocations, of a
//                        realloc all of its new size; MOST the bytes in use at the peak, each block
//                        with what the C library rounded it up to
//
// It declares what it uses of the C library itself, so that a compiler without headers builds it.
typedef unsigned long size_t;
typedef long ssize_t;

extern char *getenv(const char *name);
extern long atol(const char *text);
extern int *__errno_location(void);
extern long syscall(long number, ...);
extern void *__libc_malloc(size_t size);
extern void *__libc_calloc(size_t count, size_t size);
extern void *__libc_realloc(void *block, size_t size);
extern void *__libc_memalign(size_t alignment, size_t size);
extern void __libc_free(void *block);
extern size_t malloc_usable_size(void *block);

enum { READ = 0, WRITE = 1, OPEN = 2, CREATE_EMPTY = 01 | 0100 | 01000, EIO = 5, ENOMEM = 12 };

static long allocations, reads, writes, left, bytes_asked, bytes_held, bytes_most;
static long one_allocation, from_allocation, one_read, one_write, short_reads, short_writes;
static const char *report;

static long asked(const char *name) {
    const char *value = getenv(name);
    return value ? atol(value) : 0;
}

__attribute__((constructor)) static void begin(void) {
    one_allocation = asked("REFUSE_ALLOCATION");
    from_allocation = asked("REFUSE_ALLOCATIONS");
    one_read = asked("FAIL_READ");
    one_write = asked("FAIL_WRITE");
    short_reads = asked("SHORT_READS");
    short_writes = asked("SHORT_WRITES");
    report = getenv("REPORT");
    allocations = reads = writes = left = bytes_asked = bytes_held = bytes_most = 0;
}

// Adds a count and what parts it from the next; gives the place after both.
static char *put(char *at, long count, char after) {
    char digits[24];
    int length = 0;
    if (count < 0) { *at++ = '-'; count = -count; }
    do digits[length++] = '0' + count % 10; while (count /= 10);
    while (length) *at++ = digits[--length];
    *at++ = after;
    return at;
}

__attribute__((destructor)) static void end(void) {
    if (!report) return;
    char line[192];
    char *at = put(put(put(put(line, allocations, ' '), reads, ' '), writes, ' '), left, ' ');
    at = put(put(at, bytes_asked, ' '), bytes_most, '\n');
    long file = syscall(OPEN, report, CREATE_EMPTY, 0600);
    if (file >= 0) syscall(WRITE, file, line, at - line);
}

// Whether an allocation of so many bytes is refused.
static int is_refused(size_t size) {
    allocations++;
    bytes_asked += size;
    int is_from = from_allocation && allocations >= from_allocation;
    if (allocations != one_allocation && !is_from) return 0;
    *__errno_location() = ENOMEM;
    return 1;
}

// Counts a block in, where there is one.
static void *kept(void *block) {
    if (!block) return block;
    left++;
    bytes_held += malloc_usable_size(block);
    if (bytes_held > bytes_most) bytes_most = bytes_held;
    return block;
}

// Counts a block of this usable size out.
static void gone(size_t size) {
    left--;
    bytes_held -= size;
}

void *malloc(size_t size) { return is_refused(size) ? 0 : kept(__libc_malloc(size)); }

void *calloc(size_t count, size_t size) {
    return is_refused(count * size) ? 0 : kept(__libc_calloc(count, size));
}

void *aligned_alloc(size_t alignment, size_t size) {
    return is_refused(size) ? 0 : kept(__libc_memalign(alignment, size));
}

int posix_memalign(void **block, size_t alignment, size_t size) {
    void *made = aligned_alloc(alignment, size);
    if (!made) return ENOMEM;
    *block = made;
    return 0;
}

void *realloc(void *old, size_t size) {
    if (is_refused(size)) return 0;
    size_t before = old ? malloc_usable_size(old) : 0;
    void *block = __libc_realloc(old, size);
    if (old && block) gone(before);
    return kept(block);
}

void free(void *block) {
    if (block) gone(malloc_usable_size(block));
    __libc_free(block);
}

ssize_t read(int file, void *bytes, size_t count) {
    if (++reads == one_read) { *__errno_location() = EIO; return -1; }
    return syscall(READ, file, bytes, short_reads && count > 1 ? 1 : count);
}

ssize_t write(int file, const void *bytes, size_t count) {
    if (++writes == one_write) { *__errno_location() = EIO; return -1; }
    return syscall(WRITE, file, bytes, short_writes && count > 1 ? 1 : count);
}
