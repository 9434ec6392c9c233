/* Lets calls of the C library fail, and tells of them. `tests/faults`, `tests/memory` and `tests/processes` compile it, and
 * put it before the C library by LD_PRELOAD.
 *
 * It is told by the environment:
 *   FAULT_PAGE       a file of the bytes of `struct page`, which the test reads while the program runs, and after it
 *   FAULT_DIRECTORY  the directory of the map; a call counts if its descriptor is of a file there, or of the directory
 *   FAULT_FILE       the one file there whose calls count; if left out, all of them
 *   FAULT_CALL       which calls count: sync, write, read, open, look (the length of a file is asked for), lock, or forget
 *                    (what is cached of a file is given up)
 *   FAULT_TRACE      a file to which each call on a file of the directory, or on the directory, adds a line: CALL NAME
 *   FAULT_FROM       the number of the first call that goes wrong, from 1
 *   FAULT_TO         the number of the last one
 *   FAULT_HOW        how: EIO, ENOSPC, EINTR or EAGAIN, and nothing is done; short, and half of the bytes are moved; torn, and
 *                    half of the bytes are moved (a sync is made) and it fails with EIO; held, and it is made once the test
 *                    sets `freed`
 *   FAULT_MEMORY     n, if one allocation in n is refused, while `begun` is 1
 *   FAULT_SEED       which ones
 *   FAULT_NUMBER     the number of the one allocation that is refused, from 1, while `begun` is 1. The line `begin` that
 *                    the program writes to standard output makes it 1, in one call; the line `end` makes it 0, and so
 *                    does one that begins with `listening `, unless it is 2: then it becomes 1
 * A sync of a file there lasts `millis` milliseconds longer, or until the test makes that number less.
 */
#define _GNU_SOURCE
#include <dlfcn.h>
#include <errno.h>
#include <fcntl.h>
#include <limits.h>
#include <stdarg.h>
#include <stdint.h>
#include <stdlib.h>
#include <string.h>
#include <sys/file.h>
#include <sys/mman.h>
#include <sys/stat.h>
#include <sys/types.h>
#include <time.h>
#include <unistd.h>

enum { SIZES = 512, TURN_MILLIS = 5 };

enum call { SYNC, WRITE, READ, OPEN, LOOK, LOCK, FORGET, OTHER };

static const char *const CALLS[] = {"sync", "write", "read", "open", "look", "lock", "forget"};

struct page {
    uint64_t calls;  /* those that counted */
    uint64_t faults; /* those that went wrong */
    uint64_t after;  /* syncs and writes of the directory's files behind the first that went wrong */
    uint64_t begun;  /* set by the test, or by the program's lines: 1 if memory is refused from now on, 2 if it is from the
                        line `listening ..` on */
    uint64_t asked;  /* allocations since then */
    uint64_t refused;
    uint64_t freed; /* set by the test: 1 once the calls that are held go on */
    char file[32]; /* the file at whose call it first went wrong */
    uint64_t millis; /* set by the test: how much longer a sync lasts */
    uint64_t sizes[SIZES]; /* the bytes of the first allocations that counted by FAULT_NUMBER */
};

static struct page none, *page = &none;
static const char *directory, *file;
static size_t directory_length;
static enum call counted = OTHER;
static uint64_t from, to, memory, seed, refused_one;
static int error;    /* what a call that goes wrong fails with; 0 if it doesn't fail */
static int is_half;  /* whether it moves half of the bytes, in place of none */
static int is_held;  /* whether it waits, and is made */
static int trace = -1; /* where the lines of FAULT_TRACE go */

static uint64_t number_of(const char *name) {
    const char *word = getenv(name);
    return word ? strtoull(word, NULL, 10) : 0;
}

static enum call call_named(const char *word) {
    for (int call = 0; word && call < OTHER; call++)
        if (!strcmp(word, CALLS[call]))
            return call;
    return OTHER;
}

static void read_how(const char *word) {
    is_half = !strcmp(word, "short") || !strcmp(word, "torn");
    is_held = !strcmp(word, "held");
    if (!strcmp(word, "ENOSPC"))
        error = ENOSPC;
    else if (!strcmp(word, "EINTR"))
        error = EINTR;
    else if (!strcmp(word, "EAGAIN"))
        error = EAGAIN;
    else if (strcmp(word, "short") && !is_held)
        error = EIO;
}

__attribute__((constructor)) static void begin(void) {
    const char *path = getenv("FAULT_PAGE");
    int fd = path ? open(path, O_RDWR) : -1;
    if (fd < 0)
        return;
    void *found = mmap(NULL, sizeof *page, PROT_READ | PROT_WRITE, MAP_SHARED, fd, 0);
    close(fd);
    if (found == MAP_FAILED)
        return;
    directory = getenv("FAULT_DIRECTORY");
    directory_length = directory ? strlen(directory) : 0;
    file = getenv("FAULT_FILE");
    counted = call_named(getenv("FAULT_CALL"));
    from = number_of("FAULT_FROM");
    to = number_of("FAULT_TO");
    memory = number_of("FAULT_MEMORY");
    seed = number_of("FAULT_SEED");
    refused_one = number_of("FAULT_NUMBER");
    if (getenv("FAULT_HOW"))
        read_how(getenv("FAULT_HOW"));
    if (getenv("FAULT_TRACE"))
        trace = open(getenv("FAULT_TRACE"), O_WRONLY | O_CREAT | O_APPEND | O_CLOEXEC, 0600);
    page = found;
}

/* The name of the directory's file that the path names, empty for the directory; NULL if it is none. */
static const char *name_in(const char *path) {
    if (!directory || strncmp(path, directory, directory_length))
        return NULL;
    const char *rest = path + directory_length;
    return *rest == '/' ? rest + 1 : *rest ? NULL : rest;
}

static uint64_t add_to(uint64_t *count) {
    return __atomic_add_fetch(count, 1, __ATOMIC_SEQ_CST);
}

#define REAL(name) ((__typeof__(&name))dlsym(RTLD_NEXT, #name))

/* Adds the call's line to the trace, in one write. */
static void tell(enum call call, const char *name) {
    char line[64] = "";
    int saved = errno;
    if (trace < 0 || strlen(name) > sizeof line - 16)
        return;
    strcat(strcat(strcat(strcat(line, CALLS[call]), " "), *name ? name : "."), "\n");
    if (REAL(write)(trace, line, strlen(line)) < 0)
        abort();
    errno = saved;
}

/* Waits for as long as the test says now. */
static void be_late(void) {
    struct timespec turn = {0, TURN_MILLIS * 1000000};
    for (uint64_t gone = 0; gone < __atomic_load_n(&page->millis, __ATOMIC_SEQ_CST); gone += TURN_MILLIS)
        nanosleep(&turn, NULL);
}

/* Whether this call goes wrong; it is counted. */
static int goes_wrong(enum call call, const char *path) {
    const char *name = name_in(path);
    if (!name)
        return 0;
    tell(call, name);
    if (call == SYNC)
        be_late();
    if (call < READ && __atomic_load_n(&page->faults, __ATOMIC_SEQ_CST))
        add_to(&page->after);
    if (call != counted || (file && strcmp(file, name)))
        return 0;
    uint64_t number = add_to(&page->calls);
    if (number < from || number > to)
        return 0;
    if (add_to(&page->faults) == 1)
        strncpy(page->file, *name ? name : ".", sizeof page->file - 1);
    while (is_held && !__atomic_load_n(&page->freed, __ATOMIC_SEQ_CST))
        usleep(1000);
    return !is_held;
}

static int goes_wrong_at(enum call call, int fd) {
    char link[64] = "/proc/self/fd/", path[PATH_MAX];
    char digits[16];
    int at = sizeof digits - 1, saved = errno;
    digits[at] = 0;
    for (unsigned rest = (unsigned)fd; at == sizeof digits - 1 || rest; rest /= 10)
        digits[--at] = (char)('0' + rest % 10);
    strcat(link, digits + at);
    ssize_t length = directory && fd >= 0 ? readlink(link, path, sizeof path - 1) : -1;
    errno = saved;
    if (length < 0)
        return 0;
    path[length] = 0;
    return goes_wrong(call, path);
}

/* What a call on `length` bytes is to fail with, or 0. `length` becomes how many of them it is to move first. */
static int fate(enum call call, int fd, size_t *length) {
    if (!goes_wrong_at(call, fd))
        return 0;
    *length = !is_half ? 0 : error ? (*length + 1) / 2 : *length > 1 ? *length / 2 : *length;
    return error;
}

/* The rest of a function that moves bytes: `made` is the call of the C library. */
#define MOVES(call, made)                  \
    int cause = fate(call, fd, &length);   \
    ssize_t done = 0;                      \
    if (!cause || length)                  \
        done = made;                       \
    if (cause) {                           \
        errno = cause;                     \
        return -1;                         \
    }                                      \
    return done

ssize_t pwrite(int fd, const void *bytes, size_t length, off_t at) {
    MOVES(WRITE, REAL(pwrite)(fd, bytes, length, at));
}

ssize_t pwrite64(int fd, const void *bytes, size_t length, off64_t at) {
    MOVES(WRITE, REAL(pwrite64)(fd, bytes, length, at));
}

static ssize_t move_out(int fd, const void *bytes, size_t length) {
    MOVES(WRITE, REAL(write)(fd, bytes, length));
}

/* Whether allocations count by lines of the program, and this one begins so. */
static int begins_with(const char *start, int fd, const void *bytes, size_t length) {
    return refused_one && fd == STDOUT_FILENO && length >= strlen(start) && !memcmp(bytes, start, strlen(start));
}

ssize_t write(int fd, const void *bytes, size_t length) {
    if (begins_with("end\n", fd, bytes, length))
        __atomic_store_n(&page->begun, 0, __ATOMIC_SEQ_CST);
    if (begins_with("listening ", fd, bytes, length))
        __atomic_store_n(&page->begun, __atomic_load_n(&page->begun, __ATOMIC_SEQ_CST) == 2, __ATOMIC_SEQ_CST);
    ssize_t done = move_out(fd, bytes, length);
    if (begins_with("begin\n", fd, bytes, length))
        __atomic_store_n(&page->begun, 1, __ATOMIC_SEQ_CST);
    return done;
}

ssize_t pread(int fd, void *bytes, size_t length, off_t at) {
    MOVES(READ, REAL(pread)(fd, bytes, length, at));
}

ssize_t pread64(int fd, void *bytes, size_t length, off64_t at) {
    MOVES(READ, REAL(pread64)(fd, bytes, length, at));
}

ssize_t read(int fd, void *bytes, size_t length) {
    MOVES(READ, REAL(read)(fd, bytes, length));
}

int fsync(int fd) {
    size_t length = 1;
    MOVES(SYNC, REAL(fsync)(fd));
}

int fdatasync(int fd) {
    size_t length = 1;
    MOVES(SYNC, REAL(fdatasync)(fd));
}

int flock(int fd, int how) {
    size_t length = 1;
    MOVES(LOCK, REAL(flock)(fd, how));
}

int posix_fadvise(int fd, off_t at, off_t bytes, int advice) {
    size_t length = 1;
    int cause = advice == POSIX_FADV_DONTNEED ? fate(FORGET, fd, &length) : 0;
    return cause ? cause : REAL(posix_fadvise)(fd, at, bytes, advice);
}

int statx(int fd, const char *restrict path, int flags, unsigned mask, struct statx *restrict found) {
    size_t length = 1;
    if (*path)
        return REAL(statx)(fd, path, flags, mask, found);
    MOVES(LOOK, REAL(statx)(fd, path, flags, mask, found));
}

/* The rest of a function that opens a file, with the mode behind `how` if there is one. */
#define OPENS(made)                                   \
    mode_t mode = 0;                                  \
    if (how & (O_CREAT | O_TMPFILE)) {                \
        va_list more;                                 \
        va_start(more, how);                          \
        mode = va_arg(more, mode_t);                  \
        va_end(more);                                 \
    }                                                 \
    if (goes_wrong(OPEN, path)) {                     \
        errno = error;                                \
        return -1;                                    \
    }                                                 \
    return made

int open(const char *path, int how, ...) {
    OPENS(REAL(open)(path, how, mode));
}

int open64(const char *path, int how, ...) {
    OPENS(REAL(open64)(path, how, mode));
}

int openat(int at, const char *path, int how, ...) {
    OPENS(REAL(openat)(at, path, how, mode));
}

int openat64(int at, const char *path, int how, ...) {
    OPENS(REAL(openat64)(at, path, how, mode));
}

/* The allocations of the C library by the names that it keeps for them: dlsym itself takes memory. */
extern void *__libc_malloc(size_t size);
extern void *__libc_calloc(size_t count, size_t size);
extern void *__libc_realloc(void *old, size_t size);
extern void *__libc_memalign(size_t align, size_t size);

/* Whether the allocation of this number is refused: one in `memory`, told by the seed and the number. */
static int is_one_in(uint64_t number) {
    uint64_t mixed = seed * 0x9E3779B97F4A7C15u + number;
    mixed = (mixed ^ (mixed >> 30)) * 0xBF58476D1CE4E5B9u;
    mixed = (mixed ^ (mixed >> 27)) * 0x94D049BB133111EBu;
    return (mixed ^ (mixed >> 31)) % memory == 0;
}

/* Whether this allocation is refused; it is counted. */
static int is_refused(size_t size) {
    if (!(memory || refused_one) || __atomic_load_n(&page->begun, __ATOMIC_SEQ_CST) != 1)
        return 0;
    uint64_t number = add_to(&page->asked);
    if (refused_one && number <= SIZES)
        page->sizes[number - 1] = size;
    if (refused_one ? number != refused_one : !is_one_in(number))
        return 0;
    add_to(&page->refused);
    errno = ENOMEM;
    return 1;
}

void *malloc(size_t size) {
    return is_refused(size) ? NULL : __libc_malloc(size);
}

void *calloc(size_t count, size_t size) {
    return is_refused(count * size) ? NULL : __libc_calloc(count, size);
}

void *realloc(void *old, size_t size) {
    return is_refused(size) ? NULL : __libc_realloc(old, size);
}

void *aligned_alloc(size_t align, size_t size) {
    return is_refused(size) ? NULL : __libc_memalign(align, size);
}

int posix_memalign(void **place, size_t align, size_t size) {
    if (is_refused(size))
        return ENOMEM;
    void *found = __libc_memalign(align, size);
    if (!found)
        return ENOMEM;
    *place = found;
    return 0;
}
