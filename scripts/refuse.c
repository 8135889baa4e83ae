/* Loaded before the C library (LD_PRELOAD), it refuses memory and breaks reads and writes of a program, as the environment says:
     REFUSE_MEMORY=K       the K-th request for memory, and with REFUSE_ALL=1 each one after it
     REFUSE_READ=K         after K bytes, a read of standard input (with REFUSE_FILES=1, of files) is an error, EIO
     REFUSE_WRITE=K        the same of a write to standard output (or to files); with REFUSE_ZERO=1 it takes no byte instead
     REFUSE_SINGLE=1       a read or write moves one byte a call
     REFUSE_INTERRUPT=K    the K-th read or write is interrupted once, EINTR
     REFUSE_SYNC=K         the K-th call that has the system keep a file fails, EIO
     REFUSE_RENAME=K       the K-th change of a file's name fails, EIO
   If something was refused, broken or interrupted, the file REFUSE_NOTE is made. */
#define _GNU_SOURCE
#include <errno.h>
#include <fcntl.h>
#include <stdio.h>
#include <stdlib.h>
#include <sys/syscall.h>
#include <unistd.h>

extern void *__libc_malloc(size_t), *__libc_calloc(size_t, size_t), *__libc_realloc(void *, size_t), *__libc_memalign(size_t, size_t);

static long memory, interrupt, syncs, names; /* requests and calls up to the one that fails; 0 is none */
static long can_read = -1, can_write = -1; /* bytes that still go through; below 0 is all */
static int all, files, zero, single;
static const char *note;

static long number(const char *name, long none) { return getenv(name) ? atol(getenv(name)) : none; }

__attribute__((constructor)) static void begin(void) {
    note = getenv("REFUSE_NOTE");
    all = number("REFUSE_ALL", 0), files = number("REFUSE_FILES", 0), zero = number("REFUSE_ZERO", 0), single = number("REFUSE_SINGLE", 0);
    can_read = number("REFUSE_READ", -1), can_write = number("REFUSE_WRITE", -1);
    interrupt = number("REFUSE_INTERRUPT", 0), memory = number("REFUSE_MEMORY", 0);
    syncs = number("REFUSE_SYNC", 0), names = number("REFUSE_RENAME", 0);
}

static void tell(void) {
    if (note) syscall(SYS_close, syscall(SYS_openat, AT_FDCWD, note, O_CREAT | O_WRONLY, 0600));
}

/* Whether a request for memory is refused. Threads may ask at once, so the count is kept by one instruction. */
static int refused(void) {
    if (memory == 0) return 0;
    long before = __atomic_fetch_sub(&memory, 1, __ATOMIC_SEQ_CST);
    if (before == 1 && all) __atomic_store_n(&memory, 1, __ATOMIC_SEQ_CST);
    if (before == 1) tell(), errno = ENOMEM;
    return before == 1;
}

void *malloc(size_t size) { return refused() ? NULL : __libc_malloc(size); }
void *calloc(size_t count, size_t size) { return refused() ? NULL : __libc_calloc(count, size); }
void *realloc(void *old, size_t size) { return refused() ? NULL : __libc_realloc(old, size); }
void *aligned_alloc(size_t align, size_t size) { return refused() ? NULL : __libc_memalign(align, size); }
int posix_memalign(void **into, size_t align, size_t size) {
    return refused() || !(*into = __libc_memalign(align, size)) ? ENOMEM : 0;
}

/* How many bytes a call may move: below 0 it is an error. `left` is how many still go through, if the file is one that is broken. */
static long allowed(int broken, size_t count, long left) {
    if (interrupt && --interrupt == 0) return tell(), errno = EINTR, -1;
    if (single && count > 1) count = 1;
    if (!broken || left < 0 || count == 0) return count;
    if (left == 0) return tell(), errno = EIO, -1;
    return count > (size_t)left ? left : (long)count;
}

ssize_t read(int file, void *into, size_t count) {
    int broken = files ? file > 2 : file == 0;
    long some = allowed(broken, count, can_read);
    if (some >= 0) some = syscall(SYS_read, file, into, some);
    if (broken && can_read > 0 && some > 0) can_read -= some;
    return some;
}
ssize_t write(int file, const void *from, size_t count) {
    int broken = files ? file > 2 : file == 1;
    long some = allowed(broken, count, can_write);
    if (some < 0) return zero && errno == EIO ? 0 : -1;
    some = syscall(SYS_write, file, from, some);
    if (broken && can_write > 0 && some > 0) can_write -= some;
    return some;
}
ssize_t __write(int file, const void *from, size_t count) { return write(file, from, count); }

int fsync(int file) {
    if (syncs && --syncs == 0) return tell(), errno = EIO, -1;
    return syscall(SYS_fsync, file);
}
int rename(const char *old, const char *new) {
    if (names && --names == 0) return tell(), errno = EIO, -1;
    return syscall(SYS_rename, old, new);
}
