// Stands before the C library in the sessions that tests/lib/refusing.py plays. It counts requests for memory by line, and refuses the
// requests REFUSE_FROM to REFUSE_TO of the line REFUSE_LINE (0: those before the first line); it counts reads of standard input and
// writes of standard output, and lets the read FAIL_READ and the write FAIL_WRITE fail, once. A read gives one line. REFUSE_REPORT
// names a file for what was counted: reads, writes, the bytes written before the call that failed, and then two numbers for each line,
// its requests and the bytes written before it. Memory may be asked for by several threads: requests are counted atomically. Reads and
// writes are the first thread's alone, so the line changes only while there is no other. Where PAUSE_SEED is given, one request in eight
// sleeps first, for up to a tenth of a millisecond: so threads overtake each other. Threads THREADS_FROM to THREADS_TO, counted from the
// first that is asked for, are refused.
#define _GNU_SOURCE
#include <dlfcn.h>
#include <errno.h>
#include <fcntl.h>
#include <pthread.h>
#include <stdint.h>
#include <stdlib.h>
#include <sys/mman.h>
#include <sys/syscall.h>
#include <time.h>
#include <unistd.h>

void *__libc_malloc(size_t), *__libc_realloc(void *, size_t), *__libc_memalign(size_t, size_t);

enum { LAST_LINE = 4094 };

static struct counts {
    uint64_t reads, writes, failed_behind;
    struct { uint64_t requests, written; } lines[LAST_LINE + 1];
} spare, *counts = &spare;

static uint64_t line, written, refused_line = -1, refused_from, refused_to, failing_read, failing_write, pause_seed, pauses;
static uint64_t threads, threads_from, threads_to;
static int (*create)(pthread_t *, const pthread_attr_t *, void *(*)(void *), void *);
static int is_line_read = 1;

static uint64_t number(const char *name, uint64_t without) {
    const char *text = getenv(name);
    return text ? strtoull(text, 0, 10) : without;
}

__attribute__((constructor)) static void start(void) {
    const char *name = getenv("REFUSE_REPORT");
    int file = name ? open(name, O_RDWR) : -1;
    void *shared = MAP_FAILED;
    if (file >= 0 && !ftruncate(file, sizeof spare))
        shared = mmap(0, sizeof spare, PROT_READ | PROT_WRITE, MAP_SHARED, file, 0);
    if (shared != MAP_FAILED) counts = shared;
    if (file >= 0) close(file);
    refused_from = number("REFUSE_FROM", 0);
    refused_to = number("REFUSE_TO", 0);
    failing_read = number("FAIL_READ", 0);
    failing_write = number("FAIL_WRITE", 0);
    refused_line = number("REFUSE_LINE", -1);
    pause_seed = number("PAUSE_SEED", 0);
    threads_from = number("THREADS_FROM", 0);
    threads_to = number("THREADS_TO", 0);
    create = dlsym(RTLD_NEXT, "pthread_create");
}

static void pause_now_and_then(void) {
    uint64_t chance = (__atomic_add_fetch(&pauses, 1, __ATOMIC_RELAXED) ^ pause_seed) * 0x9E3779B97F4A7C15;
    struct timespec time = {0, chance % 100000};
    if (chance >> 61 == 0) syscall(SYS_nanosleep, &time, 0);
}

static int is_refused(void) {
    if (pause_seed) pause_now_and_then();
    uint64_t count = __atomic_add_fetch(&counts->lines[line].requests, 1, __ATOMIC_RELAXED);
    if (line != refused_line || count < refused_from || count > refused_to) return 0;
    errno = ENOMEM;
    return 1;
}

void *malloc(size_t size) { return is_refused() ? 0 : __libc_malloc(size); }

void *realloc(void *old, size_t size) { return is_refused() ? 0 : __libc_realloc(old, size); }

void *calloc(size_t count, size_t size) {
    size_t bytes;
    if (__builtin_mul_overflow(count, size, &bytes) || is_refused()) return 0;
    char *place = __libc_malloc(bytes);
    for (size_t at = 0; place && at < bytes; at++) place[at] = 0;
    return place;
}

int posix_memalign(void **out, size_t align, size_t size) {
    if (is_refused()) return ENOMEM;
    *out = __libc_memalign(align, size);
    return *out ? 0 : ENOMEM;
}

static ssize_t fail(void) {
    counts->failed_behind = written;
    errno = EIO;
    return -1;
}

ssize_t write(int file, const void *bytes, size_t size) {
    if (file != 1) return syscall(SYS_write, file, bytes, size);
    if (++counts->writes == failing_write) return fail();
    ssize_t count = syscall(SYS_write, file, bytes, size);
    if (count > 0) written += count;
    return count;
}

// The rest of a line, or as much of it as there is room for.
static size_t read_line(char *bytes, size_t size) {
    size_t count = 0;
    while (count < size && syscall(SYS_read, 0, bytes + count, 1) == 1)
        if (bytes[count++] == '\n') break;
    return count;
}

ssize_t read(int file, void *bytes, size_t size) {
    if (file) return syscall(SYS_read, file, bytes, size);
    if (is_line_read && line < LAST_LINE) counts->lines[++line].written = written;
    if (++counts->reads == failing_read) return fail();
    size_t count = read_line(bytes, size);
    is_line_read = !count || ((char *)bytes)[count - 1] == '\n';
    return count;
}

int pthread_create(pthread_t *thread, const pthread_attr_t *how, void *(*run)(void *), void *given) {
    uint64_t count = __atomic_add_fetch(&threads, 1, __ATOMIC_RELAXED);
    return threads_from <= count && count <= threads_to ? EAGAIN : create(thread, how, run, given);
}
