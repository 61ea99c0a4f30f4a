/* Lies between a program and the GNU C library at the calls of its device: the reads and writes at a place of a
 * file, and the syncs. The environment says what happens, and at which call, counted from 1:
 *
 *   STOP_CALL        at that write or sync the process is killed, and what was written since the last sync is torn
 *   TEAR, SEED       how it is torn, a number of the list below, and where the random numbers begin
 *   FAIL_CALL        that read, write or sync fails; a write has written one half
 *   FAIL_CALLS_FROM  that one and all behind it
 *   HAPPENED         the file that is made once it has happened
 *   COUNTS           the file that has the numbers of calls as they come, each in eight bytes: all calls of the device,
 *                    its writes and syncs, the reads of standard input and the writes of standard output
 *
 * The program's other threads never touch its device. */
#define _GNU_SOURCE
#include <errno.h>
#include <fcntl.h>
#include <signal.h>
#include <stdint.h>
#include <stdlib.h>
#include <string.h>
#include <unistd.h>
#include <sys/mman.h>
#include <sys/syscall.h>

enum tear { OLD, NEW, FIRST_PART, EITHER_BYTE, EITHER_SECTOR, EITHER_WRITE, ZEROS, ONES, SEVENTY_SEVENS, GATES, ANY };

/* A write since the last sync, and what was there before. */
struct span {
    int file;
    off_t at;
    size_t length;
    unsigned char *old;
};

static struct span *spans;
static size_t span_count, span_room;
static long uncounted[4];
static long *counts = uncounted;
#define calls (counts[0])
#define changes (counts[1])
#define reads_in (counts[2])
#define writes_out (counts[3])
static uint64_t seed;

static long number_of(const char *name) {
    const char *given = getenv(name);
    return given ? atol(given) : 0;
}

static uint64_t draw(void) {
    seed ^= seed << 13;
    seed ^= seed >> 7;
    seed ^= seed << 17;
    return seed;
}

static void note_happened(void) {
    const char *happened = getenv("HAPPENED");
    if (happened) {
        long file = syscall(SYS_openat, AT_FDCWD, happened, O_WRONLY | O_CREAT | O_CLOEXEC, 0600);
        if (file >= 0)
            syscall(SYS_close, file);
    }
}

static void keep_old(int file, off_t at, size_t length) {
    if (span_count == span_room) {
        span_room = span_room ? 2 * span_room : 64;
        spans = realloc(spans, span_room * sizeof *spans);
    }
    unsigned char *old = calloc(length ? length : 1, 1);
    if (!spans || !old)
        abort();
    syscall(SYS_pread64, file, old, length, at);
    spans[span_count++] = (struct span){file, at, length, old};
}

static void forget_spans(void) {
    while (span_count)
        free(spans[--span_count].old);
}

static unsigned char torn_byte(enum tear how, unsigned char old, unsigned char new, int is_new) {
    switch (how) {
    case NEW: return new;
    case EITHER_BYTE: return draw() & 1 ? new : old;
    case ZEROS: return 0;
    case ONES: return 1;
    case SEVENTY_SEVENS: return 77;
    case GATES: return draw() & 1;
    case ANY: return (unsigned char)(draw() >> 20);
    case FIRST_PART:
    case EITHER_SECTOR:
    case EITHER_WRITE: return is_new ? new : old;
    default: return old;
    }
}

static void tear_span(const struct span *span, enum tear how, uint64_t sectors) {
    unsigned char *now = malloc(span->length ? span->length : 1);
    if (!now)
        abort();
    syscall(SYS_pread64, span->file, now, span->length, span->at);
    size_t part = draw() % (span->length + 1);
    int whole = draw() & 1;
    for (size_t i = 0; i < span->length; i++) {
        uint64_t sector = (uint64_t)(span->at + (off_t)i) / 512;
        int is_new = how == FIRST_PART ? i < part : how == EITHER_WRITE ? whole : (int)((sectors >> (sector % 64)) & 1);
        now[i] = torn_byte(how, span->old[i], now[i], is_new);
    }
    syscall(SYS_pwrite64, span->file, now, span->length, span->at);
    free(now);
}

static void stop(void) {
    seed = (uint64_t)number_of("SEED") * 0x9E3779B97F4A7C15u + 88172645463325252u;
    uint64_t sectors = draw();
    enum tear how = (enum tear)number_of("TEAR");
    note_happened();
    for (size_t i = span_count; i > 0; i--)
        tear_span(&spans[i - 1], how, sectors);
    kill(getpid(), SIGKILL);
    for (;;)
        pause();
}

/* Whether this call of the device has to fail. */
static int fails(void) {
    calls++;
    long from = number_of("FAIL_CALLS_FROM");
    if (calls != number_of("FAIL_CALL") && !(from && calls >= from))
        return 0;
    note_happened();
    errno = EIO;
    return 1;
}

static int is_stop(void) {
    return ++changes == number_of("STOP_CALL");
}

ssize_t pread(int file, void *to, size_t length, off_t at) {
    return fails() ? -1 : syscall(SYS_pread64, file, to, length, at);
}

ssize_t pwrite(int file, const void *from, size_t length, off_t at) {
    int failed = fails();
    keep_old(file, at, length);
    ssize_t done = syscall(SYS_pwrite64, file, from, failed ? length / 2 : length, at);
    if (is_stop())
        stop();
    if (failed)
        errno = EIO;
    return failed ? -1 : done;
}

static int sync_by(long call, int file) {
    int failed = fails();
    if (is_stop())
        stop();
    if (failed)
        return -1;
    long done = syscall(call, file);
    if (done == 0)
        forget_spans();
    return (int)done;
}

int fdatasync(int file) {
    return sync_by(SYS_fdatasync, file);
}

int fsync(int file) {
    return sync_by(SYS_fsync, file);
}

ssize_t pread64(int file, void *to, size_t length, off_t at) {
    return pread(file, to, length, at);
}

ssize_t pwrite64(int file, const void *from, size_t length, off_t at) {
    return pwrite(file, from, length, at);
}

ssize_t read(int file, void *to, size_t length) {
    reads_in += file == 0;
    return syscall(SYS_read, file, to, length);
}

ssize_t write(int file, const void *from, size_t length) {
    writes_out += file == 1;
    return syscall(SYS_write, file, from, length);
}

/* The numbers are in the file itself, since a program may end without a word. */
__attribute__((constructor)) static void open_counts(void) {
    const char *path = getenv("COUNTS");
    if (!path)
        return;
    int file = (int)syscall(SYS_openat, AT_FDCWD, path, O_RDWR | O_CREAT | O_TRUNC | O_CLOEXEC, 0600);
    if (file < 0 || ftruncate(file, sizeof uncounted) != 0)
        abort();
    void *there = mmap(NULL, sizeof uncounted, PROT_READ | PROT_WRITE, MAP_SHARED, file, 0);
    if (there == MAP_FAILED)
        abort();
    counts = there;
    syscall(SYS_close, file);
}
