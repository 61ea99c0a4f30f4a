/* Lies between a program and the GNU C library, and counts what the program asks of its files; standard input and both
 * outputs apart. At its end one line goes to the file that COUNTS names:
 *
 *     WALL CPU PEAK SYNCS WRITES WRITTEN READS READ FIRST FIRST_CPU
 *
 * microseconds from the start and of processor time, the peak of memory in KB, calls and bytes, and the microseconds
 * from the start to the first write to standard output, with the processor time until then. */
#define _GNU_SOURCE
#include <fcntl.h>
#include <stdatomic.h>
#include <stdio.h>
#include <stdlib.h>
#include <string.h>
#include <sys/resource.h>
#include <sys/syscall.h>
#include <time.h>
#include <unistd.h>

static atomic_long syncs, writes, written, reads, bytes_read, first, first_cpu, is_told;
static long start;

static long now(void) {
    struct timespec at;
    clock_gettime(CLOCK_MONOTONIC, &at);
    return at.tv_sec * 1000000 + at.tv_nsec / 1000;
}

__attribute__((constructor)) static void begin(void) {
    start = now();
}

static long cpu(void) {
    struct rusage spent;
    getrusage(RUSAGE_SELF, &spent);
    return (spent.ru_utime.tv_sec + spent.ru_stime.tv_sec) * 1000000 + spent.ru_utime.tv_usec + spent.ru_stime.tv_usec;
}

/* The peak of this program's memory. What getrusage reports may be that of the shell that started it. */
static long peak(void) {
    static char text[8192];
    int file = open("/proc/self/status", O_RDONLY | O_CLOEXEC);
    long size = syscall(SYS_read, file, text, sizeof text - 1);
    close(file);
    char *line = size > 0 ? strstr(text, "VmHWM:") : NULL;
    return line ? atol(line + 6) : 0;
}

__attribute__((destructor)) static void tell(void) {
    const char *path = getenv("COUNTS");
    if (!path || atomic_exchange(&is_told, 1))
        return;
    long wall = now() - start;
    int file = open(path, O_WRONLY | O_CREAT | O_TRUNC | O_CLOEXEC, 0600);
    dprintf(file, "%ld %ld %ld %ld %ld %ld %ld %ld %ld %ld\n", wall, cpu(), peak(), syncs, writes, written, reads,
            bytes_read, first, first_cpu);
    close(file);
}

void _exit(int status) {
    tell();
    syscall(SYS_exit_group, status);
    __builtin_unreachable();
}

static ssize_t count(ssize_t size, atomic_long *calls, atomic_long *bytes) {
    ++*calls;
    if (size > 0)
        *bytes += size;
    return size;
}

static ssize_t put(int file, const void *from, size_t size) {
    if (file == 1 && !first) {
        first = now() - start;
        first_cpu = cpu();
    }
    ssize_t done = syscall(SYS_write, file, from, size);
    return file > 2 ? count(done, &writes, &written) : done;
}

ssize_t write(int file, const void *from, size_t size) {
    return put(file, from, size);
}

ssize_t __write(int file, const void *from, size_t size) {
    return put(file, from, size);
}

ssize_t read(int file, void *to, size_t size) {
    ssize_t done = syscall(SYS_read, file, to, size);
    return file > 2 ? count(done, &reads, &bytes_read) : done;
}

ssize_t pread(int file, void *to, size_t size, off_t at) {
    return count(syscall(SYS_pread64, file, to, size, at), &reads, &bytes_read);
}

ssize_t pread64(int file, void *to, size_t size, off_t at) {
    return pread(file, to, size, at);
}

ssize_t pwrite(int file, const void *from, size_t size, off_t at) {
    return count(syscall(SYS_pwrite64, file, from, size, at), &writes, &written);
}

ssize_t pwrite64(int file, const void *from, size_t size, off_t at) {
    return pwrite(file, from, size, at);
}

int fdatasync(int file) {
    ++syncs;
    return syscall(SYS_fdatasync, file);
}

int fsync(int file) {
    ++syncs;
    return syscall(SYS_fsync, file);
}
