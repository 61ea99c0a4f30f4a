/* Lies between a program and the GNU C library. It refuses one request for memory, or one and all behind
 * it, or one for a thread, or fails one read of standard input or one write of standard output. The
 * environment says which, counted from 1: REFUSE_ONE, REFUSE_FROM, REFUSE_THREAD, FAIL_READ, FAIL_WRITE. Once
 * it has happened it makes the file that HAPPENED names. Where a program writes the lines FROM_HERE and TO_HERE
 * to standard output, it puts two numbers into the file that COUNTED names: of the requests for memory before
 * the first line, and of those between the two. */
#define _GNU_SOURCE
#include <dlfcn.h>
#include <errno.h>
#include <fcntl.h>
#include <pthread.h>
#include <stdlib.h>
#include <string.h>
#include <unistd.h>
#include <sys/syscall.h>

extern void *__libc_malloc(size_t);
extern void *__libc_realloc(void *, size_t);

/* The status of a run that writes to standard output after a write of it has failed. */
#define WROTE_AGAIN 99

#define FROM_HERE "no memory from here\n"
#define TO_HERE "no memory to here\n"

struct turn {
    const char *name;
    long wanted, so_far;
};

static struct turn refused_one = {"REFUSE_ONE", -1, 0};
static struct turn refused_from = {"REFUSE_FROM", -1, 0};
static struct turn thread_turn = {"REFUSE_THREAD", -1, 0};
static struct turn read_turn = {"FAIL_READ", -1, 0};
static struct turn write_turn = {"FAIL_WRITE", -1, 0};

/* Makes the file that the environment names so, with these bytes. */
static void note(const char *name, const void *bytes, size_t size) {
    const char *path = getenv(name);
    if (path) {
        long file = syscall(SYS_openat, AT_FDCWD, path, O_WRONLY | O_CREAT | O_CLOEXEC, 0600);
        if (file >= 0) {
            syscall(SYS_write, file, bytes, size);
            syscall(SYS_close, file);
        }
    }
}

/* Requests for memory so far, and those that came before the line FROM_HERE. */
static long asked, asked_before;

static int is_line(const void *from, size_t size, const char *line) {
    return size == strlen(line) && !memcmp(from, line, size);
}

static void look_for_marks(const void *from, size_t size) {
    if (is_line(from, size, FROM_HERE))
        asked_before = asked;
    if (is_line(from, size, TO_HERE)) {
        long counts[] = {asked_before, asked - asked_before};
        note("COUNTED", counts, sizeof counts);
    }
}

static int is_due(struct turn *turn) {
    if (turn->wanted < 0) {
        const char *given = getenv(turn->name);
        turn->wanted = given ? atol(given) : 0;
    }
    if (++turn->so_far != turn->wanted)
        return 0;
    note("HAPPENED", NULL, 0);
    return 1;
}

static int is_behind(const struct turn *turn) {
    return turn->wanted > 0 && turn->so_far > turn->wanted;
}

static int is_refused(void) {
    asked++;
    int one = is_due(&refused_one);
    return is_due(&refused_from) || is_behind(&refused_from) || one;
}

void *malloc(size_t size) {
    if (is_refused()) {
        errno = ENOMEM;
        return NULL;
    }
    return __libc_malloc(size);
}

void *realloc(void *old, size_t size) {
    if (is_refused()) {
        errno = ENOMEM;
        return NULL;
    }
    return __libc_realloc(old, size);
}

int pthread_create(pthread_t *thread, const pthread_attr_t *how, void *(*run)(void *), void *with) {
    static int (*create)(pthread_t *, const pthread_attr_t *, void *(*)(void *), void *);
    if (is_due(&thread_turn))
        return EAGAIN;
    if (!create)
        *(void **)&create = dlsym(RTLD_NEXT, "pthread_create");
    return create(thread, how, run, with);
}

ssize_t read(int file, void *to, size_t size) {
    if (file == 0 && is_due(&read_turn)) {
        errno = EIO;
        return -1;
    }
    return syscall(SYS_read, file, to, size);
}

ssize_t write(int file, const void *from, size_t size) {
    if (file == 1) {
        look_for_marks(from, size);
        if (is_due(&write_turn)) {
            errno = ENOSPC;
            return -1;
        }
        if (is_behind(&write_turn))
            syscall(SYS_exit_group, WROTE_AGAIN);
    }
    return syscall(SYS_write, file, from, size);
}
