/* Lies in the guest between the program and the GNU C library at the calls of its device. With REPORTED it reports on
 * descriptor 9 each write and change of length before it is made, and each sync once it has succeeded: a kind (W, T or
 * S), a place, a length and the bytes. Bugs: SKIP=7 leaves out each seventh sync, LATE makes each only at the next
 * call, so what the program says in between comes before it. */
#include <stdint.h>
#include <stdlib.h>
#include <unistd.h>
#include <sys/syscall.h>

static int late = -1; /* the file whose sync is still to be made */
static long syncs;

static void report(char kind, uint64_t at, const void *bytes, uint64_t length) {
    struct {
        const char *bytes;
        uint64_t length;
    } parts[] = {{&kind, 1}, {(char *)&at, 8}, {(char *)&length, 8}, {bytes, length}};
    if (!getenv("REPORTED"))
        return;
    for (int i = 0; i < 4; i++)
        for (uint64_t done = 0; done < parts[i].length;) {
            long more = syscall(SYS_write, 9, parts[i].bytes + done, parts[i].length - done);
            done += more > 0 ? (uint64_t)more : 0;
        }
}

static void make_late_sync(void) {
    if (late >= 0)
        syscall(SYS_fdatasync, late);
    late = -1;
}

ssize_t pwrite(int file, const void *bytes, size_t length, off_t at) {
    make_late_sync();
    report('W', (uint64_t)at, bytes, length);
    return syscall(SYS_pwrite64, file, bytes, length, at);
}

int ftruncate(int file, off_t length) {
    report('T', (uint64_t)length, "", 0);
    return (int)syscall(SYS_ftruncate, file, length);
}

static int sync_by(long call, int file) {
    long result = 0, skip = getenv("SKIP") ? atol(getenv("SKIP")) : 0;
    make_late_sync();
    if (getenv("LATE"))
        late = file;
    else if (skip == 0 || ++syncs % skip)
        result = syscall(call, file);
    if (result == 0)
        report('S', 0, "", 0);
    return (int)result;
}

int fsync(int file) { return sync_by(SYS_fsync, file); }

int fdatasync(int file) { return sync_by(SYS_fdatasync, file); }
