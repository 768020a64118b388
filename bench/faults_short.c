/* Loaded in front of the C library (LD_PRELOAD), has a program's reads and writes take fewer bytes than they are asked
   to, as the system may have it at any time. bench/faults_short.py says by the environment which:

     SHORT_MOST=N   each of them takes N bytes at most
     SHORT_AT=K     the Kth of them takes half of its bytes
     SHORT_THEN=E   the one behind that fails with the error of number E, or is a kill where E is -1
     SHORT_TOLD=F   a file of 16 bytes that gets two counts: of all of them, and of those that were cut short

   Each makes its call of the system itself, so nothing is told that the system didn't do. */
#define _GNU_SOURCE
#include <errno.h>
#include <fcntl.h>
#include <signal.h>
#include <stdatomic.h>
#include <stdlib.h>
#include <sys/mman.h>
#include <sys/syscall.h>
#include <sys/uio.h>
#include <unistd.h>

static struct counts { atomic_long calls, cut; } unseen, *told = &unseen;
static long most, at, then;

static long number_of(const char *name) {
    const char *text = getenv(name);
    return text ? strtol(text, NULL, 10) : 0;
}

__attribute__((constructor)) static void begin(void) {
    const char *path = getenv("SHORT_TOLD");
    int file = path ? open(path, O_RDWR) : -1;
    void *place = file < 0 ? MAP_FAILED : mmap(NULL, sizeof *told, PROT_READ | PROT_WRITE, MAP_SHARED, file, 0);
    if (place == MAP_FAILED) abort();
    close(file);
    told = place;
    most = number_of("SHORT_MOST");
    at = number_of("SHORT_AT");
    then = number_of("SHORT_THEN");
}

/* How many bytes a call takes that is asked for so many; less than 0 where it fails. */
static ssize_t taken(size_t asked) {
    long number = atomic_fetch_add(&told->calls, 1) + 1;
    size_t some = most && asked > (size_t)most ? (size_t)most : asked;
    if (then && number == at + 1) {
        if (then < 0) raise(SIGKILL);
        errno = (int)then;
        return -1;
    }
    if (number == at && asked > 1) some = asked / 2;
    if (some < asked) atomic_fetch_add(&told->cut, 1);
    return (ssize_t)some;
}

ssize_t read(int file, void *bytes, size_t asked) {
    ssize_t some = taken(asked);
    return some < 0 ? some : syscall(SYS_read, file, bytes, some);
}

ssize_t write(int file, const void *bytes, size_t asked) {
    ssize_t some = taken(asked);
    return some < 0 ? some : syscall(SYS_write, file, bytes, some);
}

ssize_t pread64(int file, void *bytes, size_t asked, off64_t place) {
    ssize_t some = taken(asked);
    return some < 0 ? some : syscall(SYS_pread64, file, bytes, some, place);
}

ssize_t pwrite64(int file, const void *bytes, size_t asked, off64_t place) {
    ssize_t some = taken(asked);
    return some < 0 ? some : syscall(SYS_pwrite64, file, bytes, some, place);
}

/* Of several pieces the first one that has bytes. */
ssize_t writev(int file, const struct iovec *pieces, int count) {
    while (count > 1 && pieces->iov_len == 0) pieces++, count--;
    return count > 0 ? write(file, pieces->iov_base, pieces->iov_len) : syscall(SYS_writev, file, pieces, count);
}

ssize_t readv(int file, const struct iovec *pieces, int count) {
    while (count > 1 && pieces->iov_len == 0) pieces++, count--;
    return count > 0 ? read(file, pieces->iov_base, pieces->iov_len) : syscall(SYS_readv, file, pieces, count);
}

ssize_t pread(int, void *, size_t, off_t) __attribute__((alias("pread64")));
ssize_t pwrite(int, const void *, size_t, off_t) __attribute__((alias("pwrite64")));
ssize_t __write(int, const void *, size_t) __attribute__((alias("write")));
ssize_t __read(int, void *, size_t) __attribute__((alias("read")));
