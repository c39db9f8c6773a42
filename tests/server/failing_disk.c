// Lets the writes, cuts and syncs of a file fail once so many were done: FAILS_AFTER=N of all, or FAILS_IN_CHECKPOINT=N of those from the first checkpoint of a
// journal on. The first write that fails has written half of its bytes.
#define _GNU_SOURCE
#include <dlfcn.h>
#include <errno.h>
#include <pthread.h>
#include <stdlib.h>
#include <sys/types.h>

static long left = -1;
static int waits, failed;
static pthread_mutex_t lock = PTHREAD_MUTEX_INITIALIZER;

__attribute__((constructor)) static void start(void) {
    const char *all = getenv("FAILS_AFTER"), *behind = getenv("FAILS_IN_CHECKPOINT");
    if (all) left = atol(all);
    else if (behind) { left = atol(behind); waits = 1; }
}

// 0: it goes on, 1: it is the first that fails, 2: it fails as one did before
static int fails(int begins) {
    int answer = 0;
    pthread_mutex_lock(&lock);
    if (begins) waits = 0;
    if (waits) answer = 0;
    else if (left == 0) { answer = failed ? 2 : 1; failed = 1; }
    else if (left > 0) left--;
    pthread_mutex_unlock(&lock);
    return answer;
}

// a checkpoint begins with a gate at place 8 that is closed, or with a cut
static ssize_t writes(const char *name, int file, const void *bytes, size_t count, off64_t place) {
    ssize_t (*real)(int, const void *, size_t, off64_t) = dlsym(RTLD_NEXT, name);
    int how = fails(count == 1 && place == 8);
    if (how == 0) return real(file, bytes, count, place);
    if (how == 1) real(file, bytes, count / 2, place);
    errno = EIO;
    return -1;
}

ssize_t pwrite64(int file, const void *bytes, size_t count, off64_t place) { return writes("pwrite64", file, bytes, count, place); }

ssize_t pwrite(int file, const void *bytes, size_t count, off_t place) { return writes("pwrite64", file, bytes, count, place); }

static int cuts(const char *name, int file, off64_t length) {
    int (*real)(int, off64_t) = dlsym(RTLD_NEXT, name);
    if (fails(1)) { errno = EIO; return -1; }
    return real(file, length);
}

int ftruncate64(int file, off64_t length) { return cuts("ftruncate64", file, length); }

int ftruncate(int file, off_t length) { return cuts("ftruncate64", file, length); }

static int syncs(const char *name, int file) {
    int (*real)(int) = dlsym(RTLD_NEXT, name);
    if (fails(0)) { errno = EIO; return -1; }
    return real(file);
}

int fdatasync(int file) { return syncs("fdatasync", file); }

int fsync(int file) { return syncs("fsync", file); }
