// Preloaded, it has each sync of a file take two milliseconds at least, as a disk takes it whose every sync reaches the platter.
#define _GNU_SOURCE
#include <dlfcn.h>
#include <time.h>

static const long LEAST = 2000000;

static long now(void) {
    struct timespec t;
    clock_gettime(CLOCK_MONOTONIC, &t);
    return t.tv_sec * 1000000000L + t.tv_nsec;
}

static int slowly(const char *name, int file) {
    int (*sync_file)(int) = (int (*)(int))dlsym(RTLD_NEXT, name);
    long begin = now();
    int result = sync_file(file);
    long left = LEAST - (now() - begin);
    if (left > 0) {
        struct timespec rest = {0, left};
        nanosleep(&rest, 0);
    }
    return result;
}

int fsync(int file) { return slowly("fsync", file); }

int fdatasync(int file) { return slowly("fdatasync", file); }
