// Preloaded into a program that reads a database, it runs the command TEAR_BY before its read number TEAR_AT of a file whose name
// ends in '.db': what is read before and what is read after it is then of two moments.
#define _GNU_SOURCE
#include <dlfcn.h>
#include <limits.h>
#include <stdio.h>
#include <stdlib.h>
#include <string.h>
#include <sys/types.h>
#include <unistd.h>

static long reads;

// Counts a read, and runs the command before the one that it is for.
static void tear(int file)
{
    char link[64], path[PATH_MAX];
    const char *at = getenv("TEAR_AT"), *by = getenv("TEAR_BY");
    snprintf(link, sizeof link, "/proc/self/fd/%d", file);
    ssize_t size = readlink(link, path, sizeof path);
    if (at == NULL || by == NULL || size < 3 || memcmp(path + size - 3, ".db", 3) != 0 || ++reads != atol(at))
        return;
    // (the command is run as it is)
    unsetenv("LD_PRELOAD");
    if (system(by) != 0)
        _exit(99);
}

#define NEXT(type, name) ((type)dlsym(RTLD_NEXT, name))

ssize_t read(int file, void *octets, size_t size)
{
    tear(file);
    return NEXT(ssize_t (*)(int, void *, size_t), "read")(file, octets, size);
}

ssize_t pread(int file, void *octets, size_t size, off_t at)
{
    tear(file);
    return NEXT(ssize_t (*)(int, void *, size_t, off_t), "pread")(file, octets, size, at);
}

ssize_t pread64(int file, void *octets, size_t size, off64_t at)
{
    tear(file);
    return NEXT(ssize_t (*)(int, void *, size_t, off64_t), "pread64")(file, octets, size, at);
}
