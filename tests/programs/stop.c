// Preloaded into a program, it ends the program, as kill -9 does, before its call number STOP_AT that writes, syncs or cuts
// a file; or fails that call and all of them behind it, with FAIL_AT, as a device that is lost does.
#define _GNU_SOURCE
#include <dlfcn.h>
#include <errno.h>
#include <stdlib.h>
#include <sys/stat.h>
#include <sys/types.h>
#include <unistd.h>

static long calls, stop, fail;

static long number_of(const char *name)
{
    const char *number = getenv(name);
    return number ? atol(number) : 0;
}

__attribute__((constructor)) static void begin(void)
{
    stop = number_of("STOP_AT");
    fail = number_of("FAIL_AT");
}

// Counts a call, and tells whether it fails.
static int fails(int file)
{
    struct stat what;
    if (file <= 2 || fstat(file, &what) != 0 || !S_ISREG(what.st_mode))
        return 0;
    if (++calls == stop)
        _exit(137);
    if (fail == 0 || calls < fail)
        return 0;
    errno = EIO;
    return 1;
}

#define NEXT(type, name) ((type)dlsym(RTLD_NEXT, name))

ssize_t write(int file, const void *octets, size_t size)
{
    return fails(file) ? -1 : NEXT(ssize_t (*)(int, const void *, size_t), "write")(file, octets, size);
}

ssize_t pwrite(int file, const void *octets, size_t size, off_t at)
{
    return fails(file) ? -1 : NEXT(ssize_t (*)(int, const void *, size_t, off_t), "pwrite")(file, octets, size, at);
}

ssize_t pwrite64(int file, const void *octets, size_t size, off64_t at)
{
    return fails(file) ? -1 : NEXT(ssize_t (*)(int, const void *, size_t, off64_t), "pwrite64")(file, octets, size, at);
}

int fsync(int file)
{
    return fails(file) ? -1 : NEXT(int (*)(int), "fsync")(file);
}

int fdatasync(int file)
{
    return fails(file) ? -1 : NEXT(int (*)(int), "fdatasync")(file);
}

int ftruncate(int file, off_t size)
{
    return fails(file) ? -1 : NEXT(int (*)(int, off_t), "ftruncate")(file, size);
}

int ftruncate64(int file, off64_t size)
{
    return fails(file) ? -1 : NEXT(int (*)(int, off64_t), "ftruncate64")(file, size);
}
