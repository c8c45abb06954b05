/* Preloaded: appends to the file that STAMPS names how many milliseconds lay between the end of the last read and the end
 * of the last sync of a process. */
#define _GNU_SOURCE
#include <dlfcn.h>
#include <stdio.h>
#include <stdlib.h>
#include <sys/types.h>
#include <time.h>
#include <unistd.h>

static double read_at, synced_at;

static double now(void)
{
    struct timespec t;
    clock_gettime(CLOCK_MONOTONIC, &t);
    return t.tv_sec * 1e3 + t.tv_nsec / 1e6;
}

#define STAMPED(type, name, parameters, arguments, at) \
    type name parameters                               \
    {                                                  \
        static type(*next) parameters;                 \
        if (!next)                                     \
            next = (type(*) parameters)dlsym(RTLD_NEXT, #name); \
        type result = next arguments;                  \
        at = now();                                    \
        return result;                                 \
    }

STAMPED(ssize_t, read, (int file, void *bytes, size_t count), (file, bytes, count), read_at)
STAMPED(ssize_t, pread, (int file, void *bytes, size_t count, off_t place), (file, bytes, count, place), read_at)
STAMPED(ssize_t, pread64, (int file, void *bytes, size_t count, off_t place), (file, bytes, count, place), read_at)
STAMPED(int, fsync, (int file), (file), synced_at)
STAMPED(int, fdatasync, (int file), (file), synced_at)

__attribute__((destructor)) static void tell(void)
{
    const char *name = getenv("STAMPS");
    FILE *file = name ? fopen(name, "a") : NULL;
    if (file) {
        fprintf(file, "%.4f\n", synced_at - read_at);
        fclose(file);
    }
}
