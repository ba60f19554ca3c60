/* hostile.c: a library to be loaded before a program (LD_PRELOAD) by hostile.py.
 *
 * HOSTILE_GROWTH=N     the Nth call for memory is refused (from 1; none where it is not set); every later one is granted
 * HOSTILE_READ=N       a read gives at most N bytes
 * HOSTILE_WRITE=N      a write takes at most N bytes
 * HOSTILE_ROOM=N       standard output takes N bytes in all, and each write after them fails with ENOSPC
 * HOSTILE_COUNT=FILE   at the end the number of calls for memory is written there
 */
#define _GNU_SOURCE
#include <dlfcn.h>
#include <errno.h>
#include <stdio.h>
#include <stdlib.h>
#include <string.h>
#include <unistd.h>

static unsigned long calls;
static long refused = -1, most_read = -1, most_written = -1, room = -1;
static void *(*real_malloc)(size_t);
static void *(*real_realloc)(void *, size_t);
static ssize_t (*real_read)(int, void *, size_t);
static ssize_t (*real_write)(int, const void *, size_t);

static long number_in(const char *name)
{
    const char *text = getenv(name);
    return text ? atol(text) : -1;
}

__attribute__((constructor)) static void begin(void)
{
    real_malloc = dlsym(RTLD_NEXT, "malloc");
    real_realloc = dlsym(RTLD_NEXT, "realloc");
    real_read = dlsym(RTLD_NEXT, "read");
    real_write = dlsym(RTLD_NEXT, "write");
    refused = number_in("HOSTILE_GROWTH");
    most_read = number_in("HOSTILE_READ");
    most_written = number_in("HOSTILE_WRITE");
    room = number_in("HOSTILE_ROOM");
    calls = 0;
}

__attribute__((destructor)) static void end(void)
{
    const char *name = getenv("HOSTILE_COUNT");
    unsigned long made = calls;
    FILE *file = name ? fopen(name, "w") : NULL;
    if (file) {
        fprintf(file, "%lu\n", made);
        fclose(file);
    }
}

static int is_refused(void)
{
    return (long)++calls == refused;
}

void *malloc(size_t size)
{
    if (!real_malloc)
        real_malloc = dlsym(RTLD_NEXT, "malloc");
    if (is_refused()) {
        errno = ENOMEM;
        return NULL;
    }
    return real_malloc(size);
}

void *realloc(void *old, size_t size)
{
    if (!real_realloc)
        real_realloc = dlsym(RTLD_NEXT, "realloc");
    if (is_refused()) {
        errno = ENOMEM;
        return NULL;
    }
    return real_realloc(old, size);
}

ssize_t read(int file, void *to, size_t count)
{
    if (!real_read)
        real_read = dlsym(RTLD_NEXT, "read");
    return real_read(file, to, most_read > 0 && count > (size_t)most_read ? (size_t)most_read : count);
}

ssize_t write(int file, const void *from, size_t count)
{
    if (!real_write)
        real_write = dlsym(RTLD_NEXT, "write");
    if (most_written > 0 && count > (size_t)most_written)
        count = (size_t)most_written;
    if (file == STDOUT_FILENO && room >= 0) {
        if (room == 0 && count > 0) {
            errno = ENOSPC;
            return -1;
        }
        if (count > (size_t)room)
            count = (size_t)room;
        room -= (long)count;
    }
    return real_write(file, from, count);
}
