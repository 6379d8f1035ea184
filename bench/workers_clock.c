/* Tells how long a program takes from the last byte that it reads to the first file that it opens for writing.

   It stands between a program and its C library (LD_PRELOAD), and is for programs that read all of their input before they
   open the first output. The seconds are written to standard error. */
#define _GNU_SOURCE
#include <dlfcn.h>
#include <fcntl.h>
#include <stdarg.h>
#include <stdio.h>
#include <sys/types.h>
#include <time.h>
#include <unistd.h>

static struct timespec last_read;
static int has_told;

static ssize_t (*next_read)(int, void *, size_t);
static int (*next_open)(const char *, int, ...);

__attribute__((constructor)) static void find_next(void)
{
    next_read = (ssize_t (*)(int, void *, size_t))dlsym(RTLD_NEXT, "read");
    next_open = (int (*)(const char *, int, ...))dlsym(RTLD_NEXT, "open");
}

static void tell(void)
{
    struct timespec now;
    clock_gettime(CLOCK_MONOTONIC, &now);
    has_told = 1;
    dprintf(STDERR_FILENO, "%.6f\n", (now.tv_sec - last_read.tv_sec) + (now.tv_nsec - last_read.tv_nsec) * 1e-9);
}

ssize_t read(int file, void *bytes, size_t count)
{
    ssize_t got = next_read(file, bytes, count);
    if (!has_told)
        clock_gettime(CLOCK_MONOTONIC, &last_read);
    return got;
}

int open(const char *name, int flags, ...)
{
    int mode = 0;
    if (flags & O_CREAT) {
        va_list rest;
        va_start(rest, flags);
        mode = va_arg(rest, int);
        va_end(rest);
    }
    if (!has_told && (flags & O_ACCMODE) != O_RDONLY)
        tell();
    return next_open(name, flags, mode);
}
