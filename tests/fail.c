/* For LD_PRELOAD: fails one read, write or cut of a file, as where a device breaks, and only that one.

   The calls on the file FAIL_FILE, whose path is told whole, count from 1, and the one of the number FAIL_AT fails. Then the file
   FAIL_TOLD is made, so that who started the program knows: it holds how many bytes were moved before. */
#define _GNU_SOURCE
#include <errno.h>
#include <fcntl.h>
#include <stdio.h>
#include <stdlib.h>
#include <string.h>
#include <sys/syscall.h>
#include <unistd.h>

static unsigned long calls, moved;

static int is_named(int file) {
    char link[40], path[4096];
    const char *name = getenv("FAIL_FILE");
    snprintf(link, sizeof link, "/proc/self/fd/%d", file);
    ssize_t size = readlink(link, path, sizeof path - 1);
    return name && size == (ssize_t)strlen(name) && !memcmp(path, name, size);
}

static void tell(void) {
    char text[40];
    int size = snprintf(text, sizeof text, "%lu", moved);
    const char *told = getenv("FAIL_TOLD");
    int file = told ? open(told, O_WRONLY | O_CREAT | O_TRUNC, 0644) : -1;
    if (file >= 0) {
        syscall(SYS_write, file, text, size);
        close(file);
    }
}

/* Whether this call on a file is the one that fails. */
static int fails(int file) {
    const char *at = getenv("FAIL_AT");
    if (!is_named(file))
        return 0;
    calls += 1;
    if (!at || calls != strtoul(at, 0, 10))
        return 0;
    tell();
    errno = EIO;
    return 1;
}

static ssize_t move(long call, int file, void *bytes, size_t size) {
    if (fails(file))
        return -1;
    if (!is_named(file))
        return syscall(call, file, bytes, size);
    ssize_t done = syscall(call, file, bytes, size);
    moved += done > 0 ? done : 0;
    return done;
}

ssize_t read(int file, void *to, size_t size) { return move(SYS_read, file, to, size); }

ssize_t write(int file, const void *from, size_t size) { return move(SYS_write, file, (void *)from, size); }

ssize_t __write(int file, const void *from, size_t size) { return move(SYS_write, file, (void *)from, size); }

int ftruncate(int file, off_t size) { return fails(file) ? -1 : (int)syscall(SYS_ftruncate, file, size); }

int ftruncate64(int file, off_t size) { return fails(file) ? -1 : (int)syscall(SYS_ftruncate, file, size); }
