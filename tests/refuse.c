/* For LD_PRELOAD: refuses one growth of a program's memory, as where there is no more, and only that one, or all behind it, too.

   A growth is a call of malloc, calloc, realloc, aligned_alloc or posix_memalign; they count from 1, and the one of the number
   REFUSE_AT is refused, and where REFUSE_ON is set all that follow. As it is refused the file REFUSE_TOLD is made, so that who
   started the program knows. When the program ends, the number of growths is written to the file REFUSE_COUNT, if it is set. */
#include <errno.h>
#include <fcntl.h>
#include <stdio.h>
#include <stdlib.h>
#include <unistd.h>

void *__libc_malloc(size_t size);
void *__libc_calloc(size_t count, size_t size);
void *__libc_realloc(void *old, size_t size);
void *__libc_memalign(size_t alignment, size_t size);

static unsigned long growths, refused;
static int on;

__attribute__((constructor)) static void begin(void) {
    const char *at = getenv("REFUSE_AT");
    growths = 0;
    refused = at ? strtoul(at, 0, 10) : 0;
    on = getenv("REFUSE_ON") != 0;
}

__attribute__((destructor)) static void count(void) {
    char text[40];
    int size = snprintf(text, sizeof text, "%lu", growths);
    const char *to = getenv("REFUSE_COUNT");
    int file = to ? open(to, O_WRONLY | O_CREAT | O_TRUNC, 0644) : -1;
    if (file >= 0) {
        if (write(file, text, size) != size)
            _exit(74);
        close(file);
    }
}

static int is_refused(void) {
    growths += 1;
    if (!refused || growths < refused || (growths > refused && !on))
        return 0;
    const char *told = growths == refused ? getenv("REFUSE_TOLD") : 0;
    int file = told ? open(told, O_WRONLY | O_CREAT, 0644) : -1;
    if (file >= 0)
        close(file);
    errno = ENOMEM;
    return 1;
}

void *malloc(size_t size) { return is_refused() ? 0 : __libc_malloc(size); }

void *calloc(size_t count, size_t size) { return is_refused() ? 0 : __libc_calloc(count, size); }

void *realloc(void *old, size_t size) { return is_refused() ? 0 : __libc_realloc(old, size); }

void *aligned_alloc(size_t alignment, size_t size) { return is_refused() ? 0 : __libc_memalign(alignment, size); }

int posix_memalign(void **made, size_t alignment, size_t size) {
    void *found = is_refused() ? 0 : __libc_memalign(alignment, size);
    if (!found)
        return ENOMEM;
    *made = found;
    return 0;
}
