/* For LD_PRELOAD: a clock that advances only when it is read, and short writes.

   Each reading of the clock is METER_STEP milliseconds later than the one before. When the program ends, the number of readings is written
   to the file METER_TOLD. If METER_SHORT is set, a write takes at most so many bytes. */
#define _GNU_SOURCE
#include <fcntl.h>
#include <stdio.h>
#include <stdlib.h>
#include <sys/syscall.h>
#include <time.h>
#include <unistd.h>

static long long readings;

static long long number(const char *name) {
    const char *text = getenv(name);
    return text ? strtoll(text, 0, 10) : 0;
}

int clock_gettime(clockid_t clock, struct timespec *now) {
    long long millis = ++readings * number("METER_STEP");
    (void)clock;
    now->tv_sec = 1000 + millis / 1000;
    now->tv_nsec = millis % 1000 * 1000000;
    return 0;
}

ssize_t write(int file, const void *from, size_t size) {
    size_t most = number("METER_SHORT");
    return syscall(SYS_write, file, from, most && size > most ? most : size);
}

__attribute__((destructor)) static void tell(void) {
    char text[40];
    int size = snprintf(text, sizeof text, "%lld", readings);
    const char *told = getenv("METER_TOLD");
    int file = told ? open(told, O_WRONLY | O_CREAT | O_TRUNC, 0644) : -1;
    if (file >= 0) {
        syscall(SYS_write, file, text, size);
        close(file);
    }
}
