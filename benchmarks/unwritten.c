/* Preloaded: a write of a container is told as done and is left out, so that no disk and no file system is measured.
 * The processor time that the process has taken until then goes into the file NOTES, a line of nanoseconds for each.
 *
 *   cc -O2 -shared -fPIC -o unwritten.so benchmarks/unwritten.c
 */
#include <fcntl.h>
#include <stdio.h>
#include <stdlib.h>
#include <sys/syscall.h>
#include <time.h>
#include <unistd.h>

/* No other write of the program is as long. */
#define CONTAINER 100000

static void note(void) {
    static int notes = -1;
    struct timespec taken;
    if (notes < 0 && getenv("NOTES"))
        notes = open(getenv("NOTES"), O_WRONLY | O_CREAT | O_APPEND | O_CLOEXEC, 0644);
    clock_gettime(CLOCK_PROCESS_CPUTIME_ID, &taken);
    if (notes >= 0)
        dprintf(notes, "%lld\n", (long long)taken.tv_sec * 1000000000 + taken.tv_nsec);
}

static ssize_t written(int file, const void *bytes, size_t count) {
    if (count < CONTAINER)
        return syscall(SYS_write, file, bytes, count);
    note();
    return count;
}

ssize_t write(int file, const void *bytes, size_t count) { return written(file, bytes, count); }
ssize_t __write(int file, const void *bytes, size_t count) { return written(file, bytes, count); }
