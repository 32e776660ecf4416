// One growth of a program is refused, by its number: the REFUSE-th call of malloc or realloc answers that there is no
// memory. All others are the C library's. Where GROWTHS names a file, the number of calls is written there at the end.
// `refused.py` builds it, and preloads it to the program.
#define _GNU_SOURCE
#include <stdatomic.h>
#include <stdio.h>
#include <stdlib.h>
#include <sys/syscall.h>
#include <unistd.h>

extern void *__libc_malloc(size_t size);
extern void *__libc_realloc(void *block, size_t size);

static atomic_long calls;
static long refused;

__attribute__((constructor)) static void begin(void) {
    const char *number = getenv("REFUSE");
    atomic_store(&calls, 0);
    refused = number ? atol(number) : 0;
}

static void tell(void) {
    long counted = atomic_load(&calls);
    const char *name = getenv("GROWTHS");
    FILE *out = name ? fopen(name, "w") : 0;
    if (out) {
        fprintf(out, "%ld\n", counted);
        fclose(out);
    }
}

__attribute__((destructor)) static void end(void) { tell(); }

// a proved program ends by this call, without destructors
void _exit(int status) {
    tell();
    for (;;) {
        syscall(SYS_exit_group, status);
    }
}

static int is_refused(void) { return atomic_fetch_add(&calls, 1) + 1 == refused; }

void *malloc(size_t size) { return is_refused() ? 0 : __libc_malloc(size); }

void *realloc(void *block, size_t size) { return is_refused() ? 0 : __libc_realloc(block, size); }
