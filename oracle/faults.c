// One call of a program to the system goes wrong, by its kind and number. FAULT is `KIND NUMBER COUNT WHAT VALUE`: the
// NUMBER-th call of the kind and those after it, COUNT in all (0: every one), where `all` counts calls of every kind, and
//     fail      is not made, and answers the error VALUE       done   is made, and answers it all the same
//     short     is made with half of its bytes                 wait   is made after VALUE milliseconds
//     kill      ends the program before it                     killed ends it behind it
// The file HIT is made where a call went wrong; at an orderly end the number of calls of each kind is written to CALLS.
// The arguments of each call go on as they came, six registers of x86-64. `faults.py` builds it, and preloads it.
#define _GNU_SOURCE
#include <dlfcn.h>
#include <errno.h>
#include <stdatomic.h>
#include <stdlib.h>
#include <string.h>
#include <sys/syscall.h>

#define KINDS(K)                                                                                                            \
    K(open, SYS_open) K(openat, SYS_openat) K(close, SYS_close) K(lseek, SYS_lseek) K(statx, SYS_statx)                     \
    K(rename, SYS_rename) K(link, SYS_link) K(unlink, SYS_unlink) K(unlinkat, SYS_unlinkat) K(mkdir, SYS_mkdir)             \
    K(getdents64, SYS_getdents64) K(fsync, SYS_fsync) K(fdatasync, SYS_fdatasync) K(flock, SYS_flock) K(fcntl, SYS_fcntl)   \
    K(ftruncate, SYS_ftruncate) K(socket, SYS_socket) K(bind, SYS_bind) K(listen, SYS_listen) K(accept4, SYS_accept4)       \
    K(connect, SYS_connect) K(setsockopt, SYS_setsockopt) K(ioctl, SYS_ioctl) K(epoll_create1, SYS_epoll_create1)           \
    K(epoll_ctl, SYS_epoll_ctl) K(epoll_wait, SYS_epoll_wait) K(eventfd, SYS_eventfd2) K(nanosleep, SYS_nanosleep)
#define PARTS(K) K(read, SYS_read) K(write, SYS_write) K(send, SYS_sendto) K(recv, SYS_recvfrom)

#define NUMBER(name, call) OF_##name,
#define NAME(name, call) #name,
enum { KINDS(NUMBER) PARTS(NUMBER) OF_pthread_create, ALL };
static const char *const names[] = {KINDS(NAME) PARTS(NAME) "pthread_create", "all"};
enum { MOST = 1024 };
static char is_bell[MOST]; // whether the descriptor is one of eventfd, of which no system refuses a read or a write
static atomic_long calls[ALL + 1];
static long first, count, value;
static char kind[32], what[16];

extern long syscall(long number, ...);
extern int sscanf(const char *text, const char *form, ...), dprintf(int file, const char *form, ...);

__attribute__((constructor)) static void begin(void) {
    const char *fault = getenv("FAULT");
    if (fault) sscanf(fault, "%31s %ld %ld %15s %ld", kind, &first, &count, what, &value);
}

// a proved program ends by this call, without destructors
void _exit(int status) {
    const char *name = getenv("CALLS");
    long file = name ? syscall(SYS_open, name, 01101, 0666) : -1;
    for (int of = 0; file >= 0 && of <= ALL; of++) dprintf(file, "%s %ld\n", names[of], atomic_load(&calls[of]));
    for (;;) syscall(SYS_exit_group, status);
}

static int is(const char *word) { return strcmp(what, word) == 0; }

static void killed(void) { syscall(SYS_kill, syscall(SYS_getpid), 9); }

// Counts a call; whether it is one of those that go wrong, and what is done before it.
static int is_hit(int of) {
    long total = atomic_fetch_add(&calls[ALL], 1) + 1, number = atomic_fetch_add(&calls[of], 1) + 1;
    number = strcmp(kind, "all") == 0 ? total : strcmp(kind, names[of]) == 0 ? number : 0;
    if (number == 0 || number < first || (count && number >= first + count)) return 0;
    if (getenv("HIT")) syscall(SYS_close, syscall(SYS_open, getenv("HIT"), 0101, 0666));
    if (is("kill")) killed();
    if (is("wait")) syscall(SYS_nanosleep, (long[]){value / 1000, value % 1000 * 1000000}, 0);
    return 1;
}

static long made(int of, long number, int is_part, long a, long b, long c, long d, long e, long f) {
    int hit = is_part && a >= 0 && a < MOST && is_bell[a] ? 0 : is_hit(of);
    if (hit && is("short") && is_part) c = (c + 1) / 2;
    long answer = hit && is("fail") ? -1 : syscall(number, a, b, c, d, e, f);
    if (of == OF_eventfd && answer >= 0 && answer < MOST) is_bell[answer] = 1;
    if (hit && is("killed")) killed();
    if (hit && (is("fail") || is("done"))) answer = -1, errno = value;
    return answer;
}

#define WHOLE(name, call) \
    long name(long a, long b, long c, long d, long e, long f) { return made(OF_##name, call, 0, a, b, c, d, e, f); }
#define PART(name, call) \
    long name(long a, long b, long c, long d) { return made(OF_##name, call, 1, a, b, c, d, 0, 0); }
KINDS(WHOLE) PARTS(PART)
long __write(long a, long b, long c, long d) { return write(a, b, c, d); }

int pthread_create(void *thread, const void *how, void *(*start)(void *), void *given) {
    int (*made)(void *, const void *, void *(*)(void *), void *) = dlsym(RTLD_NEXT, "pthread_create");
    return is_hit(OF_pthread_create) && is("fail") ? value : made(thread, how, start, given);
}
