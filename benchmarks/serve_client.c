/* A client that measures a running farm over loopback: `benchmarks/serve.sh` compiles and runs it.
 *
 *   serve_client done ADDRESS COUNT WINDOW Z X Y        COUNT asks for one clean tile on one connection of renderd's
 *                                                       protocol, with at most WINDOW unanswered
 *   serve_client tiles ADDRESS COUNT THREADS Z X Y      COUNT tiles over HTTP, each on a connection of its own
 *   serve_client draw ADDRESS MAPS Z X Y DEEP           the metatiles of tile Z X Y and of the DEEP zooms above it, of
 *                                                       the maps m0, m1 and so on; at most 24 asked for at once
 *   serve_client wait ADDRESS COUNT Z X Y               how long single asks take: the least, the middle, of a hundred
 *                                                       the 99th, and the longest
 *   serve_client view ADDRESS SECONDS VIEWERS Z X Y [PATH]
 *                                                       so many that each get one tile over HTTP every 2 ms for so long, on
 *                                                       a connection of its own: the middle, of a hundred the 99th, and the
 *                                                       longest wait, in ms; with PATH another page, of whatever server
 *   serve_client idle ADDRESS COUNT                     COUNT connections that say nothing, until it is killed (or 600 s)
 *
 * An address is tcp:a.b.c.d:port or unix:path. Each prints one line: a number of answers and the seconds they took,
 * or the waits in microseconds or, of `view`, in milliseconds. An answer that is not Done, or no 200, ends it with status 1.
 */
#define _GNU_SOURCE
#include <arpa/inet.h>
#include <errno.h>
#include <netinet/tcp.h>
#include <pthread.h>
#include <stdint.h>
#include <stdio.h>
#include <stdlib.h>
#include <string.h>
#include <sys/socket.h>
#include <sys/un.h>
#include <time.h>
#include <unistd.h>

enum { LENGTH = 64, PIECE = 1 << 16, SECONDS = 120 };

static void fail(const char *what)
{
    fprintf(stderr, "serve_client: %s: %s\n", what, errno ? strerror(errno) : "not as wanted");
    exit(1);
}

static double now(void)
{
    struct timespec at;
    clock_gettime(CLOCK_MONOTONIC, &at);
    return at.tv_sec + at.tv_nsec / 1e9;
}

static int connected(const char *address)
{
    int made;
    struct timeval bound = {SECONDS, 0};
    if (!strncmp(address, "unix:", 5)) {
        struct sockaddr_un to = {.sun_family = AF_UNIX};
        strncpy(to.sun_path, address + 5, sizeof to.sun_path - 1);
        made = socket(AF_UNIX, SOCK_STREAM, 0);
        if (made < 0 || connect(made, (struct sockaddr *)&to, sizeof to)) fail(address);
    } else {
        struct sockaddr_in to = {.sin_family = AF_INET};
        char host[32];
        unsigned port;
        int one = 1;
        if (sscanf(address, "tcp:%31[0-9.]:%u", host, &port) != 2) fail(address);
        to.sin_port = htons(port);
        if (inet_pton(AF_INET, host, &to.sin_addr) != 1) fail(address);
        made = socket(AF_INET, SOCK_STREAM, 0);
        if (made < 0 || connect(made, (struct sockaddr *)&to, sizeof to)) fail(address);
        setsockopt(made, IPPROTO_TCP, TCP_NODELAY, &one, sizeof one);
    }
    setsockopt(made, SOL_SOCKET, SO_RCVTIMEO, &bound, sizeof bound);
    setsockopt(made, SOL_SOCKET, SO_SNDTIMEO, &bound, sizeof bound);
    return made;
}

static void send_all(int to, const void *bytes, size_t count)
{
    const char *at = bytes;
    while (count) {
        ssize_t taken = send(to, at, count, MSG_NOSIGNAL);
        if (taken <= 0) fail("send");
        at += taken;
        count -= taken;
    }
}

static void put(unsigned char *at, uint32_t number)
{
    for (int place = 0; place < 4; place++) at[place] = number >> (8 * place);
}

/* A Render of version 2. */
static void ask(unsigned char *made, const char *map, uint32_t z, uint32_t x, uint32_t y)
{
    memset(made, 0, LENGTH);
    put(made, 2);
    put(made + 4, 1);
    put(made + 8, x);
    put(made + 12, y);
    put(made + 16, z);
    strncpy((char *)made + 20, map, 40);
}

/* Reads whole answers, all of them Done, and tells how many; what is left of one is kept for the next call. */
static size_t answers(int from, unsigned char *kept, size_t *have)
{
    ssize_t got = recv(from, kept + *have, PIECE - *have, 0);
    if (got <= 0) fail("recv");
    *have += got;
    size_t whole = *have / LENGTH;
    for (size_t place = 0; place < whole; place++)
        if (kept[place * LENGTH + 4] != 3) errno = 0, fail("an answer other than Done");
    memmove(kept, kept + whole * LENGTH, *have - whole * LENGTH);
    *have -= whole * LENGTH;
    return whole;
}

static int measure_done(const char *address, long count, long window, uint32_t z, uint32_t x, uint32_t y)
{
    static unsigned char kept[PIECE], asks[PIECE];
    size_t have = 0;
    long sent = 0, told = 0;
    int with = connected(address);
    if (window < 1 || window > PIECE / LENGTH) errno = 0, fail("the window");
    for (long place = 0; place < window; place++) ask(asks + place * LENGTH, "default", z, x, y);
    double begin = now();
    while (told < count) {
        long more = count - sent < window - (sent - told) ? count - sent : window - (sent - told);
        /* asks are sent in halves of the window, so that both sides have something to do */
        if (more > 0 && (more >= window / 2 || sent + more == count)) {
            send_all(with, asks, more * LENGTH);
            sent += more;
        }
        told += answers(with, kept, &have);
    }
    printf("%ld %.6f\n", told, now() - begin);
    return 0;
}

struct pages {
    const char *address;
    char request[128];
    long count, bytes;
};

static void *read_pages(void *given)
{
    struct pages *of = given;
    char *piece = malloc(PIECE);
    for (long page = 0; page < of->count; page++) {
        int with = connected(of->address);
        long bytes = 0;
        send_all(with, of->request, strlen(of->request));
        for (;;) {
            ssize_t got = recv(with, piece, PIECE, 0);
            if (got < 0) fail("recv");
            if (got == 0) break;
            if (bytes == 0 && (got < 12 || strncmp(piece + 9, "200", 3))) errno = 0, fail("a page other than 200");
            bytes += got;
        }
        close(with);
        of->bytes += bytes;
    }
    free(piece);
    return NULL;
}

static int measure_tiles(const char *address, long count, long threads, uint32_t z, uint32_t x, uint32_t y)
{
    pthread_t made[64];
    struct pages parts[64];
    long bytes = 0;
    if (threads < 1 || threads > 64) errno = 0, fail("the threads");
    double begin = now();
    for (long place = 0; place < threads; place++) {
        parts[place] = (struct pages){.address = address, .count = count / threads};
        snprintf(parts[place].request, sizeof parts[place].request, "GET /default/%u/%u/%u.ppm HTTP/1.1\r\nHost: farm\r\n\r\n", z, x, y);
        if (pthread_create(&made[place], NULL, read_pages, &parts[place])) fail("a thread");
    }
    for (long place = 0; place < threads; place++) {
        pthread_join(made[place], NULL);
        bytes += parts[place].bytes;
    }
    printf("%ld %.6f %ld\n", count / threads * threads, now() - begin, bytes);
    return 0;
}

static int by_size(const void *one, const void *other)
{
    double a = *(const double *)one, b = *(const double *)other;
    return (a > b) - (a < b);
}

struct viewer {
    struct pages page;
    double until, *waits;
    long most, count;
};

static void *view(void *given)
{
    struct viewer *of = given;
    while (of->count < of->most && now() < of->until) {
        double asked = now();
        read_pages(&of->page);
        of->waits[of->count++] = (now() - asked) * 1e3;
        usleep(2000);
    }
    return NULL;
}

static int measure_view(const char *address, long seconds, long viewers, uint32_t z, uint32_t x, uint32_t y, const char *path)
{
    pthread_t made[64];
    struct viewer parts[64];
    long most = seconds * 500 + 1, count = 0;
    if (viewers < 1 || viewers > 64) errno = 0, fail("the viewers");
    double *waits = malloc(viewers * most * sizeof *waits), until = now() + seconds;
    for (long place = 0; place < viewers; place++) {
        parts[place] = (struct viewer){.page = {.address = address, .count = 1}, .until = until, .most = most, .waits = waits + place * most};
        char tile[64];
        snprintf(tile, sizeof tile, "/default/%u/%u/%u.ppm", z, x, y);
        snprintf(parts[place].page.request, sizeof parts[place].page.request, "GET %s HTTP/1.1\r\nHost: farm\r\nConnection: close\r\n\r\n", path ? path : tile);
        if (pthread_create(&made[place], NULL, view, &parts[place])) fail("a thread");
    }
    for (long place = 0; place < viewers; place++) {
        pthread_join(made[place], NULL);
        memmove(waits + count, parts[place].waits, parts[place].count * sizeof *waits);
        count += parts[place].count;
    }
    qsort(waits, count, sizeof *waits, by_size);
    printf("%.1f %.1f %.1f\n", waits[count / 2], waits[count * 99 / 100], waits[count - 1]);
    free(waits);
    return 0;
}

static int measure_draw(const char *address, long maps, uint32_t z, uint32_t x, uint32_t y, long deep)
{
    static unsigned char kept[PIECE], made[LENGTH];
    size_t have = 0;
    long total = maps * (deep + 1), sent = 0, told = 0;
    int with = connected(address);
    double begin = now();
    while (told < total) {
        while (sent < total && sent - told < 24) {
            long up = sent / maps;
            char map[32];
            snprintf(map, sizeof map, "m%ld", sent % maps);
            ask(made, map, z - up, x >> up, y >> up);
            send_all(with, made, LENGTH);
            sent++;
        }
        told += answers(with, kept, &have);
    }
    printf("%ld %.6f\n", told, now() - begin);
    return 0;
}

static int measure_wait(const char *address, long count, uint32_t z, uint32_t x, uint32_t y)
{
    static unsigned char kept[PIECE], made[LENGTH];
    double *waits = malloc(count * sizeof *waits);
    size_t have = 0;
    int with = connected(address);
    ask(made, "default", z, x, y);
    for (long place = 0; place < count; place++) {
        double begin = now();
        send_all(with, made, LENGTH);
        while (!answers(with, kept, &have)) {}
        waits[place] = (now() - begin) * 1e6;
    }
    qsort(waits, count, sizeof *waits, by_size);
    printf("%.0f %.0f %.0f %.0f\n", waits[0], waits[count / 2], waits[count * 99 / 100], waits[count - 1]);
    free(waits);
    return 0;
}

static int hold_idle(const char *address, long count)
{
    for (long place = 0; place < count; place++) connected(address);
    printf("%ld\n", count);
    fflush(stdout);
    sleep(600);
    return 0;
}

int main(int count, char **words)
{
    long n[5] = {0};
    if (count < 4) errno = 0, fail("the words: see the head of serve_client.c");
    for (int place = 3; place < count && place < 8; place++) n[place - 3] = atol(words[place]);
    if (!strcmp(words[1], "done") && count == 8) return measure_done(words[2], n[0], n[1], n[2], n[3], n[4]);
    if (!strcmp(words[1], "tiles") && count == 8) return measure_tiles(words[2], n[0], n[1], n[2], n[3], n[4]);
    if (!strcmp(words[1], "draw") && count == 8) return measure_draw(words[2], n[0], n[1], n[2], n[3], n[4]);
    if (!strcmp(words[1], "wait") && count == 7) return measure_wait(words[2], n[0], n[1], n[2], n[3]);
    if (!strcmp(words[1], "view") && count >= 8) return measure_view(words[2], n[0], n[1], n[2], n[3], n[4], count > 8 ? words[8] : NULL);
    if (!strcmp(words[1], "idle") && count == 4) return hold_idle(words[2], n[0]);
    errno = 0;
    fail("the words: see the head of serve_client.c");
    return 1;
}
