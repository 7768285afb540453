/* Calls over TCP, as many in flight at once as are asked for: load PORT CONNECTIONS IN_FLIGHT SECONDS CALLS [PID]

CALLS is a file: for each call in flight of each connection a count, and so many records; all numbers have four bytes, the
highest first. Each call in flight repeats its records in turn, with numbers of its own. A reply is held to its number and,
where it has a result, to the status 0. It prints calls a second, the middle and the 99th percentile of how long a call took,
and the processor time a call of the process PID. */
#define _GNU_SOURCE
#include <arpa/inet.h>
#include <errno.h>
#include <fcntl.h>
#include <netinet/tcp.h>
#include <stdint.h>
#include <stdio.h>
#include <stdlib.h>
#include <string.h>
#include <sys/epoll.h>
#include <sys/stat.h>
#include <time.h>
#include <unistd.h>

/* A call in flight: its records, which comes next, and when the last was sent. */
struct flight {
    uint8_t **records;
    uint32_t count, next;
    uint64_t sent;
};
struct connection {
    int socket;
    struct flight *flights;
    uint8_t *in, *out;
    size_t got, put, gone;
};
enum { ROOM = 1 << 22 };

static uint32_t in_flight;
static uint64_t done, refused, samples, *waits;
static int measures;

static void stop(const char *why) {
    fprintf(stderr, "load: %s\n", why);
    exit(1);
}
static uint64_t now(void) {
    struct timespec it;
    clock_gettime(CLOCK_MONOTONIC, &it);
    return it.tv_sec * 1000000000ull + it.tv_nsec;
}
static uint32_t word(const uint8_t *at) {
    uint32_t it;
    memcpy(&it, at, 4);
    return ntohl(it);
}
static void set_word(uint8_t *at, uint32_t value) {
    value = htonl(value);
    memcpy(at, &value, 4);
}
static void put(struct connection *it, uint32_t at) {
    struct flight *flight = &it->flights[at];
    uint8_t *record = flight->records[flight->next];
    size_t length = 4 + (word(record) & 0x7fffffff);
    if (it->put + length > ROOM) stop("no room");
    memcpy(it->out + it->put, record, length);
    set_word(it->out + it->put + 4, at);
    it->put += length;
    flight->next = (flight->next + 1) % flight->count;
    flight->sent = now();
}
static void send_all(struct connection *it, int poll) {
    while (it->gone < it->put) {
        ssize_t count = write(it->socket, it->out + it->gone, it->put - it->gone);
        if (count < 0 && errno == EAGAIN) break;
        if (count < 0) stop("a write failed");
        it->gone += count;
    }
    if (it->gone == it->put) it->gone = it->put = 0;
    struct epoll_event event = {.events = EPOLLIN | (it->put ? EPOLLOUT : 0), .data.ptr = it};
    epoll_ctl(poll, EPOLL_CTL_MOD, it->socket, &event);
}
static void take_replies(struct connection *it) {
    size_t at = 0;
    uint64_t then = now();
    while (it->got - at >= 8) {
        uint32_t length = word(it->in + at) & 0x7fffffff, number = word(it->in + at + 4);
        if (it->got - at < 4 + length) break;
        if (number >= in_flight) stop("a reply to no call");
        if (length < 24 || word(it->in + at + 8) != 1 || word(it->in + at + 12) || word(it->in + at + 24))
            stop("a call wasn't accepted");
        if (length > 24 && word(it->in + at + 28)) refused++;
        if (measures) {
            done++;
            if (samples < 4000000) waits[samples++] = then - it->flights[number].sent;
        }
        put(it, number);
        at += 4 + length;
    }
    memmove(it->in, it->in + at, it->got - at);
    it->got -= at;
}
static void read_some(struct connection *it, int poll) {
    ssize_t count = read(it->socket, it->in + it->got, ROOM - it->got);
    if (count == 0 || (count < 0 && errno != EAGAIN)) stop("a connection ended");
    if (count > 0) it->got += count;
    take_replies(it);
    send_all(it, poll);
}
static double spent(int pid) {
    char path[64], text[2048];
    unsigned long user = 0, kernel = 0;
    snprintf(path, sizeof path, "/proc/%d/stat", pid);
    FILE *file = fopen(path, "r");
    if (!pid || !file) return 0;
    text[fread(text, 1, sizeof text - 1, file)] = 0;
    fclose(file);
    sscanf(strrchr(text, ')') + 2, "%*c %*d %*d %*d %*d %*d %*u %*u %*u %*u %*u %lu %lu", &user, &kernel);
    return (user + kernel) / (double)sysconf(_SC_CLK_TCK);
}
static int compare(const void *a, const void *b) {
    uint64_t x = *(const uint64_t *)a, y = *(const uint64_t *)b;
    return x < y ? -1 : x > y;
}
static uint8_t *contents(const char *path) {
    struct stat about;
    int file = open(path, O_RDONLY);
    if (file < 0 || fstat(file, &about)) stop("no calls");
    uint8_t *bytes = malloc(about.st_size);
    for (off_t at = 0; at < about.st_size;) {
        ssize_t count = read(file, bytes + at, about.st_size - at);
        if (count <= 0) stop("no calls");
        at += count;
    }
    close(file);
    return bytes;
}
static int connected(int port) {
    int one = 1, it = socket(AF_INET, SOCK_STREAM, 0);
    struct sockaddr_in to = {.sin_family = AF_INET, .sin_port = htons(port), .sin_addr.s_addr = htonl(INADDR_LOOPBACK)};
    if (connect(it, (void *)&to, sizeof to)) stop("no connection");
    setsockopt(it, IPPROTO_TCP, TCP_NODELAY, &one, sizeof one);
    fcntl(it, F_SETFL, O_NONBLOCK);
    return it;
}
int main(int count, char **words) {
    if (count < 6) stop("PORT CONNECTIONS IN_FLIGHT SECONDS CALLS [PID]");
    int connections = atoi(words[2]), pid = count > 6 ? atoi(words[6]) : 0, poll = epoll_create1(0);
    double seconds = atof(words[4]);
    uint8_t *at = contents(words[5]);
    in_flight = atoi(words[3]);
    waits = malloc(8 * 4000000ull);
    struct connection *all = calloc(connections, sizeof *all);
    for (int c = 0; c < connections; c++) {
        all[c].socket = connected(atoi(words[1]));
        all[c].in = malloc(ROOM);
        all[c].out = malloc(ROOM);
        all[c].flights = calloc(in_flight, sizeof(struct flight));
        struct epoll_event event = {.events = EPOLLIN, .data.ptr = &all[c]};
        epoll_ctl(poll, EPOLL_CTL_ADD, all[c].socket, &event);
        for (uint32_t q = 0; q < in_flight; q++) {
            struct flight *flight = &all[c].flights[q];
            flight->count = word(at);
            flight->records = calloc(flight->count, sizeof(uint8_t *));
            at += 4;
            for (uint32_t r = 0; r < flight->count; r++) {
                flight->records[r] = at;
                at += 4 + (word(at) & 0x7fffffff);
            }
        }
    }
    for (int c = 0; c < connections; c++) {
        for (uint32_t q = 0; q < in_flight; q++) put(&all[c], q);
        send_all(&all[c], poll);
    }
    uint64_t begun = now(), from = 0, to = 0;
    double before = 0, after = 0;
    for (;;) {
        uint64_t then = now();
        if (!measures && then - begun > 300000000ull) measures = 1, from = then, before = spent(pid);
        if (measures && then - from > seconds * 1e9) {
            to = then, after = spent(pid);
            break;
        }
        struct epoll_event events[64];
        int ready = epoll_wait(poll, events, 64, 100);
        for (int e = 0; e < ready; e++) {
            struct connection *it = events[e].data.ptr;
            if (events[e].events & EPOLLOUT) send_all(it, poll);
            if (events[e].events & ~EPOLLOUT) read_some(it, poll);
        }
    }
    qsort(waits, samples, 8, compare);
    printf("%9.0f calls/s, %8.1f us in the middle, %8.1f us at 99 of 100, %7.2f us of the processor a call%s\n",
           done / ((to - from) / 1e9), samples ? waits[samples / 2] / 1e3 : 0, samples ? waits[samples * 99 / 100] / 1e3 : 0,
           done ? (after - before) * 1e6 / done : 0, refused ? ", SOME REFUSED" : "");
    return refused != 0;
}
