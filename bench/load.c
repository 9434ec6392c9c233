/* Makes requests of a server on this machine, and prints how many a second it replied to and how long replies took.
 *
 * It speaks dchm's frames (docs/PROTOCOL.md) and redis' RESP. Each connection has up to --flight requests under way, sent as
 * many at a time as there is room for; each reply is checked. Threads share the connections, each with an epoll of its own.
 * The replies of the first --warm seconds are checked but not counted. The status is 1 if a reply is wrong or none comes.
 */
#define _GNU_SOURCE
#include "load.h"

#include <arpa/inet.h>
#include <errno.h>
#include <fcntl.h>
#include <getopt.h>
#include <netinet/in.h>
#include <netinet/tcp.h>
#include <pthread.h>
#include <stdarg.h>
#include <stdatomic.h>
#include <stdio.h>
#include <stdlib.h>
#include <string.h>
#include <sys/epoll.h>
#include <sys/resource.h>
#include <sys/socket.h>
#include <sys/un.h>
#include <time.h>
#include <unistd.h>

enum { MOST_FLIGHT = 4096, ROOM = 1 << 18, MOST_EVENTS = 64, REPLY_SECONDS = 30 };

/* A request that has no reply yet. */
struct asked {
    enum kind kind;
    int64_t nanoseconds;
};

struct connection {
    int socket;
    unsigned index;
    bool waits_to_write;
    uint64_t random;
    struct asked *flight; /* a ring */
    unsigned oldest, count;
    unsigned char *out;
    size_t out_begin, out_end, out_room;
    unsigned char in[ROOM];
    size_t in_len;
    struct load *load;
};

/* How many replies took how long: 32 buckets for each power of two nanoseconds. */
enum { STEPS = 32, BUCKETS = 64 * STEPS };

struct load {
    pthread_t thread;
    int epoll;
    unsigned connections;
    struct connection **each;
    uint64_t replies, all, under_way;
    uint64_t buckets[BUCKETS];
};

static struct options options = {
    .host = "127.0.0.1", .connections = 1, .flight = 1, .kind = PUT, .keys = 1000, .seconds = 2, .warm = 0.5, .threads = 1};
static int64_t count_from, end_at;
static atomic_uint next_to_fill;

void fail(const char *form, ...) {
    va_list list;
    va_start(list, form);
    fputs("load: ", stderr);
    vfprintf(stderr, form, list);
    fputc('\n', stderr);
    va_end(list);
    exit(1);
}

static int64_t now(void) {
    struct timespec time;
    clock_gettime(CLOCK_MONOTONIC, &time);
    return time.tv_sec * 1000000000LL + time.tv_nsec;
}

static uint64_t draw(struct connection *connection) {
    uint64_t x = connection->random;
    x ^= x << 13;
    x ^= x >> 7;
    x ^= x << 17;
    return connection->random = x;
}

static unsigned bucket_of(uint64_t nanoseconds) {
    if (nanoseconds < STEPS) return (unsigned)nanoseconds;
    unsigned power = 63 - (unsigned)__builtin_clzll(nanoseconds);
    return (power - 4) * STEPS + (unsigned)((nanoseconds >> (power - 5)) & (STEPS - 1));
}

/* The upper end of a bucket. */
static double nanoseconds_of(unsigned bucket) {
    if (bucket < STEPS) return bucket + 1;
    unsigned power = bucket / STEPS + 4, step = bucket % STEPS;
    return (double)(STEPS + step + 1) * (double)(1ULL << (power - 5));
}

static bool splits_stripes(void) {
    return options.kind == MIXED || options.kind == APART;
}

static enum kind next_kind(const struct connection *connection, uint64_t drawn) {
    switch (options.kind) {
    case HALF: case MIXED: return drawn & 1 << 20 ? PUT : GET;
    case APART: return connection->index % 2 ? GET : PUT;
    default: return options.kind;
    }
}

/* The next request of a connection: false if there is none. */
static bool next_request(struct connection *connection, struct request *request) {
    if (options.fills) {
        unsigned key = atomic_fetch_add(&next_to_fill, 1);
        if (key >= options.keys) return false;
        *request = (struct request){.kind = PUT, .key = key, .number = key};
        return true;
    }
    uint64_t drawn = draw(connection);
    request->number = (unsigned)(drawn & 0xFFFFF) % 1000000;
    request->kind = next_kind(connection, drawn);
    request->key = (unsigned)((drawn >> 32) % options.keys);
    while (splits_stripes() && has_upper_stripe(request->key) != (request->kind == GET))
        request->key = (request->key + 1) % options.keys;
    return true;
}

static void wait_for(struct connection *connection, int operation, bool to_write) {
    struct epoll_event event = {.events = EPOLLIN | (to_write ? EPOLLOUT : 0), .data.ptr = connection};
    if (epoll_ctl(connection->load->epoll, operation, connection->socket, &event)) fail("epoll: %s", strerror(errno));
    connection->waits_to_write = to_write;
}

static void write_out(struct connection *connection) {
    while (connection->out_begin < connection->out_end) {
        ssize_t len = send(connection->socket, connection->out + connection->out_begin,
                           connection->out_end - connection->out_begin, MSG_NOSIGNAL);
        if (len < 0 && errno == EINTR) continue;
        if (len < 0 && errno == EAGAIN) {
            if (!connection->waits_to_write) wait_for(connection, EPOLL_CTL_MOD, true);
            return;
        }
        if (len < 0) fail("can't send: %s", strerror(errno));
        connection->out_begin += (size_t)len;
    }
    connection->out_begin = connection->out_end = 0;
    if (connection->waits_to_write) wait_for(connection, EPOLL_CTL_MOD, false);
}

/* Sends requests while fewer than `options.flight` are under way and there is room for one more. */
static void send_more(struct connection *connection, int64_t time) {
    if (time >= end_at) return;
    struct request request;
    while (connection->count < options.flight && connection->out_room - connection->out_end >= options.most_bytes
           && next_request(connection, &request)) {
        connection->out_end += put_request(&options, &request, connection->out + connection->out_end);
        unsigned at = (connection->oldest + connection->count++) % options.flight;
        connection->flight[at] = (struct asked){request.kind, time};
        connection->load->under_way++;
    }
    if (!connection->waits_to_write) write_out(connection);
}

static void take_replies(struct connection *connection, int64_t time) {
    struct load *load = connection->load;
    size_t at = 0;
    while (connection->count) {
        struct asked *asked = &connection->flight[connection->oldest];
        size_t len = reply_length(&options, asked->kind, connection->in + at, connection->in_len - at);
        if (!len) break;
        at += len;
        connection->oldest = (connection->oldest + 1) % options.flight;
        connection->count--;
        load->under_way--;
        load->all++;
        bool counts = !splits_stripes() || asked->kind == GET;
        if (counts && time >= count_from && time < end_at) {
            load->replies++;
            load->buckets[bucket_of((uint64_t)(time - asked->nanoseconds))]++;
        }
    }
    if (!connection->count && at < connection->in_len) fail("a reply that nothing asked for");
    memmove(connection->in, connection->in + at, connection->in_len - at);
    connection->in_len -= at;
}

static void read_in(struct connection *connection) {
    ssize_t len = recv(connection->socket, connection->in + connection->in_len, ROOM - connection->in_len, 0);
    if (len < 0 && (errno == EAGAIN || errno == EINTR)) return;
    if (len < 0) fail("can't receive: %s", strerror(errno));
    if (len == 0) fail("the server ended the connection");
    connection->in_len += (size_t)len;
    int64_t time = now();
    take_replies(connection, time);
    send_more(connection, time);
}

static void *run(void *given) {
    struct load *load = given;
    struct epoll_event events[MOST_EVENTS];
    for (unsigned i = 0; i < load->connections; i++) send_more(load->each[i], now());
    while (load->under_way) {
        int count = epoll_wait(load->epoll, events, MOST_EVENTS, REPLY_SECONDS * 1000);
        if (count < 0 && errno != EINTR) fail("epoll: %s", strerror(errno));
        if (count == 0) fail("no reply in %d seconds", REPLY_SECONDS);
        for (int i = 0; i < count; i++) {
            if (events[i].events & EPOLLOUT) write_out(events[i].data.ptr);
            if (events[i].events & ~EPOLLOUT) read_in(events[i].data.ptr);
        }
    }
    return NULL;
}

static int socket_at_port(void) {
    struct sockaddr_in address = {.sin_family = AF_INET, .sin_port = htons((uint16_t)options.port)};
    if (inet_pton(AF_INET, options.host, &address.sin_addr) != 1) fail("--host is an address");
    int found = socket(AF_INET, SOCK_STREAM, 0), yes = 1;
    if (found < 0 || connect(found, (struct sockaddr *)&address, sizeof address)
        || setsockopt(found, IPPROTO_TCP, TCP_NODELAY, &yes, sizeof yes))
        fail("can't connect: %s", strerror(errno));
    return found;
}

static int socket_at_path(void) {
    struct sockaddr_un address = {.sun_family = AF_UNIX};
    if (strlen(options.path) >= sizeof address.sun_path) fail("--socket is too long");
    strcpy(address.sun_path, options.path);
    int found = socket(AF_UNIX, SOCK_STREAM, 0);
    if (found < 0 || connect(found, (struct sockaddr *)&address, sizeof address)) fail("can't connect: %s", strerror(errno));
    return found;
}

static struct connection *connect_to(struct load *load, unsigned index) {
    struct connection *connection = calloc(1, sizeof *connection);
    if (!connection) fail("no memory");
    connection->load = load;
    connection->index = index;
    connection->random = 0x9E3779B97F4A7C15ULL * (options.seed * 1000 + index + 1);
    connection->flight = calloc(options.flight, sizeof *connection->flight);
    connection->out_room = options.flight * options.most_bytes;
    connection->out = malloc(connection->out_room);
    if (!connection->flight || !connection->out) fail("no memory");
    connection->socket = options.path ? socket_at_path() : socket_at_port();
    if (fcntl(connection->socket, F_SETFL, O_NONBLOCK)) fail("can't connect: %s", strerror(errno));
    wait_for(connection, EPOLL_CTL_ADD, false);
    return connection;
}

static void prepare(struct load *loads) {
    for (unsigned i = 0; i < options.threads; i++) {
        loads[i].epoll = epoll_create1(0);
        loads[i].each = calloc(options.connections, sizeof *loads[i].each);
        if (loads[i].epoll < 0 || !loads[i].each) fail("can't begin: %s", strerror(errno));
    }
    for (unsigned i = 0; i < options.connections; i++) {
        struct load *load = &loads[i % options.threads];
        load->each[load->connections++] = connect_to(load, i);
    }
}

/* The microseconds below which this part of the replies stayed. */
static double below(const uint64_t *buckets, uint64_t replies, double part) {
    uint64_t seen = 0;
    for (unsigned i = 0; i < BUCKETS; i++)
        if ((double)(seen += buckets[i]) >= part * (double)replies && seen) return nanoseconds_of(i) / 1000;
    return 0;
}

static void report(struct load *loads, double seconds) {
    static uint64_t buckets[BUCKETS];
    uint64_t replies = 0, all = 0;
    for (unsigned i = 0; i < options.threads; i++) {
        all += loads[i].all;
        replies += loads[i].replies;
        for (unsigned k = 0; k < BUCKETS; k++) buckets[k] += loads[i].buckets[k];
    }
    struct rusage usage;
    getrusage(RUSAGE_SELF, &usage);
    double processor = (double)(usage.ru_utime.tv_sec + usage.ru_stime.tv_sec)
                       + (double)(usage.ru_utime.tv_usec + usage.ru_stime.tv_usec) / 1e6;
    printf("replies in all %llu\n", (unsigned long long)all);
    printf("replies counted %llu\n", (unsigned long long)replies);
    printf("requests a second %.0f\n", (double)replies / seconds);
    printf("microseconds of 50 percent %.1f\n", below(buckets, replies, 0.5));
    printf("microseconds of 99 percent %.1f\n", below(buckets, replies, 0.99));
    printf("microseconds of 99.9 percent %.1f\n", below(buckets, replies, 0.999));
    printf("processor seconds of the load %.3f\n", processor);
}

int main(int count, char **words) {
    read_options(&options, count, words);
    struct load *loads = calloc(options.threads, sizeof *loads);
    if (!loads) fail("no memory");
    prepare(loads);
    int64_t begin = now();
    count_from = options.fills ? begin : begin + (int64_t)(options.warm * 1e9);
    end_at = options.fills ? INT64_MAX : count_from + (int64_t)(options.seconds * 1e9);
    for (unsigned i = 0; i < options.threads; i++)
        if (pthread_create(&loads[i].thread, NULL, run, &loads[i])) fail("no thread");
    for (unsigned i = 0; i < options.threads; i++) pthread_join(loads[i].thread, NULL);
    report(loads, options.fills ? (double)(now() - begin) / 1e9 : options.seconds);
    return 0;
}
