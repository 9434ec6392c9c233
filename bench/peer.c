/* A server that keeps nothing: it replies to each Put that the key was absent, to each Get that it is, and to each Merge that
 * the number is 1. It prints its port, and serves until it is ended.
 *
 *     peer             replies at once: `bench/serve --own` measures the load itself
 *     peer FILE SYNCS  makes a batch's device calls before the replies: `bench/serve --batches` measures what they allow
 *
 * A batch writes a frame into the file, over zeros that are there, and syncs it; with two syncs it then writes a gate, and
 * syncs that. Its one thread takes in the requests of all connections first, for as long as a batch gathers at most, and looks
 * for them again and again before it sleeps.
 */
#define _GNU_SOURCE
#include <arpa/inet.h>
#include <errno.h>
#include <fcntl.h>
#include <netinet/in.h>
#include <netinet/tcp.h>
#include <stdio.h>
#include <stdlib.h>
#include <string.h>
#include <sys/epoll.h>
#include <sys/socket.h>
#include <time.h>
#include <unistd.h>

enum { ROOM = 1 << 18, MOST_EVENTS = 64, METHOD_PUT = 16, METHOD_MERGE = 25 };
/* A frame's front, a record of a Put of a number, and how many of them a frame of 1,048,576 bytes has. */
enum { FRONT_BYTES = 17, RECORD_BYTES = 22, MOST_RECORDS = ((1 << 20) - FRONT_BYTES) / RECORD_BYTES, FILE_BYTES = 1 << 23 };
enum { GATHERING_MICROSECONDS = 60, LOOKING_MICROSECONDS = 50 };

struct connection {
    int socket;
    size_t len, out_len;
    struct connection *next; /* the next one with replies that wait */
    unsigned char in[ROOM], out[4 * ROOM];
};

static struct {
    int fd; /* below 0 if there is none */
    unsigned syncs;
    off_t end;
    size_t records; /* of the next batch */
} file = {.fd = -1};
static struct connection *waiting;
static unsigned connections, waiting_count;

static void check(int result, const char *what) {
    if (result >= 0) return;
    perror(what);
    exit(1);
}

static size_t put_reply(unsigned char method, unsigned char *out) {
    static const unsigned char was[] = {0, 2, 0, 0}, now[] = {0, 2, 1, 0}, one[] = {0, 10, 1, 1, 0, 0, 0, 0, 0, 0, 0, 1};
    const unsigned char *reply = method == METHOD_PUT ? was : method == METHOD_MERGE ? one : now;
    size_t len = 2 + reply[1];
    memcpy(out, reply, len);
    return len;
}

static void write_all(int socket, const unsigned char *bytes, size_t len) {
    while (len) {
        ssize_t sent = send(socket, bytes, len, MSG_NOSIGNAL);
        if (sent < 0 && errno != EINTR) return;
        if (sent < 0) continue;
        bytes += sent;
        len -= (size_t)sent;
    }
}

/* Makes the replies to the whole frames in hand. */
static void answer(struct connection *connection) {
    size_t at = 0;
    while (connection->len - at >= 3) {
        size_t body = (size_t)connection->in[at] << 8 | connection->in[at + 1];
        if (connection->len - at < body + 2) break;
        connection->out_len += put_reply(connection->in[at + 2], connection->out + connection->out_len);
        file.records += connection->in[at + 2] >= METHOD_PUT && file.records < MOST_RECORDS;
        at += body + 2;
    }
    memmove(connection->in, connection->in + at, connection->len - at);
    connection->len -= at;
}

/* Takes in what a connection sends. One whose replies wait is read behind them. */
static void read_in(struct connection *connection) {
    if (connection->out_len) return;
    ssize_t len = recv(connection->socket, connection->in + connection->len, ROOM - connection->len, 0);
    if (len <= 0) {
        close(connection->socket);
        free(connection);
        connections--;
        return;
    }
    connection->len += (size_t)len;
    answer(connection);
    if (!connection->out_len) return;
    connection->next = waiting;
    waiting = connection;
    waiting_count++;
}

static void write_and_sync(const unsigned char *bytes, size_t len) {
    check(pwrite(file.fd, bytes, len, file.end) == (ssize_t)len ? 0 : -1, "write");
    check(fdatasync(file.fd), "sync");
    file.end += (off_t)len;
}

/* Makes the device calls of a batch of what was asked for. */
static void commit(void) {
    static const unsigned char frame[FRONT_BYTES + MOST_RECORDS * RECORD_BYTES], gate[1] = {0xA5};
    size_t len = FRONT_BYTES + file.records * RECORD_BYTES;
    if (file.end + (off_t)len >= FILE_BYTES) file.end = 0;
    write_and_sync(frame, len);
    if (file.syncs == 2) write_and_sync(gate, sizeof gate);
    file.records = 0;
}

static void write_replies(void) {
    for (; waiting; waiting = waiting->next) {
        write_all(waiting->socket, waiting->out, waiting->out_len);
        waiting->out_len = 0;
    }
    waiting_count = 0;
}

static void open_file(const char *path, unsigned syncs) {
    static const unsigned char zeros[FILE_BYTES];
    file.fd = open(path, O_RDWR | O_CREAT, 0600);
    file.syncs = syncs;
    check(file.fd, "open");
    check(pwrite(file.fd, zeros, sizeof zeros, 0) == sizeof zeros ? 0 : -1, "write");
    check(fsync(file.fd), "sync");
}

static long microseconds(void) {
    struct timespec now;
    clock_gettime(CLOCK_MONOTONIC, &now);
    return now.tv_sec * 1000000 + now.tv_nsec / 1000;
}

static void add(int epoll, int socket, struct connection *connection) {
    struct epoll_event event = {.events = EPOLLIN, .data.ptr = connection};
    check(epoll_ctl(epoll, EPOLL_CTL_ADD, socket, &event), "epoll");
}

static void take_in(int epoll, int listener) {
    struct connection *connection = calloc(1, sizeof *connection);
    int yes = 1;
    check(connection ? 0 : -1, "calloc");
    connection->socket = accept(listener, NULL, NULL);
    check(connection->socket, "accept");
    setsockopt(connection->socket, IPPROTO_TCP, TCP_NODELAY, &yes, sizeof yes);
    add(epoll, connection->socket, connection);
    connections++;
}

static int look(int epoll, int listener, int timeout) {
    struct epoll_event events[MOST_EVENTS];
    int count = epoll_wait(epoll, events, MOST_EVENTS, timeout);
    for (int i = 0; i < count; i++) {
        if (events[i].data.ptr) read_in(events[i].data.ptr);
        else take_in(epoll, listener);
    }
    return count;
}

/* Looks for requests until there are some. */
static void await_requests(int epoll, int listener) {
    long begun = microseconds();
    while (file.fd >= 0 && microseconds() - begun < LOOKING_MICROSECONDS)
        if (look(epoll, listener, 0)) return;
    look(epoll, listener, -1);
}

/* Looks for the requests of the others. */
static void gather(int epoll, int listener) {
    long begun = microseconds();
    while (waiting_count < connections && microseconds() - begun < GATHERING_MICROSECONDS) look(epoll, listener, 0);
}

int main(int count, char **words) {
    struct sockaddr_in address = {.sin_family = AF_INET, .sin_addr.s_addr = htonl(INADDR_LOOPBACK)};
    socklen_t len = sizeof address;
    int listener = socket(AF_INET, SOCK_STREAM, 0), epoll = epoll_create1(0);
    if (count != 1 && count != 3) return 2;
    if (count == 3) open_file(words[1], (unsigned)atoi(words[2]));
    check(bind(listener, (struct sockaddr *)&address, sizeof address), "bind");
    check(listen(listener, 128), "listen");
    check(getsockname(listener, (struct sockaddr *)&address, &len), "getsockname");
    printf("listening %u\n", ntohs(address.sin_port));
    fflush(stdout);
    add(epoll, listener, NULL);
    for (;;) {
        await_requests(epoll, listener);
        if (file.fd >= 0 && waiting) {
            gather(epoll, listener);
            commit();
        }
        write_replies();
    }
}
