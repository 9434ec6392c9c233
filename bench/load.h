/* What the load asks, and in which words. */
#ifndef LOAD_H
#define LOAD_H

#include <stdbool.h>
#include <stddef.h>
#include <stdint.h>

/* The longest text of a value. */
enum { MOST_TEXT = 4096 };

/* MIXED: half of each connection's requests are Puts and half Gets; APART: half of the connections put and the others get.
 * In both the Gets are of keys on stripes that no Put is of, and the Gets alone are counted. */
enum kind { PUT, MERGE, GET, HALF, MIXED, APART };

enum protocol { DCHM, REDIS };

struct request {
    enum kind kind; /* PUT, MERGE or GET */
    unsigned key, number;
};

struct options {
    enum protocol protocol;
    const char *host, *path; /* a path in place of a port */
    unsigned port, connections, flight, keys, size, threads, seed;
    enum kind kind;
    bool fills; /* each key is put once, and nothing else is asked */
    double seconds, warm;
    size_t most_bytes; /* of a request */
};

void fail(const char *form, ...) __attribute__((noreturn, format(printf, 1, 2)));

void read_options(struct options *options, int count, char **words);

/* Whether a key's stripe, of the 16 that `dchm init` makes, is one of the upper eight. */
bool has_upper_stripe(unsigned key);

/* Writes a request, and returns its length. */
size_t put_request(const struct options *options, const struct request *request, unsigned char *out);

/* The length of the reply at the front of the bytes, or 0 if it isn't whole. A wrong one ends the program. */
size_t reply_length(const struct options *options, enum kind kind, const unsigned char *bytes, size_t len);

#endif
