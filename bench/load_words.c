/* The words of the load: its options, and the requests and replies of both protocols. */
#include "load.h"

#include <stdio.h>
#include <stdlib.h>
#include <string.h>
#include <strings.h>
#include <getopt.h>

static const char usage[] =
    "load dchm|redis --port P|--socket PATH [--host ADDRESS] [--connections C] [--flight F] [--kind put|merge|get|half|mixed|apart|fill]\n"
    "     [--keys N] [--size BYTES, 0 for numbers] [--seconds S] [--warm S] [--threads T] [--seed N]\n";

static unsigned number_of(const char *word, unsigned least, unsigned most) {
    char *end;
    unsigned long number = strtoul(word, &end, 10);
    if (*end || !*word || number < least || number > most) fail("%s isn't a number from %u to %u", word, least, most);
    return (unsigned)number;
}

static void set_kind(struct options *options, const char *word) {
    static const char *const names[] = {"put", "merge", "get", "half", "mixed", "apart"};
    options->fills = strcmp(word, "fill") == 0;
    options->kind = PUT;
    if (options->fills) return;
    for (unsigned i = 0; i < sizeof names / sizeof *names; i++) {
        if (strcmp(word, names[i])) continue;
        options->kind = (enum kind)i;
        return;
    }
    fail("no kind %s", word);
}

static void set_option(struct options *options, int option) {
    switch (option) {
    case 'h': options->host = optarg; break;
    case 'u': options->path = optarg; break;
    case 'p': options->port = number_of(optarg, 1, 65535); break;
    case 'c': options->connections = number_of(optarg, 1, 4096); break;
    case 'f': options->flight = number_of(optarg, 1, 4096); break;
    case 'n': options->keys = number_of(optarg, 1, 9999999); break;
    case 'z': options->size = number_of(optarg, 0, MOST_TEXT); break;
    case 't': options->threads = number_of(optarg, 1, 64); break;
    case 'r': options->seed = number_of(optarg, 0, 1000000); break;
    case 's': options->seconds = atof(optarg); break;
    case 'w': options->warm = atof(optarg); break;
    case 'k': set_kind(options, optarg); break;
    default: fputs(usage, stderr); exit(2);
    }
}

void read_options(struct options *options, int count, char **words) {
    static const struct option known[] = {
        {"host", 1, 0, 'h'}, {"port", 1, 0, 'p'}, {"connections", 1, 0, 'c'}, {"flight", 1, 0, 'f'}, {"kind", 1, 0, 'k'},
        {"keys", 1, 0, 'n'}, {"size", 1, 0, 'z'}, {"seconds", 1, 0, 's'}, {"warm", 1, 0, 'w'}, {"threads", 1, 0, 't'},
        {"seed", 1, 0, 'r'}, {"socket", 1, 0, 'u'}, {0, 0, 0, 0}};
    int option;
    while ((option = getopt_long(count, words, "", known, NULL)) != -1) set_option(options, option);
    if (optind + 1 != count || !options->port == !options->path || options->seconds <= 0) { fputs(usage, stderr); exit(2); }
    if (strcmp(words[optind], "redis") == 0) options->protocol = REDIS;
    else if (strcmp(words[optind], "dchm")) fail("no protocol %s", words[optind]);
    if (options->size && options->kind == MERGE) fail("a merge is of numbers");
    if (options->threads > options->connections) options->threads = options->connections;
    options->most_bytes = 100 + options->size;
}

/* ---- requests */

enum { KEY_BYTES = 10, METHOD_GET = 1, METHOD_PUT = 16, METHOD_MERGE = 25, SUM = 4, IS_NUMBER = 1, IS_TEXT = 2 };

/* key0000042 */
static unsigned char *put_key(unsigned char *out, unsigned key) {
    memcpy(out, "key", 3);
    for (int i = KEY_BYTES - 1; i >= 3; i--, key /= 10) out[i] = (unsigned char)('0' + key % 10);
    return out + KEY_BYTES;
}

/* Java's String.hashCode, spread as ConcurrentHashMap does it. */
bool has_upper_stripe(unsigned key) {
    unsigned char text[KEY_BYTES];
    put_key(text, key);
    uint32_t hash = 0;
    for (int i = 0; i < KEY_BYTES; i++) hash = 31 * hash + text[i];
    return ((hash ^ hash >> 16) & 15) >= 8;
}

static unsigned char *put_number(unsigned char *out, unsigned number) {
    *out++ = IS_NUMBER;
    memset(out, 0, 4);
    for (int i = 7; i >= 4; i--, number >>= 8) out[i] = (unsigned char)number;
    return out + 8;
}

static unsigned char *put_text(unsigned char *out, unsigned size) {
    *out++ = IS_TEXT;
    *out++ = (unsigned char)(size >> 8);
    *out++ = (unsigned char)size;
    memset(out, 'x', size);
    return out + size;
}

static size_t put_frame(const struct options *options, const struct request *request, unsigned char *out) {
    unsigned char *end = out + 2;
    *end++ = request->kind == GET ? METHOD_GET : request->kind == PUT ? METHOD_PUT : METHOD_MERGE;
    *end++ = 0;
    *end++ = KEY_BYTES;
    end = put_key(end, request->key);
    if (request->kind == MERGE) *end++ = SUM;
    if (request->kind == MERGE) end = put_number(end, 1);
    if (request->kind == PUT) end = options->size ? put_text(end, options->size) : put_number(end, request->number);
    size_t len = (size_t)(end - out) - 2;
    out[0] = (unsigned char)(len >> 8);
    out[1] = (unsigned char)len;
    return len + 2;
}

static unsigned char *put_literal(unsigned char *out, const char *text) {
    size_t len = strlen(text);
    memcpy(out, text, len);
    return out + len;
}

/* A bulk string of a number of at most nine digits. */
static unsigned char *put_decimal(unsigned char *out, unsigned number) {
    unsigned char digits[10];
    unsigned len = 0;
    do digits[len++] = (unsigned char)('0' + number % 10);
    while (number /= 10);
    *out++ = '$';
    *out++ = (unsigned char)('0' + len);
    out = put_literal(out, "\r\n");
    while (len) *out++ = digits[--len];
    return put_literal(out, "\r\n");
}

static size_t put_array(const struct options *options, const struct request *request, unsigned char *out) {
    static const char *const heads[] = {
        "*3\r\n$3\r\nSET\r\n$10\r\n", "*3\r\n$6\r\nINCRBY\r\n$10\r\n", "*2\r\n$3\r\nGET\r\n$10\r\n"};
    unsigned char *end = put_key(put_literal(out, heads[request->kind]), request->key);
    end = put_literal(end, "\r\n");
    if (request->kind == MERGE) end = put_literal(end, "$1\r\n1\r\n");
    if (request->kind == PUT && !options->size) end = put_decimal(end, request->number);
    if (request->kind == PUT && options->size) {
        end += sprintf((char *)end, "$%u\r\n", options->size);
        memset(end, 'x', options->size);
        end = put_literal(end + options->size, "\r\n");
    }
    return (size_t)(end - out);
}

size_t put_request(const struct options *options, const struct request *request, unsigned char *out) {
    return options->protocol == DCHM ? put_frame(options, request, out) : put_array(options, request, out);
}

/* ---- replies */

static void wrong(const unsigned char *bytes, size_t len) {
    fputs("load: a wrong reply:", stderr);
    for (size_t i = 0; i < len && i < 40; i++) fprintf(stderr, " %02x", bytes[i]);
    fputc('\n', stderr);
    exit(1);
}

static bool is_text(const struct options *options, const unsigned char *text, size_t len) {
    return options->size && len == options->size && text[0] == 'x' && text[len - 1] == 'x';
}

/* A status, and the value that the key has or had: for a merge it is there. */
static size_t frame_length(const struct options *options, enum kind kind, const unsigned char *bytes, size_t len) {
    if (len < 2) return 0;
    size_t body = (size_t)bytes[0] << 8 | bytes[1];
    if (len < body + 2) return 0;
    bool is_status = body >= 2 && bytes[2] == (kind == PUT ? 0 : 1);
    bool is_absent = kind != MERGE && body == 2 && bytes[3] == 0;
    bool is_number = !options->size && body == 10 && bytes[3] == IS_NUMBER;
    bool is_same = body > 4 && bytes[3] == IS_TEXT && ((size_t)bytes[4] << 8 | bytes[5]) == body - 4
                   && is_text(options, bytes + 6, body - 4);
    if (!is_status || !(is_absent || is_number || is_same)) wrong(bytes, body + 2);
    return body + 2;
}

/* The length of a line with its end, or 0 if it isn't whole. */
static size_t line_length(const unsigned char *bytes, size_t len) {
    const unsigned char *end = memchr(bytes, '\n', len);
    return end ? (size_t)(end - bytes) + 1 : 0;
}

static bool is_decimal(const unsigned char *digits, size_t len) {
    for (size_t i = 0; i < len; i++)
        if (digits[i] < '0' || digits[i] > '9') return false;
    return len > 0;
}

/* A bulk string with the value, or the one that says that there is none. */
static size_t bulk_length(const struct options *options, const unsigned char *bytes, size_t len, size_t head) {
    if (head == 5 && memcmp(bytes, "$-1\r\n", 5) == 0) return head;
    if (bytes[0] != '$' || !is_decimal(bytes + 1, head - 3)) wrong(bytes, len);
    size_t size = strtoul((const char *)bytes + 1, NULL, 10);
    if (len < head + size + 2) return 0;
    const unsigned char *value = bytes + head;
    bool is_value = options->size ? is_text(options, value, size) : is_decimal(value, size);
    if (!is_value || memcmp(value + size, "\r\n", 2)) wrong(bytes, len);
    return head + size + 2;
}

static size_t resp_length(const struct options *options, enum kind kind, const unsigned char *bytes, size_t len) {
    size_t head = line_length(bytes, len);
    if (!head) return 0;
    if (kind == GET) return bulk_length(options, bytes, len, head);
    bool is_done = kind == PUT && head == 5 && memcmp(bytes, "+OK\r\n", 5) == 0;
    bool is_number = kind == MERGE && bytes[0] == ':' && head > 3 && is_decimal(bytes + 1, head - 3);
    if (!is_done && !is_number) wrong(bytes, len);
    return head;
}

size_t reply_length(const struct options *options, enum kind kind, const unsigned char *bytes, size_t len) {
    return options->protocol == DCHM ? frame_length(options, kind, bytes, len) : resp_length(options, kind, bytes, len);
}
