/* Loads a server that speaks memcached's text protocol: many connections, each of which sends a batch of requests, awaits
 * all replies, looks at them, and sends the next. bench/serve.py builds it and tells it what to do.
 *
 * Usage: load PORT [NAME=NUMBER ..]
 *
 *     connections=50   how many
 *     pipeline=1       requests in a batch
 *     get=100 set=0 mg=0   in a hundred requests so many of each kind
 *     many=1           keys in a get
 *     keys=100000      the keys are `key-0000000000000000` and so on
 *     size=100         bytes of a value, at least 20
 *     zipf=0           exponent of Zipf's law by which keys are chosen; 0 chooses each alike
 *     rate=0           of `wait`: requests a second that fall due, whatever comes back; 0 for as many as are answered
 *
 * It connects, and then does what the lines of standard input say, and answers each with a line:
 *
 *     fill             sets each key once
 *     run SECONDS      sends requests for so long
 *     count REQUESTS   the same until so many were answered
 *     wait SECONDS     the same, with one request in a batch, and tells how long each waited for its reply
 *
 * The answer is the number of requests and the seconds, and after `wait` the microseconds within which half of the replies came, 99 and
 * 99.9 in a hundred, and the last. A request that fell due while no connection was free waits from then on. A value begins with its key, so that it can be told whether a
 * reply is the right one: each has to have the right key and size, and ends where it should. Anything else, or no answer
 * within ten seconds, ends the program with status 1 and says what came.
 *
 * It is one thread and never sleeps while replies are awaited. After `run` and `count` all replies that have come are read and looked
 * at before the next batches are sent, all at once: so the server finds as many connections ready as it would with a fast client. After `wait`
 * each request is sent at once.
 */

#define _GNU_SOURCE
#include <arpa/inet.h>
#include <errno.h>
#include <fcntl.h>
#include <limits.h>
#include <math.h>
#include <netinet/tcp.h>
#include <stdbool.h>
#include <stdint.h>
#include <stdio.h>
#include <stdlib.h>
#include <string.h>
#include <sys/epoll.h>
#include <sys/socket.h>
#include <time.h>
#include <unistd.h>

#define KEY_SIZE 20
#define PATIENCE 10.0
#define SAMPLES (1 << 20)
#define WAITS (1 << 25)

enum kind { GET, SET, MG };

struct request {
    enum kind kind;
    uint32_t *keys; /* `many` of them for a get, else one */
};

struct peer {
    int socket;
    struct request *batch;
    size_t requests; /* in the batch */
    char *out;
    size_t out_size, out_sent;
    char *in;
    size_t in_wanted, in_size;
    double due; /* when the request that is on its way fell due */
};

static long connections = 50, pipeline = 1, gets = 100, sets = 0, mgs = 0, many = 1, keys = 100000, size = 100;
static double zipf = 0, rate = 0;
static struct peer *peers;
static int watcher;
static char *value;        /* what a value is after its key */
static char size_line[32]; /* the size of a value, and the end of the line */
static uint32_t *sample;   /* keys as Zipf's law chooses them */
static uint32_t next_to_fill;
static bool filling;

static void fail(const char *what)
{
    fprintf(stderr, "load: %s\n", what);
    exit(1);
}

static void *room(size_t bytes)
{
    void *made = calloc(1, bytes);
    if (made == NULL)
        fail("out of memory");
    return made;
}

static double now(void)
{
    struct timespec time;
    clock_gettime(CLOCK_MONOTONIC, &time);
    return time.tv_sec + time.tv_nsec / 1e9;
}

static uint64_t dice(void)
{
    static uint64_t state = 88172645463325252u;
    state ^= state << 13;
    state ^= state >> 7;
    state ^= state << 17;
    return state;
}

/* Draws keys beforehand, the first key being the likeliest. */
static void draw_samples(void)
{
    double *sums = room(sizeof *sums * keys), sum = 0;
    for (long at = 0; at < keys; at++)
        sums[at] = sum += pow(at + 1, -zipf);
    sample = room(sizeof *sample * SAMPLES);
    for (long at = 0; at < SAMPLES; at++) {
        double drawn = (dice() >> 11) * 0x1p-53 * sum;
        long low = 0, high = keys - 1;
        while (low < high) {
            long middle = (low + high) / 2;
            if (sums[middle] <= drawn)
                low = middle + 1;
            else
                high = middle;
        }
        sample[at] = low;
    }
    free(sums);
}

static uint32_t some_key(void)
{
    static uint32_t at;
    if (filling)
        return next_to_fill++;
    return sample != NULL ? sample[at++ % SAMPLES] : dice() % keys;
}

static enum kind some_kind(void)
{
    long drawn = sets == 0 && mgs == 0 ? 0 : dice() % 100;
    if (filling)
        return SET;
    return drawn < gets ? GET : drawn < gets + sets ? SET : MG;
}

static char *put(char *to, const char *text)
{
    return stpcpy(to, text);
}

static char *put_key(char *to, uint32_t key)
{
    memcpy(to, "key-0000000000000000", KEY_SIZE);
    for (char *digit = to + KEY_SIZE; key != 0; key /= 10)
        *--digit = '0' + key % 10;
    return to + KEY_SIZE;
}

static char *put_value(char *to, uint32_t key)
{
    memcpy(put_key(to, key), value, size - KEY_SIZE);
    return put(to + size, "\r\n");
}

static long keys_of(const struct request *request)
{
    return request->kind == GET ? many : 1;
}

static char *put_request(char *to, const struct request *request)
{
    if (request->kind == SET) {
        to = put(put(put_key(put(to, "set "), request->keys[0]), " 0 0 "), size_line);
        return put_value(to, request->keys[0]);
    }
    to = put(to, request->kind == GET ? "get" : "mg");
    for (long at = 0; at < keys_of(request); at++)
        to = put_key(put(to, " "), request->keys[at]);
    return put(to, request->kind == GET ? "\r\n" : " v\r\n");
}

/* What is before the value of a key in a reply. */
static char *put_head(char *to, enum kind kind, uint32_t key)
{
    if (kind == GET)
        to = put(put_key(put(to, "VALUE "), key), " 0 ");
    else
        to = put(to, "VA ");
    return put(to, size_line);
}

static size_t value_size(enum kind kind)
{
    return strlen(kind == GET ? "VALUE  0 " : "VA ") + (kind == GET ? KEY_SIZE : 0) + strlen(size_line) + size + 2;
}

static size_t reply_size(const struct request *request)
{
    if (request->kind == SET)
        return strlen("STORED\r\n");
    return value_size(request->kind) * keys_of(request) + (request->kind == GET ? strlen("END\r\n") : 0);
}

/* Whether the bytes are the value of a key with what is before it: of the right size, beginning with the key. */
static bool is_value(const char *at, enum kind kind, uint32_t key)
{
    char wanted[64];
    char *end = put_key(put_head(wanted, kind, key), key);
    return memcmp(at, wanted, end - wanted) == 0 && memcmp(at + value_size(kind) - 2, "\r\n", 2) == 0;
}

static bool is_reply(const char *at, const struct request *request)
{
    if (request->kind == SET)
        return memcmp(at, "STORED\r\n", 8) == 0;
    for (long each = 0; each < keys_of(request); each++) {
        if (!is_value(at, request->kind, request->keys[each]))
            return false;
        at += value_size(request->kind);
    }
    return request->kind == MG || memcmp(at, "END\r\n", 5) == 0;
}

/* Says what was sent on a connection and what came, and ends. */
static void wrong(const struct peer *peer, const char *what)
{
    fprintf(stderr, "load: %s\nsent: %.*s\ncame, %zu bytes of %zu: %.*s\n", what, (int)(peer->out_size < 300 ? peer->out_size : 300),
            peer->out, peer->in_size, peer->in_wanted, (int)(peer->in_size < 300 ? peer->in_size : 300), peer->in);
    exit(1);
}

/* Says of the first connection that awaits replies what came, and ends. */
static void late(void)
{
    for (long at = 0; at < connections; at++)
        if (peers[at].in_size < peers[at].in_wanted)
            wrong(&peers[at], "not all replies have come in ten seconds");
}

static void make_batch(struct peer *peer)
{
    char *to = peer->out;
    peer->in_wanted = peer->in_size = peer->out_sent = 0;
    for (peer->requests = 0; peer->requests < (size_t)pipeline; peer->requests++) {
        struct request *request = &peer->batch[peer->requests];
        if (filling && next_to_fill == keys)
            break;
        request->kind = some_kind();
        for (long at = 0; at < keys_of(request); at++)
            request->keys[at] = some_key();
        to = put_request(to, request);
        peer->in_wanted += reply_size(request);
    }
    peer->out_size = to - peer->out;
}

static void watch(struct peer *peer, uint32_t what, int how)
{
    struct epoll_event event = {.events = what, .data.ptr = peer};
    if (epoll_ctl(watcher, how, peer->socket, &event) != 0)
        fail("epoll_ctl failed");
}

/* Sends what can be sent; where not all can, the rest follows once there is room. */
static void send_batch(struct peer *peer)
{
    bool waited = peer->out_sent > 0;
    ssize_t sent = send(peer->socket, peer->out + peer->out_sent, peer->out_size - peer->out_sent, MSG_NOSIGNAL);
    if (sent < 0 && errno != EAGAIN)
        wrong(peer, strerror(errno));
    if (sent > 0)
        peer->out_sent += sent;
    if (peer->out_sent < peer->out_size)
        watch(peer, EPOLLIN | EPOLLOUT, EPOLL_CTL_MOD);
    else if (waited)
        watch(peer, EPOLLIN, EPOLL_CTL_MOD);
}

/* Reads what has come; whether all replies have, each as it should be. */
static bool receive_batch(struct peer *peer)
{
    ssize_t came = recv(peer->socket, peer->in + peer->in_size, peer->in_wanted - peer->in_size, 0);
    if (came < 0 && errno == EAGAIN)
        return false;
    if (came <= 0)
        wrong(peer, came == 0 ? "the server closed a connection, or sent what was not asked" : strerror(errno));
    peer->in_size += came;
    if (peer->in_size < peer->in_wanted)
        return false;
    const char *at = peer->in;
    for (size_t each = 0; each < peer->requests; each++) {
        if (!is_reply(at, &peer->batch[each]))
            wrong(peer, "another reply than was awaited");
        at += reply_size(&peer->batch[each]);
    }
    return true;
}

/* Sends batches until the time is up, as many requests were answered or all keys are set, and awaits all replies. Gives the number of
 * requests. */
static long serve_until(double end, long most)
{
    static struct epoll_event events[1024];
    struct peer **ready = room(sizeof *ready * connections);
    long done = 0, open = 0, sends = 0;
    double last = now();
    for (long at = 0; at < connections; at++)
        ready[sends++] = &peers[at];
    for (;;) {
        open += sends;
        for (long at = 0; at < sends; at++) {
            make_batch(ready[at]);
            if (ready[at]->requests > 0)
                send_batch(ready[at]);
            else
                open--;
        }
        if (open == 0)
            break;
        int found = epoll_wait(watcher, events, 1024, 0);
        double time = now();
        if (found > 0)
            last = time;
        else if (time > last + PATIENCE)
            late();
        sends = 0;
        for (int at = 0; at < found; at++) {
            struct peer *peer = events[at].data.ptr;
            if (events[at].events & EPOLLOUT)
                send_batch(peer);
            if ((events[at].events & ~EPOLLOUT) && receive_batch(peer)) {
                done += peer->requests;
                open--;
                if (filling || (time < end && done < most))
                    ready[sends++] = peer;
            }
        }
    }
    free(ready);
    return done;
}

static uint32_t *waits; /* tenths of a microsecond */
static long waited;

static int by_size(const void *one, const void *other)
{
    uint32_t a = *(const uint32_t *)one, b = *(const uint32_t *)other;
    return a < b ? -1 : a > b;
}

static double wait_within(double part)
{
    return waited == 0 ? 0 : waits[(long)((waited - 1) * part)] / 10.0;
}

static void send_one(struct peer *peer, double due)
{
    peer->due = due;
    make_batch(peer);
    send_batch(peer);
}

/* Sends single requests until the time is up, and notes how long each waited for its reply. Gives their number. */
static long wait_until(double end)
{
    static struct epoll_event events[1024];
    struct peer **idle = room(sizeof *idle * connections);
    long done = 0, free_ones = 0;
    double last = now(), due = last;
    for (long at = 0; at < connections; at++)
        idle[free_ones++] = &peers[at];
    for (;;) {
        double time = now();
        while (free_ones > 0 && time < end && (rate == 0 || due <= time)) {
            send_one(idle[--free_ones], rate == 0 ? time : due);
            if (rate > 0)
                due += 1 / rate;
        }
        if (free_ones == connections && time >= end)
            break;
        int found = epoll_wait(watcher, events, 1024, 0);
        time = now();
        if (found > 0 || free_ones == connections)
            last = time;
        else if (time > last + PATIENCE)
            late();
        for (int at = 0; at < found; at++) {
            struct peer *peer = events[at].data.ptr;
            if (events[at].events & EPOLLOUT)
                send_batch(peer);
            if ((events[at].events & ~EPOLLOUT) && receive_batch(peer)) {
                if (waited < WAITS)
                    waits[waited++] = (now() - peer->due) * 1e7;
                done++;
                idle[free_ones++] = peer;
            }
        }
    }
    free(idle);
    qsort(waits, waited, sizeof *waits, by_size);
    return done;
}

static void connect_peer(struct peer *peer, int port)
{
    struct sockaddr_in address = {.sin_family = AF_INET, .sin_port = htons(port)};
    int at_once = 1;
    size_t request_room = 64 + KEY_SIZE + size + many * (KEY_SIZE + 1);
    address.sin_addr.s_addr = htonl(INADDR_LOOPBACK);
    peer->socket = socket(AF_INET, SOCK_STREAM, 0);
    if (peer->socket < 0 || connect(peer->socket, (struct sockaddr *)&address, sizeof address) != 0)
        fail("cannot connect");
    setsockopt(peer->socket, IPPROTO_TCP, TCP_NODELAY, &at_once, sizeof at_once);
    fcntl(peer->socket, F_SETFL, O_NONBLOCK);
    peer->batch = room(sizeof *peer->batch * pipeline);
    for (long at = 0; at < pipeline; at++)
        peer->batch[at].keys = room(sizeof *peer->batch[at].keys * many);
    peer->out = room(request_room * pipeline);
    peer->in = room((64 + KEY_SIZE + size) * many * pipeline);
    watch(peer, EPOLLIN, EPOLL_CTL_ADD);
}

static void read_word(const char *word)
{
    struct {
        const char *name;
        long *number;
    } names[] = {{"connections", &connections}, {"pipeline", &pipeline}, {"get", &gets}, {"set", &sets}, {"mg", &mgs},
                 {"many", &many}, {"keys", &keys}, {"size", &size}};
    const char *equals = strchr(word, '=');
    for (size_t at = 0; equals != NULL && at < sizeof names / sizeof *names; at++) {
        if (strlen(names[at].name) == (size_t)(equals - word) && strncmp(word, names[at].name, equals - word) == 0) {
            *names[at].number = atol(equals + 1);
            return;
        }
    }
    if (strncmp(word, "zipf=", 5) == 0)
        zipf = atof(word + 5);
    else if (strncmp(word, "rate=", 5) == 0)
        rate = atof(word + 5);
    else
        fail("a word is NAME=NUMBER, of the names that are at the top of load.c");
}

/* Does what a line says, and answers it. */
static void do_line(const char *line)
{
    bool waiting = strncmp(line, "wait ", 5) == 0, counting = strncmp(line, "count ", 6) == 0;
    filling = strcmp(line, "fill\n") == 0;
    if (!filling && !waiting && !counting && strncmp(line, "run ", 4) != 0)
        fail("a line is `fill`, `run SECONDS`, `count REQUESTS` or `wait SECONDS`");
    if (waiting && pipeline > 1)
        fail("a batch has one request where waits are told");
    next_to_fill = waited = 0;
    double start = now();
    if (waiting && waits == NULL)
        waits = room(sizeof *waits * WAITS);
    long most = counting ? atol(line + 6) : LONG_MAX;
    double end = counting ? INFINITY : start + atof(line + (waiting ? 5 : 4));
    long done = waiting ? wait_until(end) : serve_until(end, most);
    printf("%ld %.6f", done, now() - start);
    if (waiting)
        printf(" %.1f %.1f %.1f %.1f", wait_within(0.5), wait_within(0.99), wait_within(0.999), wait_within(1));
    printf("\n");
    fflush(stdout);
}

int main(int count, char **words)
{
    char line[100];
    if (count < 2)
        fail("usage: load PORT [NAME=NUMBER ..]");
    for (int at = 2; at < count; at++)
        read_word(words[at]);
    if (connections < 1 || pipeline < 1 || many < 1 || keys < 1 || size < KEY_SIZE || gets + sets + mgs != 100)
        fail("get, set and mg are to be 100 together, size at least 20, and the others at least 1");
    sprintf(size_line, "%ld\r\n", size);
    value = room(size);
    memset(value, 'v', size);
    if (zipf > 0)
        draw_samples();
    watcher = epoll_create1(0);
    peers = room(sizeof *peers * connections);
    for (long at = 0; at < connections; at++)
        connect_peer(&peers[at], atoi(words[1]));
    while (fgets(line, sizeof line, stdin) != NULL)
        do_line(line);
    return 0;
}
