// Asks a server on a Unix socket for pairs of a lock and its unlock, with WINDOW messages always under way, and checks
// each reply. Prints pairs a second, and p50 and p99 of a round trip in nanoseconds, of MESSAGES messages; a tenth as
// many go before them and don't count.
//
//     client fuse|files|redis SOCKET WINDOW MESSAGES
//
// The window is of slots, each with a lock of its own: with `fuse` on bytes of one file, with `files` on a file of its own. A slot's next message is made when its reply has come, so the
// server may answer the slots in any order, and a lock is set before it is dropped.

#include <errno.h>
#include <fcntl.h>
#include <linux/fuse.h>
#include <poll.h>
#include <stdarg.h>
#include <stdint.h>
#include <stdio.h>
#include <stdlib.h>
#include <string.h>
#include <sys/socket.h>
#include <sys/time.h>
#include <sys/un.h>
#include <time.h>
#include <unistd.h>

enum { MOST_SLOTS = 512, MOST_BYTES = 96, ROOM = MOST_SLOTS * MOST_BYTES };
enum { INIT_UNIQUE = 1, CREATE_UNIQUE, FIRST_UNIQUE, PATIENCE_SECONDS = 10 };

struct buffer {
    unsigned char at[ROOM];
    size_t len;
};

struct client {
    int fd;
    unsigned window;
    uint64_t node[MOST_SLOTS], fh[MOST_SLOTS]; // the file that a slot locks, in a session of FUSE
    uint64_t asked, told;             // messages made, and replies taken
    uint64_t turn[MOST_SLOTS];        // how many of a slot's messages are answered
    uint64_t answered_at[MOST_SLOTS]; // when the last of them was, in nanoseconds
    struct buffer out, in;
};

// What a server speaks, and how a session begins where there is one. `answer` checks the reply at the front of these
// bytes, names its slot and gives its length, or 0 where more bytes have to come.
struct speech {
    const char *name;
    void (*begin)(struct client *c);
    size_t (*ask)(const struct client *c, unsigned slot, unsigned char *at);
    size_t (*answer)(const struct client *c, const unsigned char *at, size_t len, unsigned *slot);
};

__attribute__((noreturn, format(printf, 1, 2))) static void fail(const char *format, ...)
{
    va_list rest;
    va_start(rest, format);
    fputs("client: ", stderr);
    vfprintf(stderr, format, rest);
    fputc('\n', stderr);
    va_end(rest);
    exit(2);
}

static uint64_t nanoseconds(void)
{
    struct timespec now;
    clock_gettime(CLOCK_MONOTONIC, &now);
    return (uint64_t)now.tv_sec * 1000000000 + (uint64_t)now.tv_nsec;
}

// Takes bytes off the front.
static void drop(struct buffer *buffer, size_t bytes)
{
    buffer->len -= bytes;
    memmove(buffer->at, buffer->at + bytes, buffer->len);
}

// Tries again for a while, since the server may not listen yet.
static int connect_to(const char *path)
{
    struct sockaddr_un address = {.sun_family = AF_UNIX};
    struct timeval patience = {.tv_sec = PATIENCE_SECONDS};
    uint64_t last = nanoseconds() + PATIENCE_SECONDS * 1000000000ull;
    int fd = socket(AF_UNIX, SOCK_STREAM, 0);
    if (strlen(path) >= sizeof address.sun_path)
        fail("the socket's path is too long");
    strcpy(address.sun_path, path);
    while (connect(fd, (struct sockaddr *)&address, sizeof address) < 0) {
        if ((errno != ENOENT && errno != ECONNREFUSED) || nanoseconds() > last)
            fail("cannot connect: %s", strerror(errno));
        nanosleep(&(struct timespec){.tv_nsec = 2000000}, NULL);
    }
    setsockopt(fd, SOL_SOCKET, SO_RCVTIMEO, &patience, sizeof patience);
    return fd;
}

// Sends what is made, and reads on while the server takes no more of it, so that neither waits for the other for ever.
static void exchange(struct client *c)
{
    struct pollfd ready = {.fd = c->fd, .events = POLLIN | POLLOUT};
    while (c->out.len && !(ready.revents & POLLIN)) {
        ssize_t sent = send(c->fd, c->out.at, c->out.len, MSG_DONTWAIT | MSG_NOSIGNAL);
        if (sent < 0 && errno != EAGAIN)
            fail("cannot send: %s", strerror(errno));
        if (sent > 0)
            drop(&c->out, (size_t)sent);
        if (c->out.len && poll(&ready, 1, PATIENCE_SECONDS * 1000) == 0)
            fail("the server neither reads nor answers");
    }
    ssize_t got = read(c->fd, c->in.at + c->in.len, sizeof c->in.at - c->in.len);
    if (got < 0)
        fail("no reply: %s", errno == EAGAIN ? "waited too long" : strerror(errno));
    if (got == 0)
        fail("the server ended the stream");
    c->in.len += (size_t)got;
}

// Sends a message of FUSE and waits for its reply, which has to have this size.
static void ask_alone(struct client *c, const struct fuse_in_header *message, void *reply, size_t size)
{
    struct fuse_out_header head;
    memcpy(c->out.at, message, message->len);
    c->out.len = message->len;
    while (c->in.len < sizeof head)
        exchange(c);
    memcpy(&head, c->in.at, sizeof head);
    if (head.len != size || head.error || head.unique != message->unique)
        fail("bad reply to opcode %u: len %u, error %d", message->opcode, head.len, head.error);
    while (c->in.len < size)
        exchange(c);
    memcpy(reply, c->in.at, size);
    drop(&c->in, size);
}

// An INIT of 7.31.
static void begin_session(struct client *c)
{
    const struct {
        struct fuse_in_header header;
        uint32_t major, minor, max_readahead, flags;
    } init = {{.len = sizeof init, .opcode = FUSE_INIT, .unique = INIT_UNIQUE}, 7, 31, 0, FUSE_POSIX_LOCKS};
    struct {
        struct fuse_out_header header;
        struct fuse_init_out body;
    } agreed;
    ask_alone(c, &init.header, &agreed, sizeof agreed);
    if (agreed.body.major != 7 || agreed.body.minor != 31)
        fail("the server speaks %u.%u", agreed.body.major, agreed.body.minor);
}

// A CREATE of the file that a slot locks.
static void create_file(struct client *c, unsigned slot)
{
    struct {
        struct fuse_in_header header;
        struct fuse_create_in body;
        char name[8];
    } create = {{.len = sizeof create, .opcode = FUSE_CREATE, .unique = CREATE_UNIQUE, .nodeid = FUSE_ROOT_ID},
                {.mode = 0644},
                "lock000"};
    struct {
        struct fuse_out_header header;
        struct fuse_entry_out entry;
        struct fuse_open_out open;
    } made;
    for (unsigned digit = 6, rest = slot; digit > 3; digit--, rest /= 10)
        create.name[digit] = (char)('0' + rest % 10);
    ask_alone(c, &create.header, &made, sizeof made);
    c->node[slot] = made.entry.nodeid;
    c->fh[slot] = made.open.fh;
}

static void fuse_begin(struct client *c)
{
    begin_session(c);
    create_file(c, 0);
    for (unsigned slot = 1; slot < c->window; slot++) {
        c->node[slot] = c->node[0];
        c->fh[slot] = c->fh[0];
    }
}

static void files_begin(struct client *c)
{
    begin_session(c);
    for (unsigned slot = 0; slot < c->window; slot++)
        create_file(c, slot);
}

// The unique of a slot's message that isn't answered yet.
static uint64_t unique_of(const struct client *c, unsigned slot)
{
    return FIRST_UNIQUE + c->turn[slot] * c->window + slot;
}

// A slot is an owner with ten bytes of its file. Its lock is set in even turns and dropped in odd ones.
static size_t fuse_ask(const struct client *c, unsigned slot, unsigned char *at)
{
    const struct {
        struct fuse_in_header header;
        struct fuse_lk_in body;
    } setlk = {{.len = sizeof setlk, .opcode = FUSE_SETLK, .unique = unique_of(c, slot), .nodeid = c->node[slot]},
               {.fh = c->fh[slot],
                .owner = slot + 1,
                .lk = {16 * slot, 16 * slot + 9, c->turn[slot] % 2 ? F_UNLCK : F_WRLCK, 11}}};
    memcpy(at, &setlk, sizeof setlk);
    return sizeof setlk;
}

static size_t fuse_answer(const struct client *c, const unsigned char *at, size_t len, unsigned *slot)
{
    struct fuse_out_header head;
    if (len < sizeof head)
        return 0;
    memcpy(&head, at, sizeof head);
    if (head.len != sizeof head || head.error)
        fail("bad reply: len %u, error %d", head.len, head.error);
    *slot = (unsigned)((head.unique - FIRST_UNIQUE) % c->window);
    if (head.unique != unique_of(c, *slot))
        fail("a reply to %llu, which isn't under way", (unsigned long long)head.unique);
    return sizeof head;
}

// A slot is a key. Its three digits stand at the same place in both commands.
static size_t redis_ask(const struct client *c, unsigned slot, unsigned char *at)
{
    static const char set[] = "*4\r\n$3\r\nSET\r\n$4\r\nk000\r\n$1\r\nv\r\n$2\r\nNX\r\n";
    static const char del[] = "*2\r\n$3\r\nDEL\r\n$4\r\nk000\r\n";
    enum { DIGITS = 18 };
    int odd = c->turn[slot] % 2;
    size_t len = odd ? sizeof del - 1 : sizeof set - 1;
    memcpy(at, odd ? del : set, len);
    at[DIGITS] = (unsigned char)('0' + slot / 100);
    at[DIGITS + 1] = (unsigned char)('0' + slot / 10 % 10);
    at[DIGITS + 2] = (unsigned char)('0' + slot % 10);
    return len;
}

// Redis answers in the order in which it was asked, so the slots take turns.
static size_t redis_answer(const struct client *c, const unsigned char *at, size_t len, unsigned *slot)
{
    *slot = (unsigned)(c->told % c->window);
    const char *due = c->turn[*slot] % 2 ? ":1\r\n" : "+OK\r\n";
    if (len < strlen(due))
        return 0;
    if (memcmp(at, due, strlen(due)) != 0)
        fail("bad reply: %.*s", (int)strcspn((const char *)at, "\r"), (const char *)at);
    return strlen(due);
}

static void ask(struct client *c, const struct speech *speech, unsigned slot)
{
    c->out.len += speech->ask(c, slot, c->out.at + c->out.len);
    c->asked++;
}

// Takes all replies that are there, each with the time of its round trip, and makes as many new messages. A round trip
// begins when the slot's reply before it was read.
static void take_replies(struct client *c, const struct speech *speech, uint64_t total, uint64_t now, uint64_t *trips)
{
    size_t at = 0, len;
    unsigned slot;
    while (c->told < total && (len = speech->answer(c, c->in.at + at, c->in.len - at, &slot)) != 0) {
        at += len;
        trips[c->told++] = now - c->answered_at[slot];
        c->answered_at[slot] = now;
        c->turn[slot]++;
        if (c->asked < total)
            ask(c, speech, slot);
    }
    drop(&c->in, at);
}

static int by_size(const void *left, const void *right)
{
    uint64_t a = *(const uint64_t *)left, b = *(const uint64_t *)right;
    return (a > b) - (a < b);
}

static void print_figures(uint64_t *trips, uint64_t count, uint64_t nanos)
{
    qsort(trips, count, sizeof *trips, by_size);
    printf("%.0f %llu %llu\n", (double)count / 2 * 1e9 / (double)nanos, (unsigned long long)trips[count / 2],
           (unsigned long long)trips[count * 99 / 100]);
}

// Asks until `total` replies have come. What came by the first moment with `warm` replies doesn't count.
static void run(struct client *c, const struct speech *speech, uint64_t warm, uint64_t total)
{
    uint64_t *trips = calloc(total, sizeof *trips);
    uint64_t now = nanoseconds(), begun = 0, begun_at = 0;
    if (!trips)
        fail("no memory");
    for (unsigned slot = 0; slot < c->window; slot++) {
        c->answered_at[slot] = now;
        ask(c, speech, slot);
    }
    while (c->told < total) {
        exchange(c);
        now = nanoseconds();
        take_replies(c, speech, total, now, trips);
        if (!begun && c->told >= warm) {
            begun = c->told;
            begun_at = now;
        }
    }
    if (c->in.len)
        fail("more came than was asked for");
    print_figures(trips + begun, total - begun, now - begun_at);
    free(trips);
}

int main(int argc, char **argv)
{
    static const struct speech speeches[] = {
        {"fuse", fuse_begin, fuse_ask, fuse_answer},
        {"files", files_begin, fuse_ask, fuse_answer},
        {"redis", NULL, redis_ask, redis_answer},
    };
    static struct client client;
    const struct speech *speech = speeches, *end = speeches + sizeof speeches / sizeof *speeches;
    if (argc != 5)
        fail("wants fuse, files or redis, a socket, a window and a number of messages");
    while (speech < end && strcmp(argv[1], speech->name) != 0)
        speech++;
    if (speech == end)
        fail("speaks fuse, files or redis");
    uint64_t messages = strtoull(argv[4], NULL, 10);
    client.window = (unsigned)strtoul(argv[3], NULL, 10);
    if (client.window < 1 || client.window > MOST_SLOTS || messages <= client.window)
        fail("wants a window from 1 to %d, and more messages than that", MOST_SLOTS);
    client.fd = connect_to(argv[2]);
    if (speech->begin)
        speech->begin(&client);
    run(&client, speech, messages / 10, messages / 10 + messages);
    close(client.fd);
    return 0;
}
