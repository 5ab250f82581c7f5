// The least that a server can do: takes one connection on a Unix socket, cuts messages of FUSE from it, and answers
// each with a header alone, INIT and CREATE with a fitting body. Ends with the stream.
//
//     echo each|together SOCKET
//
// Each reply is a write of its own, or those to all messages of one read go together.

#include <linux/fuse.h>
#include <stdint.h>
#include <stdio.h>
#include <stdlib.h>
#include <string.h>
#include <sys/socket.h>
#include <sys/un.h>
#include <unistd.h>

enum { ROOM = 1 << 16, LEAST = sizeof(struct fuse_in_header), MOST = 8192 };

// The longest reply, that to a CREATE.
struct reply {
    struct fuse_out_header header;
    union {
        struct fuse_init_out agreed;
        struct {
            struct fuse_entry_out entry;
            struct fuse_open_out open;
        } made;
    } body;
};

__attribute__((noreturn)) static void fail(const char *what)
{
    fprintf(stderr, "echo: %s\n", what);
    exit(2);
}

static int accept_one(const char *path)
{
    struct sockaddr_un address = {.sun_family = AF_UNIX};
    int fd = socket(AF_UNIX, SOCK_STREAM, 0);
    if (strlen(path) >= sizeof address.sun_path)
        fail("the socket's path is too long");
    strcpy(address.sun_path, path);
    if (bind(fd, (struct sockaddr *)&address, sizeof address) < 0 || listen(fd, 1) < 0)
        fail("cannot listen");
    return accept(fd, NULL, NULL);
}

// Puts the reply to a message at the end of others and gives its length.
static size_t answer(const unsigned char *message, unsigned char *at)
{
    struct fuse_in_header asked;
    struct reply reply = {0};
    memcpy(&asked, message, sizeof asked);
    reply.header.len = sizeof reply.header;
    reply.header.unique = asked.unique;
    if (asked.opcode == FUSE_INIT) {
        reply.header.len += sizeof reply.body.agreed;
        reply.body.agreed.major = 7;
        reply.body.agreed.minor = 31;
    } else if (asked.opcode == FUSE_CREATE) {
        reply.header.len += sizeof reply.body.made;
        reply.body.made.entry.nodeid = 2;
        reply.body.made.open.fh = 1;
    }
    memcpy(at, &reply, reply.header.len);
    return reply.header.len;
}

static void write_whole(int fd, const unsigned char *at, size_t len)
{
    while (len) {
        ssize_t sent = send(fd, at, len, MSG_NOSIGNAL);
        if (sent < 0)
            fail("cannot write");
        at += sent;
        len -= (size_t)sent;
    }
}

// Answers all whole messages and gives how many bytes they have. Without `together` each reply is written at once.
static size_t answer_all(int fd, int together, const unsigned char *in, size_t len)
{
    static unsigned char out[ROOM];
    size_t at = 0, ready = 0;
    uint32_t size;
    while (len - at >= sizeof size) {
        memcpy(&size, in + at, sizeof size);
        if (size < LEAST || size > MOST)
            fail("bad length");
        if (len - at < size)
            break;
        ready += answer(in + at, out + ready);
        at += size;
        if (!together || ready + sizeof(struct reply) > ROOM) {
            write_whole(fd, out, ready);
            ready = 0;
        }
    }
    write_whole(fd, out, ready);
    return at;
}

int main(int argc, char **argv)
{
    static unsigned char in[ROOM];
    size_t len = 0;
    ssize_t got;
    if (argc != 3 || (strcmp(argv[1], "each") != 0 && strcmp(argv[1], "together") != 0))
        fail("wants each or together, and a socket");
    int together = strcmp(argv[1], "together") == 0;
    int fd = accept_one(argv[2]);
    while ((got = read(fd, in + len, sizeof in - len)) > 0) {
        len += (size_t)got;
        size_t taken = answer_all(fd, together, in, len);
        len -= taken;
        memmove(in, in + taken, len);
    }
    if (got < 0 || len)
        fail("cut");
    return 0;
}
