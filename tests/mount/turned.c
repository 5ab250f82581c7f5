// Gives the part of lockd_mount that changes messages and replies random ones of both:
// turned ROUNDS. It is built with sanitizers, which end it at the first fault. Kernel and
// server send no such messages. Before that it tries the tables: a file with many owners of record
// locks, an owner with several files, the folder's list while names go, and messages without a reply.
#include "../../programs/mount/mount.h"

#include <fcntl.h>
#include <stdio.h>
#include <stdlib.h>
#include <string.h>

enum { SENT = 512, NODES = 20, NUMBERS = 200, FHS = 50, OWNERS = 300, NAMES = 5000, KEPT = 3000 };

static uint64_t sent[SENT]; // numbers of the carrier's own messages
static int sent_count, flushed;

bool answer(uint64_t unique, int error, const void *body, size_t size)
{
    volatile char seen = 0;
    for (size_t i = 0; i < size && !error; i++)
        seen ^= ((const char *)body)[i];
    return unique != 1;
}

void send_later(const void *message, size_t size)
{
    struct fuse_in_header head;
    if (size < sizeof head)
        abort();
    memcpy(&head, message, sizeof head);
    if (sent_count < SENT)
        sent[sent_count++] = head.unique;
}

void carrier_answered(void)
{
    flushed++;
}

void carrier_agreed(void)
{
}

bool carrier_is_agreed(void)
{
    return rand() % 2;
}

void carrier_refused_init(int error)
{
    if (!error)
        abort();
}

static unsigned below(unsigned most)
{
    return (unsigned)rand() % most;
}

static void turn_message(char *message)
{
    static const uint32_t opcodes[] = {1,  2,  3,  4,  5,  6,  8,  9,  10, 11, 12, 13, 14, 15, 16, 17, 18,
                                       20, 25, 26, 27, 28, 29, 30, 31, 32, 33, 35, 36, 42, 43, 45, 51};
    struct fuse_in_header head = {.opcode = opcodes[below(sizeof opcodes / sizeof *opcodes)], .unique = 2 * below(NUMBERS), .nodeid = 1 + below(NODES)};
    size_t before = head.opcode == FUSE_CREATE || head.opcode == FUSE_MKNOD ? 16 : head.opcode == FUSE_MKDIR ? 8 : 0;
    size_t size = below(20) ? below(100) : below(MOST - sizeof head);
    if (below(2))
        size = before + 1 + below(4);
    for (size_t i = 0; i < size; i++)
        message[sizeof head + i] = (char)(i >= before && size < 40 ? 'a' + (int)below(3) : (int)below(below(3) ? 4 : 256));
    if (size && below(4))
        message[sizeof head + size - 1] = 0;
    head.len = (uint32_t)(sizeof head + size);
    memcpy(message, &head, sizeof head);
    size_t left = change_message(message, head.len);
    volatile char seen = 0;
    for (size_t i = 0; i < left; i++)
        seen ^= message[i];
}

static void turn_reply(char *reply)
{
    static const uint32_t sizes[] = {0, 16, 24, 64, 104, 128, 144, 7, 200};
    struct fuse_out_header head = {.unique = 2 * below(NUMBERS), .error = below(4) ? 0 : -(int)below(40)};
    size_t size = sizes[below(sizeof sizes / sizeof *sizes)];
    char *body = reply + sizeof head;
    if (sent_count && below(3))
        head.unique = sent[--sent_count];
    memset(body, 0, size);
    // Where numbers of nodes and open files stand in an entry, in attributes and after OPEN.
    if (size >= 128)
        body[0] = body[40] = (char)(1 + below(NODES));
    if (size == 144)
        body[128] = (char)below(FHS);
    if (size == 104)
        body[16] = (char)(1 + below(NODES));
    if (size == 16)
        body[0] = (char)below(FHS);
    head.len = (uint32_t)(sizeof head + size);
    memcpy(reply, &head, sizeof head);
    if (change_reply(reply, head.len) > head.len)
        abort();
}

// ---- A file with many owners ----

static void expect(bool holds, const char *what)
{
    if (holds)
        return;
    fprintf(stderr, "not so: %s\n", what);
    exit(1);
}

static size_t message_of(char *message, uint32_t opcode, uint64_t unique, const void *body, size_t size)
{
    struct fuse_in_header head = {.len = (uint32_t)(sizeof head + size), .opcode = opcode, .unique = unique, .nodeid = 2};
    memcpy(message, &head, sizeof head);
    memcpy(message + sizeof head, body, size);
    return change_message(message, head.len);
}

static size_t reply_to(char *reply, uint64_t unique)
{
    struct fuse_out_header head = {.len = sizeof head, .unique = unique};
    memcpy(reply, &head, sizeof head);
    return change_reply(reply, sizeof head);
}

// Each owner who hasn't flushed is flushed, and the RELEASE may go after the last reply.
static void release_after_many_owners(char *bytes)
{
    const struct fuse_release_in release = {.fh = 1};
    open_made(1, 2, 1);
    for (uint64_t owner = 1; owner <= OWNERS; owner++) {
        const struct fuse_lk_in lock = {.fh = 1, .owner = owner, .lk = {.type = F_WRLCK}};
        message_of(bytes, FUSE_SETLK, 2 * owner, &lock, sizeof lock);
    }
    message_of(bytes, FUSE_RELEASE, 2, &release, sizeof release);
    expect(sent_count == OWNERS && session.flushes == OWNERS, "each owner is flushed");
    for (int i = 0; i < OWNERS; i++) {
        expect(!flushed, "the RELEASE waits for each FLUSH");
        expect(!reply_to(bytes, sent[i]), "the reply to a FLUSH ends here");
    }
    expect(flushed == 1 && sent_count == OWNERS, "the RELEASE may go");
    sent_count = 0;
}

// An owner is flushed with the last open file of a node through which it asked.
static void close_files_of_one_owner(void)
{
    for (uint64_t fh = 1; fh <= 3; fh++) {
        open_made(fh, fh < 3 ? 2 : 3, 1);
        open_owner_asks(fh, 7);
    }
    struct owner *first = open_closed(1), *other = open_closed(3), *last = open_closed(2);
    expect(!first, "one of two open files takes nothing with it");
    expect(other && other->id == 7 && !other->next, "that of another node is the last there");
    expect(last && last->id == 7 && !last->next, "the second one is the last");
    owners_end(other);
    owners_end(last);
}

// The list has the names in the order of making, while two of three go, and then all.
static void list_while_names_go(void)
{
    char name[16];
    unsigned listed = 0;
    for (unsigned i = 0; i < NAMES; i++) {
        snprintf(name, sizeof name, "%u", i);
        node_made(2 + i, name, S_IFREG, 0, 0);
    }
    for (unsigned i = 0; i < NAMES; i++) {
        snprintf(name, sizeof name, "%u", i);
        expect(node_named(name) == node_of(2 + i), "a name is found");
        if (i % 3)
            node_unlinked(name);
        expect(!node_named(name) == (i % 3 != 0), "it isn't once it is unlinked");
    }
    for (struct node *node = node_after(2); node; node = node_after(node->cookie), listed++)
        expect(node->number == 2 + 3 * listed, "names are in the order of making");
    expect(listed == (NAMES + 2) / 3 && nodes_count() == listed, "all that are left are listed");
    for (struct node *node; (node = node_after(2));)
        node_unlinked(node->name);
    expect(!nodes_count(), "none is left");
}

// ---- Messages without a reply ----

static struct {
    uint64_t unique;
    uint32_t opcode;
    bool is_there;
} kept[KEPT];
static int kept_so_far;

static void keep(uint32_t opcode, uint64_t unique)
{
    struct fuse_in_header head = {.len = sizeof head, .opcode = opcode, .unique = unique};
    expect(kept_add((const char *)&head, sizeof head), "there is memory");
    kept[kept_so_far].unique = unique;
    kept[kept_so_far].opcode = opcode;
    kept[kept_so_far++].is_there = opcode != FUSE_INIT;
}

// The reply to a message ends it, and those before it that may get none.
static void answer_one(int at)
{
    for (int i = 0; i < at; i++)
        if (kept[i].opcode == FUSE_FORGET || kept[i].opcode == FUSE_BATCH_FORGET || kept[i].opcode == FUSE_INTERRUPT)
            kept[i].is_there = false;
    kept[at].is_there = false;
    kept_answered(kept[at].unique);
}

// Those that are kept come marked, in their order, however few have room at a time.
static void compare_kept(size_t most)
{
    static char bytes[8 * MOST];
    struct fuse_in_header head;
    uint64_t number = 0;
    int at = 0;
    for (size_t size; (size = kept_copy(&number, bytes, most * sizeof head));)
        for (size_t from = 0; from < size; from += sizeof head, at++) {
            while (at < kept_so_far && !kept[at].is_there)
                at++;
            memcpy(&head, bytes + from, sizeof head);
            expect(at < kept_so_far && head.unique == (kept[at].unique | AGAIN) && head.opcode == kept[at].opcode, "it is the next one");
        }
    while (at < kept_so_far && !kept[at].is_there)
        at++;
    expect(at == kept_so_far, "each is there");
}

static void keep_and_answer(void)
{
    static const uint32_t opcodes[] = {FUSE_FORGET, FUSE_BATCH_FORGET, FUSE_INTERRUPT, FUSE_SETLKW, FUSE_LOOKUP, FUSE_RELEASE};
    static char init[MOST];
    expect(!kept_init(init), "there is no INIT yet");
    keep(FUSE_INIT, 2);
    expect(kept_init(init) == sizeof(struct fuse_in_header), "there is one");
    while (kept_so_far < KEPT) {
        keep(opcodes[below(6)], 4 + 2 * (uint64_t)kept_so_far);
        int at = (int)below((unsigned)kept_so_far);
        if (kept[at].is_there && kept[at].opcode != FUSE_FORGET && kept[at].opcode != FUSE_BATCH_FORGET)
            answer_one(at);
        kept_answered(1);
        if (!below(50))
            compare_kept(1 + below(1000));
    }
    for (int at = KEPT - 1; at >= 0; at--)
        if (kept[at].is_there && kept[at].opcode != FUSE_FORGET && kept[at].opcode != FUSE_BATCH_FORGET)
            answer_one(at);
    compare_kept(1000);
    kept_end();
}

int main(int argc, char **argv)
{
    static _Alignas(8) char bytes[MOST + 16];
    names_start(256, 0755, 0, 0);
    opens_start(1024);
    release_after_many_owners(bytes);
    close_files_of_one_owner();
    list_while_names_go();
    keep_and_answer();
    for (long round = argc > 1 ? atol(argv[1]) : 0; round > 0; round--) {
        session.discards = below(2);
        if (below(2))
            turn_message(bytes);
        else
            turn_reply(bytes);
    }
    opens_end();
    names_end();
    return 0;
}
