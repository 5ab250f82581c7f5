// Copies of the messages that have no reply, to send them again to a server that comes after one that
// ended.
//
// A message is kept until its reply came. A FORGET, a BATCH_FORGET and an INTERRUPT that finds its
// request get none. They are kept until the reply to a later message came, since the one worker
// takes messages in their order. The kernel bounds how many are kept:
// - one for each thread that waits for a call here, and at most 16 for which none waits;
// - one INTERRUPT for each of them, and before a RELEASE one FLUSH for each owner;
// - one FORGET for each file: before the next one comes the reply to a LOOKUP or a CREATE.
#include "mount.h"

#include <pthread.h>
#include <stdlib.h>
#include <string.h>

// Locks, opens and closes are no longer than SMALL bytes.
enum { CHAINS = 1024, SMALL = 128 };

struct kept {
    struct kept *before, *after; // in the order of sending
    struct kept *next;           // of its chain
    struct kept *next_silent;
    uint64_t number, unique; // number: how many were kept before it
    size_t size;
    char message[];
};

static struct {
    pthread_mutex_t lock;
    struct kept *first, *last;
    struct kept *chains[CHAINS]; // those that may get a reply, by unique
    struct kept *silent, **silent_end; // those that may get none, in the order of sending
    struct kept *spare;                // that have room for SMALL bytes, to be used again
    uint64_t count;
    char init[MOST];
    size_t init_size;
} all = {.lock = PTHREAD_MUTEX_INITIALIZER, .silent_end = &all.silent};

static bool may_get_a_reply(uint32_t opcode)
{
    return opcode != FUSE_FORGET && opcode != FUSE_BATCH_FORGET;
}

static bool may_get_none(uint32_t opcode)
{
    return opcode == FUSE_FORGET || opcode == FUSE_BATCH_FORGET || opcode == FUSE_INTERRUPT;
}

static struct kept **chain_of(uint64_t unique)
{
    // The kernel's numbers are even, but those of INTERRUPT.
    return &all.chains[(unique >> 1) % CHAINS];
}

static struct kept *copy_of(const char *message, size_t size, uint64_t unique)
{
    struct kept *kept = size <= SMALL ? all.spare : NULL;
    if (kept)
        all.spare = kept->next;
    else
        kept = malloc(sizeof *kept + (size < SMALL ? SMALL : size));
    if (kept) {
        *kept = (struct kept){.unique = unique, .size = size};
        memcpy(kept->message, message, size);
    }
    return kept;
}

static void put_last(struct kept *kept)
{
    kept->number = ++all.count;
    kept->before = all.last;
    *(all.last ? &all.last->after : &all.first) = kept;
    all.last = kept;
}

static void put_in_chain(struct kept *kept)
{
    kept->next = *chain_of(kept->unique);
    *chain_of(kept->unique) = kept;
}

static void put_with_the_silent(struct kept *kept)
{
    *all.silent_end = kept;
    all.silent_end = &kept->next_silent;
}

bool kept_add(const char *message, size_t size)
{
    struct fuse_in_header head;
    memcpy(&head, message, sizeof head);
    if (head.opcode == FUSE_INIT) {
        memcpy(all.init, message, size);
        all.init_size = size;
        return true;
    }
    pthread_mutex_lock(&all.lock);
    struct kept *kept = copy_of(message, size, head.unique);
    if (kept)
        put_last(kept);
    if (kept && may_get_a_reply(head.opcode))
        put_in_chain(kept);
    if (kept && may_get_none(head.opcode))
        put_with_the_silent(kept);
    pthread_mutex_unlock(&all.lock);
    return kept != NULL;
}

static void let_go(struct kept *kept)
{
    if (kept->size > SMALL) {
        free(kept);
        return;
    }
    kept->next = all.spare;
    all.spare = kept;
}

static void drop(struct kept *kept)
{
    struct kept **at = chain_of(kept->unique);
    while (*at && *at != kept)
        at = &(*at)->next;
    if (*at)
        *at = kept->next;
    *(kept->before ? &kept->before->after : &all.first) = kept->after;
    *(kept->after ? &kept->after->before : &all.last) = kept->before;
    let_go(kept);
}

static void drop_first_silent(void)
{
    struct kept *kept = all.silent;
    all.silent = kept->next_silent;
    if (!all.silent)
        all.silent_end = &all.silent;
    drop(kept);
}

static bool is_of_a_lock(const struct kept *kept)
{
    struct fuse_in_header head;
    memcpy(&head, kept->message, sizeof head);
    return head.opcode == FUSE_SETLK || head.opcode == FUSE_SETLKW;
}

bool kept_answered(uint64_t unique)
{
    pthread_mutex_lock(&all.lock);
    struct kept *kept = *chain_of(unique);
    while (kept && kept->unique != unique)
        kept = kept->next;
    bool is_lock = kept && is_of_a_lock(kept);
    while (kept && all.silent && all.silent->number < kept->number)
        drop_first_silent();
    if (kept && kept == all.silent)
        drop_first_silent();
    else if (kept)
        drop(kept);
    pthread_mutex_unlock(&all.lock);
    return is_lock;
}

size_t kept_init(char *to)
{
    memcpy(to, all.init, all.init_size);
    return all.init_size;
}

static void copy_marked(char *to, const struct kept *kept)
{
    struct fuse_in_header head;
    memcpy(to, kept->message, kept->size);
    memcpy(&head, to, sizeof head);
    head.unique |= AGAIN;
    memcpy(to, &head, sizeof head);
}

size_t kept_copy(uint64_t *number, char *to, size_t room)
{
    size_t size = 0;
    pthread_mutex_lock(&all.lock);
    struct kept *kept = all.first;
    while (kept && kept->number <= *number)
        kept = kept->after;
    for (; kept && kept->size <= room - size; kept = kept->after) {
        copy_marked(to + size, kept);
        size += kept->size;
        *number = kept->number;
    }
    pthread_mutex_unlock(&all.lock);
    return size;
}

void kept_end(void)
{
    for (struct kept *kept = all.first, *after; kept; kept = after) {
        after = kept->after;
        free(kept);
    }
    for (struct kept *kept = all.spare, *next; kept; kept = next) {
        next = kept->next;
        free(kept);
    }
    all.first = all.last = all.spare = NULL;
}
