// What the carrier knows of open files, of the owners of record locks set through them, and of
// messages whose replies it reads.
#include "mount.h"

#include <stdatomic.h>
#include <stdlib.h>
#include <string.h>

enum { BUCKETS = 1024 };

struct open_file {
    struct open_file *next;
    uint64_t fh, node;
    uint32_t pid;
    struct owner *owners;
};

// An owner of record locks on a node, and through how many open files it asked for them.
struct locker {
    struct locker *next;
    uint64_t node, owner;
    unsigned files;
};

static struct open_file **opens;
static struct locker **lockers;
static size_t chains; // of each of the two
static unsigned opened;
static struct asked *asked[BUCKETS];
static atomic_uint asked_count;

void opens_start(unsigned most)
{
    chains = chains_for(most);
    opens = calloc(chains, sizeof *opens);
    lockers = calloc(chains, sizeof *lockers);
    if (!opens || !lockers)
        fail("no memory for open files");
}

// Where the open file stands in its chain, or the end of it.
static struct open_file **place_of(uint64_t fh)
{
    struct open_file **at = &opens[fh % chains];
    while (*at && (*at)->fh != fh)
        at = &(*at)->next;
    return at;
}

static struct open_file *open_of(uint64_t fh)
{
    return *place_of(fh);
}

// In the same way. The kernel's owners are hashes already.
static struct locker **place_of_locker(uint64_t node, uint64_t owner)
{
    struct locker **at = &lockers[(node ^ owner) % chains];
    while (*at && ((*at)->node != node || (*at)->owner != owner))
        at = &(*at)->next;
    return at;
}

void open_made(uint64_t fh, uint64_t node, uint32_t pid)
{
    struct open_file *file = malloc(sizeof *file);
    if (!file)
        return;
    *file = (struct open_file){.next = opens[fh % chains], .fh = fh, .node = node, .pid = pid};
    opens[fh % chains] = file;
    opened++;
}

static bool has_owner(const struct open_file *file, uint64_t owner)
{
    const struct owner *found = file->owners;
    while (found && found->id != owner)
        found = found->next;
    return found != NULL;
}

// False where there is no memory.
static bool locker_gains(uint64_t node, uint64_t owner)
{
    struct locker **at = place_of_locker(node, owner);
    if (!*at) {
        *at = malloc(sizeof **at);
        if (!*at)
            return false;
        **at = (struct locker){.node = node, .owner = owner};
    }
    (*at)->files++;
    return true;
}

static void locker_loses(uint64_t node, uint64_t owner)
{
    struct locker **at = place_of_locker(node, owner), *locker = *at;
    if (--locker->files)
        return;
    *at = locker->next;
    free(locker);
}

void open_owner_asks(uint64_t fh, uint64_t owner)
{
    struct open_file *file = open_of(fh);
    if (!file || has_owner(file, owner))
        return;
    struct owner *added = malloc(sizeof *added);
    if (!added || !locker_gains(file->node, owner)) {
        free(added);
        return;
    }
    *added = (struct owner){.next = file->owners, .id = owner};
    file->owners = added;
}

static void drop_owner(struct owner **at)
{
    struct owner *gone = *at;
    *at = gone->next;
    free(gone);
}

void owners_end(struct owner *first)
{
    while (first)
        drop_owner(&first);
}

void open_owner_flushes(uint64_t fh, uint64_t owner)
{
    struct open_file *file = open_of(fh);
    if (!file)
        return;
    struct owner **at = &file->owners;
    while (*at && (*at)->id != owner)
        at = &(*at)->next;
    if (!*at)
        return;
    drop_owner(at);
    locker_loses(file->node, owner);
}

// An owner who also asked through another open file is left out. The kernel makes owners of
// addresses, and a new open file may stand where the old one stood: its locks are not dropped.
struct owner *open_closed(uint64_t fh)
{
    struct open_file **at = place_of(fh), *file = *at;
    if (!file)
        return NULL;
    struct owner **owner = &file->owners;
    while (*owner) {
        uint64_t id = (*owner)->id;
        locker_loses(file->node, id);
        if (*place_of_locker(file->node, id))
            drop_owner(owner);
        else
            owner = &(*owner)->next;
    }
    struct owner *left = file->owners;
    *at = file->next;
    free(file);
    opened--;
    return left;
}

unsigned opens_count(void)
{
    return opened;
}

void openers(struct holders *holders)
{
    *holders = (struct holders){0};
    for (size_t i = 0; i < chains; i++)
        for (const struct open_file *file = opens[i]; file; file = file->next) {
            int at = 0;
            while (at < holders->count && at < MOST_HOLDERS && holders->pids[at] != (pid_t)file->pid)
                at++;
            if (at == holders->count && at < MOST_HOLDERS)
                holders->pids[holders->count++] = (pid_t)file->pid;
        }
}

void opens_end(void)
{
    for (size_t i = 0; i < chains; i++)
        while (opens[i])
            owners_end(open_closed(opens[i]->fh));
    free(opens);
    free(lockers);
    chains = 0;
    for (size_t i = 0; i < BUCKETS; i++) {
        for (struct asked *message = asked[i], *next; message; message = next) {
            next = message->next;
            free(message);
        }
        asked[i] = NULL;
    }
}

// ---- Messages whose replies are read ----

static struct asked **bucket_of(uint64_t unique)
{
    // The kernel's numbers are even.
    return &asked[(unique >> 1) % BUCKETS];
}

struct asked *asked_new(uint64_t unique, uint32_t opcode, const char *name)
{
    size_t length = strlen(name) + 1;
    struct asked *message = calloc(1, sizeof *message + length);
    if (!message)
        return NULL;
    message->unique = unique;
    message->opcode = opcode;
    memcpy(message->name, name, length);
    message->next = *bucket_of(unique);
    *bucket_of(unique) = message;
    atomic_fetch_add(&asked_count, 1);
    return message;
}

struct asked *asked_taken(uint64_t unique)
{
    struct asked **at = bucket_of(unique);
    while (*at && (*at)->unique != unique)
        at = &(*at)->next;
    struct asked *message = *at;
    if (message) {
        *at = message->next;
        atomic_fetch_sub(&asked_count, 1);
    }
    return message;
}

bool asked_any(void)
{
    return atomic_load(&asked_count) != 0;
}
