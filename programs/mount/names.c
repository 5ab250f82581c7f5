// What the carrier knows of the files: names, kinds, modes, owners and times. It is the server's
// only client, so each name that is made or unlinked goes by here.
#include "mount.h"

#include <pthread.h>
#include <stdio.h>
#include <stdlib.h>
#include <string.h>

enum { NO_SIZE = 4096 };

// A place in the folder's list. Once its name is unlinked it has no node.
struct listed {
    uint64_t cookie;
    struct node *node;
};

static pthread_mutex_t lock = PTHREAD_MUTEX_INITIALIZER;
static struct {
    struct node root;
    struct node **numbers, **names; // each as many chains
    size_t chains;
    unsigned most, count, folders;
    struct listed *list; // in the order of making
    size_t used, room, gone;
    uint64_t cookie;
} table;

void table_lock(void)
{
    pthread_mutex_lock(&lock);
}

void table_unlock(void)
{
    pthread_mutex_unlock(&lock);
}

struct timespec now(void)
{
    struct timespec at;
    clock_gettime(CLOCK_REALTIME, &at);
    return at;
}

bool is_folder(const struct node *node)
{
    return S_ISDIR(node->mode);
}

static void set_times(struct node *node)
{
    node->atime = node->mtime = node->ctime = now();
}

// A hash for spread, and not against those who choose names that collide (FNV-1a).
uint64_t hash_of(const char *text)
{
    uint64_t hash = 14695981039346656037u;
    for (; *text; text++)
        hash = (hash ^ (unsigned char)*text) * 1099511628211u;
    return hash;
}

size_t chains_for(unsigned most)
{
    size_t chains = 1024;
    while (chains < most)
        chains *= 2;
    return chains;
}

void names_start(unsigned most, uint32_t mode, uint32_t uid, uint32_t gid)
{
    table.most = most;
    table.chains = chains_for(most);
    table.numbers = calloc(table.chains, sizeof *table.numbers);
    table.names = calloc(table.chains, sizeof *table.names);
    if (!table.numbers || !table.names)
        fail("no memory for names");
    table.root = (struct node){.number = ROOT, .mode = S_IFDIR | (mode & 07777), .uid = uid, .gid = gid};
    set_times(&table.root);
    // The cookies of "." and ".." are 1 and 2.
    table.cookie = 2;
}

static struct node **of_number(uint64_t number)
{
    return &table.numbers[number % table.chains];
}

static struct node **of_name(const char *name)
{
    return &table.names[hash_of(name) % table.chains];
}

struct node *node_of(uint64_t number)
{
    if (number == ROOT)
        return &table.root;
    struct node *node = *of_number(number);
    while (node && node->number != number)
        node = node->next;
    return node;
}

struct node *node_named(const char *name)
{
    struct node *node = *of_name(name);
    while (node && strcmp(node->name, name) != 0)
        node = node->next_name;
    return node;
}

// The folder's own times change with its names.
static void root_changed(void)
{
    table.root.mtime = table.root.ctime = now();
}

static struct node *add(uint64_t number, uint32_t mode, uint32_t uid, uint32_t gid)
{
    struct node *node = calloc(1, sizeof *node);
    if (!node)
        return NULL;
    node->number = number;
    node->mode = mode;
    node->uid = uid;
    node->gid = gid;
    set_times(node);
    node->next = *of_number(number);
    *of_number(number) = node;
    table.count++;
    return node;
}

// ---- The list ----

// The first place with a greater cookie.
static size_t place_after(uint64_t cookie)
{
    size_t from = 0, to = table.used;
    while (from < to) {
        size_t middle = from + (to - from) / 2;
        if (table.list[middle].cookie <= cookie)
            from = middle + 1;
        else
            to = middle;
    }
    return from;
}

// Whether there is room for one place more.
static bool has_place(void)
{
    if (table.used < table.room)
        return true;
    size_t room = table.room ? 2 * table.room : 64;
    struct listed *list = realloc(table.list, room * sizeof *list);
    if (!list)
        return false;
    table.list = list;
    table.room = room;
    return true;
}

static void put_last(struct node *node)
{
    node->cookie = ++table.cookie;
    table.list[table.used++] = (struct listed){.cookie = node->cookie, .node = node};
}

// Once half of the places have no node, these go.
static void take_from_list(const struct node *node)
{
    size_t kept = 0;
    table.list[place_after(node->cookie - 1)].node = NULL;
    if (++table.gone <= table.used / 2)
        return;
    for (size_t i = 0; i < table.used; i++)
        if (table.list[i].node)
            table.list[kept++] = table.list[i];
    table.used = kept;
    table.gone = 0;
}

struct node *node_after(uint64_t cookie)
{
    size_t at = place_after(cookie);
    while (at < table.used && !table.list[at].node)
        at++;
    return at < table.used ? table.list[at].node : NULL;
}

// ---- What is made and unlinked ----

// The oldest of a name stays the first: replies to UNLINK and CREATE may come in any order.
static void take_name(struct node *node, const char *name)
{
    struct node **at = of_name(name);
    while (*at)
        at = &(*at)->next_name;
    *at = node;
    node->next_name = NULL;
    snprintf(node->name, sizeof node->name, "%s", name);
}

static void lose_name(struct node *node)
{
    struct node **at = of_name(node->name);
    while (*at != node)
        at = &(*at)->next_name;
    *at = node->next_name;
    *node->name = 0;
}

struct node *node_made(uint64_t number, const char *name, uint32_t mode, uint32_t uid, uint32_t gid)
{
    struct node *node = node_of(number);
    if (number == ROOT || !*name || (node && *node->name))
        return node;
    bool takes_group = (table.root.mode & S_ISGID) != 0;
    if (!has_place())
        return NULL;
    if (!node)
        node = add(number, mode, uid, takes_group ? table.root.gid : gid);
    if (!node)
        return NULL;
    node->mode = mode;
    take_name(node, name);
    put_last(node);
    table.folders += is_folder(node);
    root_changed();
    return node;
}

struct node *node_looked_up(const struct fuse_attr *attr)
{
    struct node *node = node_of(attr->ino);
    if (!node)
        node = add(attr->ino, attr->mode, attr->uid, attr->gid);
    if (node)
        node->lookups++;
    return node;
}

static void drop(struct node *node)
{
    struct node **at = of_number(node->number);
    while (*at != node)
        at = &(*at)->next;
    *at = node->next;
    table.count--;
    free(node);
}

void node_unlinked(const char *name)
{
    struct node *node = node_named(name);
    if (!node)
        return;
    take_from_list(node);
    lose_name(node);
    table.folders -= is_folder(node);
    node->ctime = now();
    root_changed();
    if (!node->lookups)
        drop(node);
}

void node_forgotten(uint64_t number, uint64_t lookups)
{
    struct node *node = node_of(number);
    if (!node || number == ROOT)
        return;
    node->lookups -= lookups < node->lookups ? lookups : node->lookups;
    if (!node->lookups && !*node->name)
        drop(node);
}

unsigned nodes_count(void)
{
    return table.count;
}

unsigned nodes_most(void)
{
    return table.most;
}

static void set_time(uint64_t *second, uint32_t *nanosecond, struct timespec at)
{
    *second = (uint64_t)at.tv_sec;
    *nanosecond = (uint32_t)at.tv_nsec;
}

void describe(struct fuse_attr *attr, const struct node *node)
{
    uint32_t links = is_folder(node) ? *node->name ? 2 : 0 : *node->name ? 1 : 0;
    *attr = (struct fuse_attr){
        .ino = node->number,
        .mode = node->mode,
        .uid = node->uid,
        .gid = node->gid,
        .nlink = node->number == ROOT ? 2 + table.folders : links,
        .blksize = NO_SIZE,
    };
    set_time(&attr->atime, &attr->atimensec, node->atime);
    set_time(&attr->mtime, &attr->mtimensec, node->mtime);
    set_time(&attr->ctime, &attr->ctimensec, node->ctime);
}

void names_end(void)
{
    for (size_t i = 0; i < table.chains; i++)
        for (struct node *node = table.numbers[i], *next; node; node = next) {
            next = node->next;
            free(node);
        }
    free(table.numbers);
    free(table.names);
    free(table.list);
    table.chains = table.used = 0;
}
