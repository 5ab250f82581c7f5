// What the files of lockd_mount share. docs/MOUNT.md says what the program does.
#ifndef LOCKD_MOUNT_H
#define LOCKD_MOUNT_H

#ifndef _GNU_SOURCE
#define _GNU_SOURCE
#endif
#include <limits.h>
#include <linux/fuse.h>
#include <stdatomic.h>
#include <stdbool.h>
#include <stddef.h>
#include <stdint.h>
#include <sys/stat.h>
#include <sys/types.h>
#include <time.h>

// The kernel refuses to write into less than this, and a message that is longer would be none of
// the server's.
enum { MOST = FUSE_MIN_READ_BUFFER };
enum { ROOT = FUSE_ROOT_ID };
// Attributes change only by calls of this very kernel, so it may keep them for so many seconds.
enum { ATTRIBUTES_HOLD = 3600 };

// Ends of the program.
enum status { STATUS_UNMOUNTED = 0, STATUS_SERVER = 1, STATUS_NOT_MOUNTED = 2, STATUS_FAULT = 3, STATUS_LOST = 4 };

// ---- options.c ----

enum { MOST_RULES = 20 };

struct options {
    const char *folder;
    const char *trace; // NULL: a new file in a new folder; "none": nowhere
    const char *resume; // NULL, or the trace of a server that is started again when it ends
    const char *rotate; // NULL, or the bytes of a piece of this trace
    const char *keep; // NULL: all pieces stay
    const char *trace_full;
    const char *times; // NULL: they aren't written
    const char *source; // as /proc/mounts names it
    const char *workers;
    const char *rules[MOST_RULES]; // those that `serve`, `state` and `check` take alike: all limits are among them
    int rule_count;
    unsigned files, open; // those of the rules
    bool allow_other, count, discard_writes, nonempty, no_check;
    long grace; // seconds
    long mode, uid, gid; // -1: those of the folder below
};

// Reads the command line. Ends the program after --help, --version and words that it doesn't know.
void read_options(int argc, char **argv, struct options *options);

// ---- say.c ----

// One line on standard error; `fail` ends the program with STATUS_NOT_MOUNTED, and says the error's
// name too if there is one.
void say(const char *what, ...) __attribute__((format(printf, 1, 2)));
void fail(const char *what, ...) __attribute__((format(printf, 1, 2), noreturn));
// From here on no line waits for more than a second, unless standard error is a pipe or a terminal that can't be opened once more.
void say_without_waiting(void);
// A line with its newline on standard error. What has no room within a second, as at a stopped terminal, is lost, and so are the next
// lines while they have none at once.
void say_line(const char *line, size_t size);
// What the service manager reads, where one started the program.
void notify(const char *what, ...) __attribute__((format(printf, 1, 2)));
// Seconds of a clock that nobody sets.
double seconds(void);

// ---- trace.c ----

// What is known of the trace's file: how it was, and how many orders and replies stand before it, by its head.
struct seen {
    struct stat at;
    unsigned long long before;
};

// What became of it. NO_PIECE: of the piece before it.
enum found { FOUND_WHOLE, FOUND_NONE, FOUND_ANOTHER, FOUND_CUT, FOUND_NO_PIECE };

struct trace {
    char path[PATH_MAX]; // absolute, or "" if there is none
    bool turns; // the server begins a new piece of it now and then
    bool was_cut; // since the piece began
    enum found found; // by the last look
    struct seen seen; // with the most bytes that it was seen to have
    unsigned long last; // the number of the piece before, or 0
    struct stat last_at;
};

// The pieces that stand before the file in a row: so many, up to the one of this number.
enum { PIECE_PATH = PATH_MAX + 24 };
struct pieces {
    unsigned long last, count;
};

// A server has just begun to write to the file.
void trace_begins(struct trace *trace);
// Sees whether the file is there, with all that it was seen to have, and the piece before it, if there was one.
enum found trace_look(struct trace *trace);
// Whether the file, or the piece before it, has this order's reply of 0, as far as they can be read.
bool trace_tells(const struct trace *trace, uint64_t unique);
// What became of it, in some words behind its path.
const char *trace_became(enum found found);
struct pieces trace_pieces(const struct trace *trace);
// The path of one of them, the oldest first. There is room for PIECE_PATH bytes.
void trace_piece(const struct trace *trace, const struct pieces *pieces, unsigned long at, char *to);
// How many pieces and bytes there are.
const char *trace_text(const struct trace *trace);

// ---- server.c ----

struct server {
    pid_t pid; // 0 once it was waited for
    int status;
    int socket;
    bool was_killed; // by this program, since it didn't end
    bool is_cut; // its last line may be half there: no other server came after it
    bool was_there; // the trace's file, without locks
    size_t head; // the bytes that it begins with, or 0 if it isn't there yet, or has none
    char program[PATH_MAX];
    char work[PATH_MAX]; // its folder, or ""
    struct trace trace;
};

// Starts `lockd serve` and connects to it. `stops` says whether to give up.
void server_start(struct server *server, const struct options *options, bool (*stops)(void));
// Starts another one when one has ended, to go on with its trace, and connects to it. Gives the
// socket, or -1: a line said why, or `stops` said to give up.
int server_restart(struct server *server, const struct options *options, bool (*stops)(void));
// Kills a server that nobody will ask anything, and takes its files away.
void server_drop(struct server *server);
// Waits for its end, after its connection was closed, and judges the trace. Gives the status, which
// is at least this one.
int server_finish(struct server *server, const struct options *options, int status);

// ---- head.c ----

// Before the server is started: has the trace's file begin with the head of an empty directory, which names the rules. Makes the file if
// it isn't there. Fails if it has other lines. `stops` says whether to give up.
void head_begin(struct server *server, const struct options *options, bool (*stops)(void));
// Once no server of this program runs, and nothing was mounted: leaves the file as it was before. If none `may_have_served`, it has the
// head alone.
void head_drop(const struct server *server, bool may_have_served);

// ---- faults.c ----

// Before a server is started, whose trace goes to this file, or "": gives what is to be its standard error, or -1.
int faults_open(const char *trace);
// After its end: waits until all that it said has gone on.
void faults_end(void);
// Whether it said that it put the trace's file back, since this was asked last.
bool faults_put_back(void);
// Whether it said at its end that its trace failed; if so, what became of the file, to be said behind how it ended.
bool faults_of_trace(char *said, size_t room);

// ---- place.c ----

struct place {
    int folder; // what is below the mount, opened once
    struct stat below;
    char path[PATH_MAX];
    dev_t mounted; // the device number of the mount, or 0
    dev_t dead; // that of a dead mount, which is at the folder until `place_clear`, or 0
    bool is_root;
};

// Opens the folder and refuses what can't be mounted at. Waits a moment for an earlier mount of it that
// ends, and as long as the grace says for its open files. Under a dead mount the folder can't be opened yet.
void place_open(struct place *place, const struct options *options, bool (*stops)(void));
// Takes a dead mount away, and opens the folder then, in the same way: right before another one is mounted, so that in between hardly
// anybody gets into the folder below.
void place_clear(struct place *place, const struct options *options, bool (*stops)(void));
// Mounts, and gives the open device, or -1 with a line said.
int place_mount(struct place *place, const struct options *options);
// Whether the mount is still at its folder.
bool place_is_mounted(const struct place *place);
// Unmounts, or tries to: `force` takes it away from under open files.
bool place_unmount(const struct place *place, bool force);
// Lets the next carrier have the folder.
void place_leave(struct place *place);
// Whether a name can be looked up there. `stops` says whether to give up.
bool place_answers(const struct place *place, bool (*stops)(void));

// ---- holders.c ----

enum { MOST_HOLDERS = 16 };
struct holders {
    int count; // also those that have no room here
    pid_t pids[MOST_HOLDERS];
};

// The processes that have a file, or their current or root folder, in the file system of this
// number.
void find_holders(dev_t device, struct holders *holders);
// Their numbers as text: "12, 15 and 3 more".
const char *holders_text(const struct holders *holders);
// Where a process sees this number mounted: a lockd's at the path or elsewhere, and what isn't a
// lockd's.
struct mounts {
    bool here, elsewhere, others;
};
struct mounts find_mounts(pid_t pid, dev_t device, const char *path);
// Whether the kernel tells that it has a connection of this number.
bool is_connected(dev_t device);
// Whether the connection that was mounted under this number is in use, perhaps by processes that
// can't be seen.
bool connection_lives(dev_t device, struct holders *holders);

// ---- record.c ----

// The record of the mount at a path.
enum record { RECORD_FREE, RECORD_TAKEN, RECORD_NONE };
enum record record_take(const char *path);
// The device number of the mount that the record tells of, or 0.
dev_t record_read(void);
// Whether the number is that of a later mount by now, as another record says.
bool record_has_later(dev_t device);
// `when`: by `seconds`, at a moment when the mount was there.
void record_write(const char *path, dev_t device, double when);
void record_remove(void);
// Lets it go. One that is empty is removed.
void record_release(void);

// ---- carrier.c ----

// Why it ends.
enum end { RUNNING, UNMOUNTED, NOT_AGREED, SERVER_ENDED, BAD_REPLY, DEVICE_FAILED };

struct counts {
    unsigned long long messages, replies, refused, lines;
};

// If it `resumes`, `carrier_meet` may follow the end of the server.
void carrier_start(int device, int server, int news, bool discards_writes, bool resumes);
// Goes on with another server, at this socket, after the last one ended: what has no reply is sent
// again. False if there was another end meanwhile.
bool carrier_meet(int server);
// Ends its threads, and closes the device: who waits at the folder gets an error.
void carrier_stop(void);
enum end carrier_end(int *fault);
// Whether INIT was agreed.
bool carrier_is_agreed(void);
void carrier_counts(struct counts *counts);
// The unique of the last SETLK or SETLKW that was answered with 0 since this was forgotten, with --resume, or 0.
uint64_t carrier_granted(void);
void carrier_forget_granted(void);
void carrier_print_opcodes(void);
// For the kernel, of either thread. False where nothing is mounted any more.
bool write_reply(const char *reply, size_t size);
bool answer(uint64_t unique, int error, const void *body, size_t size);
// For the server, by the thread that carries messages, before the message that it has at hand.
void send_later(const void *message, size_t size);
// The last FLUSH of the carrier's own was answered, or an INIT that was sent again.
void carrier_answered(void);
void carrier_agreed(void);
void carrier_refused_init(int error);

// ---- kept.c: messages that have no reply, for a server that comes after ----

// Keeps a copy of a message. False if there is no memory.
bool kept_add(const char *message, size_t size);
// A reply with this unique came. Gives whether it is that to a SETLK or a SETLKW.
bool kept_answered(uint64_t unique);
// Copies the INIT, and gives its size, or 0 if none was kept. There is room for MOST bytes.
size_t kept_init(char *to);
// Copies messages in the order of sending, marked as sent again: those after the one of this number,
// as many as have room. Gives their size, and the number of the last one.
size_t kept_copy(uint64_t *number, char *to, size_t room);
void kept_end(void);

// ---- times.c ----

// Makes the file for the times, if one is named.
void times_start(const char *path);
// Takes it away.
void times_drop(void);
// A message of this unique is sent to the server ("ask"), or its reply came ("tell").
void times_note(const char *kind, uint64_t unique);

// ---- messages.c ----

// Numbers of the carrier's own messages. The kernel's begin low.
#define OURS ((uint64_t)1 << 62)
// Marks the unique of a message that is sent again (FUSE_UNIQUE_RESEND of protocol 7.40).
#define AGAIN ((uint64_t)1 << 63)
struct asked;

// What is changed in a message of the kernel before the server gets it: its size from then on, or 0
// where it doesn't get it. There is room for 16 bytes more.
size_t change_message(char *message, size_t size);
// Closes what MKDIR or MKNOD made, at the server. Under table_lock.
void release_now(const struct asked *asked, uint64_t node, uint64_t fh);

// What both directions know of the session. `minor` is the kernel's.
extern struct session {
    atomic_uint_least64_t init; // unique of the INIT that waits for its reply, or 0
    atomic_uint flushes; // the carrier's own that wait for their replies
    uint32_t minor;
    bool offers_truncation, discards;
} session;

// ---- replies.c ----

// What is changed in a reply: its size from then on, or 0 where the kernel doesn't get it.
size_t change_reply(char *reply, size_t size);

// ---- answers.c ----

// Answers a message that the server never sees. False where it is none of these.
bool answer_here(const struct fuse_in_header *head, const char *body, size_t size);

// ---- names.c: all under table_lock ----

struct node {
    struct node *next, *next_name; // of its chains
    uint64_t number, lookups, cookie;
    uint32_t mode, uid, gid;
    struct timespec atime, mtime, ctime;
    char name[NAME_MAX + 1]; // empty once it is unlinked
};

void table_lock(void);
void table_unlock(void);
// Begins with the folder alone; there may be so many files.
void names_start(unsigned most, uint32_t mode, uint32_t uid, uint32_t gid);
void names_end(void);
uint64_t hash_of(const char *text);
// How many chains a table of at most so many things has, so that chains are short: a power of two.
size_t chains_for(unsigned most);
struct node *node_of(uint64_t number);
struct node *node_named(const char *name);
struct node *node_made(uint64_t number, const char *name, uint32_t mode, uint32_t uid, uint32_t gid);
// The node of an entry that the server gave; it has one lookup more.
struct node *node_looked_up(const struct fuse_attr *attr);
void node_unlinked(const char *name);
void node_forgotten(uint64_t number, uint64_t lookups);
// The first one that was made after the one with this cookie.
struct node *node_after(uint64_t cookie);
unsigned nodes_count(void);
unsigned nodes_most(void);
bool is_folder(const struct node *node);
struct timespec now(void);
void describe(struct fuse_attr *attr, const struct node *node);

// ---- opens.c: all under table_lock ----

// Owners of record locks, in a list.
struct owner {
    struct owner *next;
    uint64_t id;
};

// There may be so many open files.
void opens_start(unsigned most);
void open_made(uint64_t fh, uint64_t node, uint32_t pid);
// This owner asked for a record lock through the open file, or its FLUSH came through it.
void open_owner_asks(uint64_t fh, uint64_t owner);
void open_owner_flushes(uint64_t fh, uint64_t owner);
// The file is closed. Gives the owners who have to be flushed first.
struct owner *open_closed(uint64_t fh);
void owners_end(struct owner *first);
unsigned opens_count(void);
// Those who opened what is still open.
void openers(struct holders *holders);
void opens_end(void);

// A message whose reply means something to the table.
struct asked {
    struct asked *next;
    uint64_t unique, node;
    uint32_t opcode, mode, uid, gid, pid, flags;
    char name[];
};

struct asked *asked_new(uint64_t unique, uint32_t opcode, const char *name);
struct asked *asked_taken(uint64_t unique);
// Whether there may be one, without the lock.
bool asked_any(void);

#endif
