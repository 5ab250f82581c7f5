// The file of the trace, and the pieces that stand before it. `lockd serve --rotate` begins a new piece now and then, and each server one
// behind a spoilt FILE: it becomes FILE itself, and the old one FILE.N, with a greater number than all before. Its head tells how many
// orders and replies stand before it. A FILE that is gone the server puts back.
#include "mount.h"

#include <dirent.h>
#include <errno.h>
#include <fcntl.h>
#include <stdio.h>
#include <stdlib.h>
#include <string.h>
#include <sys/file.h>
#include <unistd.h>

enum { FRONT = 64, BLOCK = 1 << 16 }; // bytes in which a head says it, and those of a read

// Sees the file at the path. False if none can be read there.
static bool see(const char *path, struct seen *seen)
{
    char front[FRONT];
    int file = open(path, O_RDONLY | O_NONBLOCK | O_CLOEXEC);
    if (file < 0)
        return false;
    *seen = (struct seen){0};
    ssize_t size = fstat(file, &seen->at) ? -1 : pread(file, front, sizeof front - 1, 0);
    front[size > 0 ? size : 0] = 0;
    sscanf(front, "state %llu", &seen->before);
    close(file);
    return seen->at.st_ino;
}

static bool is_one_file(const struct stat *one, const struct stat *other)
{
    return one->st_dev == other->st_dev && one->st_ino == other->st_ino;
}

static void put_piece(char *to, const struct trace *trace, unsigned long number)
{
    snprintf(to, PIECE_PATH, "%s.%lu", trace->path, number);
}

// The number that stands behind FILE's name in this one, or 0. It has no zero in front.
static unsigned long number_in(const char *entry, const char *name)
{
    size_t size = strlen(name);
    if (strncmp(entry, name, size) || entry[size] != '.' || entry[size + 1] < '1' || entry[size + 1] > '9')
        return 0;
    char *end;
    errno = 0;
    unsigned long number = strtoul(entry + size + 1, &end, 10);
    return *end || errno ? 0 : number;
}

static unsigned long greatest_number(const struct trace *trace)
{
    char folder[PATH_MAX];
    unsigned long greatest = 0;
    const char *name = strrchr(trace->path, '/') + 1;
    snprintf(folder, sizeof folder, "%.*s", (int)(name - trace->path), trace->path);
    DIR *list = opendir(folder);
    for (struct dirent *entry; list && (entry = readdir(list));) {
        unsigned long number = number_in(entry->d_name, name);
        if (number > greatest)
            greatest = number;
    }
    if (list)
        closedir(list);
    return greatest;
}

struct pieces trace_pieces(const struct trace *trace)
{
    char path[PIECE_PATH];
    struct stat file, piece;
    struct pieces found = {.last = greatest_number(trace)};
    put_piece(path, trace, found.last);
    // A server that was killed as it began a piece has linked FILE there, and not yet put another file into its place.
    if (found.last && !stat(path, &piece) && !stat(trace->path, &file) && is_one_file(&piece, &file))
        found.last--;
    for (; found.count < found.last; found.count++) {
        put_piece(path, trace, found.last - found.count);
        if (access(path, F_OK))
            break;
    }
    return found;
}

void trace_piece(const struct trace *trace, const struct pieces *pieces, unsigned long at, char *to)
{
    put_piece(to, trace, pieces->last - pieces->count + 1 + at);
}

// FILE is a piece that began behind another one. If FILE was spoilt until then, so is the one before.
static void see_last(struct trace *trace)
{
    char path[PIECE_PATH];
    struct seen last, *before = &trace->seen;
    struct pieces pieces = trace_pieces(trace);
    put_piece(path, trace, pieces.last);
    bool is_whole = pieces.count && see(path, &last) && (trace->found == FOUND_WHOLE || trace->found == FOUND_NO_PIECE);
    // It may have been cut when it was FILE, and nobody looked.
    if (is_whole && last.before == before->before && last.at.st_size < before->at.st_size)
        is_whole = false;
    trace->last = is_whole ? pieces.last : 0;
    if (is_whole)
        trace->last_at = last.at;
}

// Whether the piece before is there as it was. It doesn't change any more.
static bool has_last(const struct trace *trace)
{
    char path[PIECE_PATH];
    struct stat at;
    put_piece(path, trace, trace->last);
    return trace->last && !stat(path, &at) && is_one_file(&at, &trace->last_at) && at.st_size == trace->last_at.st_size;
}

void trace_begins(struct trace *trace)
{
    trace->seen = (struct seen){0};
    trace->found = FOUND_WHOLE;
    trace->was_cut = false;
    carrier_forget_granted();
    if (trace->path[0] && see(trace->path, &trace->seen) && trace->seen.before)
        see_last(trace);
}

// The server has put a copy of a FILE that was gone into its place: it said so since the last look, or has that file, as no other process
// would.
static bool is_put_back(const struct trace *trace, const struct seen *seen, bool is_said)
{
    if (seen->before != trace->seen.before || seen->at.st_size < trace->seen.at.st_size)
        return false;
    if (is_said)
        return true;
    int file = open(trace->path, O_RDONLY | O_NONBLOCK | O_CLOEXEC);
    bool is_taken = file >= 0 && flock(file, LOCK_SH | LOCK_NB) && errno == EWOULDBLOCK;
    if (file >= 0)
        close(file);
    return is_taken;
}

static enum found found_of(struct trace *trace)
{
    struct seen seen, *before = &trace->seen;
    bool is_said = faults_put_back();
    // What can't be opened for another reason, as too many open files, is taken to be as it was.
    if (!see(trace->path, &seen))
        return errno == ENOENT || errno == ENOTDIR ? FOUND_NONE : trace->found;
    // The new piece may have the inode of one that was removed.
    bool is_next = seen.before > before->before;
    if (!is_next && before->at.st_ino && !is_one_file(&seen.at, &before->at) && !is_put_back(trace, &seen, is_said))
        return FOUND_ANOTHER;
    trace->was_cut = !is_next && (trace->was_cut || seen.before != before->before || seen.at.st_size < before->at.st_size);
    if (trace->was_cut)
        return FOUND_CUT;
    if (is_next) {
        see_last(trace);
        carrier_forget_granted();
    }
    *before = seen;
    return seen.before && !has_last(trace) ? FOUND_NO_PIECE : FOUND_WHOLE;
}

enum found trace_look(struct trace *trace)
{
    return trace->found = found_of(trace);
}

// Looks for it from the end. What can't be read may have it.
static bool file_has(const char *path, const char *text)
{
    static char block[BLOCK];
    struct stat at;
    size_t size = strlen(text);
    int file = open(path, O_RDONLY | O_NONBLOCK | O_CLOEXEC);
    if (file < 0)
        return errno != ENOENT;
    bool has = fstat(file, &at);
    for (off_t end = has ? 0 : at.st_size, begin; !has && end > 0; end = begin ? begin + (off_t)size - 1 : 0) {
        begin = end > BLOCK ? end - BLOCK : 0;
        ssize_t got = pread(file, block, (size_t)(end - begin), begin);
        has = got < 0 || memmem(block, (size_t)got, text, size);
    }
    close(file);
    return has;
}

bool trace_tells(const struct trace *trace, uint64_t unique)
{
    char line[64], path[PIECE_PATH];
    struct pieces pieces = trace_pieces(trace);
    snprintf(line, sizeof line, "\ntell %llu ok\n", (unsigned long long)unique);
    put_piece(path, trace, pieces.last);
    return file_has(trace->path, line) || (pieces.count && file_has(path, line));
}

const char *trace_became(enum found found)
{
    static const char *const words[] = {"is whole again", "was moved or removed", "was replaced", "was cut", "lacks the piece before it, or a part of that"};
    return words[found];
}

const char *trace_text(const struct trace *trace)
{
    static char text[PATH_MAX + 128];
    struct seen seen;
    if (!see(trace->path, &seen)) {
        snprintf(text, sizeof text, "trace %s: %s", trace->path, strerror(errno));
        return text;
    }
    int size = snprintf(text, sizeof text, "trace %s: ", trace->path);
    unsigned long count = trace->turns ? trace_pieces(trace).count : 0;
    if (trace->turns)
        size += snprintf(text + size, sizeof text - (size_t)size, "%lu piece%s before, ", count, count == 1 ? "" : "s");
    snprintf(text + size, sizeof text - (size_t)size, "%lld bytes", (long long)seen.at.st_size);
    return text;
}
