// The server: starts `lockd serve`, connects to it, waits for its end, and judges its trace.
#include "mount.h"

#include <errno.h>
#include <fcntl.h>
#include <libgen.h>
#include <signal.h>
#include <stdio.h>
#include <stdlib.h>
#include <string.h>
#include <sys/prctl.h>
#include <sys/socket.h>
#include <sys/un.h>
#include <sys/wait.h>
#include <unistd.h>

enum { STEP = 10000 }; // microseconds between two tries
enum { PATIENCE = 30 }; // seconds until a server that doesn't end is killed
// A server is started again so many times in so many seconds.
#ifndef MOST_RESTARTS
#define MOST_RESTARTS 5
#endif
enum { RESTARTS_WITHIN = 60 };
#define FOR_EVER 1e9

static bool is_program(const char *path)
{
    return !access(path, X_OK);
}

// Writes the absolute path of what may be there: the server runs in its own folder.
static void place_absolute(char *to, const char *path)
{
    char folder[PATH_MAX];
    snprintf(folder, sizeof folder, "%s", path);
    char *full = realpath(dirname(folder), NULL);
    if (!full)
        fail("no folder for %s", path);
    const char *name = strrchr(path, '/');
    int size = snprintf(to, PATH_MAX, "%s/%s", full, name ? name + 1 : path);
    free(full);
    if (size >= PATH_MAX)
        fail("%s is too long a path", path);
}

// The program that $LOCKD names, the one beside this program, or that of the repository whose
// `mount/out` this is in. A link stays one: it may lead to another program when the server is started
// again.
static void find_program(struct server *server)
{
    char self[PATH_MAX] = "", path[PATH_MAX + 64];
    const char *named = getenv("LOCKD");
    if (named && *named) {
        if (!is_program(named))
            fail("no program at %s, which $LOCKD names", named);
        place_absolute(server->program, named);
        return;
    }
    if (readlink("/proc/self/exe", self, sizeof self - 1) < 0)
        fail("cannot read /proc/self/exe");
    const char *folder = dirname(self);
    const char *const places[] = {"lockd", "../../../crates/lockd/out/lockd"};
    for (size_t i = 0; i < sizeof places / sizeof *places; i++) {
        snprintf(path, sizeof path, "%s/%s", folder, places[i]);
        if (is_program(path)) {
            place_absolute(server->program, path);
            return;
        }
    }
    errno = 0;
    fail("no program `lockd` beside %s/lockd_mount; install it there, or name it by $LOCKD", folder);
}

static void make_folder(struct server *server)
{
    const char *where = getenv("TMPDIR");
    int size = snprintf(server->work, sizeof server->work, "%s/lockd_mount.XXXXXX", where && *where ? where : "/tmp");
    if (size >= (int)sizeof server->work || !mkdtemp(server->work)) {
        server->work[0] = 0;
        fail("cannot make a folder in %s, which $TMPDIR names if it is set", where && *where ? where : "/tmp");
    }
}

// Its pieces get names that no other file has: older ones may be removed.
static void refuse_pieces(const struct trace *trace)
{
    struct pieces pieces = {0};
    if (trace->turns)
        pieces = trace_pieces(trace);
    errno = 0;
    if (pieces.last)
        fail("%s.%lu is there already, as if it were a piece of this trace: name another FILE", trace->path, pieces.last);
}

// A file that is there already is that of another mount. With --resume one without locks does, as `head_begin` sees.
static void place_trace(struct server *server, const struct options *options)
{
    const char *named = options->resume ? options->resume : options->trace;
    struct stat at;
    if (!named)
        snprintf(server->trace.path, sizeof server->trace.path, "%.*s/trace", PATH_MAX - 16, server->work);
    if (!named || (!options->resume && !strcmp(named, "none")))
        return;
    server->was_there = !lstat(named, &at);
    errno = 0;
    if (server->was_there && !options->resume)
        fail("a file is at %s already", named);
    if (server->was_there && !S_ISREG(at.st_mode))
        fail("%s isn't an empty file: name a new one", named);
    place_absolute(server->trace.path, named);
    server->trace.turns = options->rotate != NULL;
    refuse_pieces(&server->trace);
}

static void put_option(const char *words[], size_t *count, const char *name, const char *value)
{
    if (!value)
        return;
    words[(*count)++] = name;
    words[(*count)++] = value;
}

// The words after the socket's path, from the one of this number.
static void put_options(const char *words[], size_t count, const struct server *server, const struct options *options)
{
    if (options->resume) {
        words[count++] = "--resume";
        words[count++] = server->trace.path;
        // All replies that a server sent are read before anything is sent again: so little can be taken twice.
        words[count++] = "--allow-gap";
        put_option(words, &count, "--rotate", options->rotate);
        put_option(words, &count, "--keep", options->keep);
    } else {
        words[count++] = "--workers";
        words[count++] = options->workers;
        words[count++] = "--trace";
        words[count++] = server->trace.path[0] ? server->trace.path : "none";
    }
    put_option(words, &count, "--trace-full", options->trace_full);
    for (int i = 0; i < options->rule_count; i++)
        words[count++] = options->rules[i];
}

static void run_serve(const struct server *server, const struct options *options, pid_t carrier, int faults)
{
    const int ignored[] = {SIGHUP, SIGINT, SIGQUIT, SIGPIPE, SIGXFSZ, SIGTERM};
    const char *words[16 + MOST_RULES] = {server->program, "serve", "socket"};
    put_options(words, 3, server, options);
    // Signals end the mount alone. The server ends when the mount does, and has to write the rest
    // of its trace. A trace that grows beyond a limit is a write that fails. One that is started
    // again may be ended by SIGTERM, so that a new program takes its place. What it says to a carrier
    // that was killed is lost.
    for (size_t i = 0; i < sizeof ignored / sizeof *ignored - (options->resume ? 1 : 0); i++)
        signal(ignored[i], SIG_IGN);
    // It ends with a carrier that is killed, also before that has connected, or its file would stay
    // locked. Each order that was answered is in there.
    if (options->resume && (prctl(PR_SET_PDEATHSIG, SIGTERM) || getppid() != carrier))
        _exit(127);
    sigset_t none;
    sigemptyset(&none);
    sigprocmask(SIG_SETMASK, &none, NULL);
    int nothing = open("/dev/null", O_RDWR);
    if (chdir(server->work) || dup2(nothing, STDIN_FILENO) < 0 || dup2(nothing, STDOUT_FILENO) < 0 || dup2(faults, STDERR_FILENO) < 0)
        _exit(127);
    execv(server->program, (char *const *)(uintptr_t)words);
    _exit(127);
}

// It was waited for.
static void has_ended(struct server *server)
{
    server->pid = 0;
    faults_end();
}

// Whether the server has ended.
static bool is_over(struct server *server)
{
    if (server->pid && waitpid(server->pid, &server->status, WNOHANG) == server->pid)
        has_ended(server);
    return !server->pid;
}

static bool connects(const struct server *server)
{
    struct sockaddr_un address = {.sun_family = AF_UNIX};
    int folder = open(server->work, O_PATH | O_DIRECTORY | O_CLOEXEC);
    // A short path, however long that of the folder is.
    snprintf(address.sun_path, sizeof address.sun_path, "/proc/self/fd/%d/socket", folder);
    bool well = !connect(server->socket, (struct sockaddr *)&address, sizeof address);
    int error = errno;
    close(folder);
    errno = error;
    return well;
}

static void say_end(const struct server *server, const char *when)
{
    if (WIFSIGNALED(server->status))
        say("the server was killed by SIG%s%s", sigabbrev_np(WTERMSIG(server->status)), when);
    else
        say("the server ended with status %d%s", WEXITSTATUS(server->status), when);
}

enum begun { CONNECTED, NOT_STARTED, NOT_CONNECTED, ENDED, STOPPED, NOT_TRIED };

// Starts the program, and connects to it within so many seconds.
static enum begun begin(struct server *server, const struct options *options, bool (*stops)(void), double patience)
{
    server->socket = socket(AF_UNIX, SOCK_STREAM | SOCK_CLOEXEC, 0);
    int faults = server->socket < 0 ? -1 : faults_open(server->trace.path);
    pid_t carrier = getpid();
    server->pid = faults < 0 ? -1 : fork();
    if (!server->pid)
        run_serve(server, options, carrier, faults);
    if (faults >= 0)
        close(faults);
    if (server->pid < 0) {
        int error = errno;
        has_ended(server);
        errno = error;
        return NOT_STARTED;
    }
    double last = seconds() + patience;
    while (!connects(server)) {
        int error = errno;
        if (is_over(server))
            return ENDED;
        if (stops())
            return STOPPED;
        errno = error;
        if ((error != ENOENT && error != ECONNREFUSED) || seconds() > last)
            return NOT_CONNECTED;
        usleep(STEP);
    }
    return CONNECTED;
}

void server_start(struct server *server, const struct options *options, bool (*stops)(void))
{
    find_program(server);
    make_folder(server);
    place_trace(server, options);
    // The lines of the server, and those of the mount, name it.
    errno = 0;
    if (strchr(server->trace.path, '\n'))
        fail("the path of the trace has a newline: name another FILE");
    if (options->resume)
        head_begin(server, options, stops);
    enum begun begun = begin(server, options, stops, PATIENCE);
    if (begun == NOT_STARTED)
        fail("cannot start %s", server->program);
    if (begun == NOT_CONNECTED)
        fail("cannot connect to %s/socket", server->work);
    errno = 0;
    if (begun == STOPPED)
        fail("ended before anything was mounted");
    if (begun == ENDED) {
        say_end(server, " before it listened");
        fail("%s can't serve; nothing is mounted", server->program);
    }
    trace_begins(&server->trace);
}

static void remove_folder(const struct server *server)
{
    char path[PATH_MAX + 16];
    if (!server->work[0])
        return;
    snprintf(path, sizeof path, "%s/socket", server->work);
    unlink(path);
    rmdir(server->work);
}

static void kill_server(struct server *server)
{
    kill(server->pid, SIGKILL);
    waitpid(server->pid, &server->status, 0);
    has_ended(server);
}

void server_drop(struct server *server)
{
    // One that has ended by itself has removed its file, unless it was to go on with it.
    bool may_have_served = server->pid;
    if (may_have_served)
        kill_server(server);
    if (server->head)
        head_drop(server, may_have_served);
    else if (may_have_served && server->trace.path[0])
        unlink(server->trace.path);
    remove_folder(server);
}

// The server ends as its connection does. One that was stopped has to go on for that.
static void wait_for_end(struct server *server)
{
    double last = seconds() + PATIENCE;
    if (is_over(server))
        return;
    kill(server->pid, SIGCONT);
    while (!is_over(server) && seconds() < last)
        usleep(STEP / 10);
    if (server->pid) {
        say("the server didn't end in %d seconds, and is killed", PATIENCE);
        server->was_killed = true;
        kill_server(server);
    }
}

// Whether one may be started again: counts those that were.
static bool may_start(void)
{
    static double starts[MOST_RESTARTS];
    static unsigned long count;
    double *oldest = &starts[count % MOST_RESTARTS];
    if (count >= MOST_RESTARTS && seconds() - *oldest < RESTARTS_WITHIN)
        return false;
    *oldest = seconds();
    count++;
    return true;
}

// Whether another one is to follow a server that has ended. Says how that ended.
static bool comes_again(const struct server *server, const struct options *options)
{
    char often[96];
    bool ends_when_full = options->trace_full && !strcmp(options->trace_full, "end");
    if (ends_when_full && WIFEXITED(server->status) && server->status)
        return say_end(server, ""), false;
    snprintf(often, sizeof often, ": it was started again %d times within a minute, and isn't any more", MOST_RESTARTS);
    bool may = may_start();
    say_end(server, may ? ", and is started again" : often);
    return may;
}

// One that is killed before it listens comes again, too.
static enum begun begin_again(struct server *server, const struct options *options, bool (*stops)(void))
{
    enum found found = trace_look(&server->trace);
    // Without the piece before, it goes on behind a gap.
    if (found != FOUND_WHOLE && found != FOUND_NO_PIECE) {
        say_end(server, "");
        say("%s %s: another server wouldn't know all locks", server->trace.path, trace_became(found));
        return NOT_TRIED;
    }
    uint64_t granted = carrier_granted();
    if (granted && !trace_tells(&server->trace, granted)) {
        say_end(server, "");
        say("%s lacks the last lock: another server wouldn't know all locks", server->trace.path);
        return NOT_TRIED;
    }
    while (comes_again(server, options)) {
        enum begun begun = begin(server, options, stops, FOR_EVER);
        if (begun != ENDED || WIFEXITED(server->status))
            return begun;
        close(server->socket);
    }
    return NOT_TRIED;
}

static void say_no_other(const struct server *server, enum begun begun)
{
    if (begun == NOT_STARTED)
        say("cannot start %s: %s", server->program, strerror(errno));
    if (begun == NOT_CONNECTED)
        say("cannot connect to %s/socket: %s", server->work, strerror(errno));
    if (begun == ENDED)
        say_end(server, " before it listened");
    if (begun == ENDED)
        say("%s can't go on with %s", server->program, server->trace.path);
}

int server_restart(struct server *server, const struct options *options, bool (*stops)(void))
{
    wait_for_end(server);
    enum begun begun = begin_again(server, options, stops);
    if (begun == CONNECTED) {
        // It may have cut off half a line at the end.
        trace_begins(&server->trace);
        return server->socket;
    }
    say_no_other(server, begun);
    if (server->pid)
        kill_server(server);
    // It was said how it ended, and what it left in its file is judged as cut off.
    server->status = 0;
    server->is_cut = true;
    return -1;
}

// The words of `lockd check`, for which there is room: pieces in a row are judged as one history, and a file that may be
// cut off alone.
static void put_check(const char *words[], const struct server *server, const struct options *options, bool is_cut, const struct pieces *pieces)
{
    char path[PIECE_PATH];
    size_t count = 0;
    words[count++] = server->program;
    words[count++] = "check";
    if (is_cut)
        words[count++] = "--cut";
    // A head names the rules. A server of a program that was changed may have begun a piece by others.
    for (int i = 0; i < options->rule_count && !options->resume; i++)
        words[count++] = options->rules[i];
    for (unsigned long at = 0; at < pieces->count; at++) {
        trace_piece(&server->trace, pieces, at, path);
        words[count++] = strdup(path);
    }
    if (pieces->count)
        words[count++] = server->trace.path;
}

// Becomes `lockd check` of the trace.
static void run_check(const struct server *server, const struct options *options, bool is_cut)
{
    struct pieces pieces = {0};
    if (server->trace.turns && !is_cut)
        pieces = trace_pieces(&server->trace);
    const char **words = calloc(16 + MOST_RULES + pieces.count, sizeof *words);
    int trace = open(server->trace.path, O_RDONLY);
    if (!words || trace < 0 || dup2(trace, STDIN_FILENO) < 0)
        _exit(127);
    put_check(words, server, options, is_cut, &pieces);
    sigset_t none;
    sigemptyset(&none);
    sigprocmask(SIG_SETMASK, &none, NULL);
    execv(server->program, (char *const *)(uintptr_t)words);
    _exit(127);
}

// What it says: its status, or 127.
static int judged(const struct server *server, const struct options *options, bool is_cut)
{
    fflush(stdout);
    pid_t child = fork();
    int status = 0;
    if (!child)
        run_check(server, options, is_cut);
    if (child < 0 || waitpid(child, &status, 0) != child)
        return 127;
    return WIFEXITED(status) ? WEXITSTATUS(status) : 127;
}

int server_finish(struct server *server, const struct options *options, int status)
{
    wait_for_end(server);
    char lost[PATH_MAX + 512] = "";
    bool was_killed = WIFSIGNALED(server->status);
    bool is_cut = faults_of_trace(lost, sizeof lost) || was_killed || server->is_cut;
    if (server->status) {
        say_end(server, was_killed && !options->resume ? ", and the end of its trace is lost" : lost);
        if (!was_killed && !status)
            status = STATUS_FAULT;
    }
    remove_folder(server);
    if (!server->trace.path[0])
        return status;
    printf("trace: %s\n", server->trace.path);
    fflush(stdout);
    if (!options->no_check && judged(server, options, is_cut))
        status = STATUS_FAULT;
    return status;
}
