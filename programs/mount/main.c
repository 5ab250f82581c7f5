// Mounts a lock directory at a folder, over a server of its own, until the folder is unmounted or a
// signal comes.
#include "mount.h"

#include <errno.h>
#include <fcntl.h>
#include <poll.h>
#include <signal.h>
#include <stdio.h>
#include <stdlib.h>
#include <string.h>
#include <sys/eventfd.h>
#include <sys/signalfd.h>
#include <unistd.h>

// Milliseconds: so often the trace is looked at, and a step of a wait.
#ifndef TICK
#define TICK 3000
#endif
enum { STEP = 50 };
enum { INIT_PATIENCE = 20 }; // seconds until INIT has to be answered
enum { ABORT_TRIES = 40 };

static struct {
    struct options options;
    struct place place;
    struct server server;
    int signals, news;
    int ending; // the signal that asked for the end while something else was waited for, or 0
    bool is_alone; // no other server came after the last one
    bool starts; // until it is mounted: what was begun is taken away at exit
} mount;

// ---- Signals ----

// They are blocked in every thread and read from a descriptor. A shell starts what is in its
// background with SIGINT ignored, so that is undone. Where nobody reads what it prints, it has to
// unmount all the same.
static void take_signals(void)
{
    const int taken[] = {SIGHUP, SIGINT, SIGTERM, SIGUSR1};
    sigset_t set;
    sigemptyset(&set);
    for (size_t i = 0; i < sizeof taken / sizeof *taken; i++) {
        sigaddset(&set, taken[i]);
        signal(taken[i], SIG_DFL);
    }
    signal(SIGPIPE, SIG_IGN);
    signal(SIGCHLD, SIG_DFL);
    signal(SIGXFSZ, SIG_IGN);
    sigprocmask(SIG_BLOCK, &set, NULL);
    mount.signals = signalfd(-1, &set, SFD_CLOEXEC | SFD_NONBLOCK);
    mount.news = eventfd(0, EFD_CLOEXEC | EFD_NONBLOCK);
    if (mount.signals < 0 || mount.news < 0)
        fail("cannot wait for signals");
}

static const char *counts_text(void)
{
    static char text[200];
    struct counts counts;
    carrier_counts(&counts);
    table_lock();
    unsigned files = nodes_count(), opened = opens_count();
    table_unlock();
    snprintf(text, sizeof text, "%u files, %u open; %llu messages, %llu replies, %llu refused by the kernel", files, opened,
             counts.messages, counts.replies, counts.refused);
    return text;
}

static void say_counts(void)
{
    say("%s", counts_text());
    if (mount.server.trace.path[0])
        say("%s", trace_text(&mount.server.trace));
}

// The signal that asks for the end, if one came, or 0.
static int signal_to_end(void)
{
    struct signalfd_siginfo came;
    while (read(mount.signals, &came, sizeof came) == sizeof came) {
        if (came.ssi_signo == SIGUSR1 && !mount.starts)
            say_counts();
        else if (came.ssi_signo == SIGTERM || came.ssi_signo == SIGINT)
            return (int)came.ssi_signo;
    }
    return 0;
}

static bool stops(void)
{
    int came = signal_to_end();
    if (came)
        mount.ending = came;
    return came != 0;
}

static void sleep_for(int milliseconds)
{
    struct pollfd events[] = {{.fd = mount.signals, .events = POLLIN}, {.fd = mount.news, .events = POLLIN}};
    uint64_t count;
    poll(events, 2, milliseconds);
    if (events[1].revents && read(mount.news, &count, sizeof count) < 0)
        return;
}

// ---- Beginning ----

// A file that is opened must not get the number of a standard one that is closed.
static void open_standard_files(void)
{
    int file;
    while ((file = open("/dev/null", O_RDWR)) >= 0 && file <= STDERR_FILENO)
        ;
    if (file < 0)
        fail("cannot open /dev/null");
    close(file);
}

static void take_away(void)
{
    if (!mount.starts)
        return;
    server_drop(&mount.server);
    times_drop();
    record_release();
}

static void never_mounted(const char *why)
{
    place_unmount(&mount.place, true);
    record_remove();
    carrier_stop();
    errno = 0;
    fail("%s; nothing is mounted", why);
}

static const char *init_fault(enum end end, int fault)
{
    static char text[200];
    if (end == NOT_AGREED && session.minor < 31)
        snprintf(text, sizeof text, "this kernel speaks FUSE 7.%u, and 7.31 is wanted, which came with Linux 5.2", session.minor);
    else if (end == NOT_AGREED)
        snprintf(text, sizeof text, "the server refuses INIT: %s", strerror(fault));
    else if (end == SERVER_ENDED)
        snprintf(text, sizeof text, "the server ended before INIT was agreed");
    else if (end == BAD_REPLY)
        snprintf(text, sizeof text, "the server sent a reply of a length that none has");
    else
        snprintf(text, sizeof text, end == RUNNING ? "the server doesn't answer INIT" : "/dev/fuse cannot be read");
    return text;
}

static bool is_over(void)
{
    int fault;
    return carrier_end(&fault) != RUNNING;
}

static bool gives_up(void)
{
    return is_over() || stops();
}

// Ready is said once INIT was agreed and a name was looked up.
static void wait_until_ready(void)
{
    double last = seconds() + INIT_PATIENCE;
    int fault = 0;
    enum end end;
    while ((end = carrier_end(&fault)) == RUNNING && !carrier_is_agreed() && seconds() < last) {
        if (stops())
            never_mounted("a signal ended it as it started");
        sleep_for(STEP);
    }
    if (!carrier_is_agreed())
        never_mounted(init_fault(end, fault));
    if (!place_answers(&mount.place, gives_up))
        never_mounted(mount.ending ? "a signal ended it as it started" : "no name could be looked up");
}

static void begin(void)
{
    mount.starts = true;
    atexit(take_away);
    place_open(&mount.place, &mount.options, stops);
    times_start(mount.options.times);
    server_start(&mount.server, &mount.options, stops);
    const struct options *options = &mount.options;
    place_clear(&mount.place, options, stops);
    names_start(options->files, options->mode < 0 ? mount.place.below.st_mode : (mode_t)options->mode,
                options->uid < 0 ? mount.place.below.st_uid : (uid_t)options->uid,
                options->gid < 0 ? mount.place.below.st_gid : (gid_t)options->gid);
    opens_start(options->open);
    int device = place_mount(&mount.place, options);
    if (device < 0)
        exit(STATUS_NOT_MOUNTED);
    carrier_start(device, mount.server.socket, mount.news, options->discard_writes, options->resume != NULL);
    wait_until_ready();
    mount.starts = false;
    printf("mounted at %s\n", mount.place.path);
    if (!mount.options.trace)
        printf("its trace is %s\n", mount.server.trace.path);
    fflush(stdout);
    notify("READY=1\nSTATUS=mounted at %s", mount.place.path);
}

// ---- While it runs ----

// Says what became of the trace's file: once, and again when that changes. Gives whether it is there.
static bool has_trace(void)
{
    static enum found told = FOUND_WHOLE;
    enum found found = trace_look(&mount.server.trace);
    const char *then = "";
    if (mount.options.resume && found == FOUND_NO_PIECE)
        then = ": if the server ends soon, a call of that moment may be done twice";
    else if (mount.options.resume && found != FOUND_WHOLE)
        then = ": if the server ends, no other one goes on, and locks are lost";
    if (found != told)
        say("the trace %s %s%s", mount.server.trace.path, trace_became(found), then);
    told = found;
    return found == FOUND_WHOLE || found == FOUND_NO_PIECE;
}

// Says once that orders were answered for a while and the trace's file didn't grow.
static void watch_trace(void)
{
    static struct {
        unsigned long long lines;
        struct seen seen;
    } before[2];
    static bool said;
    struct counts counts;
    if (!mount.server.trace.path[0] || !has_trace())
        return;
    const struct seen *seen = &mount.server.trace.seen, *then = &before[1].seen;
    carrier_counts(&counts);
    bool has_grown = then->at.st_size != seen->at.st_size || then->before != seen->before;
    bool stands = before[1].lines && before[0].lines > before[1].lines && !has_grown;
    if (stands && !said)
        say("the trace %s doesn't grow: is its disk full?", mount.server.trace.path);
    said = stands;
    before[1] = before[0];
    before[0].lines = counts.lines;
    before[0].seen = *seen;
}

static void tick(void)
{
    static unsigned long long last;
    struct counts counts;
    carrier_counts(&counts);
    watch_trace();
    if (counts.messages != last)
        notify("STATUS=%s", counts_text());
    last = counts.messages;
}

// With a grace, files are waited for, and to close one takes a server.
static bool stops_twice(void)
{
    bool once = mount.ending || !mount.options.grace;
    return stops() && once;
}

// Whether the mount goes on with another server, in the place of one that has ended.
static bool goes_on(void)
{
    int fault;
    double begun = seconds();
    if (!mount.options.resume || mount.is_alone || carrier_end(&fault) != SERVER_ENDED)
        return false;
    int server = server_restart(&mount.server, &mount.options, stops_twice);
    mount.is_alone = server < 0;
    if (mount.is_alone || !carrier_meet(server))
        return false;
    say("the mount goes on, after %.2f seconds", seconds() - begun);
    return true;
}

// Waits for an end, and gives the signal that asked for it, or 0.
static int run(void)
{
    double next = seconds() + TICK / 1000.0;
    while (!is_over() || goes_on()) {
        if (mount.ending || stops())
            return mount.ending;
        if (seconds() >= next) {
            tick();
            next = seconds() + TICK / 1000.0;
        }
        sleep_for(TICK);
    }
    return mount.ending;
}

// ---- The end ----

static unsigned open_files(struct holders *holders)
{
    find_holders(mount.place.mounted, holders);
    table_lock();
    unsigned count = opens_count();
    if (!holders->count)
        openers(holders);
    table_unlock();
    return count;
}

// Unmounts as soon as no file is open, or else after the grace or at a second signal. Gives whether
// nobody was cut off.
static bool unmount_by(int signal)
{
    struct holders holders = {0};
    double begun = seconds(), last = begun + (double)mount.options.grace;
    bool said = false;
    notify("STOPPING=1\nSTATUS=waiting for open files");
    for (;;) {
        bool gone = place_unmount(&mount.place, false);
        // The kernel tells the carrier in a moment, unless the mount is elsewhere too. On a busy machine the carrier
        // hears of a file that was just closed only then.
        for (int i = 0; gone && i < 40 && !is_over(); i++)
            sleep_for(STEP);
        if (is_over() && (gone || !goes_on()))
            return gone;
        unsigned count = open_files(&holders);
        if (!said && !count && !holders.count)
            say("SIG%s came; no file is open, but it is mounted elsewhere too", sigabbrev_np(signal));
        else if (!said)
            say("SIG%s came; %u files are open, of processes %s", sigabbrev_np(signal), count, holders_text(&holders));
        if (!said && mount.options.grace)
            say("waiting %ld seconds for them; a second signal ends it at once", mount.options.grace);
        said = true;
        if (stops() || seconds() >= last)
            return !count && !holders.count;
        sleep_for(STEP);
    }
}

// Nobody has a file open. The server may take its time.
static void end_mount(void)
{
    place_unmount(&mount.place, true);
    record_remove();
    carrier_stop();
    place_leave(&mount.place);
}

static int end_by(int signal)
{
    struct holders holders;
    if (unmount_by(signal)) {
        say("the folder was unmounted");
        end_mount();
        return STATUS_UNMOUNTED;
    }
    unsigned count = open_files(&holders);
    place_unmount(&mount.place, true);
    carrier_stop();
    say("ended with %u files open, and their locks are lost, of processes %s", count, holders_text(&holders));
    record_release();
    place_leave(&mount.place);
    return STATUS_LOST;
}

// Files are still open, and their processes think that they hold locks. So the folder stays
// mounted, and each access there fails: nobody locks a file of the folder below instead.
static void leave_dead(const struct holders *holders)
{
    bool mounted = place_is_mounted(&mount.place);
    carrier_stop();
    say("their locks are lost: files were open, of processes %s", holders_text(holders));
    if (mounted)
        say("%s stays unusable, so that nobody takes these locks meanwhile: end the processes and mount again, or `umount -l` it",
            mount.place.path);
    record_release();
    place_leave(&mount.place);
}

static int say_unexpected(enum end end, int fault)
{
    const char *colon = fault ? ": " : "";
    switch (end) {
    case SERVER_ENDED:
        say("the server ended%s%s", colon, fault ? strerror(fault) : "");
        return STATUS_SERVER;
    case BAD_REPLY:
        say("the server sent a reply of a length that none has");
        return STATUS_FAULT;
    case NOT_AGREED:
        say("the server refused INIT%s%s", colon, fault ? strerror(fault) : "");
        return STATUS_FAULT;
    default:
        say("/dev/fuse cannot be read%s%s", colon, fault ? strerror(fault) : "");
        return STATUS_FAULT;
    }
}

// Whether files are still open although the kernel ended the connection. It tells of that a moment
// before it is gone, and a RELEASE that it hadn't sent by then is lost.
static bool is_aborted(struct holders *holders)
{
    for (int i = 0; i < ABORT_TRIES; i++) {
        if (!connection_lives(mount.place.mounted, holders))
            return false;
        if (holders->count)
            return true;
        usleep(STEP * 1000 / 2);
    }
    return true;
}

static int end_unmounted(void)
{
    struct holders holders;
    unsigned count = open_files(&holders);
    if (count && is_aborted(&holders)) {
        say("the connection was aborted while %u files were open", count);
        leave_dead(&holders);
        return STATUS_LOST;
    }
    say(place_is_mounted(&mount.place) ? "the connection was aborted; no file was open" : "the folder was unmounted");
    end_mount();
    return STATUS_UNMOUNTED;
}

static int end_unexpected(enum end end, int fault)
{
    struct holders holders;
    int status = say_unexpected(end, fault);
    if (open_files(&holders)) {
        leave_dead(&holders);
        return status;
    }
    end_mount();
    return status;
}

int main(int argc, char **argv)
{
    open_standard_files();
    say_without_waiting();
    read_options(argc, argv, &mount.options);
    take_signals();
    begin();
    int fault, signal = run();
    enum end end = carrier_end(&fault);
    notify("STOPPING=1");
    int status = signal ? end_by(signal) : end == UNMOUNTED ? end_unmounted() : end_unexpected(end, fault);
    if (mount.options.count)
        carrier_print_opcodes();
    opens_end();
    names_end();
    status = server_finish(&mount.server, &mount.options, status);
    fflush(NULL);
    return status;
}
