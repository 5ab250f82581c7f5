// Carries messages of the kernel to the server, and replies back, with a thread each way.
#include "mount.h"

#include <errno.h>
#include <fcntl.h>
#include <poll.h>
#include <pthread.h>
#include <sched.h>
#include <stdio.h>
#include <stdlib.h>
#include <string.h>
#include <sys/eventfd.h>
#include <sys/socket.h>
#include <sys/uio.h>
#include <time.h>
#include <unistd.h>

enum { OPCODES = 64, OWN_MESSAGE = 64 };

// A message of the carrier's own, until the thread that carries messages sends it.
struct letter {
    struct letter *next;
    size_t size;
    char message[OWN_MESSAGE];
};

// What one thread writes for each message stands apart from what the other one reads.
enum { CACHE_LINE = 64 };

static struct {
    int device, server;
    int news; // tells the main thread that something is to be seen
    int wake; // tells the thread that carries messages that letters wait, or that it is to end
    bool resumes;
    pthread_t threads[2];
    atomic_bool stops, agreed, letters;
    atomic_bool cut; // the server has ended, and another one may come
    atomic_int end, fault; // fault: the error number that goes with the end, or 0
    pthread_mutex_t lock;
    pthread_cond_t changed;
    struct letter *first, **last; // under the lock, as the next two
    int idle; // how many of the threads neither send nor read
    unsigned servers; // how many came after the first one
    _Alignas(CACHE_LINE) atomic_ullong replies;
    atomic_ullong refused, lines, granted;
    // Messages by opcode; those of all greater ones in the last.
    _Alignas(CACHE_LINE) atomic_ullong seen[OPCODES];
} carrier = {.lock = PTHREAD_MUTEX_INITIALIZER, .changed = PTHREAD_COND_INITIALIZER};

// Adds one where no other thread writes.
static void count(atomic_ullong *counter)
{
    atomic_store_explicit(counter, atomic_load_explicit(counter, memory_order_relaxed) + 1, memory_order_relaxed);
}

static void signal_to(int event)
{
    uint64_t one = 1;
    while (write(event, &one, sizeof one) < 0 && errno == EINTR)
        ;
}

// The first end counts, but that of a server after which another one may come.
static void finish(enum end end, int fault)
{
    int before = RUNNING;
    bool counts = atomic_compare_exchange_strong(&carrier.end, &before, (int)end);
    if (!counts && carrier.resumes && before == SERVER_ENDED && end != SERVER_ENDED)
        counts = atomic_compare_exchange_strong(&carrier.end, &before, (int)end);
    if (counts) {
        atomic_store(&carrier.fault, fault);
        signal_to(carrier.news);
    }
}

// Whether nothing more is to be sent to this server.
static bool is_cut_off(void)
{
    return atomic_load_explicit(&carrier.stops, memory_order_relaxed) || atomic_load_explicit(&carrier.cut, memory_order_relaxed);
}

// Waits for another server, if one may come. False if none does.
static bool meets_another(void)
{
    pthread_mutex_lock(&carrier.lock);
    unsigned servers = carrier.servers;
    carrier.idle++;
    pthread_cond_broadcast(&carrier.changed);
    while (carrier.resumes && !atomic_load(&carrier.stops) && carrier.servers == servers)
        pthread_cond_wait(&carrier.changed, &carrier.lock);
    bool met = carrier.servers != servers;
    carrier.idle -= met;
    pthread_mutex_unlock(&carrier.lock);
    return met;
}

// A thread that finds nothing to carry spins again 60 times before it sleeps, since to be woken
// takes longer than a call. After spins that found nothing, 64 sleeps come without: calls that come
// seldom cost little, and where none come it sleeps.
enum { SPINS = 60, UNSPUN = 64 };
struct spinner {
    int spins, unspun;
};

// Whether it is to spin once more, rather than to sleep. Who waits for its processor goes first.
static bool spins_again(struct spinner *me)
{
    if (!me->unspun && me->spins++ < SPINS)
        return !sched_yield();
    *me = (struct spinner){.unspun = me->unspun ? me->unspun - 1 : UNSPUN};
    return false;
}

// ---- To the server ----

static bool send_all(const char *from, size_t size)
{
    while (size) {
        ssize_t sent = send(carrier.server, from, size, MSG_NOSIGNAL);
        if (sent < 0 && errno == EINTR)
            continue;
        if (sent <= 0)
            return false;
        from += sent;
        size -= (size_t)sent;
    }
    return true;
}

static bool send_message(const char *message, size_t size)
{
    struct fuse_in_header head;
    memcpy(&head, message, sizeof head);
    times_note("ask", head.unique);
    if (carrier.resumes && !kept_add(message, size)) {
        finish(DEVICE_FAILED, ENOMEM);
        return false;
    }
    return send_all(message, size);
}

// The thread that carries replies must not wait for the server to read, so it leaves its messages
// here.
void send_later(const void *message, size_t size)
{
    struct letter *letter = malloc(sizeof *letter);
    if (!letter || size > sizeof letter->message) {
        free(letter);
        finish(DEVICE_FAILED, ENOMEM);
        return;
    }
    letter->next = NULL;
    letter->size = size;
    memcpy(letter->message, message, size);
    pthread_mutex_lock(&carrier.lock);
    *carrier.last = letter;
    carrier.last = &letter->next;
    atomic_store(&carrier.letters, true);
    pthread_mutex_unlock(&carrier.lock);
    signal_to(carrier.wake);
}

static struct letter *letters_taken(void)
{
    pthread_mutex_lock(&carrier.lock);
    struct letter *first = carrier.first;
    carrier.first = NULL;
    carrier.last = &carrier.first;
    atomic_store(&carrier.letters, false);
    pthread_mutex_unlock(&carrier.lock);
    return first;
}

// Each is kept, also if the server has ended.
static bool send_letters(void)
{
    bool well = true;
    for (struct letter *letter = letters_taken(), *next; letter; letter = next) {
        next = letter->next;
        well = send_message(letter->message, letter->size) && well;
        free(letter);
    }
    return well;
}

// Sleeps until it is woken, or nothing is mounted any more, or also until the kernel has a message.
// False where nothing is mounted.
static bool sleep_until_woken(bool or_message)
{
    struct pollfd events[] = {{.fd = carrier.wake, .events = POLLIN}, {.fd = carrier.device}};
    uint64_t times;
    events[1].events = or_message ? POLLIN : 0;
    poll(events, 2, -1);
    if (events[0].revents && read(carrier.wake, &times, sizeof times) < 0)
        return true;
    return !(events[1].revents & POLLERR);
}

// Letters go first, and nothing goes before the reply to a FLUSH among them: one of several workers
// might take it first. The next open file may stand where the closed one stood, and have its owner.
static bool send_letters_first(void)
{
    if (!atomic_load(&carrier.letters) && !atomic_load(&session.flushes))
        return true;
    bool well = send_letters();
    while (well && atomic_load(&session.flushes) && !is_cut_off() && sleep_until_woken(false))
        ;
    return well && !atomic_load(&carrier.cut);
}

// The message that was read and isn't sent yet: its size is 0 if there is none.
static struct {
    _Alignas(8) char bytes[MOST + 16];
    size_t size;
} at_hand;

static bool send_at_hand(void)
{
    size_t size = at_hand.size;
    at_hand.size = 0;
    return !size || send_message(at_hand.bytes, size);
}

// What a read of the device gave. ENOENT says that a request was given up before it was read, ENODEV
// that nothing is mounted.
static bool take_message(ssize_t size)
{
    if (size < 0 && (errno == EINTR || errno == ENOENT))
        return true;
    if (size < 0 && (errno == ENODEV || errno == ECONNABORTED)) {
        finish(UNMOUNTED, 0);
        return false;
    }
    if (size < (ssize_t)sizeof(struct fuse_in_header)) {
        finish(DEVICE_FAILED, size < 0 ? errno : 0);
        return false;
    }
    uint32_t opcode = ((struct fuse_in_header *)(void *)at_hand.bytes)->opcode;
    count(&carrier.seen[opcode < OPCODES ? opcode : OPCODES - 1]);
    at_hand.size = change_message(at_hand.bytes, (size_t)size);
    return true;
}

// One message for each read. When the server has closed its side, `carry_replies` sees the end after
// the last reply.
static void carry_to_one_server(void)
{
    static struct spinner me;
    while (send_letters_first() && send_at_hand() && !is_cut_off()) {
        ssize_t size = read(carrier.device, at_hand.bytes, MOST);
        if (size < 0 && errno == EAGAIN) {
            if (!spins_again(&me))
                sleep_until_woken(true);
            continue;
        }
        me.spins = 0;
        if (!take_message(size))
            return;
    }
}

// Sends the kernel's INIT to a server that came after another one. Nothing goes before its reply: a
// server that refuses it refuses all.
static bool agree_again(void)
{
    static char message[MOST];
    struct fuse_in_header head;
    size_t size = kept_init(message);
    if (!size)
        return true;
    memcpy(&head, message, sizeof head);
    atomic_store(&session.init, head.unique);
    // Its reply, and those to what is sent again, need not be new lines.
    atomic_store(&carrier.lines, 0);
    bool well = send_all(message, size);
    while (well && atomic_load(&session.init) && !is_cut_off() && sleep_until_woken(false))
        ;
    return well && atomic_load(&carrier.end) == RUNNING;
}

// What has no reply.
static bool send_again(void)
{
    static char bytes[8 * MOST];
    uint64_t number = 0;
    size_t size;
    while ((size = kept_copy(&number, bytes, sizeof bytes)))
        if (!send_all(bytes, size))
            return false;
    return true;
}

static void *carry_messages(void *unused)
{
    (void)unused;
    do
        if (agree_again() && send_again())
            carry_to_one_server();
    while (meets_another());
    return NULL;
}

// ---- To the kernel ----

// Whoever waited for a reply that the kernel refuses gets EIO. It is said at once, once a second at
// most.
static void say_refused(int error)
{
    static atomic_llong last = -1;
    long long second = (long long)seconds(), said = atomic_load(&last);
    unsigned long long refused = atomic_fetch_add(&carrier.refused, 1) + 1;
    if (second != said && atomic_compare_exchange_strong(&last, &said, second))
        say("the kernel refused a reply: %s; %llu so far", strerror(error), refused);
}

// What a write to the device comes to. ENOENT says that nobody waits for this reply any more.
static bool is_taken(ssize_t written)
{
    if (written >= 0 || errno == ENOENT)
        return true;
    if (errno == ENODEV || errno == EPERM || errno == ECONNABORTED)
        return false;
    say_refused(errno);
    return true;
}

bool write_reply(const char *reply, size_t size)
{
    ssize_t written;
    while ((written = write(carrier.device, reply, size)) < 0 && errno == EINTR)
        ;
    return is_taken(written);
}

bool answer(uint64_t unique, int error, const void *body, size_t size)
{
    struct fuse_out_header head = {.unique = unique, .error = -error};
    struct iovec parts[] = {{&head, sizeof head}, {(void *)(uintptr_t)body, error ? 0 : size}};
    ssize_t written;
    head.len = (uint32_t)(sizeof head + parts[1].iov_len);
    while ((written = writev(carrier.device, parts, parts[1].iov_len ? 2 : 1)) < 0 && errno == EINTR)
        ;
    return is_taken(written);
}

uint64_t carrier_granted(void)
{
    return atomic_load(&carrier.granted);
}

void carrier_forget_granted(void)
{
    atomic_store(&carrier.granted, 0);
}

void carrier_agreed(void)
{
    atomic_store(&carrier.agreed, true);
    signal_to(carrier.news);
}

void carrier_answered(void)
{
    signal_to(carrier.wake);
}

void carrier_refused_init(int error)
{
    finish(NOT_AGREED, error);
}

// Whether an order with this reply is a line of the trace: looks of several workers aren't, nor is
// what isn't one.
static bool is_a_line(const struct fuse_out_header *head)
{
    size_t body = head->len - sizeof *head;
    bool is_order = head->error != -ENOSYS && head->error != -EINVAL && head->error != -ENAMETOOLONG;
    return is_order && body != sizeof(struct fuse_attr_out) && body != sizeof(struct fuse_lk_out);
}

// The replies at the front of these bytes are written one at a time. Gives how many bytes they had,
// or -1 at a length that no reply has, or -2 where nothing is mounted any more.
static ssize_t write_replies(char *bytes, size_t held)
{
    struct fuse_out_header head;
    size_t done = 0;
    for (; held - done >= sizeof head; done += head.len) {
        memcpy(&head, bytes + done, sizeof head);
        if (head.len < sizeof head || head.len > MOST)
            return -1;
        if (held - done < head.len)
            break;
        times_note("tell", head.unique);
        if (is_a_line(&head))
            count(&carrier.lines);
        size_t left = change_reply(bytes + done, head.len);
        if (left && !write_reply(bytes + done, left))
            return -2;
        if (carrier.resumes && kept_answered(head.unique) && !head.error)
            atomic_store(&carrier.granted, head.unique);
        count(&carrier.replies);
    }
    return (ssize_t)done;
}

// The thread that carries messages may wait for this server to read, or for its reply to a FLUSH.
static void see_end(int fault)
{
    if (carrier.resumes) {
        atomic_store(&carrier.cut, true);
        shutdown(carrier.server, SHUT_RDWR);
        signal_to(carrier.wake);
    }
    finish(SERVER_ENDED, fault);
}

// A part of a reply that came last is dropped.
static void carry_from_one_server(void)
{
    static _Alignas(8) char bytes[2 * MOST];
    static struct spinner me;
    size_t held = 0;
    int waits = MSG_DONTWAIT;
    for (;;) {
        ssize_t got = recv(carrier.server, bytes + held, sizeof bytes - held, waits);
        bool none = got < 0 && errno == EAGAIN;
        waits = !none || spins_again(&me) ? MSG_DONTWAIT : 0;
        if (none || (got < 0 && errno == EINTR))
            continue;
        if (got <= 0) {
            see_end(got < 0 ? errno : 0);
            return;
        }
        me.spins = 0;
        held += (size_t)got;
        ssize_t done = write_replies(bytes, held);
        if (done < 0) {
            finish(done == -1 ? BAD_REPLY : UNMOUNTED, 0);
            return;
        }
        held -= (size_t)done;
        memmove(bytes, bytes + done, held);
    }
}

static void *carry_replies(void *unused)
{
    (void)unused;
    do
        carry_from_one_server();
    while (meets_another());
    return NULL;
}

// ---- Beginning and end ----

void carrier_start(int device, int server, int news, bool discards_writes, bool resumes)
{
    carrier.device = device;
    carrier.server = server;
    carrier.news = news;
    carrier.resumes = resumes;
    carrier.last = &carrier.first;
    carrier.wake = eventfd(0, EFD_CLOEXEC | EFD_NONBLOCK);
    session.discards = discards_writes;
    if (carrier.wake < 0 || fcntl(device, F_SETFL, O_NONBLOCK) < 0)
        fail("cannot carry messages");
    void *(*const carry[])(void *) = {carry_messages, carry_replies};
    for (int i = 0; i < 2; i++) {
        errno = pthread_create(&carrier.threads[i], NULL, carry[i], NULL);
        if (errno)
            fail("cannot carry messages");
    }
}

bool carrier_meet(int server)
{
    pthread_mutex_lock(&carrier.lock);
    while (carrier.idle < 2)
        pthread_cond_wait(&carrier.changed, &carrier.lock);
    int ended = SERVER_ENDED;
    bool meets = atomic_compare_exchange_strong(&carrier.end, &ended, RUNNING);
    close(meets ? carrier.server : server);
    if (meets) {
        carrier.server = server;
        carrier.servers++;
        atomic_store(&carrier.cut, false);
        pthread_cond_broadcast(&carrier.changed);
    }
    pthread_mutex_unlock(&carrier.lock);
    return meets;
}

void carrier_stop(void)
{
    pthread_mutex_lock(&carrier.lock);
    atomic_store(&carrier.stops, true);
    pthread_cond_broadcast(&carrier.changed);
    pthread_mutex_unlock(&carrier.lock);
    signal_to(carrier.wake);
    // The server answers what it has, and ends. To read no more would fail its writes, so that is for one that hangs.
    shutdown(carrier.server, SHUT_WR);
    struct timespec last;
    clock_gettime(CLOCK_REALTIME, &last);
    last.tv_sec++;
    if (pthread_timedjoin_np(carrier.threads[1], NULL, &last)) {
        shutdown(carrier.server, SHUT_RDWR);
        pthread_join(carrier.threads[1], NULL);
    }
    pthread_join(carrier.threads[0], NULL);
    for (struct letter *letter = letters_taken(), *next; letter; letter = next) {
        next = letter->next;
        free(letter);
    }
    kept_end();
    close(carrier.device);
    close(carrier.wake);
}

enum end carrier_end(int *fault)
{
    *fault = atomic_load(&carrier.fault);
    return (enum end)atomic_load(&carrier.end);
}

bool carrier_is_agreed(void)
{
    return atomic_load(&carrier.agreed);
}

void carrier_counts(struct counts *counts)
{
    *counts = (struct counts){.replies = atomic_load(&carrier.replies), .refused = atomic_load(&carrier.refused),
                              .lines = atomic_load(&carrier.lines)};
    for (size_t opcode = 0; opcode < OPCODES; opcode++)
        counts->messages += atomic_load(&carrier.seen[opcode]);
}

void carrier_print_opcodes(void)
{
    char line[32 * OPCODES] = "messages of the kernel, opcode and how many:";
    size_t size = strlen(line);
    for (size_t opcode = 0; opcode < OPCODES; opcode++) {
        unsigned long long seen = atomic_load(&carrier.seen[opcode]);
        if (seen)
            size += (size_t)snprintf(line + size, sizeof line - size, " %zu:%llu", opcode, seen);
    }
    line[size++] = '\n';
    say_line(line, size);
}
