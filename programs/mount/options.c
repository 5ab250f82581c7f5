// The command line.
#include "mount.h"

#include <errno.h>
#include <getopt.h>
#include <stdio.h>
#include <stdlib.h>
#include <string.h>

#ifndef VERSION
#define VERSION "of no version"
#endif

static const char HELP[] =
    "use: lockd_mount [OPTIONS] [--] FOLDER\n"
    "\n"
    "Mounts a lock directory at FOLDER, which has to be there and empty, until it is unmounted or SIGTERM or SIGINT\n"
    "comes. Starts `lockd serve` for it, and at the end judges the trace by `lockd check`. The program `lockd` is the one\n"
    "that $LOCKD names, else the one beside this program, else that of the repository.\n"
    "\n"
    "  --workers N           1 to 16 workers of the server; 1, if not said\n"
    "  --trace FILE          a new file for the trace, or `none`; else one in a new folder in $TMPDIR or /tmp\n"
    "  --resume FILE         a new file for the trace; if the server ends, it is started again and goes on with FILE, and no\n"
    "                        lock is lost; with one worker, and without --trace\n"
    "  --rotate SIZE         with --resume: once FILE has so many bytes, as 256M, and 65,536 requests and replies, a new piece\n"
    "                        of the trace begins in FILE; older ones become FILE.1, FILE.2, ..\n"
    "  --keep N              with --rotate: how many pieces stay, FILE among them, 2 at least; all, if not said\n"
    "  --trace-full WORD     what the server does while the trace can't be written: go-on; with --resume, wait or end\n"
    "  --times FILE          a new file for the times of requests and replies, for lockd_report\n"
    "  --fair, --runs N, --parked N, --files N, --open N\n"
    "                        the rules of the server, as `lockd serve --help` says; if not said, 16384 locks held, 1024 requests\n"
    "                        that wait, 4096 files and 4096 open files\n"
    "  --no-check            don't judge the trace\n"
    "  --allow-other         let other users in\n"
    "  --mode M, --uid N, --gid N\n"
    "                        mode (octal) and owner of the mounted folder; those of FOLDER, if not said\n"
    "  --discard-writes      take what is written and throw it away; else a write fails with EFBIG\n"
    "  --source NAME         what /proc/mounts names as the source of the mount; lockd, if not said\n"
    "  --nonempty            mount over a folder that has files\n"
    "  --grace S             wait so many seconds for open files, at the end and before it mounts, there at least 2; 0, if\n"
    "                        not said\n"
    "  --count               print at the end how many messages of each opcode the kernel sent\n"
    "  --help, --version\n"
    "\n"
    "Signals: TERM and INT end the mount, a second one at once; USR1 prints counts; HUP does nothing.\n"
    "Status: 0 the folder was unmounted, 1 the server ended, 2 nothing was mounted, 3 another fault, or a trace that isn't\n"
    "legal or lacks lines, 4 the mount was ended while files were open, so that locks were lost.\n";

static void misused(const char *what)
{
    errno = 0;
    fail("%s; `lockd_mount --help` tells the options", what);
}

static long number(const char *word, const char *name, int base, long least, long most)
{
    char *end = NULL;
    errno = 0;
    long found = *word >= '0' && *word <= '9' ? strtol(word, &end, base) : -1;
    if (errno || !end || *end || found < least || found > most) {
        errno = 0;
        fail("--%s: a number from %ld to %ld, and not `%s`", name, least, most, word);
    }
    return found;
}

// A number of bytes, perhaps with a suffix. The server gets it in digits alone.
static void take_size(struct options *options, const char *word)
{
    static char text[24];
    const char *const suffixes = "KMG";
    char *end = NULL;
    errno = 0;
    unsigned long found = *word >= '0' && *word <= '9' ? strtoul(word, &end, 10) : 0;
    const char *suffix = end && *end ? strchr(suffixes, *end) : NULL;
    int bits = suffix ? 10 * (int)(suffix - suffixes + 1) : 0;
    bool is_size = end && (suffix ? !end[1] : !*end), is_much = errno || found > UINT32_MAX >> bits;
    errno = 0;
    if (!is_size || (!found && !is_much))
        fail("--rotate: a number of bytes from 1, perhaps with K, M or G behind it, and not `%s`", word);
    if (is_much)
        fail("--rotate: `%s` is too much: take at most %u bytes, as 256M", word, UINT32_MAX);
    snprintf(text, sizeof text, "%lu", found << bits);
    options->rotate = text;
}

static void take_number(struct options *options, const char *name, const char *word)
{
    const long most_id = (long)UINT32_MAX - 1;
    if (!strcmp(name, "mode"))
        options->mode = number(word, "mode (octal)", 8, 0, 07777);
    else if (!strcmp(name, "uid"))
        options->uid = number(word, name, 10, 0, most_id);
    else if (!strcmp(name, "gid"))
        options->gid = number(word, name, 10, 0, most_id);
    else if (!strcmp(name, "keep")) {
        number(word, name, 10, 2, UINT32_MAX);
        options->keep = word;
    } else {
        options->grace = number(word, name, 10, 0, 86400);
    }
}

static void take_rule(struct options *options, const char *name, const char *word)
{
    if (options->rule_count + 2 > MOST_RULES)
        misused("too many options");
    options->rules[options->rule_count++] = name;
    if (word)
        options->rules[options->rule_count++] = word;
}

// What rules of the server allow, which makes the tables here.
enum { MOST_FILES = 65536 };

static bool has_rule(const struct options *options, const char *name)
{
    for (int i = 0; i < options->rule_count; i++)
        if (!strcmp(options->rules[i], name))
            return true;
    return false;
}

// The programs of a machine need more than what the server allows by itself.
static void add_limits(struct options *options)
{
    static const char *const limits[][2] = {{"--runs", "16384"}, {"--parked", "1024"}, {"--files", "4096"}, {"--open", "4096"}};
    for (size_t i = 0; i < sizeof limits / sizeof *limits; i++)
        if (!has_rule(options, limits[i][0]))
            take_rule(options, limits[i][0], limits[i][1]);
    for (int i = 0; i + 1 < options->rule_count; i++) {
        unsigned value = (unsigned)strtoul(options->rules[i + 1], NULL, 10);
        if (!strcmp(options->rules[i], "--files"))
            options->files = value;
        if (!strcmp(options->rules[i], "--open"))
            options->open = value;
    }
}

enum { ALLOW = 1, COUNT, DISCARD, NONEMPTY, NO_CHECK, WORKERS, TRACE, RESUME, ROTATE, TRACE_FULL, TIMES, SOURCE, FAIR, RUNS, PARKED, FILES, OPEN, NUMBER, HELPS, VERSIONS };

static void take(struct options *options, int option, const char *name)
{
    switch (option) {
    case ALLOW: options->allow_other = true; break;
    case COUNT: options->count = true; break;
    case DISCARD: options->discard_writes = true; break;
    case NONEMPTY: options->nonempty = true; break;
    case NO_CHECK: options->no_check = true; break;
    case WORKERS:
        number(optarg, name, 10, 1, 16);
        options->workers = optarg;
        break;
    case TRACE: options->trace = optarg; break;
    case RESUME: options->resume = optarg; break;
    case ROTATE: take_size(options, optarg); break;
    case TRACE_FULL: options->trace_full = optarg; break;
    case TIMES: options->times = optarg; break;
    case SOURCE: options->source = optarg; break;
    case FAIR: take_rule(options, "--fair", NULL); break;
    case RUNS: take_rule(options, "--runs", optarg); break;
    case PARKED: take_rule(options, "--parked", optarg); break;
    case FILES:
        number(optarg, name, 10, 1, MOST_FILES);
        take_rule(options, "--files", optarg);
        break;
    case OPEN:
        number(optarg, name, 10, 1, MOST_FILES);
        take_rule(options, "--open", optarg);
        break;
    case NUMBER: take_number(options, name, optarg); break;
    case HELPS:
        fputs(HELP, stdout);
        exit(0);
    case VERSIONS:
        puts("lockd_mount " VERSION);
        exit(0);
    default: misused("unknown words");
    }
}

// Options that don't go together.
static void refuse_pairs(const struct options *options)
{
    // The kernel doesn't send a FLUSH, RELEASE or FORGET again that is rejected, and sends an INTERRUPT again at once.
    if (options->trace_full && !strcmp(options->trace_full, "refuse"))
        misused("--trace-full refuse isn't for a mount, where a close that is rejected is lost: take go-on, or --resume FILE with wait or end");
    bool waits = options->trace_full && (!strcmp(options->trace_full, "wait") || !strcmp(options->trace_full, "end"));
    if (options->trace_full && (options->resume ? !waits : strcmp(options->trace_full, "go-on") != 0))
        misused("--trace-full takes go-on, and with --resume FILE it takes wait or end");
    if (options->resume && (options->trace || atoi(options->workers) != 1))
        misused("--resume goes with one worker, and without --trace");
    if (options->rotate && !options->resume)
        misused("--rotate goes with --resume FILE");
    if (options->keep && !options->rotate)
        misused("--keep goes with --rotate SIZE");
}

void read_options(int argc, char **argv, struct options *options)
{
    static const struct option known[] = {
        {"allow-other", no_argument, NULL, ALLOW},       {"count", no_argument, NULL, COUNT},
        {"discard-writes", no_argument, NULL, DISCARD},  {"nonempty", no_argument, NULL, NONEMPTY},
        {"no-check", no_argument, NULL, NO_CHECK},       {"workers", required_argument, NULL, WORKERS},
        {"trace", required_argument, NULL, TRACE},       {"trace-full", required_argument, NULL, TRACE_FULL},
        {"fair", no_argument, NULL, FAIR},               {"runs", required_argument, NULL, RUNS},
        {"parked", required_argument, NULL, PARKED},     {"files", required_argument, NULL, FILES},
        {"open", required_argument, NULL, OPEN},         {"mode", required_argument, NULL, NUMBER},
        {"uid", required_argument, NULL, NUMBER},        {"gid", required_argument, NULL, NUMBER},
        {"grace", required_argument, NULL, NUMBER},      {"help", no_argument, NULL, HELPS},
        {"version", no_argument, NULL, VERSIONS},        {"times", required_argument, NULL, TIMES},
        {"resume", required_argument, NULL, RESUME},     {"source", required_argument, NULL, SOURCE},
        {"rotate", required_argument, NULL, ROTATE},     {"keep", required_argument, NULL, NUMBER},
        {NULL, 0, NULL, 0},
    };
    *options = (struct options){.workers = "1", .source = "lockd", .mode = -1, .uid = -1, .gid = -1};
    int option, at = 0;
    while ((option = getopt_long(argc, argv, "", known, &at)) != -1)
        take(options, option, known[at].name);
    if (argc - optind != 1 || !*argv[optind])
        misused(argc - optind > 1 ? "more than one folder" : "no folder");
    refuse_pairs(options);
    add_limits(options);
    if (!*options->source)
        misused("--source takes a name");
    options->folder = argv[optind];
}
