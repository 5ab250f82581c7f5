#!/bin/sh
# Times loads of which each has its address from the one before, in a random order, by how many bytes they go through: what a load costs that is in
# no cache. Prints nanoseconds a load, the least of five runs. Wants a C compiler.
#
#     bench/loads.sh
set -eu
work=$(mktemp -d)
trap 'rm -rf "$work"' EXIT
cc -O2 -Wall -Wextra -o "$work/loads" -x c - <<'END'
#include <stdint.h>
#include <stdio.h>
#include <stdlib.h>
#include <time.h>

enum { LINE = 64, LOADS = 2000000, RUNS = 5 };

struct line {
    struct line *next;
    char rest[LINE - sizeof(void *)];
};

static uint64_t random_below(uint64_t bound)
{
    static uint64_t seed = 88172645463325252;
    seed ^= seed << 13;
    seed ^= seed >> 7;
    seed ^= seed << 17;
    return seed % bound;
}

// One circle through all lines, in a random order.
static struct line *circle(size_t lines)
{
    struct line *all = aligned_alloc(LINE, lines * LINE);
    size_t *order = malloc(lines * sizeof *order);
    if (!all || !order)
        exit(1);
    for (size_t at = 0; at < lines; at++)
        order[at] = at;
    for (size_t at = lines - 1; at > 0; at--) {
        size_t other = random_below(at);
        size_t one = order[at];
        order[at] = order[other];
        order[other] = one;
    }
    for (size_t at = 0; at < lines; at++)
        all[at].next = &all[order[at]];
    free(order);
    return all;
}

static double now(void)
{
    struct timespec at;
    clock_gettime(CLOCK_MONOTONIC, &at);
    return (double)at.tv_sec * 1e9 + (double)at.tv_nsec;
}

int main(void)
{
    for (size_t bytes = 16 << 10; bytes <= 64 << 20; bytes *= 4) {
        struct line *volatile at = circle(bytes / LINE);
        double least = 1e18;
        for (int run = 0; run < RUNS; run++) {
            double begun = now();
            struct line *line = at;
            for (int loads = 0; loads < LOADS; loads++)
                line = line->next;
            at = line;
            double taken = (now() - begun) / LOADS;
            least = taken < least ? taken : least;
        }
        printf("%8zu KiB  %6.1f ns\n", bytes >> 10, least);
    }
    return 0;
}
END
"$work/loads"
