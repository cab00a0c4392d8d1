/* How long a revoke takes that takes many regions with it, at the largest sizes: 1,022 parts of one alias of a root, dealt out to other domains.
 * bench/revoke compiles and runs it. */
#define _POSIX_C_SOURCE 199309L
#include <stdio.h>
#include <stdlib.h>
#include <string.h>
#include <time.h>

#include "mityvurno.h"

enum { DOMAINS = MITYVURNO_MOST_DOMAINS, SLOTS = MITYVURNO_MOST_SLOTS, REGIONS = MITYVURNO_MOST_REGIONS };
enum { RECORDS = MITYVURNO_MOST_RECORDS, UPDATES = MITYVURNO_MOST_UPDATES, PARTS = REGIONS - 2, RUNS = 301 };
#define WORDS MITYVURNO_WORDS(DOMAINS, SLOTS, REGIONS, RECORDS, UPDATES)

static uint64_t tables[WORDS], kept[WORDS], work[WORDS];

#define LENT tables, WORDS, work, WORDS

static uint64_t ok(const char *what, mityvurno_reply r) {
    if (r.refusal != 0) {
        fprintf(stderr, "%s: refused with %llu\n", what, (unsigned long long)r.refusal);
        exit(1);
    }
    return r.value;
}

/* The parts: alias or carve, to how many domains they are dealt, and how far one starts behind the one before. Each has eight addresses. */
struct parts {
    const char *name;
    int carved;
    uint64_t domains, step;
};

/* A root of domain 0, an alias of it, and its parts, each sent to the next domain. Answers the alias's local slot. The queue is empty. */
static uint64_t state(struct parts p) {
    uint64_t channel[DOMAINS], root, whole;
    ok("make", mityvurno_make_tables(LENT, DOMAINS, SLOTS, REGIONS, RECORDS, UPDATES));
    for (uint64_t d = 0; d < DOMAINS; d++)
        if (mityvurno_open_domain(LENT, 0).refusal != 0) exit(1);
    for (uint64_t d = 1; d < DOMAINS; d++) channel[d] = ok("channel", mityvurno_open_channel(LENT, 0, 0, d, 0));
    root = ok("root", mityvurno_create_root_region(LENT, 0, 0, 0, 1 << 20, 3));
    whole = ok("alias", mityvurno_alias_region(LENT, 0, 0, root, 0, 1 << 20, 3));
    for (uint64_t k = 0; k < PARTS; k++) {
        uint64_t start = k * p.step, end = start + 8;
        uint64_t part = p.carved ? ok("carve", mityvurno_carve_region(LENT, 0, 0, whole, start, end, 3))
                                 : ok("alias", mityvurno_alias_region(LENT, 0, 0, whole, start, end, 3));
        ok("send", mityvurno_send(LENT, 0, 0, part, channel[1 + k % p.domains]));
        while (mityvurno_pop(LENT).kind != MITYVURNO_NONE) {
        }
    }
    return whole;
}

static int rising(const void *a, const void *b) {
    double x = *(const double *)a, y = *(const double *)b;
    return (x > y) - (x < y);
}

/* Prints how long the revoke of all takes, each time on the same tables. */
static void measure(struct parts p) {
    static double took[RUNS];
    uint64_t whole = state(p);
    memcpy(kept, tables, sizeof tables);
    for (int i = 0; i < RUNS; i++) {
        struct timespec before, after;
        memcpy(tables, kept, sizeof tables);
        clock_gettime(CLOCK_MONOTONIC, &before);
        ok("revoke", mityvurno_revoke(LENT, 0, 0, whole));
        clock_gettime(CLOCK_MONOTONIC, &after);
        took[i] = (double)(after.tv_sec - before.tv_sec) * 1e6 + (double)(after.tv_nsec - before.tv_nsec) / 1e3;
    }
    qsort(took, RUNS, sizeof took[0], rising);
    printf("| %s | %.0f | %.0f to %.0f |\n", p.name, took[0], took[RUNS / 2], took[RUNS - 1]);
}

int main(void) {
    static const struct parts all[] = {{"aliases of one range, in 31 domains", 0, 31, 0},
                                       {"aliases with gaps, in 31 domains", 0, 31, 16},
                                       {"aliases with gaps, in 9 domains", 0, 9, 16},
                                       {"carves side by side, in 31 domains", 1, 31, 8},
                                       {"carves side by side, in 9 domains", 1, 9, 8}};
    puts("| revoke of an alias with 1,022 parts | \xc2\xb5s | median to largest, \xc2\xb5s |\n|---|---|---|");
    for (size_t i = 0; i < sizeof all / sizeof all[0]; i++) measure(all[i]);
    return 0;
}
