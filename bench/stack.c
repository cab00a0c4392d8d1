/* How much stack the exported calls take, at the largest sizes and at small ones: each call runs in a thread of its own, on a stack that was filled
 * with one byte before, and what is found changed behind it counts, but for what a thread takes that does nothing. bench/stack compiles and runs it. */
#include <pthread.h>
#include <stdio.h>
#include <stdlib.h>
#include <string.h>

#include "mityvurno.h"

enum { DOMAINS = MITYVURNO_MOST_DOMAINS, SLOTS = MITYVURNO_MOST_SLOTS, REGIONS = MITYVURNO_MOST_REGIONS };
enum { RECORDS = MITYVURNO_MOST_RECORDS, UPDATES = MITYVURNO_MOST_UPDATES, STACK = 4 << 20, FILL = 0xa5 };
#define WORDS MITYVURNO_WORDS(DOMAINS, SLOTS, REGIONS, RECORDS, UPDATES)

static uint64_t tables[WORDS], kept[WORDS], work[WORDS];
static size_t words; /* of the tables that are lent */
static unsigned char stack[STACK] __attribute__((aligned(4096)));

#define LENT tables, words, work, words

/* ---- a call in a thread of its own */

enum what { NOTHING, POP, OPEN, ROOT, ALIAS, CARVE, SEND, REVOKE, PERMISSIONS };
struct job {
    enum what what;
    uint64_t domain, local, target, start, end;
    uint64_t refusal;
};

static void *run(void *given) {
    static mityvurno_permission list[4];
    struct job *j = given;
    switch (j->what) {
    case NOTHING: break;
    case POP: j->refusal = mityvurno_pop(LENT).refusal; break;
    case OPEN: j->refusal = mityvurno_open_under(LENT, j->domain, 0, 0).refusal; break;
    case ROOT: j->refusal = mityvurno_create_root_region(LENT, j->domain, 0, j->start, j->end, 3).refusal; break;
    case ALIAS: j->refusal = mityvurno_alias_region(LENT, j->domain, 0, j->local, j->start, j->end, 3).refusal; break;
    case CARVE: j->refusal = mityvurno_carve_region(LENT, j->domain, 0, j->local, j->start, j->end, 1).refusal; break;
    case SEND: j->refusal = mityvurno_send(LENT, j->domain, 0, j->local, j->target).refusal; break;
    case REVOKE: j->refusal = mityvurno_revoke(LENT, j->domain, 0, j->local).refusal; break;
    case PERMISSIONS: j->refusal = mityvurno_permissions(LENT, j->domain, 0, list, 4).refusal; break;
    }
    return NULL;
}

static void stop(const char *what, uint64_t refusal) {
    fprintf(stderr, "%s: refused with %llu\n", what, (unsigned long long)refusal);
    exit(1);
}

/* The bytes of the stack that the job changed. */
static size_t changed(struct job *j) {
    pthread_attr_t attr;
    pthread_t thread;
    size_t untouched = 0;
    memset(stack, FILL, STACK);
    if (pthread_attr_init(&attr) || pthread_attr_setstack(&attr, stack, STACK) || pthread_create(&thread, &attr, run, j) ||
        pthread_join(thread, NULL)) {
        fprintf(stderr, "no thread\n");
        exit(1);
    }
    while (untouched < STACK && stack[untouched] == FILL) untouched++;
    return STACK - untouched;
}

/* Prints what a call takes, and puts the tables back as they were. */
static void measure(const char *name, struct job j) {
    struct job nothing = {NOTHING, 0, 0, 0, 0, 0, 0};
    memcpy(kept, tables, sizeof tables);
    size_t bytes = changed(&j) - changed(&nothing);
    if (j.refusal != 0) stop(name, j.refusal);
    printf("%8zu bytes, %6.1f KiB: %s\n", bytes, bytes / 1024.0, name);
    memcpy(tables, kept, sizeof tables);
}

/* ---- states, made by calls on the usual stack */

static uint64_t ok(const char *what, mityvurno_reply r) {
    if (r.refusal != 0) stop(what, r.refusal);
    return r.value;
}

static void empty_queue(void) {
    while (mityvurno_pop(LENT).kind != MITYVURNO_NONE) {
    }
}

/* Tables of these sizes, with all their domains: each below the one before, or all without a manager. */
static void make(uint64_t n, uint64_t slots, uint64_t regions, uint64_t records, uint64_t updates, int nested) {
    words = MITYVURNO_WORDS(n, slots, regions, records, updates);
    ok("make", mityvurno_make_tables(LENT, n, slots, regions, records, updates));
    for (uint64_t d = 0; d < n; d++) {
        mityvurno_domain_reply r = nested && d > 0 ? mityvurno_open_under(LENT, d - 1, 0, 0) : mityvurno_open_domain(LENT, 0);
        if (r.refusal != 0) stop("open", r.refusal);
    }
}

static void largest(int nested) {
    make(DOMAINS, SLOTS, REGIONS, RECORDS, UPDATES, nested);
}

/* Each domain gets a channel to the one before, domain 0 to the last. A root of domain 0, an alias of it sent to domain 31, and below that a chain of
 * aliases, each of the one before, which goes on in a lower domain where a list is full: all regions are in use. Answers the alias's local slot in
 * domain 31. */
static uint64_t chain(void) {
    uint64_t d = DOMAINS - 1;
    uint64_t root = ok("root", mityvurno_create_root_region(LENT, 0, 0, 0, 1 << 20, 3));
    uint64_t to = ok("channel", mityvurno_open_channel(LENT, 0, 0, d, 0));
    for (uint64_t k = d; k > 1; k--) ok("channel", mityvurno_open_channel(LENT, k, 0, k - 1, 0));
    uint64_t alias = ok("alias", mityvurno_alias_region(LENT, 0, 0, root, 0, 1 << 20, 3));
    uint64_t first = ok("send", mityvurno_send(LENT, 0, 0, alias, to)), at = first;
    /* A list has the Management slot, if any, then the channel. */
    uint64_t channel = first - 1, held = first + 1;
    for (uint64_t k = 2; k < REGIONS; k++) {
        at = ok("alias", mityvurno_alias_region(LENT, d, 0, at, 0, 1 << 20, 3));
        held++;
        if (held == SLOTS) {
            at = ok("send", mityvurno_send(LENT, d, 0, at, channel));
            channel = at - 1;
            held = at + 1;
            d--;
        }
        empty_queue();
    }
    return first;
}

/* Calls on tables without a tree. */
static void plain(void) {
    measure("pop of an empty queue", (struct job){.what = POP});
    measure("root", (struct job){.what = ROOT, .domain = 1, .start = 0, .end = 64});
    uint64_t root = ok("root", mityvurno_create_root_region(LENT, 1, 0, 0, 64, 3));
    measure("alias", (struct job){.what = ALIAS, .domain = 1, .local = root, .start = 0, .end = 4});
    measure("carve with other rights", (struct job){.what = CARVE, .domain = 1, .local = root, .start = 4, .end = 8});
    uint64_t carve = ok("carve", mityvurno_carve_region(LENT, 1, 0, root, 4, 8, 1));
    uint64_t to = ok("channel", mityvurno_open_channel(LENT, 1, 0, 2, 0));
    measure("send", (struct job){.what = SEND, .domain = 1, .local = carve, .target = to});
    measure("revoke of one region", (struct job){.what = REVOKE, .domain = 1, .local = carve});
    measure("permissions", (struct job){.what = PERMISSIONS, .domain = 1});
}

int main(void) {
    puts("4 domains, 8 slots, 8 regions, 29 records, 12 updates:");
    make(4, 8, 8, 29, 12, 0);
    plain();
    puts("the largest sizes:");
    largest(0);
    plain();
    largest(0);
    uint64_t first = chain();
    measure("revoke of 1,023 regions, each below the other", (struct job){.what = REVOKE, .domain = DOMAINS - 1, .local = first});
    largest(1);
    measure("close of 31 domains, each below the other", (struct job){.what = REVOKE, .domain = 0, .local = 0});
    chain();
    measure("the same, with 1,023 regions each below the other, the first in the innermost", (struct job){.what = REVOKE, .domain = 0, .local = 0});
    return 0;
}
