/* A small monitor whose page tables follow the queue: a page-table writer to start from. An address is the number of a page, a page table an
 * array for each domain slot. It does what the writer of theorem `follows` does (mityvurno.h, "What a page-table writer does"). After each
 * step the queue is drained, before a program is entered, and every page table is held against the permission list: a difference ends the
 * program with status 1. monitor.out is what it prints: each step, and below it what is done in hardware.
 *
 *     cc -std=c99 examples/monitor.c $(pkg-config --cflags --libs mityvurno) -o monitor    # with the library of tools/install
 *     cc -std=c99 -Iinclude examples/monitor.c crates/engine_c/out/libengine_c.a -o monitor     # in the repository, after `tools/archive`
 */
#include <inttypes.h>
#include <stdio.h>
#include <stdlib.h>
#include <string.h>

#include "mityvurno.h"

/* Four records for each region, and a place in the ring for each domain and each region: mityvurno.h, "Choosing sizes". */
enum { DOMAINS = 4, SLOTS = 8, REGIONS = 8, RECORDS = 4 * REGIONS - 3, UPDATES = DOMAINS + REGIONS, PAGES = 64, CORES = 3 };
#define WORDS MITYVURNO_WORDS(DOMAINS, SLOTS, REGIONS, RECORDS, UPDATES)

static uint64_t tables[WORDS], work[WORDS];

/* What every call is lent first; how a handle is printed. */
#define LENT tables, WORDS, work, WORDS
#define HANDLE "%" PRIu64 ".%" PRIu64

typedef struct {
    uint64_t slot, generation;
} domain;

/* An entry of a page table: 0, or MAPPED and the rights of the page. */
enum { MAPPED = 256 };

/* For each domain slot: whether a domain is open there, its handle, and its page table, which cores and devices use while it is live. */
static struct {
    int live;
    domain d;
    unsigned page[PAGES];
} slots[DOMAINS];

static domain running[CORES];       /* whose program runs on a core */
static unsigned char memory[PAGES]; /* a byte for each page */

/* Says which call was not answered as it had to be, and ends the program. */
static void stop(const char *call, uint64_t refusal)
{
    fflush(stdout);
    fprintf(stderr, "monitor: %s is answered with %" PRIu64 ": %s\n", call, refusal, mityvurno_refusal_text(refusal));
    exit(1);
}

/* The value of a call that has to be accepted. */
static uint64_t value_of(const char *call, mityvurno_reply r)
{
    if (r.refusal != MITYVURNO_ACCEPTED)
        stop(call, r.refusal);
    return r.value;
}

/* The entries that the domain's permission list gives; 0 where its handle is dead. A run of RECORDS has room for every list, and no range
 * ends past PAGES, for the root does not. */
static int list(domain d, unsigned page[PAGES])
{
    static mityvurno_permission run[RECORDS];
    mityvurno_reply r = mityvurno_permissions(LENT, d.slot, d.generation, run, RECORDS);
    if (r.refusal == MITYVURNO_NO_DOMAIN)
        return 0;
    memset(page, 0, PAGES * sizeof page[0]);
    for (uint64_t i = 0, n = value_of("permissions", r); i < n; i++)
        for (uint64_t k = run[i].start; k < run[i].end; k++)
            page[k] = MAPPED | (unsigned)run[i].rights;
    return 1;
}

/* ---- what the writer forgets: no update tells it */

/* A making: every page table is void. */
static void make(void)
{
    value_of("make_tables", mityvurno_make_tables(LENT, DOMAINS, SLOTS, REGIONS, RECORDS, UPDATES));
    memset(slots, 0, sizeof slots);
}

/* An opening: the page table of the slot is void. What it has is a closed domain's. */
static domain opened(mityvurno_domain_reply r)
{
    domain d = {r.slot, r.generation};
    if (r.refusal != MITYVURNO_ACCEPTED)
        stop("an opening", r.refusal);
    memset(slots[d.slot].page, 0, sizeof slots[d.slot].page);
    slots[d.slot].live = 1;
    slots[d.slot].d = d;
    printf("  " HANDLE " is opened\n", d.slot, d.generation);
    return d;
}

/* After a revoke, a program's too: a handle that gives 3 is that of a closed domain. No core runs it, for a domain with a core map is not
 * closed; from here on no device goes by its page table either. The entries stay until the slot is opened again. */
static void drop_closed(void)
{
    unsigned listed[PAGES];
    for (int k = 0; k < DOMAINS; k++)
        if (slots[k].live && !list(slots[k].d, listed)) {
            slots[k].live = 0;
            printf("  " HANDLE " is closed\n", slots[k].d.slot, slots[k].d.generation);
        }
}

/* ---- the queue */

/* The bits of an entry that an update tells anew. UNCACHEABLE goes with the reach; the marks of READ to SUPER are the rights, one bit up. */
static unsigned told(uint64_t marks)
{
    unsigned rights = (unsigned)(marks >> 1) & (MITYVURNO_READ | MITYVURNO_WRITE | MITYVURNO_EXEC | MITYVURNO_SUPER);
    return marks & MITYVURNO_MARK_REACH ? rights | MAPPED | MITYVURNO_UNCACHEABLE : rights;
}

/* What is marked is read anew, the rest stays. An update of a closed domain tells nothing, whatever its slot holds now. */
static void rewrite(domain d, uint64_t cores, uint64_t marks)
{
    unsigned listed[PAGES], anew = told(marks), *page = slots[d.slot].page;
    if (!list(d, listed)) {
        printf("  " HANDLE " was closed: nothing to rewrite\n", d.slot, d.generation);
        return;
    }
    /* `cores` is the core map of the moment when the update was queued: the domain may run on others by now. */
    cores |= value_of("core_map", mityvurno_core_map(LENT, d.slot, d.generation));
    printf("  " HANDLE " flush %" PRIu64 " ", d.slot, d.generation, cores);
    for (int k = 0; k < PAGES; k++) {
        page[k] = (page[k] & ~anew) | (listed[k] & anew);
        putchar(page[k] & MAPPED ? "0123456789abcdef"[page[k] & 15] : '.');
    }
    putchar('\n');
}

/* All page tables are rewritten by now: nobody writes here by what it had before, and whoever has the range now finds zeroes. */
static void wipe(uint64_t start, uint64_t end)
{
    memset(memory + start, 0, end - start);
    printf("  wipe %" PRIu64 " to %" PRIu64 "\n", start, end);
}

/* The oldest update. Where a pop is refused, nothing is known of the queue, though the kind is that of an empty one. */
static mityvurno_update_reply popped(void)
{
    mityvurno_update_reply u = mityvurno_pop(LENT);
    if (u.refusal != MITYVURNO_ACCEPTED)
        stop("pop", u.refusal);
    return u;
}

/* What theorem `followed` says of an empty queue: the page table of every live domain is what its list gives. */
static void check(void)
{
    unsigned listed[PAGES];
    for (int k = 0; k < DOMAINS; k++) {
        if (!slots[k].live)
            continue;
        if (!list(slots[k].d, listed))
            stop("permissions of a live domain", MITYVURNO_NO_DOMAIN);
        for (int p = 0; p < PAGES; p++)
            if (slots[k].page[p] != listed[p]) {
                fflush(stdout);
                fprintf(stderr, "monitor: page %d of slot %d is mapped as %u, and listed as %u\n", p, k, slots[k].page[p], listed[p]);
                exit(1);
            }
    }
}

/* The end of a step: the queue is emptied, and then the ranges of clean-ups are wiped, for the update of a domain that lost such a range
 * may stand behind it. Only then is a program entered, on whichever core. */
static void settle(void)
{
    mityvurno_update_reply u, cleanups[UPDATES];
    int n = 0;
    while ((u = popped()).kind != MITYVURNO_NONE) {
        domain d = {u.a, u.b};
        if (u.kind == MITYVURNO_PERMISSION)
            rewrite(d, u.c, u.marks);
        else
            cleanups[n++] = u;
    }
    for (int i = 0; i < n; i++)
        wipe(cleanups[i].a, cleanups[i].b);
    check();
}

/* ---- programs */

/* What a program may ask for; all other calls are the platform's. */
enum call { ALIAS, CARVE, SEND, WAY_BACK, REVOKE };

/* A program traps on a core. Which domain it is the monitor knows by the core; what the program says are numbers, which the engine tests. */
static mityvurno_reply trap(int core, enum call call, uint64_t local, uint64_t a, uint64_t b, uint8_t rights)
{
    domain d = running[core];
    mityvurno_reply r = {MITYVURNO_NOT_ALLOWED, 0};
    switch (call) {
    case ALIAS: r = mityvurno_alias_region(LENT, d.slot, d.generation, local, a, b, rights); break;
    case CARVE: r = mityvurno_carve_region(LENT, d.slot, d.generation, local, a, b, rights); break;
    case SEND: r = mityvurno_send(LENT, d.slot, d.generation, local, a); break;
    case WAY_BACK: r = mityvurno_create_revoke_capa(LENT, d.slot, d.generation, local); break;
    case REVOKE: r = mityvurno_revoke(LENT, d.slot, d.generation, local); drop_closed(); break;
    }
    settle();
    return r;
}

/* ---- the steps */

/* The platform's domain, on core 0, with all pages in its slot 0. */
static void start(void)
{
    puts("the platform starts");
    make();
    domain d = running[0] = opened(mityvurno_open_domain(LENT, 1));
    value_of("root", mityvurno_create_root_region(LENT, d.slot, d.generation, 0, PAGES, MITYVURNO_READ | MITYVURNO_WRITE | MITYVURNO_EXEC));
    settle();
}

/* A domain on this core, below the one on core `manager`, which has its Management capability in the next slot. */
static void open_on(int core, int manager)
{
    domain m = running[manager];
    running[core] = opened(mityvurno_open_under(LENT, m.slot, m.generation, 1u << core));
    settle();
}

/* The program on this core lends a part of its slot 0 through slot `target`. Answers the slot of a RegionRevoke that it keeps. */
static uint64_t lend(int core, enum call how, uint64_t start, uint64_t end, uint8_t rights, uint64_t target)
{
    uint64_t part = value_of("a part", trap(core, how, 0, start, end, rights));
    uint64_t way_back = value_of("create_revoke_capa", trap(core, WAY_BACK, part, 0, 0, 0));
    value_of("send", trap(core, SEND, part, target, 0, 0));
    return way_back;
}

/* The programs on cores 1 and 2 are stopped, and the domain on core 1 is closed with the one below it, by the platform's slot 1. */
static void end_contract(void)
{
    for (int core = 1; core < CORES; core++)
        value_of("set_core_map", mityvurno_set_core_map(LENT, running[core].slot, running[core].generation, 0));
    value_of("close", trap(0, REVOKE, 1, 0, 0, 0));
}

int main(void)
{
    if (mityvurno_version() != MITYVURNO_VERSION_NUMBER) {
        fputs("monitor: the library is of another version than the header\n", stderr);
        return 1;
    }
    start();
    puts("a supplier on core 1 is lent 16 to 32, to be wiped when they come back");
    open_on(1, 0);
    lend(0, CARVE, 16, 32, MITYVURNO_READ | MITYVURNO_WRITE | MITYVURNO_CLEANUP, 1);
    puts("it lends 16 to 20 to its helper on core 2");
    open_on(2, 1);
    lend(1, ALIAS, 16, 20, MITYVURNO_READ, 1);
    printf("it asks for 0 to 4: %s\n", mityvurno_refusal_text(trap(1, ALIAS, 0, 0, 4, MITYVURNO_READ).refusal));
    memory[17] = 7;
    puts("it writes into page 17, and its contract ends");
    end_contract();
    printf("page 17 has %d; another supplier gets the slot, and has nothing of the closed one's\n", memory[17]);
    open_on(1, 0);
    puts("it is lent 40 to 44, and they are taken back");
    /* The slot freed last is given first: the send above freed slot 2, which has the Management capability now. */
    value_of("revoke", trap(0, REVOKE, lend(0, ALIAS, 40, 44, MITYVURNO_READ, 2), 0, 0, 0));
    start();
    if (fflush(stdout) != 0 || ferror(stdout)) {
        fputs("monitor: standard output cannot be written\n", stderr);
        return 1;
    }
    return 0;
}
