/* A host that lends memory to the engine: document 01's worked example, each answer printed as the script program prints it, and then
 * the calls that the example does not have. host.out is what it prints; lines `d` and `r` are readings, lines `m` the marks of popped
 * domains. The refusal of every call is looked at: one that has to come is printed as an answer, any other ends the program with status 1.
 *
 *     cc -std=c99 examples/host.c $(pkg-config --cflags --libs mityvurno) -o host    # with the library that tools/install put in place
 *     cc -std=c99 -Iinclude examples/host.c crates/engine_c/out/libengine_c.a -o host     # in the repository, after `tools/archive`
 */
#include <inttypes.h>
#include <stdio.h>
#include <stdlib.h>

#include "mityvurno.h"

enum { DOMAINS = 8, SLOTS = 16, REGIONS = 128, RECORDS = 128, UPDATES = 32 };
#define WORDS MITYVURNO_WORDS(DOMAINS, SLOTS, REGIONS, RECORDS, UPDATES)

static uint64_t tables[WORDS];
static uint64_t work[WORDS];

/* What every call is lent first. */
#define LENT tables, WORDS, work, WORDS

/* A's slot with the Management capability to B: the first that is given. */
enum { TO_B = 0 };

static int number; /* of the last answer that was printed */

/* ---- answers */

/* Says which call was not answered as it had to be, and ends the program. */
static void stop(const char *call, uint64_t refusal)
{
    fflush(stdout);
    fprintf(stderr, "host: %s is answered with %" PRIu64 ": %s\n", call, refusal, mityvurno_refusal_text(refusal));
    exit(1);
}

/* The value of a call that has to be accepted. */
static uint64_t value_of(const char *call, mityvurno_reply r)
{
    if (r.refusal != MITYVURNO_ACCEPTED)
        stop(call, r.refusal);
    return r.value;
}

/* The same, with the answer printed. */
static uint64_t accepted(const char *call, mityvurno_reply r)
{
    uint64_t value = value_of(call, r);
    printf("%d ok %" PRIu64 "\n", ++number, value);
    return value;
}

static mityvurno_domain_reply opened(const char *call, mityvurno_domain_reply r)
{
    if (r.refusal != MITYVURNO_ACCEPTED)
        stop(call, r.refusal);
    printf("%d ok %" PRIu64 "\n", ++number, r.slot);
    return r;
}

/* A call that has to be refused, with this number. */
static void refused(uint64_t refusal, const char *call, mityvurno_reply r)
{
    if (r.refusal != refusal)
        stop(call, r.refusal);
    printf("%d no %" PRIu64 "\n", ++number, refusal);
}

/* ---- readings */

/* A line for each record of the domain's permission list, with its reach. The value is the whole number of records, so that a run that is
 * too short can be seen; this one has room for all. */
static void list(mityvurno_domain_reply d)
{
    static mityvurno_permission run[RECORDS];
    uint64_t n = value_of("permissions", mityvurno_permissions(LENT, d.slot, d.generation, run, RECORDS));
    for (uint64_t i = 0; i < n && i < RECORDS; i++) {
        mityvurno_permission p = run[i];
        uint64_t reach = value_of("get_refcount", mityvurno_get_refcount(LENT, d.slot, d.generation, p.start, p.end));
        printf("d %" PRIu64 " %" PRIu64 " %" PRIu64 " %" PRIu64 " %" PRIu64 "\n", d.slot, p.start, p.end, p.rights, reach);
    }
}

/* The domain's core map, and who holds an address. */
static void read_more(mityvurno_domain_reply d, uint64_t address)
{
    uint64_t run[DOMAINS];
    uint64_t cores = value_of("core_map", mityvurno_core_map(LENT, d.slot, d.generation));
    uint64_t n = value_of("holders", mityvurno_holders(LENT, address, run, DOMAINS));
    printf("r cores %" PRIu64 ", %" PRIu64 " is held by %" PRIu64 ":", cores, address, n);
    for (uint64_t i = 0; i < n && i < DOMAINS; i++)
        printf(" %" PRIu64, run[i]);
    printf("\n");
}

/* ---- the queue */

/* What has moved since the domain's update before: a page-table writer reads the domain's permissions anew for these rights only. */
static void moved(mityvurno_update_reply u)
{
    static const struct {
        uint64_t mark;
        const char *name;
    } marks[] = {{MITYVURNO_MARK_REACH, "reach"},
                 {MITYVURNO_MARK_READ, "READ"},
                 {MITYVURNO_MARK_WRITE, "WRITE"},
                 {MITYVURNO_MARK_EXEC, "EXEC"},
                 {MITYVURNO_MARK_SUPER, "SUPER"}};
    printf("m %" PRIu64 ":", u.a);
    for (size_t i = 0; i < sizeof marks / sizeof marks[0]; i++)
        if (u.marks & marks[i].mark)
            printf(" %s", marks[i].name);
    printf("\n");
}

/* The oldest update; kind MITYVURNO_NONE says that the queue is empty, but only where the call is accepted. */
static mityvurno_update_reply popped(void)
{
    mityvurno_update_reply u = mityvurno_pop(LENT);
    if (u.refusal != MITYVURNO_ACCEPTED)
        stop("pop", u.refusal);
    return u;
}

/* Empties the queue: what the monitor has to do in hardware. A script's lines have no marks, so these come behind them. */
static void updates(void)
{
    mityvurno_update_reply queue[UPDATES];
    int n = 0;
    while (n < UPDATES && (queue[n] = popped()).kind != MITYVURNO_NONE)
        n++;
    for (int i = 0; i < n; i++) {
        if (queue[i].kind == MITYVURNO_PERMISSION)
            printf("p %" PRIu64 " %" PRIu64 "\n", queue[i].a, queue[i].c);
        else
            printf("c %" PRIu64 " %" PRIu64 "\n", queue[i].a, queue[i].b);
    }
    for (int i = 0; i < n; i++)
        if (queue[i].kind == MITYVURNO_PERMISSION)
            moved(queue[i]);
}

/* ---- the calls */

/* The local slots that the worked example leaves for the rest. */
struct held {
    uint64_t root, alias; /* A's */
    uint64_t carve;       /* B's */
};

/* A's root, a part carved out of it and sent to B, and an alias; 6 to 9 overlaps what is carved. */
static struct held example(mityvurno_domain_reply a, mityvurno_domain_reply b)
{
    struct held h;
    uint64_t carve;

    h.root = accepted("root", mityvurno_create_root_region(LENT, a.slot, a.generation, 0, 16, MITYVURNO_READ | MITYVURNO_WRITE));
    carve = accepted("carve", mityvurno_carve_region(LENT, a.slot, a.generation, h.root, 4, 8, MITYVURNO_READ));
    h.alias = accepted("alias", mityvurno_alias_region(LENT, a.slot, a.generation, h.root, 0, 4, MITYVURNO_READ | MITYVURNO_WRITE));
    h.carve = accepted("send", mityvurno_send(LENT, a.slot, a.generation, carve, TO_B));
    refused(MITYVURNO_BEYOND, "alias of 6 to 9", mityvurno_alias_region(LENT, a.slot, a.generation, h.root, 6, 9, MITYVURNO_READ));
    list(a);
    list(b);
    updates();
    return h;
}

/* B gives the carve back; B gets a channel, whose slot is answered, and a core map; A's alias is revoked by a RegionRevoke. */
static uint64_t more(mityvurno_domain_reply a, mityvurno_domain_reply b, struct held h)
{
    uint64_t channel, way_back;

    accepted("revoke of the carve", mityvurno_revoke(LENT, b.slot, b.generation, h.carve));
    list(a);
    channel = accepted("open_channel", mityvurno_open_channel(LENT, b.slot, b.generation, a.slot, a.generation));
    accepted("set_core_map", mityvurno_set_core_map(LENT, b.slot, b.generation, 6));
    read_more(b, 5);
    way_back = accepted("create_revoke_capa", mityvurno_create_revoke_capa(LENT, a.slot, a.generation, h.alias));
    accepted("revoke of the alias", mityvurno_revoke(LENT, a.slot, a.generation, way_back));
    list(a);
    updates();
    return channel;
}

/* A hands B a frame buffer that must be wiped on return, with the hash of what is in it, and takes it back. READ is no flag that a send may
 * add, and HASH needs a hash. */
static void hand_over(mityvurno_domain_reply a, uint64_t root)
{
    static const uint8_t hash[32] = {0x6d, 0x69, 0x74, 0x79};
    const uint8_t flags = MITYVURNO_HASH | MITYVURNO_CLEANUP;
    uint64_t buffer, way_back;

    buffer = accepted("alias", mityvurno_alias_region(LENT, a.slot, a.generation, root, 12, 16, MITYVURNO_READ));
    way_back = accepted("create_revoke_capa", mityvurno_create_revoke_capa(LENT, a.slot, a.generation, buffer));
    refused(MITYVURNO_BAD_FLAG, "send with READ", mityvurno_send_with_flags(LENT, a.slot, a.generation, buffer, TO_B, MITYVURNO_READ));
    refused(MITYVURNO_NO_HASH, "send with HASH", mityvurno_send_with_flags(LENT, a.slot, a.generation, buffer, TO_B, MITYVURNO_HASH));
    accepted("send_with_hash", mityvurno_send_with_hash(LENT, a.slot, a.generation, buffer, TO_B, flags, hash));
    updates();
    accepted("revoke of the buffer", mityvurno_revoke(LENT, a.slot, a.generation, way_back));
    updates();
}

/* B, a supplier's domain, may send no more, and the platform makes that final. What B holds it can still give up: revoke needs no bit. */
static void withdraw(mityvurno_domain_reply b, uint64_t channel)
{
    const uint64_t rest = MITYVURNO_MAY_ALIAS | MITYVURNO_MAY_CARVE;

    accepted("set_interface", mityvurno_set_interface(LENT, b.slot, b.generation, rest));
    refused(MITYVURNO_NOT_ALLOWED, "send by B", mityvurno_send(LENT, b.slot, b.generation, channel, channel));
    accepted("freeze_interface", mityvurno_freeze_interface(LENT, b.slot, b.generation));
    refused(MITYVURNO_FROZEN, "set_interface", mityvurno_set_interface(LENT, b.slot, b.generation, MITYVURNO_MAY_SEND));
    accepted("revoke of the channel", mityvurno_revoke(LENT, b.slot, b.generation, channel));
}

int main(void)
{
    mityvurno_domain_reply a, b;
    struct held h;
    uint64_t channel;

    value_of("make_tables", mityvurno_make_tables(LENT, DOMAINS, SLOTS, REGIONS, RECORDS, UPDATES));
    a = opened("open_domain", mityvurno_open_domain(LENT, 0));
    b = opened("open_under", mityvurno_open_under(LENT, a.slot, a.generation, 0));
    h = example(a, b);
    channel = more(a, b, h);
    hand_over(a, h.root);
    withdraw(b, channel);
    if (fflush(stdout) != 0 || ferror(stdout)) {
        fputs("host: standard output cannot be written\n", stderr);
        return 1;
    }
    return 0;
}
