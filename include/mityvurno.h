/* The exported calls of Mityvurno, a region capability engine; for C99, C++98 and later on x86-64. The library is libmityvurno.a where
 * tools/install put it, and crates/engine_c/out/libengine_c.a in the repository, written by `tools/archive`.
 * Document 01 (docs/01-scope.md) says what each call does, docs/AMENDMENTS.md what has changed since, docs/TABLES.md what each word of the
 * tables holds, CHANGELOG.md what a host changes from version to version. examples/host.c makes each call but a conversion;
 * examples/monitor.c is a monitor to start from, whose page tables follow the queue.
 *
 * In this file: words; who may call what; what a page-table writer does; choosing sizes; lent memory; cost and stack. Then version, sizes,
 * rights, a domain's interface, refusals with a text for each, replies, and the calls mityvurno_..
 *   tables        make_tables, convert_tables
 *   domains       open_domain, open_under, open_channel, set_core_map, set_interface, freeze_interface
 *   regions       create_root_region, alias_region, carve_region
 *   capabilities  send, send_with_flags, send_with_hash, revoke, create_revoke_capa
 *   queue         pop
 *   readings      get_refcount, core_map, holders, permissions
 *
 * ---- Words
 *
 *   platform      the monitor itself, and not a domain's program
 *   domain        what a program runs in. Its handle is a slot and a generation. Closing it raises the slot's generation, so that the
 *                 handle names no domain from then on, whatever the slot holds
 *   region        a range of addresses with rights, owned by one domain: a root, or a part of another region, its parent: an alias, which
 *                 is shared with the parent, or a carve, which is cut out of it. Below a region are its parts, and theirs
 *   reach         by how many of its regions a domain has an address. A right it has there where one of these has it
 *   local slot    a slot of a domain's capability list. It is free, or holds one of
 *     Region        a region that the domain owns
 *     RegionRevoke  names a region: revoking it revokes that region, wherever it was sent
 *     Management    the manager's, of a domain: a way to send to that domain, which is closed by revoking it. It is not sent itself
 *     Channel       a way to send to a domain, and nothing else
 *     none          what a revoke leaves: in use until a sweep
 *   sweep         where a list is full and a slot is needed, slots that hold none, or name a dead region or domain, are freed
 *   core map      64 bits for the cores that a domain runs on, set by the platform. The engine copies it into updates, and closes no
 *                 domain whose map is not 0; nothing else goes by it
 *   record        a stretch of addresses over which a domain's counts, reach and rights, are the same: a line of its permission list
 *   address       in a unit of the host's choice; a range is `start` up to but not including `end`. The engine knows no pages: a host
 *                 that counts bytes and maps pages refuses ranges that are not of whole pages, before it calls
 *
 * ---- Who may call what
 *
 * The engine cannot know who calls: who names a live handle acts for that domain. So the monitor takes `domain` and `generation` from its
 * own knowledge of which program trapped, and never from that program. What else a call takes, local slots, ranges, rights, flags and hash,
 * may be the program's: any number is answered. A rights or flag word above 255 is for the monitor to refuse, since C would cut it.
 *   programs      alias_region, carve_region, send, send_with_flags, send_with_hash, revoke and create_revoke_capa, each for the program's
 *                 own domain; the readings of its own domain, where the monitor answers these: get_refcount, core_map, permissions
 *   platform      all others: make_tables, convert_tables, open_domain, open_under, open_channel, set_core_map, set_interface,
 *                 freeze_interface, create_root_region and pop; and holders, which tells of other domains
 * That a program never reaches what it was not given (theorem `untouched`) goes by the roots and sends that were accepted: a monitor that
 * lets a program make roots has given it all memory.
 *
 * ---- What a page-table writer does
 *
 * These are the rules of theorem `follows` (crates/follow/specs/Writer.antt): under them, when the queue is empty, the page tables of every
 * live domain are what its permission list gives. The queue tells what changed in a live domain, and nothing else.
 *   a making      every page table is void
 *   an opening    the page table of the slot that is answered is void: unmapped, whatever stood there. The slot may be a closed domain's,
 *                 and nothing is queued for what that one had
 *   a pop         of a domain: reads mityvurno_permissions of the popped handle, before any call that changes the tables. Accepted, it
 *                 rewrites what is marked: by MITYVURNO_MARK_REACH whether an address is mapped at all, and UNCACHEABLE, which has no mark
 *                 of its own; by each other mark that right. It may rewrite more. Refused with 3, the domain was closed: it does nothing,
 *                 whatever the slot holds now
 *   all else      nothing: a refused call, a clean-up, a reading
 * Besides:
 *   a close       queues nothing for the domains that it closes. They run on no core, for their core maps are 0, but their page tables have
 *                 all that they had: after each accepted revoke, a program's too, take those whose handle gives 3 from cores and devices
 *   draining      until the queue is empty page tables may give what the tables no longer do, and an update that maps may come before one
 *                 that unmaps. So from a call that changed something until the queue is empty no program is entered, and none goes on, on
 *                 any core. Where a pop is refused it is not known whether the queue is empty
 *   core maps     an update has the core map of the moment when it was queued, and mityvurno_set_core_map queues nothing: a shoot-down by
 *                 it alone can miss a core. Take the cores of mityvurno_core_map, too
 *   clean-ups     the update of a domain that lost the range stands before the clean-up or, where it lost it later in the same call,
 *                 behind it; that of a carve's parent's domain, which has the range back, before it; a closed domain is not queued. So
 *                 note the ranges, and wipe them when the queue is empty, all shoot-downs done, before a program is entered. Who else
 *                 reaches such a range: mityvurno_holders
 *   beginning     a writer that has lost its page tables, or is handed tables that are in use, unmaps everything and reads the list of
 *                 every live domain once
 *
 * ---- Choosing sizes
 *
 * Regions, records and the ring are shared by all domains, and one program can use them up: then others get 11, 13 or 14. A revoke and a
 * close need records and places in the ring as well, so that they can be refused with 13 or 14, and what was lent is not taken back then:
 * with sizes 3 8 16 8 4 a supplier that makes four aliases inside what it was lent cannot be closed (examples/sizes.txt). No theorem says
 * when a revoke is accepted. To be proved, and tested by random calls (rust/tests/sizes.rs):
 *   records       with 4 * regions - 3 or more, and no root that has UNCACHEABLE, no call is refused with 13. As there are at most 1,024
 *                 records, that is for up to 256 regions. With UNCACHEABLE no number of records is enough: its count stays with a record,
 *                 so that one region can be in any number of them (until request 8 of document 02)
 *   updates       where the queue is empty, domains + regions places are enough for a revoke or a close, and domains where no live region
 *                 has CLEANUP: then it is not refused with 14
 * A refused revoke has changed nothing: drain the queue, or have other regions revoked, and call again. For that the monitor can call in
 * the supplier's name, for it names the handle.
 *
 * ---- Lent memory
 *
 * The host lends two runs of words for the time of a call: the tables, which keep everything between calls, and a work area of the same
 * length. Each call tests both and trusts neither: any contents and any lengths are answered. Tables that are not sound, or a wrong length,
 * give MITYVURNO_MEMORY. A refused call changes no word of the tables. The work area is all zero after every call, refused or not,
 * whatever it held before. Nothing is kept elsewhere: calls on different tables may run at once, and so may readings of the same tables,
 * each with a work area of its own.
 *
 * What a C caller must see to, since C cannot say it of a pointer and a length:
 *   - each pointer is that of so many words as its length says, aligned as its type is;
 *   - tables, work areas, old tables, run and hash do not overlap, and nobody else writes them during the call;
 *   - nothing but these functions writes the tables between calls, either. Damage is refused with MITYVURNO_MEMORY, but whoever writes
 *     the words of other sound tables there has made other tables: the test cannot tell a consistent forgery.
 * Where a length is 0, nothing is read or written through its pointer; NULL was tested there.
 *
 * ---- Cost and stack
 *
 * Every call but making tests all tables first, whatever it does then, and the converter tests what it makes: 2 to 8 microseconds at the
 * script program's sizes (8 domains, 16 slots, 128 regions, 128 records, 32 updates), 18 to 90 at the largest. A call that changes
 * something takes up to 4 and 32 more, for a copy of the tables and its own work. But a revoke takes longer the more regions die by it: at
 * the largest sizes 0.1 to 1.4 milliseconds with 1,022 parts of one region, and 1.1 for the close of 31 domains with 32 aliases each. Lent
 * words that are refused take about as long as sound ones at most. bench/README.md has the measurements, and what they were made on.
 * These figures and those at each call were measured with the kit before rattle-kit-13f. With that kit and on another machine, where the
 * Rust engine takes twice as long, calls take up to two and a half times as long.
 *
 * Of its host the archive asks for memcpy and memset, nothing else; it uses SSE registers and the red zone, the 128 bytes below the stack
 * pointer: code that interrupts a call must not write there, so it needs a stack of its own. Stack, measured at the largest sizes
 * (bench/stack): up to 26 KiB for a call, 31 KiB for a revoke, and some 110 bytes more for each level of the tree: 141 KiB for 1,023
 * regions, each below the other. Closing 31 domains, each below the other, takes no more: 132 KiB with 1,023 regions below the
 * innermost. Small tables take the same but for the levels: at 4 domains, 8 slots, 8 regions, 29 records and 12 updates 26 and 31 KiB. */
#ifndef MITYVURNO_H
#define MITYVURNO_H

#include <stddef.h>
#include <stdint.h>

/* Of a pointer to memory that does not overlap the others; C++ has no word for it. */
#ifdef __cplusplus
#define MITYVURNO_APART
extern "C" {
#else
#define MITYVURNO_APART restrict
#endif

/* Of a function whose reply must be looked at: a refusal that nobody sees is a step that nobody took. */
#if defined(__GNUC__) || defined(__clang__)
#define MITYVURNO_MUST_USE __attribute__((warn_unused_result))
#else
#define MITYVURNO_MUST_USE
#endif

/* ---- version: the minor number is that of the last request of document 02 that is in */

#define MITYVURNO_VERSION_MAJOR 0
#define MITYVURNO_VERSION_MINOR 6
#define MITYVURNO_VERSION_PATCH 1
#define MITYVURNO_VERSION "0.6.1"
#define MITYVURNO_VERSION_NUMBER (MITYVURNO_VERSION_MAJOR * 10000 + MITYVURNO_VERSION_MINOR * 100 + MITYVURNO_VERSION_PATCH)

/* The MITYVURNO_VERSION_NUMBER of the library that is linked. A host compares it once, when it starts: with another library than the
 * header's, arguments and replies may have another form. */
uint64_t mityvurno_version(void) MITYVURNO_MUST_USE;

/* ---- sizes: each is at least 1 and at most this */

#define MITYVURNO_MOST_DOMAINS 32
#define MITYVURNO_MOST_SLOTS 128 /* of each domain's capability list */
#define MITYVURNO_MOST_REGIONS 1024
#define MITYVURNO_MOST_RECORDS 1024 /* tracker records */
#define MITYVURNO_MOST_UPDATES 128

/* The number of words that tables of these sizes have, and their work area: a constant where the sizes are. */
#define MITYVURNO_WORDS(domains, slots, regions, records, updates)                                              \
    ((size_t)7 + (2 + 2 * (size_t)(domains)) + (2 + 2 * (size_t)(regions)) + (2 + 2 * (size_t)(records)) +      \
     (size_t)(domains) * (5 + 3 * (size_t)(slots)) + 8 * (size_t)(regions) + 9 * (size_t)(records) +            \
     4 * ((size_t)(updates) + 1) + 5 * (size_t)(regions) + 2 * (size_t)(domains) + ((size_t)(updates) + 1))

/* The number of words that tables from before request 4 have, for mityvurno_convert_tables: without the marks. */
#define MITYVURNO_FORMER_WORDS(domains, slots, regions, records, updates) \
    (MITYVURNO_WORDS(domains, slots, regions, records, updates) - ((size_t)(updates) + 1))

/* ---- rights: a word of 8 bits. Of READ to SUPER and UNCACHEABLE a part has its parent's or fewer, and permission lists have these five
 * alone; the other three may be added to a part, and at a send */

enum mityvurno_rights {
    MITYVURNO_READ = 1,         /* reading */
    MITYVURNO_WRITE = 2,        /* writing; READ is not asked for beside it */
    MITYVURNO_EXEC = 4,         /* executing */
    MITYVURNO_SUPER = 8,        /* supervisor access */
    MITYVURNO_HASH = 16,        /* a send that adds it brings a hash, which is kept with the region; the engine does not compute it */
    MITYVURNO_CLEANUP = 32,     /* the region's range is queued to be cleaned up when the region dies */
    MITYVURNO_VITAL = 64,       /* kept with the region; the engine does nothing by it */
    MITYVURNO_UNCACHEABLE = 128 /* uncached access, by the rights that made the record; no mark of its own: MITYVURNO_MARK_REACH */
};

/* ---- a domain's interface: a word of 64 bits, set by the platform, that says which of these calls its program may make; other bits are
 * kept and mean nothing */

enum mityvurno_interface {
    MITYVURNO_MAY_SEND = 2,
    MITYVURNO_MAY_ALIAS = 8,
    MITYVURNO_MAY_CARVE = 16
};

/* ---- refusals: document 01's, "Memory and who can be refused", and 18 to 23 of document 02 */

enum mityvurno_refusal {
    MITYVURNO_ACCEPTED = 0,
    /* the host that lends */
    MITYVURNO_MEMORY = 1, /* either length wrong, or tables not sound */
    MITYVURNO_SIZES = 2,  /* a size outside its limits; making only */
    /* a domain's program */
    MITYVURNO_NO_DOMAIN = 3,    /* slot number too large, generation not the slot's, or slot free */
    MITYVURNO_NO_SLOT = 4,      /* local number too large, or free */
    MITYVURNO_WRONG_KIND = 5,   /* the slot holds another kind of capability */
    MITYVURNO_STALE = 6,        /* the region is dead */
    MITYVURNO_BAD_RANGE = 7,    /* start not below end */
    MITYVURNO_BEYOND = 8,       /* the rule of alias or carve is broken */
    MITYVURNO_ROOT = 9,         /* revoking a root, or making its RegionRevoke */
    MITYVURNO_NOT_CARRIED = 10, /* sending a Management capability */
    /* all together */
    MITYVURNO_NO_REGION = 11,      /* no region free */
    MITYVURNO_NO_LOCAL = 12,       /* the capability list is full after the sweep */
    MITYVURNO_NO_TRACKER = 13,     /* no tracker record free */
    MITYVURNO_RING_FULL = 14,      /* no place for an update */
    MITYVURNO_NO_DOMAIN_ROOM = 15, /* no domain free */
    MITYVURNO_SPENT = 16,          /* a generation of 2^64 - 1 would be raised */
    /* a script's author; no exported call gives it */
    MITYVURNO_BAD_RECORD = 17,
    /* the flag word of a send, of a region only */
    MITYVURNO_BAD_FLAG = 18, /* a flag other than HASH, CLEANUP or VITAL */
    MITYVURNO_NO_HASH = 19,  /* HASH in the flag word, and no hash */
    /* a domain's interface */
    MITYVURNO_NOT_ALLOWED = 20, /* the caller's word lacks the bit of this call */
    MITYVURNO_FROZEN = 21,      /* setting a frozen word */
    /* closing a domain */
    MITYVURNO_HOLDS_ROOT = 22, /* a domain to be closed holds a root */
    MITYVURNO_RUNNING = 23     /* a domain to be closed has a core map that is not 0 */
};

/* A sentence for people, for each of the numbers above, and one for any other. */
static inline const char *mityvurno_refusal_text(uint64_t refusal)
{
    switch (refusal) {
    case MITYVURNO_ACCEPTED: return "the call is accepted";
    case MITYVURNO_MEMORY: return "a length is wrong, or the tables are not sound";
    case MITYVURNO_SIZES: return "a size is outside its limits";
    case MITYVURNO_NO_DOMAIN: return "the handle is that of no live domain";
    case MITYVURNO_NO_SLOT: return "the local number is too large, or the slot is free";
    case MITYVURNO_WRONG_KIND: return "the slot holds another kind of capability";
    case MITYVURNO_STALE: return "the region is dead";
    case MITYVURNO_BAD_RANGE: return "the start is not below the end";
    case MITYVURNO_BEYOND: return "the rule of alias or carve is broken, by range, rights or overlap";
    case MITYVURNO_ROOT: return "a root is not revoked, and no RegionRevoke of it is made";
    case MITYVURNO_NOT_CARRIED: return "a Management capability is not sent";
    case MITYVURNO_NO_REGION: return "no region is free";
    case MITYVURNO_NO_LOCAL: return "the capability list is full after the sweep";
    case MITYVURNO_NO_TRACKER: return "no tracker record is free";
    case MITYVURNO_RING_FULL: return "the ring has no place for an update";
    case MITYVURNO_NO_DOMAIN_ROOM: return "no domain is free";
    case MITYVURNO_SPENT: return "a generation of 2^64 - 1 would be raised";
    case MITYVURNO_BAD_RECORD: return "a record of the script is bad or cut";
    case MITYVURNO_BAD_FLAG: return "the flag word has a flag other than HASH, CLEANUP or VITAL";
    case MITYVURNO_NO_HASH: return "the flag word has HASH, and no hash is given";
    case MITYVURNO_NOT_ALLOWED: return "the word of the caller's interface lacks the bit of this call";
    case MITYVURNO_FROZEN: return "the word of the domain's interface is frozen";
    case MITYVURNO_HOLDS_ROOT: return "a domain to be closed holds a root";
    case MITYVURNO_RUNNING: return "a domain to be closed has a core map that is not 0";
    default: return "no refusal of this version has this number";
    }
}

/* ---- replies */

/* `refusal` is one of the numbers above. A refusal gives its number and nothing else: the other fields are 0 then. */
typedef struct {
    uint64_t refusal;
    uint64_t value; /* 0 where the call has none */
} mityvurno_reply;

/* The handle of a new domain. */
typedef struct {
    uint64_t refusal;
    uint64_t slot;
    uint64_t generation;
} mityvurno_domain_reply;

enum mityvurno_update {
    MITYVURNO_NONE = 0,       /* nothing is queued */
    MITYVURNO_PERMISSION = 1, /* a domain's permissions changed: a, b its handle's slot and generation, c its core map */
    MITYVURNO_CLEAN_UP = 2    /* a range to clean up: a start, b end */
};

/* Which of a domain's counts came to 0 or left it at some address since its update before was popped (document 02, request 4). */
enum mityvurno_mark {
    MITYVURNO_MARK_REACH = 1,
    MITYVURNO_MARK_READ = 2,
    MITYVURNO_MARK_WRITE = 4,
    MITYVURNO_MARK_EXEC = 8,
    MITYVURNO_MARK_SUPER = 16
};

typedef struct {
    uint64_t refusal;
    uint64_t kind; /* of enum mityvurno_update */
    uint64_t a, b, c;
    uint64_t marks; /* of enum mityvurno_mark, one or several; 0 where no domain is popped */
} mityvurno_update_reply;

typedef struct {
    uint64_t start, end; /* start up to but not including end */
    uint64_t rights;
} mityvurno_permission;

/* ---- calls
 *
 * `t` has `t_words` words, the tables; `w` has `w_words` words, the work area. A domain is named by its handle, slot and generation, as
 * opening it answered; `local` is a slot of that domain's capability list. A call that is not "Platform only" may be a program's, for its
 * own domain, which the monitor names. Above each call stand what it does, its arguments, and
 *
 *   value     what the reply has where the call is accepted: its `value`, or the fields that are named
 *   refusals  those that it can give, without MITYVURNO_, in the order in which they are tested; no other is possible (theorem
 *             `call-refusals`, with one list for both openings and one for all sends: 3 and 12 are of an opening under a manager alone,
 *             18 and 19 of a flag word alone, by the model's `open_domain` and `check_options`; of the converter, its contract).
 *             13, 14 and 16 come after the others, whichever is met first. Where a listed one cannot come after all, it is said
 *   cost      "test": the tables are tested. "copy": they are copied to the work area besides, and put back where the call is refused.
 *             Microseconds (us), where the call was measured, are at the script program's sizes where no others are named, and go from
 *             tables full of roots to the slowest sound tables known */

#define MITYVURNO_LENT uint64_t *MITYVURNO_APART t, size_t t_words, uint64_t *MITYVURNO_APART w, size_t w_words
/* A reading does not change the tables. */
#define MITYVURNO_READ_ONLY const uint64_t *MITYVURNO_APART t, size_t t_words, uint64_t *MITYVURNO_APART w, size_t w_words

/* ---- tables */

/* Platform only. Makes empty tables. What the tables held before does not matter. Every page table is void from then on.
 *
 *   t_words, w_words    MITYVURNO_WORDS of the sizes
 *   domains .. updates  the sizes
 *   value     0
 *   refusals  2 SIZES, 1 MEMORY by the lengths alone
 *   cost      no test; 0.6 us; at the largest sizes 6.5 us */
mityvurno_reply mityvurno_make_tables(MITYVURNO_LENT, uint64_t domains, uint64_t slots, uint64_t regions, uint64_t records,
                                      uint64_t updates) MITYVURNO_MUST_USE;

/* Platform only. Tables from before request 4, `old`, become tables with marks in `t`: the same entries and handles, and every queued
 * domain has all five marks, since which rights moved was not kept. Tables from before request 2 go through that delivery's converter
 * first.
 *
 *   old       the old tables, only read; MITYVURNO_FORMER_WORDS of the sizes that they store
 *   t         the new ones, MITYVURNO_WORDS of these sizes; what they held before does not matter
 *   v, w      two work areas, as long as `t`, zero afterwards
 *   value     0
 *   refusals  1 MEMORY for wrong lengths and old tables that are not sound; `t` is as found then
 *   cost      test of what it makes, two copies; roots and carves 6.8 to 7.3 us; at the largest sizes 73.6 to 81.9 us */
mityvurno_reply mityvurno_convert_tables(const uint64_t *MITYVURNO_APART old, size_t old_words, uint64_t *MITYVURNO_APART t,
                                         size_t t_words, uint64_t *MITYVURNO_APART v, size_t v_words, uint64_t *MITYVURNO_APART w,
                                         size_t w_words) MITYVURNO_MUST_USE;

/* ---- domains */

/* Platform only. Opens a domain without a manager. The page table of its slot is void from then on.
 *
 *   cores     its core map, any 64 bits
 *   value     (slot, generation) the new domain's handle
 *   refusals  1 MEMORY, 15 NO_DOMAIN_ROOM
 *   cost      test, copy */
mityvurno_domain_reply mityvurno_open_domain(MITYVURNO_LENT, uint64_t cores) MITYVURNO_MUST_USE;

/* Platform only. Opens a domain with a manager, which gets a Management capability to it. Its local slot is not answered: in each
 * capability list the slot freed last is given first, and fresh ones go 0, 1, 2. The page table of the new domain's slot is void from then
 * on.
 *
 *   manager, generation  the manager's handle
 *   cores     the new domain's core map, any 64 bits
 *   value     (slot, generation) the new domain's handle
 *   refusals  1 MEMORY, 3 NO_DOMAIN, 15 NO_DOMAIN_ROOM, 12 NO_LOCAL in the manager's list
 *   cost      test, copy */
mityvurno_domain_reply mityvurno_open_under(MITYVURNO_LENT, uint64_t manager, uint64_t generation, uint64_t cores) MITYVURNO_MUST_USE;

/* Platform only. Puts a Channel capability to domain `to` in the list of `domain`, which may be the same.
 *
 *   domain, generation  the handle of the domain that gets it
 *   to, to_generation   the handle of the domain that it names
 *   value     its local slot
 *   refusals  1 MEMORY, 3 NO_DOMAIN for either, 12 NO_LOCAL
 *   cost      test, copy */
mityvurno_reply mityvurno_open_channel(MITYVURNO_LENT, uint64_t domain, uint64_t generation, uint64_t to, uint64_t to_generation)
    MITYVURNO_MUST_USE;

/* Platform only. Sets the domain's core map. Nothing is queued, and a queued update keeps the map that it has.
 *
 *   domain, generation  its handle
 *   cores     any 64 bits
 *   value     0
 *   refusals  1 MEMORY, 3 NO_DOMAIN
 *   cost      test; 5.4 to 8.2 us; at the largest sizes 53.5 to 87.3 us */
mityvurno_reply mityvurno_set_core_map(MITYVURNO_LENT, uint64_t domain, uint64_t generation, uint64_t cores) MITYVURNO_MUST_USE;

/* Platform only. The word of the domain's interface, in place of the one that stands. A domain opens with MITYVURNO_MAY_SEND,
 * MITYVURNO_MAY_ALIAS and MITYVURNO_MAY_CARVE, whatever its manager's word. A domain without a bit gets 20 for alias, carve or send;
 * nothing else asks for one: what a domain holds it can still revoke, and others can send to it.
 *
 *   domain, generation  its handle
 *   word      any 64 bits
 *   value     0
 *   refusals  1 MEMORY, 3 NO_DOMAIN, 21 FROZEN
 *   cost      test; 5.4 to 8.2 us; at the largest sizes 53.5 to 86.8 us */
mityvurno_reply mityvurno_set_interface(MITYVURNO_LENT, uint64_t domain, uint64_t generation, uint64_t word) MITYVURNO_MUST_USE;

/* Platform only. The word stays as it is while the domain lives: only its closing, or a making, ends the freeze. Freezing twice is
 * accepted.
 *
 *   domain, generation  its handle
 *   value     0
 *   refusals  1 MEMORY, 3 NO_DOMAIN
 *   cost      test */
mityvurno_reply mityvurno_freeze_interface(MITYVURNO_LENT, uint64_t domain, uint64_t generation) MITYVURNO_MUST_USE;

/* ---- regions */

/* Platform only. Makes a new region, a root: it is part of no other. It is never revoked: it goes from domain to domain by sends, and ends
 * with a making.
 *
 *   domain, generation  the handle of the domain that gets it
 *   start, end          its range, `start` up to but not including `end`
 *   rights              any 8 bits
 *   value     its local slot
 *   refusals  1 MEMORY, 3 NO_DOMAIN, 11 NO_REGION, 12 NO_LOCAL, 7 BAD_RANGE; 13 NO_TRACKER, 14 RING_FULL, 16 SPENT
 *   cost      test, copy */
mityvurno_reply mityvurno_create_root_region(MITYVURNO_LENT, uint64_t domain, uint64_t generation, uint64_t start, uint64_t end,
                                             uint8_t rights) MITYVURNO_MUST_USE;

/* Makes a part of the region in `local`, shared with it.
 *
 *   domain, generation  the handle of the domain that holds the region; it gets the part
 *   local               the region's slot
 *   start, end          the part's range, inside the region's; it overlaps no part that is carved out of it
 *   rights              the region's or fewer; HASH, CLEANUP and VITAL may be added
 *   value     the part's local slot
 *   refusals  1 MEMORY, 3 NO_DOMAIN, 20 NOT_ALLOWED, 4 NO_SLOT, 5 WRONG_KIND, 6 STALE, 11 NO_REGION, 12 NO_LOCAL, 7 BAD_RANGE,
 *             8 BEYOND; 13 NO_TRACKER, 14 RING_FULL, 16 SPENT. 14 does not come: the domain has the range with these rights already, so
 *             that nothing is queued (the theorem's list is wider)
 *   cost      test, copy; refused with 8, 6.7 to 9.7 us; at the largest sizes 67.4 to 102.3 us. An alias and its revoke, two calls,
 *             13.2 to 21.2 us; at the largest sizes 124.6 to 217.2 us */
mityvurno_reply mityvurno_alias_region(MITYVURNO_LENT, uint64_t domain, uint64_t generation, uint64_t local, uint64_t start, uint64_t end,
                                       uint8_t rights) MITYVURNO_MUST_USE;

/* Makes a part of the region in `local`, cut out of it.
 *
 *   domain, generation  the handle of the domain that holds the region; it gets the part
 *   local               the region's slot
 *   start, end          the part's range, inside the region's; it overlaps no other part of it
 *   rights              the region's or fewer; HASH, CLEANUP and VITAL may be added
 *   value     the part's local slot
 *   refusals  1 MEMORY, 3 NO_DOMAIN, 20 NOT_ALLOWED, 4 NO_SLOT, 5 WRONG_KIND, 6 STALE, 11 NO_REGION, 12 NO_LOCAL, 7 BAD_RANGE,
 *             8 BEYOND; 13 NO_TRACKER, 14 RING_FULL, 16 SPENT
 *   cost      test, copy */
mityvurno_reply mityvurno_carve_region(MITYVURNO_LENT, uint64_t domain, uint64_t generation, uint64_t local, uint64_t start, uint64_t end,
                                       uint8_t rights) MITYVURNO_MUST_USE;

/* ---- capabilities */

/* Moves what `local` holds to the domain that the Channel or Management capability in `target` names. A region's rights and its stored hash
 * stay.
 *
 *   domain, generation  the sender's handle
 *   local               the sender's slot with what is sent; it is freed
 *   target              the sender's slot with the Channel or Management capability
 *   value     the local slot in the receiver's list
 *   refusals  1 MEMORY, 3 NO_DOMAIN, 20 NOT_ALLOWED; of the target 4 NO_SLOT, 5 WRONG_KIND, 3 NO_DOMAIN, 12 NO_LOCAL;
 *             of the sent slot 4 NO_SLOT, 10 NOT_CARRIED, 6 STALE; 13 NO_TRACKER, 14 RING_FULL, 16 SPENT
 *   cost      test, copy */
mityvurno_reply mityvurno_send(MITYVURNO_LENT, uint64_t domain, uint64_t generation, uint64_t local, uint64_t target) MITYVURNO_MUST_USE;

/* Moves likewise, with a flag word and without a hash. Where `local` holds a region, the flags join its rights for good, and its stored
 * hash becomes none; flags 0 do that as well. Where it holds anything else, the flags are not looked at.
 *
 *   domain, generation, local, target  as for mityvurno_send
 *   flags     CLEANUP and VITAL, one or both or none
 *   value     the local slot in the receiver's list
 *   refusals  1 MEMORY, 3 NO_DOMAIN, 20 NOT_ALLOWED; of the target 4 NO_SLOT, 5 WRONG_KIND, 3 NO_DOMAIN, 12 NO_LOCAL;
 *             of the sent slot 4 NO_SLOT, 10 NOT_CARRIED, 6 STALE, 18 BAD_FLAG, 19 NO_HASH; 13 NO_TRACKER, 14 RING_FULL, 16 SPENT
 *   cost      test, copy; to itself 7.7 to 12.2 us; at the largest sizes 63.2 to 118.9 us */
mityvurno_reply mityvurno_send_with_flags(MITYVURNO_LENT, uint64_t domain, uint64_t generation, uint64_t local, uint64_t target,
                                          uint8_t flags) MITYVURNO_MUST_USE;

/* Moves likewise, with a flag word and a hash. Where `local` holds a region, the flags join its rights for good, and its stored hash
 * becomes the one given; flags 0 do that as well. Where it holds anything else, flags and hash are not looked at.
 *
 *   domain, generation, local, target  as for mityvurno_send
 *   flags     HASH, CLEANUP and VITAL, one or several or none
 *   hash      32 bytes, which are read only; they may lie anywhere that is not written in the call
 *   value     the local slot in the receiver's list
 *   refusals  1 MEMORY, 3 NO_DOMAIN, 20 NOT_ALLOWED; of the target 4 NO_SLOT, 5 WRONG_KIND, 3 NO_DOMAIN, 12 NO_LOCAL;
 *             of the sent slot 4 NO_SLOT, 10 NOT_CARRIED, 6 STALE, 18 BAD_FLAG; 13 NO_TRACKER, 14 RING_FULL, 16 SPENT
 *   cost      test, copy */
mityvurno_reply mityvurno_send_with_hash(MITYVURNO_LENT, uint64_t domain, uint64_t generation, uint64_t local, uint64_t target,
                                         uint8_t flags, const uint8_t hash[32]) MITYVURNO_MUST_USE;

/* Revokes what `local` holds or names, a region with all below it; the slot is emptied. Whether it can be refused with 13 or 14 depends on
 * the sizes, and on a drained queue ("Choosing sizes").
 *
 * A Management capability closes its domain, and with it every domain that it manages, directly or further down: each one's slots in
 * rising order are revoked, then its own slot is freed, and its handle is dead from then on. The regions that these domains owned, with all
 * below them, are dead, parents have their ranges back, and whoever else gained or lost by it is queued; a domain that is closing is not,
 * but an update of it that was queued before stays in the queue with the dead handle. Send its roots away and set its core maps to 0 first,
 * and take its page table from cores and devices afterwards ("What a page-table writer does").
 *
 *   domain, generation  the caller's handle
 *   local               its slot
 *   value     0
 *   refusals  1 MEMORY, 3 NO_DOMAIN, 4 NO_SLOT; of a Management capability 3 NO_DOMAIN where the domain is closed already, 22 HOLDS_ROOT,
 *             23 RUNNING; of a region 6 STALE, 9 ROOT; 13 NO_TRACKER, 14 RING_FULL, 16 SPENT. A Channel, an emptied slot and a
 *             RegionRevoke of a dead region are accepted
 *   cost      test, copy, and work for each region that dies. Closing 7 domains with 15 aliases each, 31.0 us; at the
 *             largest sizes 31 with 32 each, 1,107 us. A region with 1,022 parts there, 143 to 1,367 us */
mityvurno_reply mityvurno_revoke(MITYVURNO_LENT, uint64_t domain, uint64_t generation, uint64_t local) MITYVURNO_MUST_USE;

/* Makes a RegionRevoke for the region in `local`, in the same list.
 *
 *   domain, generation  the handle of the domain that holds the region
 *   local               the region's slot
 *   value     the local slot of the RegionRevoke
 *   refusals  1 MEMORY, 3 NO_DOMAIN, 4 NO_SLOT, 5 WRONG_KIND, 6 STALE, 9 ROOT, 12 NO_LOCAL
 *   cost      test, copy */
mityvurno_reply mityvurno_create_revoke_capa(MITYVURNO_LENT, uint64_t domain, uint64_t generation, uint64_t local) MITYVURNO_MUST_USE;

/* ---- the queue */

/* Platform only. The oldest update leaves the queue. What to do by it: "What a page-table writer does", above.
 *
 * A right that is not marked has, at each address, neither come nor gone since the domain's update before was popped, or since the domain
 * was opened. One that came and went again is marked, too. A domain may have been closed since it was queued: then its handle is dead, and
 * reading its permissions is refused with 3.
 *
 *   value     (kind, a, b, c, marks) the update; kind MITYVURNO_NONE where the queue is empty. The core map is the one that the domain had
 *             when it was queued
 *   refusals  1 MEMORY: then it is not known whether the queue is empty, though kind is 0
 *   cost      test; of an empty queue 5.1 to 8.0 us; at the largest sizes 53.4 to 87.5 us */
mityvurno_update_reply mityvurno_pop(MITYVURNO_LENT) MITYVURNO_MUST_USE;

/* ---- readings: the platform's; the monitor may offer a program those of its own domain, not the holders */

/* Reads the largest reach in a range (document 01, `get_refcount`).
 *
 *   domain, generation  the domain's handle
 *   start, end          any two numbers
 *   value     the largest reach of the domain there, 0 where it has none
 *   refusals  1 MEMORY, 3 NO_DOMAIN
 *   cost      test, and at the largest sizes 2.9 us for a domain with 1,000 records */
mityvurno_reply mityvurno_get_refcount(MITYVURNO_READ_ONLY, uint64_t domain, uint64_t generation, uint64_t start, uint64_t end)
    MITYVURNO_MUST_USE;

/* Reads the domain's core map.
 *
 *   domain, generation  the domain's handle
 *   value     the core map
 *   refusals  1 MEMORY, 3 NO_DOMAIN
 *   cost      test; roots 5.1 us; at the largest sizes 53.2 us */
mityvurno_reply mityvurno_core_map(MITYVURNO_READ_ONLY, uint64_t domain, uint64_t generation) MITYVURNO_MUST_USE;

/* Platform only. Lists the slots of the domains that reach an address, rising, each once. Those past the run are not written, so that a
 * short run holds the lowest slots, and unused places stay as they are, as does the whole run on refusal.
 *
 *   address   any number
 *   run       `places` words, for the slots. A run as long as the tables have domains has room for all
 *   value     how many there are, which may be more than `places`
 *   refusals  1 MEMORY
 *   cost      test, and a look at the records of every domain */
mityvurno_reply mityvurno_holders(MITYVURNO_READ_ONLY, uint64_t address, uint64_t *MITYVURNO_APART run, size_t places) MITYVURNO_MUST_USE;

/* Lists the domain's permissions, rising: ranges, each with what the domain has there of READ, WRITE, EXEC, SUPER and UNCACHEABLE. Those
 * past the run are not written, so that a short run holds the lowest ranges, and unused places stay as they are, as does the whole run on
 * refusal.
 *
 *   domain, generation  the domain's handle
 *   run       `places` permissions. A run as long as the tables have records has room for all
 *   value     how many there are, which may be more than `places`
 *   refusals  1 MEMORY, 3 NO_DOMAIN
 *   cost      test, and at the largest sizes 7.3 us for a domain with 1,000 records */
mityvurno_reply mityvurno_permissions(MITYVURNO_READ_ONLY, uint64_t domain, uint64_t generation,
                                      mityvurno_permission *MITYVURNO_APART run, size_t places) MITYVURNO_MUST_USE;

#ifdef __cplusplus
}
#endif

#endif
