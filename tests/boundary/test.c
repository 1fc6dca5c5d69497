/* The boundary test: every function of the library against the plain code of this folder, on cases with the paper's numbers
 * written beside them and on generated messages. Every lent buffer stands between guard octets, and all of it is compared
 * after each call: with what the plain code left, and with what stood there before, but for the octets that were promised.
 * Half of the time, what is only read stands at the end of a page instead, with no page behind it. */
#define _DEFAULT_SOURCE
#include <stdio.h>
#include <string.h>
#include <sys/mman.h>

#include "llachurep.h"
#include "plain.h"

enum { MESSAGES = 200000, NIGHTS = 2000, SHOWN = 10 };

enum { READ, WRITE, COMPACT, FIND, NUMBER_READ, NUMBER_WRITE, ACT, BLOCK, VELOCITY_CODE, VELOCITY_VERTICAL, VELOCITY_READ, BICC_READ,
       BICC_WRITE, BICC_COMPACT, SCCP_READ, SCCP_WRITE, SCCP_COMPACT, ASKING, REBUILD, PLANNING, CHECKING, FUNCTIONS };
static const char *const names[FUNCTIONS] = {"read", "write", "compact", "find", "number_read", "number_write", "act", "block",
                                             "velocity", "vertical", "velocity_read", "bicc_read", "bicc_write",
                                             "bicc_compact", "sccp_read", "sccp_write", "sccp_compact",
                                             "busy", "rebuild", "plan", "check_plan"};

static unsigned long checks, failures;
static unsigned long seen[FUNCTIONS][32];
static unsigned long types_read[256], types_acted[256], types_called[256], types_roaming[256];

/* ------------------------------------------------------------------------------------------------ chance, always alike */

static uint64_t seed = 0x9E3779B97F4A7C15u;

static uint32_t chance(void)
{
    seed ^= seed << 13;
    seed ^= seed >> 7;
    seed ^= seed << 17;
    return (uint32_t)(seed >> 24);
}

/* 0 to n-1. */
static uint32_t below(uint32_t n)
{
    return (uint32_t)((uint64_t)chance() * n >> 32);
}

static uint32_t between(uint32_t low, uint32_t high)
{
    return low + below(high - low + 1);
}

/* One in n. */
static int one_in(uint32_t n)
{
    return below(n) == 0;
}

static void noise(uint8_t *to, size_t count)
{
    for (size_t i = 0; i < count; i++)
        to[i] = (uint8_t)chance();
}

/* ------------------------------------------------------------------------------------------------ what is lent */

enum { GUARD = 24, ARENA = 65536 };

/* The same octets three times: for the library, for the plain code, and as they were. */
static uint8_t ours[ARENA], theirs[ARENA], before[ARENA];
static size_t used;
static int null_if_empty;

/* Ends of pages, each with no page behind it; and the octets that stand at each in this call. */
enum { PAGE = 65536, PAGES = 5 };
static uint8_t *page_end[PAGES];
static size_t page_place[PAGES], page_count[PAGES], pages_used;

static void begin(void)
{
    used = GUARD;
    pages_used = 0;
    null_if_empty = one_in(2);
}

/* Octets to lend, between guards; 0 for `octets` leaves what stands there. Gives their place. */
static size_t lend(const uint8_t *octets, size_t count)
{
    size_t place = used + below(8);
    if (octets && count)
        memcpy(before + place, octets, count);
    used = place + count + GUARD;
    return place;
}

static void ready(void)
{
    memcpy(ours, before, used);
    memcpy(theirs, before, used);
}

static uint8_t *at(uint8_t *arena, size_t place, size_t count)
{
    return count == 0 && null_if_empty ? NULL : arena + place;
}

static int make_pages(void)
{
    for (int i = 0; i < PAGES; i++) {
        uint8_t *two = mmap(NULL, 2 * PAGE, PROT_READ | PROT_WRITE, MAP_PRIVATE | MAP_ANONYMOUS, -1, 0);
        if (two == MAP_FAILED || mprotect(two + PAGE, PAGE, PROT_NONE) != 0)
            return 0;
        page_end[i] = two + PAGE;
    }
    return 1;
}

/* What the library only reads: in the arena, or at the end of a page. */
static const uint8_t *in(size_t place, size_t count)
{
    if (count == 0 || one_in(2))
        return at(ours, place, count);
    page_place[pages_used] = place;
    page_count[pages_used] = count;
    uint8_t *to = page_end[pages_used++] - count;
    memcpy(to, before + place, count);
    return to;
}

static int pages_kept(void)
{
    for (size_t i = 0; i < pages_used; i++)
        if (memcmp(page_end[i] - page_count[i], before + page_place[i], page_count[i]) != 0)
            return 0;
    return 1;
}

/* Counts a failure; whether it is among those that are shown. */
static int failed(const char *what)
{
    failures++;
    if (failures <= SHOWN)
        printf("FAILURE %lu: %s\n", failures, what);
    return failures <= SHOWN;
}

static void show(const char *what, const uint8_t *octets, size_t count)
{
    if (failures > SHOWN)
        return;
    printf("  %s (%u)", what, (unsigned)count);
    for (size_t i = 0; i < count; i++)
        printf(" %02x", octets[i]);
    printf("\n");
}


/* After a call: the answers, then the arena; `count` octets at `place` were promised. Gives 0 where there is a fault. */
static int settle(int function, uint64_t got, uint64_t wanted, unsigned number, size_t place, size_t count)
{
    int good = 1;
    checks++;
    seen[function][number < 32 ? number : 31]++;
    if (got != wanted) {
        good = 0;
        if (failed(names[function]))
            printf("  answers %llx, plain %llx\n", (unsigned long long)got, (unsigned long long)wanted);
    } else if (memcmp(ours, theirs, used) != 0) {
        good = 0;
        if (failed(names[function]))
            printf("  leaves other octets than the plain code\n");
    } else {
        if (number == 0 && count)
            memcpy(before + place, ours + place, count);
        if (memcmp(ours, before, used) != 0 || !pages_kept()) {
            good = 0;
            if (failed(names[function]))
                printf("  changes octets that are not promised\n");
        }
    }
    return good;
}

/* ------------------------------------------------------------------------------------------------ one call of each */

static uint32_t try_read(const uint8_t *message, size_t length, size_t count)
{
    enum { EDGE = 12 };
    uint16_t mine[2 * EDGE + 16], other[2 * EDGE + 16], old[2 * EDGE + 16];
    for (size_t i = 0; i < 2 * EDGE + 16; i++)
        mine[i] = other[i] = old[i] = (uint16_t)(40000 + 77 * i);
    begin();
    size_t m = lend(message, length);
    ready();
    int null = count == 0 && null_if_empty;
    uint32_t got = llachurep_read(in(m, length), length, null ? NULL : mine + EDGE, count);
    uint32_t wanted = plain_read(at(theirs, m, length), length, null ? NULL : other + EDGE, count);
    if (got >> 16 == 0) {
        memcpy(old + EDGE, mine + EDGE, 10 * sizeof old[0]);
        types_read[message[2]]++;
    }
    if (!settle(READ, got, wanted, got >> 16, 0, 0))
        show("message", message, length);
    else if (memcmp(mine, other, sizeof mine) != 0 || memcmp(mine, old, sizeof mine) != 0) {
        if (failed("read leaves other numbers")) {
            show("message", message, length);
            for (int i = 0; i < 10; i++)
                printf("  %u / %u\n", mine[EDGE + i], other[EDGE + i]);
        }
    }
    return got;
}

static uint32_t try_find(const uint8_t *message, size_t length, const uint8_t *defaults, size_t defaults_length,
                         uint32_t name, size_t count)
{
    enum { EDGE = 4 };
    size_t mine[2 * EDGE + 4], other[2 * EDGE + 4], old[2 * EDGE + 4];
    for (size_t i = 0; i < 2 * EDGE + 4; i++)
        mine[i] = other[i] = old[i] = (size_t)0x1234567812345678u + 77 * i;
    begin();
    size_t m = lend(message, length), d = lend(defaults, defaults_length);
    ready();
    int null = count == 0 && null_if_empty;
    uint32_t got = llachurep_find(in(m, length), length, in(d, defaults_length), defaults_length, name,
                                  null ? NULL : mine + EDGE, count);
    uint32_t wanted = plain_find(at(theirs, m, length), length, at(theirs, d, defaults_length), defaults_length, name,
                                 null ? NULL : other + EDGE, count);
    if (got >> 16 == 0)
        memcpy(old + EDGE, mine + EDGE, 2 * sizeof old[0]);
    int good = settle(FIND, got, wanted, got >> 16, 0, 0);
    if (good && (memcmp(mine, other, sizeof mine) != 0 || memcmp(mine, old, sizeof mine) != 0)) {
        failed("find leaves other numbers");
        good = 0;
    }
    if (!good && failures <= SHOWN) {
        show("message", message, length);
        show("defaults", defaults, defaults_length);
        printf("  name %u, found %lu %lu / %lu %lu\n", name, (unsigned long)mine[EDGE], (unsigned long)mine[EDGE + 1],
               (unsigned long)other[EDGE], (unsigned long)other[EDGE + 1]);
    }
    return got;
}

static uint32_t try_compact(const uint8_t *message, size_t length, size_t room)
{
    begin();
    size_t m = lend(message, length), o = lend(0, room);
    ready();
    uint32_t got = llachurep_compact(in(m, length), length, at(ours, o, room), room);
    uint32_t wanted = plain_compact(at(theirs, m, length), length, at(theirs, o, room), room);
    if (!settle(COMPACT, got, wanted, got >> 16, o, got & 65535))
        show("message", message, length);
    return got;
}

/* What the writer is given. */
struct given {
    uint32_t circuit, type;
    size_t fixed_length, first_length, second_length, optional_length, third_length; /* the third of SCCP alone */
    uint8_t fixed[16], first[400], second[400], optional[800], third[400];
};

static uint32_t try_write(const struct given *w, size_t room)
{
    begin();
    size_t f = lend(w->fixed, w->fixed_length), a = lend(w->first, w->first_length), b = lend(w->second, w->second_length);
    size_t p = lend(w->optional, w->optional_length), o = lend(0, room);
    ready();
    uint32_t got = llachurep_write(w->circuit, w->type, in(f, w->fixed_length), w->fixed_length, in(a, w->first_length),
                                   w->first_length, in(b, w->second_length), w->second_length,
                                   in(p, w->optional_length), w->optional_length, at(ours, o, room), room);
    uint32_t wanted = plain_write(w->circuit, w->type, at(theirs, f, w->fixed_length), w->fixed_length,
                                  at(theirs, a, w->first_length), w->first_length, at(theirs, b, w->second_length),
                                  w->second_length, at(theirs, p, w->optional_length), w->optional_length,
                                  at(theirs, o, room), room);
    if (!settle(WRITE, got, wanted, got >> 16, o, got & 65535) && failures <= SHOWN) {
        printf("  circuit %u, type %u, room %u\n", w->circuit, w->type, (unsigned)room);
        show("fixed", w->fixed, w->fixed_length);
        show("first", w->first, w->first_length);
        show("second", w->second, w->second_length);
        show("optional", w->optional, w->optional_length);
    }
    return got;
}

static uint32_t try_bicc_read(const uint8_t *message, size_t length, size_t count)
{
    enum { EDGE = 12 };
    uint32_t mine[2 * EDGE + 16], other[2 * EDGE + 16], old[2 * EDGE + 16];
    for (size_t i = 0; i < 2 * EDGE + 16; i++)
        mine[i] = other[i] = old[i] = (uint32_t)(4000000000u + 77 * i);
    begin();
    size_t m = lend(message, length);
    ready();
    int null = count == 0 && null_if_empty;
    uint32_t got = llachurep_bicc_read(in(m, length), length, null ? NULL : mine + EDGE, count);
    uint32_t wanted = plain_bicc_read(at(theirs, m, length), length, null ? NULL : other + EDGE, count);
    if (got >> 16 == 0) {
        memcpy(old + EDGE, mine + EDGE, 10 * sizeof old[0]);
        types_called[message[4]]++;
    }
    if (!settle(BICC_READ, got, wanted, got >> 16, 0, 0))
        show("message", message, length);
    else if (memcmp(mine, other, sizeof mine) != 0 || memcmp(mine, old, sizeof mine) != 0) {
        if (failed("bicc_read leaves other numbers")) {
            show("message", message, length);
            for (int i = 0; i < 10; i++)
                printf("  %u / %u\n", mine[EDGE + i], other[EDGE + i]);
        }
    }
    return got;
}

static uint32_t try_bicc_compact(const uint8_t *message, size_t length, size_t room)
{
    begin();
    size_t m = lend(message, length), o = lend(0, room);
    ready();
    uint32_t got = llachurep_bicc_compact(in(m, length), length, at(ours, o, room), room);
    uint32_t wanted = plain_bicc_compact(at(theirs, m, length), length, at(theirs, o, room), room);
    if (!settle(BICC_COMPACT, got, wanted, got >> 16, o, got & 65535))
        show("message", message, length);
    return got;
}

static uint32_t try_bicc_write(uint32_t code, const struct given *w, size_t room)
{
    begin();
    size_t f = lend(w->fixed, w->fixed_length), a = lend(w->first, w->first_length), b = lend(w->second, w->second_length);
    size_t p = lend(w->optional, w->optional_length), o = lend(0, room);
    ready();
    uint32_t got = llachurep_bicc_write(code, w->type, in(f, w->fixed_length), w->fixed_length, in(a, w->first_length),
                                        w->first_length, in(b, w->second_length), w->second_length,
                                        in(p, w->optional_length), w->optional_length, at(ours, o, room), room);
    uint32_t wanted = plain_bicc_write(code, w->type, at(theirs, f, w->fixed_length), w->fixed_length,
                                       at(theirs, a, w->first_length), w->first_length, at(theirs, b, w->second_length),
                                       w->second_length, at(theirs, p, w->optional_length), w->optional_length,
                                       at(theirs, o, room), room);
    if (!settle(BICC_WRITE, got, wanted, got >> 16, o, got & 65535) && failures <= SHOWN) {
        printf("  code %u, type %u, room %u\n", code, w->type, (unsigned)room);
        show("fixed", w->fixed, w->fixed_length);
        show("first", w->first, w->first_length);
        show("second", w->second, w->second_length);
        show("optional", w->optional, w->optional_length);
    }
    return got;
}

static uint32_t try_sccp_read(const uint8_t *message, size_t length, size_t count)
{
    enum { EDGE = 13 };
    uint16_t mine[2 * EDGE + 16], other[2 * EDGE + 16], old[2 * EDGE + 16];
    for (size_t i = 0; i < 2 * EDGE + 16; i++)
        mine[i] = other[i] = old[i] = (uint16_t)(40000 + 77 * i);
    begin();
    size_t m = lend(message, length);
    ready();
    int null = count == 0 && null_if_empty;
    uint32_t got = llachurep_sccp_read(in(m, length), length, null ? NULL : mine + EDGE, count);
    uint32_t wanted = plain_sccp_read(at(theirs, m, length), length, null ? NULL : other + EDGE, count);
    if (got >> 16 == 0) {
        memcpy(old + EDGE, mine + EDGE, 11 * sizeof old[0]);
        types_roaming[message[0]]++;
    }
    if (!settle(SCCP_READ, got, wanted, got >> 16, 0, 0))
        show("message", message, length);
    else if (memcmp(mine, other, sizeof mine) != 0 || memcmp(mine, old, sizeof mine) != 0) {
        if (failed("sccp_read leaves other numbers")) {
            show("message", message, length);
            for (int i = 0; i < 11; i++)
                printf("  %u / %u\n", mine[EDGE + i], other[EDGE + i]);
        }
    }
    return got;
}

static uint32_t try_sccp_compact(const uint8_t *message, size_t length, size_t room)
{
    begin();
    size_t m = lend(message, length), o = lend(0, room);
    ready();
    uint32_t got = llachurep_sccp_compact(in(m, length), length, at(ours, o, room), room);
    uint32_t wanted = plain_sccp_compact(at(theirs, m, length), length, at(theirs, o, room), room);
    if (!settle(SCCP_COMPACT, got, wanted, got >> 16, o, got & 65535))
        show("message", message, length);
    return got;
}

static uint32_t try_sccp_write(const struct given *w, size_t room)
{
    begin();
    size_t f = lend(w->fixed, w->fixed_length), a = lend(w->first, w->first_length), b = lend(w->second, w->second_length);
    size_t c = lend(w->third, w->third_length), p = lend(w->optional, w->optional_length), o = lend(0, room);
    ready();
    uint32_t got = llachurep_sccp_write(w->type, in(f, w->fixed_length), w->fixed_length, in(a, w->first_length),
                                        w->first_length, in(b, w->second_length), w->second_length,
                                        in(c, w->third_length), w->third_length, in(p, w->optional_length),
                                        w->optional_length, at(ours, o, room), room);
    uint32_t wanted = plain_sccp_write(w->type, at(theirs, f, w->fixed_length), w->fixed_length,
                                       at(theirs, a, w->first_length), w->first_length, at(theirs, b, w->second_length),
                                       w->second_length, at(theirs, c, w->third_length), w->third_length,
                                       at(theirs, p, w->optional_length), w->optional_length, at(theirs, o, room), room);
    if (!settle(SCCP_WRITE, got, wanted, got >> 16, o, got & 65535) && failures <= SHOWN) {
        printf("  type %u, room %u\n", w->type, (unsigned)room);
        show("fixed", w->fixed, w->fixed_length);
        show("first", w->first, w->first_length);
        show("second", w->second, w->second_length);
        show("third", w->third, w->third_length);
        show("optional", w->optional, w->optional_length);
    }
    return got;
}

static uint64_t try_number_read(const uint8_t *contents, size_t length, size_t room)
{
    begin();
    size_t c = lend(contents, length), s = lend(0, room);
    ready();
    uint64_t got = llachurep_number_read(in(c, length), length, at(ours, s, room), room);
    uint64_t wanted = plain_number_read(at(theirs, c, length), length, at(theirs, s, room), room);
    if (!settle(NUMBER_READ, got, wanted, LLACHUREP_NUMBER_REFUSAL(got), s, LLACHUREP_NUMBER_COUNT(got)))
        show("contents", contents, length);
    return got;
}

static uint32_t try_number_write(uint32_t nature, uint32_t plan, uint32_t internal, const uint8_t *signals, size_t count,
                                 size_t room)
{
    begin();
    size_t s = lend(signals, count), o = lend(0, room);
    ready();
    uint32_t got = llachurep_number_write(nature, plan, internal, in(s, count), count, at(ours, o, room), room);
    uint32_t wanted = plain_number_write(nature, plan, internal, at(theirs, s, count), count, at(theirs, o, room), room);
    if (!settle(NUMBER_WRITE, got, wanted, got >> 16, o, got & 65535) && failures <= SHOWN) {
        printf("  nature %u, plan %u, internal %u, room %u\n", nature, plan, internal, (unsigned)room);
        show("signals", signals, count);
    }
    return got;
}

/* Codes: `vertical` or none. */
static uint32_t try_velocity(double bearing, double speed, const double *vertical, size_t count, uint16_t *codes)
{
    enum { EDGE = 6 };
    uint16_t mine[2 * EDGE + 8], other[2 * EDGE + 8], old[2 * EDGE + 8];
    for (size_t i = 0; i < 2 * EDGE + 8; i++)
        mine[i] = other[i] = old[i] = (uint16_t)(40000 + 77 * i);
    begin();
    ready();
    uint16_t *to = count == 0 && null_if_empty ? NULL : mine + EDGE, *plain = to ? other + EDGE : NULL;
    uint32_t got = vertical ? llachurep_velocity_code_vertical(bearing, speed, *vertical, to, count)
                            : llachurep_velocity_code(bearing, speed, to, count);
    uint32_t wanted = vertical ? plain_velocity_code_vertical(bearing, speed, *vertical, plain, count)
                               : plain_velocity_code(bearing, speed, plain, count);
    if (got >> 16 == 0)
        memcpy(old + EDGE, mine + EDGE, (vertical ? 3 : 2) * sizeof old[0]);
    int good = settle(vertical ? VELOCITY_VERTICAL : VELOCITY_CODE, got, wanted, got >> 16, 0, 0);
    if (good && (memcmp(mine, other, sizeof mine) != 0 || memcmp(mine, old, sizeof mine) != 0))
        good = (failed("velocity leaves other numbers"), 0);
    if (!good && failures <= SHOWN)
        printf("  codes %u %u %u / %u %u %u\n", mine[EDGE], mine[EDGE + 1], mine[EDGE + 2], other[EDGE], other[EDGE + 1], other[EDGE + 2]);
    if (codes)
        memcpy(codes, mine + EDGE, 3 * sizeof codes[0]);
    return got;
}

static uint32_t try_velocity_read(uint32_t bearing, uint32_t speed, size_t count)
{
    enum { EDGE = 3 };
    double mine[2 * EDGE + 4], other[2 * EDGE + 4], old[2 * EDGE + 4];
    for (size_t i = 0; i < 2 * EDGE + 4; i++)
        mine[i] = other[i] = old[i] = 77.25 + (double)i;
    begin();
    ready();
    int null = count == 0 && null_if_empty;
    uint32_t got = llachurep_velocity_read(bearing, speed, null ? NULL : mine + EDGE, count);
    uint32_t wanted = plain_velocity_read(bearing, speed, null ? NULL : other + EDGE, count);
    if (got >> 16 == 0)
        memcpy(old + EDGE, mine + EDGE, 2 * sizeof old[0]);
    int good = settle(VELOCITY_READ, got, wanted, got >> 16, 0, 0);
    if (good && (memcmp(mine, other, sizeof mine) != 0 || memcmp(mine, old, sizeof mine) != 0))
        good = (failed("velocity_read leaves other values"), 0);
    if (!good && failures <= SHOWN)
        printf("  bearing %u, speed %u\n", bearing, speed);
    return got;
}

/* The five tables, three times as above, with an octet to spare so that 4097 and 65 can be lent. */
struct tables {
    uint8_t guard0[GUARD], states[4097], guard1[GUARD], owners[4097], guard2[GUARD], helpers[4097], guard3[GUARD];
    uint8_t totals[65], guard4[GUARD], ticks[4097], guard5[GUARD];
};
static struct tables ours_tables, theirs_tables, before_tables;
static size_t states_length = 4096, owners_length = 4096, helpers_length = 4096, totals_length = 64, ticks_length = 4096;

/* A table as it is lent; one of no octets may be nowhere. */
static uint8_t *table_at(uint8_t *rows, size_t length)
{
    return length || !null_if_empty ? rows : NULL;
}

/* All three are as `before_tables`. */
static void ready_tables(void)
{
    ours_tables = theirs_tables = before_tables;
}

/* The circuits that a message names, m to m+r: straight from the octets, for an accepted act. */
static unsigned reach(const uint8_t *message)
{
    unsigned type = message[2];
    if (type == 0x17 || type == 0x2A)
        return message[3 + message[3] + 1];
    if (type == 0x18 || type == 0x19)
        return message[4 + message[4] + 1];
    return 0;
}

/* How many of the rows that are there are busy, from a circuit on. */
static unsigned counted(const uint8_t *states, unsigned first, unsigned count)
{
    unsigned busy = 0;
    for (unsigned c = first; c < first + count; c++)
        busy += states[c] % 2;
    return busy;
}

/* After an accepted call on those circuits: each block that holds one of them has its rows' count, and that was promised. */
static int totals_right(unsigned first, unsigned last)
{
    int good = 1;
    for (unsigned c = first; c <= last; c++) {
        before_tables.totals[c / 64] = ours_tables.totals[c / 64];
        good &= ours_tables.totals[c / 64] == counted(ours_tables.states, c - c % 64, 64);
    }
    return good;
}

static uint32_t try_act(uint32_t sender, const uint8_t *message, size_t length, size_t room)
{
    begin();
    size_t m = lend(message, length), a = lend(0, room);
    ready();
    uint32_t got = llachurep_act(table_at(ours_tables.states, states_length), states_length,
                                 table_at(ours_tables.owners, owners_length), owners_length,
                                 table_at(ours_tables.helpers, helpers_length), helpers_length,
                                 table_at(ours_tables.totals, totals_length), totals_length, sender,
                                 in(m, length), length, at(ours, a, room), room);
    uint32_t wanted = plain_act(table_at(theirs_tables.states, states_length), states_length,
                                table_at(theirs_tables.owners, owners_length), owners_length,
                                table_at(theirs_tables.helpers, helpers_length), helpers_length,
                                table_at(theirs_tables.totals, totals_length), totals_length, sender,
                                at(theirs, m, length), length, at(theirs, a, room), room);
    int good = settle(ACT, got, wanted, got >> 16, a, got & 65535);
    if (good && memcmp(&ours_tables, &theirs_tables, sizeof ours_tables) != 0) {
        failed("act leaves another table than the plain code");
        good = 0;
    }
    if (got >> 16 == 0 && length >= 3) {
        unsigned first = message[0] + 256u * (message[1] & 15u);
        memcpy(before_tables.states + first, ours_tables.states + first, reach(message) + 1);
        types_acted[message[2]]++;
        if (!totals_right(first, first + reach(message)))
            good = (failed("act leaves a total that is not right"), 0);
    }
    if (good && memcmp(&ours_tables, &before_tables, sizeof ours_tables) != 0) {
        failed("act changes rows or totals that are not named");
        good = 0;
    }
    if (!good) {
        if (failures <= SHOWN) {
            printf("  sender %u, room %u\n", sender, (unsigned)room);
            show("message", message, length);
        }
        theirs_tables = ours_tables;
        before_tables = ours_tables;
    }
    return got;
}

static uint32_t try_block(uint32_t circuit, uint32_t set, size_t room)
{
    begin();
    size_t a = lend(0, room);
    ready();
    uint32_t got = llachurep_block(table_at(ours_tables.states, states_length), states_length,
                                   table_at(ours_tables.totals, totals_length), totals_length, circuit, set,
                                   at(ours, a, room), room);
    uint32_t wanted = plain_block(table_at(theirs_tables.states, states_length), states_length,
                                  table_at(theirs_tables.totals, totals_length), totals_length, circuit, set,
                                  at(theirs, a, room), room);
    int good = settle(BLOCK, got, wanted, got >> 16, a, got & 65535);
    if (good && memcmp(&ours_tables, &theirs_tables, sizeof ours_tables) != 0) {
        failed("block leaves another table than the plain code");
        good = 0;
    }
    if (got >> 16 == 0) {
        before_tables.states[circuit] = ours_tables.states[circuit];
        if (!totals_right(circuit, circuit))
            good = (failed("block leaves a total that is not right"), 0);
    }
    if (good && memcmp(&ours_tables, &before_tables, sizeof ours_tables) != 0) {
        failed("block changes other rows or totals");
        good = 0;
    }
    if (!good) {
        if (failures <= SHOWN)
            printf("  circuit %u, set %u, room %u\n", circuit, set, (unsigned)room);
        theirs_tables = ours_tables;
        before_tables = ours_tables;
    }
    return got;
}

/* The question once more, in steps: where a block begins and ends among those asked for its total is taken, else a row. */
static uint64_t stepped(uint32_t first, uint32_t last)
{
    unsigned count = 0, looked = 0;
    for (uint32_t c = first; c <= last; looked++) {
        int whole = c % 64 == 0 && c + 63 <= last;
        count += whole ? ours_tables.totals[c / 64] : ours_tables.states[c] % 2u;
        c += whole ? 64 : 1;
    }
    return (uint64_t)looked << 16 | count;
}

static uint64_t try_busy(uint32_t first, uint32_t last)
{
    begin();
    ready();
    uint64_t got = llachurep_busy(table_at(ours_tables.states, states_length), states_length,
                                  table_at(ours_tables.totals, totals_length), totals_length, first, last);
    uint64_t wanted = plain_busy(table_at(theirs_tables.states, states_length), states_length,
                                 table_at(theirs_tables.totals, totals_length), totals_length, first, last);
    int good = settle(ASKING, got, wanted, LLACHUREP_BUSY_REFUSAL(got), 0, 0);
    if (good && (memcmp(&ours_tables, &theirs_tables, sizeof ours_tables) != 0 ||
                 memcmp(&ours_tables, &before_tables, sizeof ours_tables) != 0))
        good = (failed("busy changes a table"), 0);
    if (good && LLACHUREP_BUSY_REFUSAL(got) == 0 && got != stepped(first, last))
        good = (failed("busy answers otherwise than in steps"), 0);
    if (!good && failures <= SHOWN)
        printf("  circuits %u to %u\n", first, last);
    return got;
}

static uint32_t try_rebuild(void)
{
    begin();
    ready();
    uint32_t got = llachurep_rebuild(table_at(ours_tables.states, states_length), states_length,
                                     table_at(ours_tables.totals, totals_length), totals_length);
    uint32_t wanted = plain_rebuild(table_at(theirs_tables.states, states_length), states_length,
                                    table_at(theirs_tables.totals, totals_length), totals_length);
    int good = settle(REBUILD, got, wanted, got >> 16, 0, 0);
    if (good && memcmp(&ours_tables, &theirs_tables, sizeof ours_tables) != 0)
        good = (failed("rebuild leaves other totals than the plain code"), 0);
    if (got >> 16 == 0 && !totals_right(0, 4095))
        good = (failed("rebuild leaves a total that is not right"), 0);
    if (good && memcmp(&ours_tables, &before_tables, sizeof ours_tables) != 0)
        good = (failed("rebuild changes more than the totals"), 0);
    if (!good)
        theirs_tables = before_tables = ours_tables;
    return got;
}

/* The paper's words for a good plan: the hub accepts its messages in turn, each on the tables that those before it left, and each
 * ticked circuit is marked, or named by BLO, once, and no other. */
static int good_in_turn(uint32_t sender, uint32_t kind, const uint8_t *plan, size_t length)
{
    static struct tables t;
    static unsigned times[4096];
    uint8_t answer[268];
    if (states_length != 4096 || owners_length != 4096 || helpers_length != 4096 || ticks_length != 4096 || kind > 1)
        return 0;
    t = before_tables;
    memset(times, 0, sizeof times);
    for (size_t i = 0; i < length;) {
        size_t size = plan[i++];
        const uint8_t *m = plan + i;
        if (size > length - i)
            return 0;
        i += size;
        if (plain_act(t.states, 4096, t.owners, 4096, t.helpers, 4096, t.totals, 64, sender, m, size, answer, 268) >> 16)
            return 0;
        unsigned c = m[0] + 256u * (m[1] & 15u);
        if (m[2] == 0x18 && m[3] % 4u == kind) {
            for (unsigned n = 0; n <= reach(m); n++)
                times[c + n] += m[6 + m[4] + n / 8] >> n % 8 & 1u;
        } else if (m[2] == 0x13 && kind == 0) {
            times[c]++;
        } else {
            return 0;
        }
    }
    for (unsigned c = 0; c < 4096; c++)
        if (times[c] != (before_tables.ticks[c] != 0))
            return 0;
    return 1;
}

/* Whether the hub accepts that message of the sender, on the tables as they are. */
static int taken(uint32_t sender, const uint8_t *message, size_t length)
{
    static uint8_t states[4096], totals[64];
    uint8_t answer[268];
    memcpy(states, before_tables.states, 4096);
    return plain_act(states, 4096, before_tables.owners, 4096, before_tables.helpers, 4096, totals, 64, sender, message, length,
                     answer, 268) >> 16 == 0;
}

/* Whether no message can mark the circuit: neither BLO nor, with a neighbour, the shortest CGB. */
static int unmarkable(uint32_t sender, uint32_t kind, unsigned c)
{
    uint8_t blo[] = {(uint8_t)c, (uint8_t)(c >> 8), 0x13};
    uint8_t cgb[] = {(uint8_t)c, (uint8_t)(c >> 8), 0x18, (uint8_t)kind, 1, 2, 1, 1};
    if ((kind == 0 && taken(sender, blo, sizeof blo)) || taken(sender, cgb, sizeof cgb))
        return 0;
    if (c == 0)
        return 1;
    cgb[0] = (uint8_t)(c - 1);
    cgb[1] = (uint8_t)((c - 1) >> 8);
    cgb[7] = 2;
    return !taken(sender, cgb, sizeof cgb);
}

/* So some ticked circuit is, and there is no plan. Looked at where the caller wants it: it takes long. */
static int no_plan(uint32_t sender, uint32_t kind)
{
    for (unsigned c = 0; c < 4096; c++)
        if (before_tables.ticks[c] && unmarkable(sender, kind, c))
            return 1;
    return 0;
}

/* The last plan that was given. */
static uint8_t planned[36864 + 600];
static size_t planned_length;

/* No table is changed by the planner or by the check. */
static int tables_kept(void)
{
    return memcmp(&ours_tables, &theirs_tables, sizeof ours_tables) == 0 && memcmp(&ours_tables, &before_tables, sizeof ours_tables) == 0;
}

static uint32_t try_plan(uint32_t sender, uint32_t kind, size_t room)
{
    begin();
    size_t p = lend(0, room);
    ready();
    uint32_t got = llachurep_plan(table_at(ours_tables.states, states_length), states_length,
                                  table_at(ours_tables.owners, owners_length), owners_length,
                                  table_at(ours_tables.helpers, helpers_length), helpers_length,
                                  table_at(ours_tables.ticks, ticks_length), ticks_length, sender, kind, at(ours, p, room), room);
    uint32_t wanted = plain_plan(table_at(theirs_tables.states, states_length), states_length,
                                 table_at(theirs_tables.owners, owners_length), owners_length,
                                 table_at(theirs_tables.helpers, helpers_length), helpers_length,
                                 table_at(theirs_tables.ticks, ticks_length), ticks_length, sender, kind, at(theirs, p, room), room);
    int good = settle(PLANNING, got, wanted, got >> 16, p, got & 65535);
    if (good && !tables_kept())
        good = (failed("plan changes a table"), 0);
    if (got >> 16 == 0) {
        planned_length = got;
        memcpy(planned, ours + p, got);
        if (good && !good_in_turn(sender, kind, planned, planned_length))
            good = (failed("plan gives one that the hub does not take in turn"), 0);
    }
    if (!good && failures <= SHOWN)
        printf("  sender %u, kind %u, room %u\n", sender, kind, (unsigned)room);
    return got;
}

static uint32_t try_check(uint32_t sender, uint32_t kind, const uint8_t *plan, size_t length)
{
    begin();
    size_t p = lend(plan, length);
    ready();
    uint32_t got = llachurep_check_plan(table_at(ours_tables.states, states_length), states_length,
                                        table_at(ours_tables.owners, owners_length), owners_length,
                                        table_at(ours_tables.helpers, helpers_length), helpers_length,
                                        table_at(ours_tables.ticks, ticks_length), ticks_length, sender, kind, in(p, length), length);
    uint32_t wanted = plain_check_plan(table_at(theirs_tables.states, states_length), states_length,
                                       table_at(theirs_tables.owners, owners_length), owners_length,
                                       table_at(theirs_tables.helpers, helpers_length), helpers_length,
                                       table_at(theirs_tables.ticks, ticks_length), ticks_length, sender, kind,
                                       at(theirs, p, length), length);
    int good = settle(CHECKING, got, wanted, got, 0, 0);
    if (good && !tables_kept())
        good = (failed("check_plan changes a table"), 0);
    if (good && got != (uint32_t)good_in_turn(sender, kind, plan, length))
        good = (failed("check_plan answers otherwise than the hub in turn"), 0);
    if (!good && failures <= SHOWN) {
        printf("  sender %u, kind %u\n", sender, kind);
        show("plan", plan, length < 64 ? length : 64);
    }
    return got;
}

/* ------------------------------------------------------------------------------------------------ cases with their numbers */

static uint8_t octets[1200];

/* Octets of hexadecimal text; `*N` after an octet repeats it, so that it stands N times (decimal). */
static size_t hex(const char *text, uint8_t *to)
{
    size_t count = 0;
    while (*text) {
        if (*text == ' ') {
            text++;
            continue;
        }
        if (*text == '*') {
            unsigned times = 0;
            for (text++; *text >= '0' && *text <= '9'; text++)
                times = 10 * times + (unsigned)(*text - '0');
            uint8_t last = to[--count];
            while (times--)
                to[count++] = last;
            continue;
        }
        unsigned value = 0;
        for (int i = 0; i < 2; i++, text++)
            value = 16 * value + (unsigned)(*text <= '9' ? *text - '0' : (*text | 32) - 'a' + 10);
        to[count++] = (uint8_t)value;
    }
    return count;
}

static void want(const char *what, const char *input, uint64_t got, uint64_t wanted)
{
    checks++;
    if (got != wanted && failed(what))
        printf("  %s\n  answers %llx, wanted %llx\n", input, (unsigned long long)got, (unsigned long long)wanted);
}

/* The first octets of the last call's output, which stood last in the arena. */
static void want_octets(const char *what, const char *input, size_t room, const char *wanted)
{
    static uint8_t other[600];
    size_t count = hex(wanted, other);
    checks++;
    if (memcmp(ours + used - GUARD - room, other, count) != 0 && failed(what))
        printf("  %s\n  does not leave %s\n", input, wanted);
}

/* A refusal about that octet; one that is about none. */
#define AT(n, place) ((uint32_t)(n) << 16 | (place))
#define REFUSED(n) AT(n, 0)

static void reads(const char *text, uint32_t wanted, const uint16_t *parts)
{
    size_t length = hex(text, octets);
    want("read", text, try_read(octets, length, 10), wanted ? wanted : 10);
    if (parts) {
        uint16_t got[10];
        checks++;
        llachurep_read(octets, length, got, 10);
        if (memcmp(got, parts, sizeof got) != 0 && failed("read: the ten numbers"))
            printf("  %s\n", text);
    }
    /* With too little room: the reader's numbers, then 13. */
    for (size_t count = 0; count <= 12; count++)
        want("read, count", text, try_read(octets, length, count),
             wanted ? wanted : count < 10 ? REFUSED(13) : 10);
    /* The functions over the reader give its numbers and octets too. */
    if (wanted) {
        want("compact", text, try_compact(octets, length, 268), wanted);
        want("compact", text, try_compact(octets, length, 0), wanted);
        want("find", text, try_find(octets, length, (const uint8_t *)"\x20", 1, 0x20, 0), wanted);
        want("act", text, try_act(0, octets, length, 0), wanted);
    }
}

#define PARTS(...) ((const uint16_t[10]){__VA_ARGS__})

static void reader_cases(void)
{
    reads("", REFUSED(1), 0);
    reads("05", REFUSED(1), 0);
    reads("05 00", REFUSED(1), 0);
    reads("23 01 13", 0, PARTS(291, 0x13));
    reads("23 f1 13", 0, PARTS(291, 0x13));
    reads("01 00 09 00*264", 0, PARTS(1, 9));                                   /* 267 octets */
    reads("01 00 09 00*265", 0, PARTS(1, 9));                                   /* 268 */
    reads("01 00 09 00*266", REFUSED(2), 0);                                    /* 269 */
    reads("01 00 03 00*266", REFUSED(2), 0);
    reads("01 00 00", AT(3, 2), 0);
    reads("01 00 03 00*265", AT(3, 2), 0);
    reads("01 00 09", AT(4, 3), 0);
    reads("01 00 17", AT(4, 3), 0);
    reads("01 00 18 00", AT(4, 4), 0);
    reads("01 00 05", AT(4, 3), 0);
    reads("01 00 01 00 60 01 0A 00 02", AT(4, 9), 0);
    reads("01 00 2B 01", AT(4, 4), 0);
    reads("05 00 17 01 01 03", 0, PARTS(5, 0x17, 0, 0, 5, 1));
    reads("05 00 17 00 01 03", AT(5, 3), 0);
    reads("05 00 17 02 01 00", 0, PARTS(5, 0x17, 0, 0, 6, 0));                  /* there, but empty */
    reads("05 00 17 03 01 03", AT(5, 3), 0);
    reads("05 00 17 01 02 03", AT(6, 4), 0);
    reads("01 00 0C 01 00", AT(5, 3), 0);
    reads("01 00 0C 02 00 02 80 90", 0, PARTS(1, 0x0C, 0, 0, 6, 2));
    reads("01 00 0C 02 00 03 80 90", AT(6, 5), 0);
    reads("01 00 0C 02 01 01 00 00", AT(8, 5), 0);
    reads("01 00 0C 02 02 00 00", 0, PARTS(1, 0x0C, 0, 0, 6, 0, 0, 0, 6, 0));   /* only its closing 0 */
    reads("01 00 0C 03 01 00 00", 0, PARTS(1, 0x0C, 0, 0, 7, 0, 0, 0, 5, 0));   /* the other way round, touching */
    reads("01 00 09 01", AT(5, 3), 0);
    reads("01 00 09 01 00", 0, PARTS(1, 9, 0, 0, 0, 0, 0, 0, 4, 0));
    reads("01 00 09 02 00", AT(5, 3), 0);
    reads("01 00 09 01 20 01 41 00", 0, PARTS(1, 9, 0, 0, 0, 0, 0, 0, 4, 3));
    reads("01 00 09 01 20 01 41", AT(7, 7), 0);
    reads("01 00 09 01 20", AT(7, 4), 0);
    reads("01 00 09 01 20 03 41 00", AT(7, 4), 0);
    reads("01 00 09 01 20 ff 41 00", AT(7, 4), 0);
    reads("01 00 2B 02 03 01 55 02 66 77", 0, PARTS(1, 0x2B, 0, 0, 6, 1, 8, 2));
    reads("01 00 2B 02 01 01 55 02 66 77", AT(8, 5), 0);
    reads("01 00 2B 04 01 01 55 01 66", 0, PARTS(1, 0x2B, 0, 0, 8, 1, 6, 1));
    reads("01 00 2B 02 02 02 01 66 77", AT(8, 6), 0);
    reads("01 00 2B 01 02 02 01 66 77", AT(5, 3), 0);
    reads("01 00 2B 02 00 01 55 01 66", AT(5, 4), 0);
    reads("01 00 2B 02 09 04 55 01 66", AT(6, 5), 0);
    reads("01 00 2B 02 03 01 55 03 66 77", AT(6, 7), 0);
    reads("01 00 05 07", 0, PARTS(1, 5, 3, 1));
    reads("01 00 06 07 08 00", 0, PARTS(1, 6, 3, 2));
    reads("01 00 01 00 60 01 0A 00 02 00 04 03 10 21 43", 0, PARTS(1, 1, 3, 5, 11, 4));
    reads("ff ff 0C 02 00 ff 11*255", 0, PARTS(4095, 0x0C, 0, 0, 6, 255));
    reads("ff ff 0C 02 ff fd 11*253 00*9", 0, PARTS(4095, 0x0C, 0, 0, 6, 253, 0, 0, 259, 0));  /* 268, pointer 255 */
    reads("ff ff 0C 02 ff ff 11*253 00*9", AT(8, 259), 0);
    reads("ff ff 0C 02 00 ff 11*254", AT(6, 5), 0);
}

static void writes(const struct given *w, uint32_t wanted, uint32_t size)
{
    want("write", "the case", try_write(w, 800), wanted ? REFUSED(wanted) : size);
    if (wanted) {
        want("write, no room", "the case", try_write(w, 0), REFUSED(wanted));
        return;
    }
    want("write, room exact", "the case", try_write(w, size), size);
    want("write, room one more", "the case", try_write(w, size + 1), size);
    want("write, room one short", "the case", try_write(w, size - 1), REFUSED(13));
    want("write, no room", "the case", try_write(w, 0), REFUSED(13));
}

static struct given give(uint32_t circuit, uint32_t type, const char *fixed, const char *first, const char *second,
                         const char *optional)
{
    static struct given w;
    w.circuit = circuit;
    w.type = type;
    w.fixed_length = hex(fixed, w.fixed);
    w.first_length = hex(first, w.first);
    w.second_length = hex(second, w.second);
    w.optional_length = hex(optional, w.optional);
    return w;
}

static void writer_cases(void)
{
    static const struct {
        uint32_t circuit, type;
        const char *fixed, *first, *second, *optional;
        uint32_t wanted, size;
        const char *octets;
    } cases[] = {
        {291, 0x13, "", "", "", "", 0, 3, "23 01 13"},
        {4095, 0x13, "", "", "", "", 0, 3, "ff 0f 13"},
        {4096, 0x13, "", "", "", "", 9, 0, 0},
        {4096, 0x03, "00", "", "", "00", 9, 0, 0},
        {0xffffffff, 0x13, "", "", "", "", 9, 0, 0},
        {65537, 0x13, "", "", "", "", 9, 0, 0},
        {1, 0x03, "00", "", "", "00", 3, 0, 0},
        {1, 0x113, "", "", "", "", 3, 0, 0},
        {1, 0xffffffff, "", "", "", "", 3, 0, 0},
        {1, 256, "", "", "", "", 3, 0, 0},
        {1, 0x13, "00", "", "", "", 10, 0, 0},
        {1, 0x13, "", "00", "", "", 10, 0, 0},
        {1, 0x17, "", "01", "00", "", 10, 0, 0},
        {1, 0x17, "", "01", "", "00", 10, 0, 0},
        {1, 0x05, "", "", "", "", 10, 0, 0},
        {1, 0x05, "01 02", "", "", "", 10, 0, 0},
        {1, 0x05, "01", "", "", "", 0, 4, "01 00 05 01"},
        {1, 0x0c, "", "", "", "00", 11, 0, 0},
        {1, 0x0c, "", "", "", "20", 11, 0, 0},
        {1, 0x0c, "", "", "", "20 02 41", 11, 0, 0},
        {1, 0x0c, "", "", "", "20 01 41 00", 11, 0, 0},
        {1, 0x0c, "", "00*300", "", "20 02 41", 11, 0, 0},
        {1, 0x0c, "", "80 90", "", "20 01 41", 0, 12, "01 00 0c 02 04 02 80 90 20 01 41 00"},
        {1, 0x09, "", "", "", "", 0, 4, "01 00 09 00"},
        {1, 0x0c, "", "", "", "", 0, 6, "01 00 0c 02 00 00"},
        {1, 0x0c, "", "11*253", "", "20 00", 0, 262, "01 00 0c 02 ff fd 11*253 20 00 00"},
        {1, 0x0c, "", "11*254", "", "20 00", 12, 0, 0},
        {1, 0x0c, "", "11*254", "", "", 0, 260, "01 00 0c 02 00 fe 11*254"},
        {1, 0x0c, "", "11*255", "", "", 0, 261, "01 00 0c 02 00 ff 11*255"},
        {1, 0x0c, "", "11*256", "", "", 12, 0, 0},
        {1, 0x0c, "", "11*256", "", "20 ff 05*255 20 ff 05*255", 12, 0, 0},
        {1, 0x2b, "", "11*253", "22*6", "", 0, 266, "01 00 2b 02 ff fd 11*253 06 22*6"},
        {1, 0x2b, "", "11*253", "22*7", "", 0, 267, 0},
        {1, 0x2b, "", "11*253", "22*8", "", 0, 268, 0},
        {1, 0x2b, "", "11*253", "22*9", "", 2, 0, 0},
        {1, 0x2b, "", "11*254", "22*1", "", 12, 0, 0},
        {1, 0x2b, "", "", "22*255", "", 0, 262, 0},
        {1, 0x2b, "", "", "22*256", "", 12, 0, 0},
        {1, 0x2b, "", "11*200", "22*255", "", 2, 0, 0},
        {1, 0x09, "", "", "", "20 ff 05*255", 0, 262, 0},
        {1, 0x09, "", "", "", "20 ff 05*255 21 03 06*3", 0, 267, 0},
        {1, 0x09, "", "", "", "20 ff 05*255 21 04 06*4", 0, 268, 0},
        {1, 0x09, "", "", "", "20 ff 05*255 21 05 06*5", 2, 0, 0},
        {1, 0x01, "00 60 01 0a 00", "03 10 21 43", "", "", 0, 15, "01 00 01 00 60 01 0a 00 02 00 04 03 10 21 43"},
        {5, 0x1a, "00", "09 01 02", "", "", 0, 9, "05 00 1a 00 01 03 09 01 02"},
    };
    for (size_t i = 0; i < sizeof cases / sizeof cases[0]; i++) {
        static struct given w;
        w = give(cases[i].circuit, cases[i].type, cases[i].fixed, cases[i].first, cases[i].second, cases[i].optional);
        writes(&w, cases[i].wanted, cases[i].size);
        if (cases[i].octets) {
            try_write(&w, cases[i].size);
            want_octets("write", "the case", cases[i].size, cases[i].octets);
        }
    }
}

static void compacts(const char *text, uint32_t wanted, const char *compact)
{
    static uint8_t other[600];
    size_t length = hex(text, octets);
    if (wanted) {
        want("compact", text, try_compact(octets, length, 268), wanted);
        want("compact", text, try_compact(octets, length, 0), wanted);
        return;
    }
    uint32_t size = (uint32_t)hex(compact, other);
    want("compact, room one more", text, try_compact(octets, length, size + 1), size);
    want("compact, room one short", text, try_compact(octets, length, size - 1), REFUSED(13));
    want("compact, no room", text, try_compact(octets, length, 0), REFUSED(13));
    want("compact, room exact", text, try_compact(octets, length, size), size);
    want_octets("compact", text, size, compact);
}

static void compact_cases(void)
{
    compacts("01 00 09 01 00", 0, "01 00 09 00");
    compacts("01 f0 09 03 ff ff 20 01 41 00 55", 0, "01 00 09 01 20 01 41 00");
    compacts("01 00 0C 03 01 00 01 77", 0, "01 00 0c 02 00 01 77");
    compacts("01 00 2B 05 01 02 66 77 01 55", 0, "01 00 2b 02 03 01 55 02 66 77");
    compacts("23 f1 13 aa bb", 0, "23 01 13");
    compacts("01 00 0C 02 00 03 80 90", AT(6, 5), 0);
    /* Optional part first, then 254 octets: the compact form would need a pointer of 256. */
    compacts("01 00 0C 05 01 20 00 00 fe 11*254", REFUSED(12), 0);
    compacts("01 00 0C 04 01 00 00 fe 11*254", 0, "01 00 0c 02 00 fe 11*254");
}

static void finds(const char *message, const char *defaults, uint32_t name, uint32_t wanted, size_t start, size_t size)
{
    static uint8_t other[600];
    size_t length = hex(message, octets), defaults_length = hex(defaults, other);
    for (size_t count = 0; count <= 3; count++)
        want("find", message, try_find(octets, length, other, defaults_length, name, count),
             wanted >= 65536 || count >= 2 ? wanted : REFUSED(13));
    if (wanted < 65536) {
        size_t stretch[2];
        checks++;
        llachurep_find(octets, length, other, defaults_length, name, stretch, 2);
        if ((stretch[0] != start || stretch[1] != size) && failed("find: start and length"))
            printf("  %s\n", message);
    }
}

static void find_cases(void)
{
    finds("01 00 09 01 20 01 41 00", "", 0x20, 0, 6, 1);
    finds("01 00 09 01 20 01 41 20 02 42 43 00", "", 0x20, 0, 6, 1);
    finds("01 00 09 01 21 01 41 20 02 42 43 00", "20 00", 0x20, 0, 9, 2);
    finds("01 00 09 01 20 00 00 00", "20 01 41", 0x20, 0, 6, 0);
    finds("01 00 09 00", "21 01 55 20 01 41", 0x20, 100, 5, 1);
    finds("23 01 13", "20 01 41 20 00", 0x20, 100, 2, 1);
    finds("23 01 13", "20 00", 0x20, 100, 2, 0);
    finds("23 01 13", "", 0x20, REFUSED(15), 0, 0);
    finds("23 01 13", "20 01 41", 0x21, REFUSED(15), 0, 0);
    finds("23 01 13", "20 01 41", 0x120, REFUSED(15), 0, 0);
    finds("01 00 09 01 20 01 41 00", "20 01 41", 0, REFUSED(15), 0, 0);
    finds("01 00 09 01 20 01 41 00", "20 01 41", 0xffffffff, REFUSED(15), 0, 0);
    finds("01 00 09 01 20 01 41 00", "20 01 41", 256, REFUSED(15), 0, 0);
    finds("01 00 09 01 20 01 41 00", "20", 0x20, REFUSED(11), 0, 0);
    finds("01 00 09 01 20 01 41 00", "20 02 41", 0x20, REFUSED(11), 0, 0);
    finds("01 00 09 01 20 01 41 00", "20 01 41 00", 0x20, REFUSED(11), 0, 0);
    finds("01 00 09 01 20 01 41 00", "00 01", 0, REFUSED(11), 0, 0);
    finds("01 00 09 01 20 01 41", "20", 0x20, AT(7, 7), 0, 0);
    finds("23 01 13", "21 ff 05*255 20 ff 06*255", 0x20, 100, 259, 255);
}

static void number_reads(const char *text, unsigned number, unsigned nature, unsigned internal, unsigned plan,
                         const char *signals)
{
    static uint8_t other[64];
    size_t length = hex(text, octets), count = hex(signals, other);
    uint64_t wanted = 65536u * nature + 4096u * internal + 256u * plan + count;
    if (number) {
        want("number_read", text, try_number_read(octets, length, 64), (uint64_t)number << 32);
        want("number_read", text, try_number_read(octets, length, 0), (uint64_t)number << 32);
        return;
    }
    want("number_read, room one more", text, try_number_read(octets, length, count + 1), wanted);
    if (count)
        want("number_read, room one short", text, try_number_read(octets, length, count - 1), (uint64_t)13 << 32);
    want("number_read, room exact", text, try_number_read(octets, length, count), wanted);
    want_octets("number_read", text, count, signals);
    want("number_read, fields", text, LLACHUREP_NUMBER_NATURE(wanted) == nature &&
         LLACHUREP_NUMBER_INTERNAL(wanted) == internal && LLACHUREP_NUMBER_PLAN(wanted) == plan &&
         LLACHUREP_NUMBER_COUNT(wanted) == count && LLACHUREP_NUMBER_REFUSAL(wanted) == 0, 1);
}

static void number_writes(uint32_t nature, uint32_t plan, uint32_t internal, const char *signals, unsigned number,
                          const char *text)
{
    static uint8_t other[64];
    size_t count = hex(signals, octets);
    if (number) {
        want("number_write", signals, try_number_write(nature, plan, internal, octets, count, 64), REFUSED(number));
        want("number_write", signals, try_number_write(nature, plan, internal, octets, count, 0), REFUSED(number));
        return;
    }
    uint32_t size = (uint32_t)hex(text, other);
    want("number_write, one more", signals, try_number_write(nature, plan, internal, octets, count, size + 1), size);
    want("number_write, one short", signals, try_number_write(nature, plan, internal, octets, count, size - 1), REFUSED(13));
    want("number_write, no room", signals, try_number_write(nature, plan, internal, octets, count, 0), REFUSED(13));
    want("number_write, exact", signals, try_number_write(nature, plan, internal, octets, count, size), size);
    want_octets("number_write", signals, size, text);
}

static void number_cases(void)
{
    number_reads("", 14, 0, 0, 0, "");
    number_reads("03", 14, 0, 0, 0, "");
    number_reads("03 10", 0, 3, 0, 1, "");
    number_reads("83 10", 14, 0, 0, 0, "");
    number_reads("83 10 21 03", 0, 3, 0, 1, "01 02 03");
    number_reads("83 1f 21 03", 0, 3, 0, 1, "01 02 03");
    number_reads("03 10 21 43", 0, 3, 0, 1, "01 02 03 04");
    number_reads("83 10 21 13", 14, 0, 0, 0, "");
    number_reads("7f f0 fe", 0, 127, 1, 7, "0e 0f");
    number_reads("80 00 0a", 0, 0, 0, 0, "0a");
    number_reads("03 10 11*15", 0, 3, 0, 1, "01*30");
    number_reads("83 10 11*14 01", 0, 3, 0, 1, "01*29");
    number_reads("03 10 11*16", 14, 0, 0, 0, "");
    number_reads("83 10 11*15 01", 14, 0, 0, 0, "");
    number_reads("03 10 11*253", 14, 0, 0, 0, "");
    number_writes(3, 1, 0, "01 02 03", 0, "83 10 21 03");
    number_writes(3, 1, 0, "", 0, "03 10");
    number_writes(127, 7, 1, "0f 0e", 0, "7f f0 ef");
    number_writes(0, 0, 0, "05", 0, "80 00 05");
    number_writes(3, 1, 0, "01*29", 0, "83 10 11*14 01");
    number_writes(3, 1, 0, "01*30", 0, "03 10 11*15");
    number_writes(3, 1, 0, "01*31", 14, 0);
    number_writes(3, 1, 0, "01*32", 14, 0);
    number_writes(128, 1, 0, "01", 14, 0);
    number_writes(259, 1, 0, "01", 14, 0);
    number_writes(0xffffffff, 1, 0, "01", 14, 0);
    number_writes(3, 8, 0, "01", 14, 0);
    number_writes(3, 257, 0, "01", 14, 0);
    number_writes(3, 1, 2, "01", 14, 0);
    number_writes(3, 1, 0x10000, "01", 14, 0);
    number_writes(3, 1, 0, "10", 14, 0);
    number_writes(3, 1, 0, "01 02 ff", 14, 0);
}

/* Circuits 0 to 4095: all the sender's, nobody helping, all rows `state`, but for the circuit `odd_one`, whose owner and state are
 * given. The totals are what they were, right or wrong. */
static void table(unsigned owner, unsigned state, unsigned odd_one, unsigned odd_owner, unsigned odd_state)
{
    memset(before_tables.owners, (int)owner, 4096);
    memset(before_tables.states, (int)state, 4096);
    memset(before_tables.helpers, 0, 4097);
    before_tables.owners[4096] = (uint8_t)owner;
    before_tables.states[4096] = (uint8_t)state;
    before_tables.owners[odd_one] = (uint8_t)odd_owner;
    before_tables.states[odd_one] = (uint8_t)odd_state;
    ready_tables();
}

/* On rows of `state`: the answer at every room, and the row `look` afterwards. */
static void acts(const char *text, unsigned state, const char *answer, unsigned look, unsigned becomes)
{
    static uint8_t other[64];
    size_t length = hex(text, octets);
    uint32_t size = (uint32_t)hex(answer, other);
    table(7, state, 4096, 7, state);
    if (size) {
        want("act, room one short", text, try_act(7, octets, length, size - 1), REFUSED(13));
        want("act, no room", text, try_act(7, octets, length, 0), REFUSED(13));
    }
    want("act, room exact", text, try_act(7, octets, length, size), size);
    want_octets("act", text, size, answer);
    want("act, the row", text, ours_tables.states[look], becomes);
    table(7, state, 4096, 7, state);
    want("act, room one more", text, try_act(7, octets, length, size + 1), size);
    want("act, the row", text, ours_tables.states[look], becomes);
}

static void act_refused(const char *text, uint32_t sender, uint32_t wanted)
{
    size_t length = hex(text, octets);
    want("act", text, try_act(sender, octets, length, 268), REFUSED(wanted));
    want("act, no room", text, try_act(sender, octets, length, 0), REFUSED(wanted));
}

/* How many totals are never taken. */
static const size_t no_totals[5] = {0, 1, 32, 63, 65};

static void act_cases(void)
{
    static const size_t lengths[] = {0, 1, 4095, 4096, 4097};
    table(7, 0, 4096, 7, 0);
    for (int i = 0; i < 125; i++) {
        states_length = lengths[i % 5];
        owners_length = lengths[i / 5 % 5];
        helpers_length = lengths[i / 25];
        if (i == 3 + 5 * 3 + 25 * 3)
            continue;
        act_refused("23 01 13", 7, 16);
        act_refused("", 7, 16);
    }
    states_length = owners_length = helpers_length = 4096;
    for (int i = 0; i < 5; i++) {
        totals_length = no_totals[i];
        act_refused("23 01 13", 7, 16);
        act_refused("", 7, 16);
        act_refused("FF 0F 17 01 01 01", 0, 16);
    }
    totals_length = 64;

    acts("05 00 17 01 01 03", 6, "05 00 29 01 02 03 00", 8, 0);
    acts("05 00 17 01 01 03", 6, "05 00 29 01 02 03 00", 9, 6);
    acts("05 00 17 01 01 07", 1, "05 00 29 01 02 07 00", 12, 0);
    acts("05 00 17 01 01 08", 1, "05 00 29 01 03 08 00 00", 13, 0);
    acts("05 00 17 01 01 1f", 1, "05 00 29 01 05 1f 00 00 00 00", 36, 0);
    acts("E0 0F 17 01 01 1F", 4, "e0 0f 29 01 05 1f 00 00 00 00", 4095, 0);
    acts("05 00 2A 01 01 03", 0, "05 00 2b 02 03 01 03 04 0c 0c 0c 0c", 8, 0);
    acts("05 00 2A 01 01 01", 1, "05 00 2b 02 03 01 01 02 04 04", 6, 1);
    acts("05 00 2A 01 01 00", 3, "05 00 2b 02 03 01 00 01 06", 5, 3);
    acts("ff 0f 2A 01 01 00", 6, "ff 0f 2b 02 03 01 00 01 2e", 4095, 6);
    acts("23 01 13", 0, "23 01 15", 291, 2);
    acts("23 f1 13", 4, "23 01 15", 291, 6);
    acts("ff 0f 14", 3, "ff 0f 16", 4095, 1);
    acts("01 00 0C 02 00 02 80 90", 3, "01 00 10 00", 1, 2);
    acts("01 00 12", 6, "01 00 10 00", 1, 0);
    acts("01 00 12", 14, "01 00 13 01 00 10 00", 1, 8);
    acts("ff 0f 12", 9, "ff 0f 13 ff 0f 10 00", 4095, 8);
    acts("01 00 0C 02 00 02 80 90", 11, "01 00 10 00", 1, 10);
    acts("23 01 13", 8, "23 01 15", 291, 10);
    acts("ff 0f 14", 11, "ff 0f 16", 4095, 9);
    acts("05 00 17 01 01 03", 14, "05 00 29 01 02 03 0f", 8, 8);
    acts("05 00 17 01 01 08", 9, "05 00 29 01 03 08 ff 01", 13, 8);
    acts("05 00 2A 01 01 01", 9, "05 00 2b 02 03 01 01 02 05 05", 6, 9);
    acts("ff 0f 2A 01 01 00", 14, "ff 0f 2b 02 03 01 00 01 2f", 4095, 14);
    acts("08 00 18 01 01 03 09 01 02", 11, "08 00 1a 01 01 03 09 01 02", 8, 14);
    acts("08 00 19 01 01 03 09 01 02", 14, "08 00 1b 01 01 03 09 01 02", 17, 10);
    acts("01 00 01 00 60 01 0A 00 02 00 04 03 10 21 43", 0, "", 1, 1);
    acts("01 00 01 00 60 01 0A 00 02 00 00", 0, "", 1, 1);
    acts("00 00 18 00 01 06 27 ff ff ff ff 00", 0, "00 00 1a 00 01 06 27 ff ff ff ff 00", 31, 2);
    acts("00 00 18 00 01 06 20 fe ff ff ff ff", 0, "00 00 1a 00 01 06 20 fe ff ff ff 01", 32, 2);
    acts("08 00 18 00 01 03 09 01 02", 0, "08 00 1a 00 01 03 09 01 02", 8, 2);
    acts("08 00 18 00 01 03 09 01 02", 0, "08 00 1a 00 01 03 09 01 02", 17, 2);
    acts("08 00 18 00 01 03 09 01 02", 1, "08 00 1a 00 01 03 09 01 02", 9, 1);
    acts("08 00 18 fd 01 03 09 01 fe", 1, "08 00 1a 01 01 03 09 01 02", 17, 4);
    acts("08 00 18 01 01 03 09 01 02", 3, "08 00 1a 01 01 03 09 01 02", 8, 6);
    acts("08 00 19 00 01 03 09 01 02", 6, "08 00 1b 00 01 03 09 01 02", 17, 4);
    acts("08 00 19 01 01 03 09 01 02", 6, "08 00 1b 01 01 03 09 01 02", 17, 2);
    act_refused("00 00 18 01 01 21 ff ff*32", 7, 14);
    acts("00 00 18 01 01 21 ff 80*32", 3, "00 00 1a 01 01 21 ff 80*32", 255, 6);
    acts("00 0f 19 00 01 21 ff 80*32", 2, "00 0f 1b 00 01 21 ff 80*32", 4095, 0);

    table(7, 0, 4096, 7, 0);
    act_refused("01 00 10 00", 7, 17);
    act_refused("01 00 15", 0, 17);
    act_refused("01 00 2B 02 02 00 00", 7, 17);
    act_refused("05 00 2A 01 01 20", 7, 14);
    act_refused("05 00 2A 01 02 03 00", 7, 14);
    act_refused("05 00 2A 01 00", 7, 14);
    act_refused("FF 0F 2A 01 01 01", 7, 18);
    act_refused("05 00 2A 01 01 03", 8, 19);
    act_refused("05 00 17 01 01 00", 7, 14);
    act_refused("05 00 17 01 01 20", 7, 14);
    act_refused("05 00 17 01 02 03 00", 7, 14);
    act_refused("05 00 17 01 00", 7, 14);
    act_refused("08 00 18 02 01 03 09 01 02", 7, 14);
    act_refused("08 00 18 03 01 03 09 01 02", 7, 14);
    act_refused("08 00 18 00 01 00", 7, 14);
    act_refused("08 00 18 00 01 02 00 01", 7, 14);
    act_refused("08 00 18 00 01 02 09 01", 7, 14);
    act_refused("08 00 19 00 01 04 09 01 02 03", 7, 14);
    act_refused("ff 0f 19 00 01 04 09 01 02 03", 0, 14);
    act_refused("00 00 18 00 01 06 27 ff ff ff ff 01", 7, 14);
    act_refused("00 00 19 01 01 06 27 ff ff ff ff 80", 7, 14);
    act_refused("f0 0f 18 00 01 06 27 ff ff ff ff 01", 7, 14);
    act_refused("f0 0f 18 00 01 06 27 ff ff ff ff 00", 7, 18);
    act_refused("FF 0F 17 01 01 01", 7, 18);
    act_refused("FF 0F 17 01 01 01", 0, 18);
    act_refused("E1 0F 17 01 01 1F", 7, 18);
    act_refused("01 0F 18 00 01 21 ff 00*32", 7, 18);
    act_refused("23 01 13", 0, 19);
    act_refused("23 01 13", 6, 19);
    act_refused("23 01 13", 263, 19);
    act_refused("23 01 13", 0xffffff07, 19);
    act_refused("00 00 18 00 01 21 ff 00*32", 8, 19);
    table(0, 0, 4096, 0, 0);
    act_refused("23 01 13", 0, 19);
    act_refused("23 01 13", 256, 19);
    /* One foreign circuit, one row that is not legal: first, inside, last of the group, and just outside. */
    static const unsigned odd[] = {5, 6, 7, 8};
    for (int i = 0; i < 4; i++) {
        table(7, 0, odd[i], 9, 5);
        act_refused("05 00 17 01 01 03", 7, 19);
        act_refused("05 00 18 00 01 02 03 00", 7, 19);
        table(7, 0, odd[i], 7, 5);
        act_refused("05 00 17 01 01 03", 7, 20);
        act_refused("05 00 19 01 01 02 03 00", 7, 20);
    }
    table(7, 0, 9, 9, 5);
    want("act", "one past the group", try_act(7, octets, hex("05 00 17 01 01 03", octets), 268), 7);
    table(7, 0, 4, 9, 5);
    want("act", "one before the group", try_act(7, octets, hex("05 00 17 01 01 03", octets), 268), 7);
    for (unsigned state = 0; state < 256; state++) {
        int good = state < 16 && ((state & 7) <= 4 || (state & 7) == 6);
        table(255, 0, 1, 255, state);
        want("act, IAM", "each state", try_act(255, octets, hex("01 00 01 00 60 01 0A 00 02 00 00", octets), 0),
             state == 0 ? 0 : good ? REFUSED(21) : REFUSED(20));
        want("act, RSC", "each state", try_act(255, octets, hex("01 00 12", octets), 4),
             !good ? REFUSED(20) : state & 8 ? REFUSED(13) : 4);
        want("act, RSC", "each state", try_act(255, octets, hex("01 00 12", octets), 7),
             !good ? REFUSED(20) : state & 8 ? 7 : 4);
        for (uint32_t set = 0; set < 2; set++) {
            table(255, 0, 1, 255, state);
            want("block, room 2", "each state", try_block(1, set, 2), good ? REFUSED(13) : REFUSED(20));
            want("block", "each state", try_block(1, set ? 0x80000000 : 0, 3), good ? 3 : REFUSED(20));
            if (good) {
                want_octets("block", "each state", 3, set ? "01 00 13" : "01 00 14");
                want("block, the row", "each state", ours_tables.states[1], set ? state | 8 : state & ~8u);
            }
        }
    }
    table(7, 0, 1, 9, 5);
    act_refused("01 00 01 00 60 01 0A 00 02 00 00", 7, 19);
}

/* Owner 9 and helper 5 of every circuit, all rows `state`, but for the circuit `odd_one`, whose owner, helper and state are given. */
static void helped(unsigned state, unsigned odd_one, unsigned odd_owner, unsigned odd_helper, unsigned odd_state)
{
    table(9, state, odd_one, odd_owner, odd_state);
    memset(before_tables.helpers, 5, 4097);
    before_tables.helpers[odd_one] = (uint8_t)odd_helper;
    ready_tables();
}

static void helper_cases(void)
{
    static const char *const listed[] = {"05 00 13", "05 00 14", "05 00 2A 01 01 03", "05 00 18 00 01 02 03 03", "05 00 19 04 01 02 03 00"};
    static const char *const others[] = {"05 00 01 00 60 01 0A 00 02 00 00", "05 00 0C 02 00 02 80 90", "05 00 12", "05 00 17 01 01 03",
                                         "05 00 18 01 01 02 03 03", "05 00 19 fd 01 02 03 00"};
    for (int i = 0; i < 11; i++) {
        const char *text = i < 5 ? listed[i] : others[i - 5];
        uint32_t size = i < 2 ? 3 : i == 2 ? 12 : i < 5 ? 8 : 22;
        size_t length = hex(text, octets);
        uint32_t wanted = size == 22 ? REFUSED(22) : size;
        helped(0, 4096, 9, 5, 0);
        want("act, helped", text, try_act(5, octets, length, 268), wanted);
        act_refused(text, 6, 19);
        act_refused(text, 0, 19);
        act_refused(text, 261, 19);
        helped(0, 4096, 0, 5, 0); /* nobody's circuit can be helped too */
        want("act, helped", text, try_act(5, octets, length, 268), wanted);
        for (unsigned n = 5; n < 9 && reach(octets) + 5 >= n; n++) {
            helped(0, n, 5, 0, 0); /* owned by the helper: a mixed group */
            want("act, mixed", text, try_act(5, octets, length, 268), reach(octets) == 0 && size == 22 ? (i == 5 ? 0 : 4) : wanted);
            helped(0, n, 9, 6, 0); /* one that it does not help: 19 before 22 */
            act_refused(text, 5, 19);
            helped(0, n, 9, 0, 5);
            act_refused(text, 5, 19);
            helped(0, n, 9, 5, 5); /* 22 before 20 */
            act_refused(text, 5, size == 22 ? 22 : 20);
        }
        helped(0, 4096, 9, 5, 0);
        want("act, owner", text, try_act(9, octets, length, 268) >> 16, 0);
    }
    table(0, 0, 4096, 0, 0); /* owner 0 and helper 0: nobody's */
    act_refused("23 01 13", 0, 19);
    act_refused("23 01 13", 256, 19);
}

static void block_cases(void)
{
    static const size_t lengths[] = {0, 1, 4095, 4097};
    static const uint32_t past[] = {4096, 4097, 4101, 8191, 65536, 65541, 0x7fffffff, 0xffffffff};
    table(7, 0, 4096, 7, 0);
    for (int i = 0; i < 4; i++) {
        states_length = lengths[i];
        for (int j = 0; j < 8; j++)
            want("block", "16 first", try_block(past[j], 1, 0), REFUSED(16));
        want("block", "16 first", try_block(0, 1, 3), REFUSED(16));
    }
    states_length = 4096;
    for (int i = 0; i < 5; i++) {
        totals_length = no_totals[i];
        want("block", "16 first", try_block(4096, 1, 0), REFUSED(16));
        want("block", "16 first", try_block(5, 0, 3), REFUSED(16));
    }
    totals_length = 64;
    for (int j = 0; j < 8; j++) {
        want("block", "9 before 20 and 13", try_block(past[j], 1, 0), REFUSED(9));
        want("block", "9", try_block(past[j], 0, 3), REFUSED(9));
    }
    want("block", "twice", try_block(4095, 7, 268), 3);
    want("block", "twice", try_block(4095, 1, 3), 3);
    want("block, the row", "twice", ours_tables.states[4095], 8);
    want("block", "nothing set", try_block(0, 0, 4), 3);
    want("block, the row", "nothing set", ours_tables.states[0], 0);
    table(7, 13, 4096, 7, 13);
    want("block", "20 before 13", try_block(5, 1, 0), REFUSED(20));
}

/* Every total is `wrong`, and all tables are as they are in `table`. */
static void wrong_totals(unsigned wrong)
{
    memset(before_tables.totals, (int)wrong, 65);
    ready_tables();
}

/* A message, with every total wrong before it: those of blocks a to b are `right` afterwards, and every other is as it was. */
static void repairs(const char *text, unsigned a, unsigned b, unsigned right)
{
    size_t length = hex(text, octets);
    for (unsigned wrong = 77; wrong < 256; wrong += 178) {
        wrong_totals(wrong);
        want("totals, refused", text, try_act(8, octets, length, 268) >> 16, 19);
        for (unsigned k = 0; k < 65; k++)
            want("totals, refused", text, ours_tables.totals[k], wrong);
        want("totals", text, try_act(7, octets, length, 268) >> 16, 0);
        for (unsigned k = 0; k < 65; k++)
            want("totals", text, ours_tables.totals[k], k < a || k > b ? wrong : right);
    }
}

#define BUSY(looked, count) ((uint64_t)(looked) << 16 | (count))

static void want_busy(const char *text, uint32_t first, uint32_t last, uint64_t wanted)
{
    uint64_t got = try_busy(first, last);
    checks++;
    if (got != wanted && failed("busy"))
        printf("  %s, circuits %u to %u: %llx, wanted %llx\n", text, first, last, (unsigned long long)got, (unsigned long long)wanted);
}

static void totals_cases(void)
{
    static const size_t lengths[] = {0, 1, 4095, 4096, 4097}, counts[] = {0, 1, 32, 63, 64, 65};
    /* A wrong total is repaired by every type, CQM too, and by no refusal; other totals stay. */
    table(7, 1, 4096, 7, 1);
    repairs("05 00 2A 01 01 03", 0, 0, 64);
    repairs("3E 00 2A 01 01 03", 0, 1, 64);
    repairs("FF 0F 2A 01 01 00", 63, 63, 64);
    repairs("3F 00 18 00 01 21 ff 00*32", 0, 4, 64);
    repairs("40 00 18 00 01 21 ff 00*32", 1, 4, 64);
    repairs("00 0F 18 00 01 21 ff 00*32", 60, 63, 64);
    repairs("3F 00 13", 0, 0, 64);
    repairs("40 00 14", 1, 1, 64);
    repairs("FF 0F 0C 02 00 02 80 90", 63, 63, 63);
    table(7, 0, 4096, 7, 0);
    repairs("05 00 17 01 01 03", 0, 0, 0);
    repairs("08 00 18 01 01 03 09 01 02", 0, 0, 0);
    /* A busy row is one with the 1 set, also where it is not legal. */
    for (unsigned state = 0; state < 256; state++) {
        table(7, 0, 6, 7, state);
        wrong_totals(9);
        want("totals", "BLO beside each state", try_act(7, octets, hex("05 00 13", octets), 268), 3);
        want("totals", "beside each state", ours_tables.totals[0], state % 2);
        wrong_totals(9);
        want("totals", "block beside each state", try_block(5, state, 268), 3);
        want("totals", "beside each state", ours_tables.totals[0], state % 2);
        want("rebuild", "each state", try_rebuild(), 64);
        want("totals", "each state", ours_tables.totals[0], state % 2);
        want_busy("each state", 6, 6, BUSY(1, state % 2));
    }
    /* An IAM and a REL. */
    table(7, 0, 4096, 7, 0);
    wrong_totals(0);
    want("totals", "IAM", try_act(7, octets, hex("40 00 01 00 60 01 0A 00 02 00 00", octets), 0), 0);
    want("totals", "IAM", ours_tables.totals[1], 1);
    want_busy("IAM", 0, 4095, BUSY(64, 1));
    want("totals", "REL", try_act(7, octets, hex("40 00 0C 02 00 02 80 90", octets), 4), 4);
    want("totals", "REL", ours_tables.totals[1], 0);
    want_busy("REL", 0, 4095, BUSY(64, 0));
    /* Rebuilt from anything; not where a length is wrong. */
    for (int i = 0; i < 30; i++) {
        states_length = lengths[i % 5];
        totals_length = counts[i / 5];
        if (states_length == 4096 && totals_length == 64)
            continue;
        want("rebuild", "16", try_rebuild(), REFUSED(16));
        want_busy("16", 0, 4095, (uint64_t)16 << 32);
        want_busy("16 before 9 and 18", 4097, 4096, (uint64_t)16 << 32);
    }
    states_length = 4096;
    totals_length = 64;
    for (int i = 0; i < 20; i++) {
        noise(before_tables.states, 4097);
        noise(before_tables.totals, 65);
        ready_tables();
        want("rebuild", "noise", try_rebuild(), 64);
        want_busy("noise", 0, 4095, BUSY(64, counted(ours_tables.states, 0, 4096)));
    }
    /* The question: whole blocks by their totals, right or wrong, and rows one by one. */
    table(7, 1, 4096, 7, 1);
    wrong_totals(100);
    want_busy("every block", 0, 4095, BUSY(64, 6400));
    want_busy("all but two", 1, 4094, BUSY(188, 62 * 100 + 126));
    want_busy("one row", 5, 5, BUSY(1, 1));
    want_busy("no whole block", 63, 64, BUSY(2, 2));
    want_busy("no whole block", 1, 126, BUSY(126, 126));
    want_busy("a block", 64, 127, BUSY(1, 100));
    want_busy("a block and a row before", 63, 127, BUSY(2, 101));
    want_busy("a block and a row after", 64, 128, BUSY(2, 101));
    want_busy("a block but for a row", 64, 126, BUSY(63, 63));
    want_busy("a block but for a row", 65, 127, BUSY(63, 63));
    want_busy("the first", 0, 0, BUSY(1, 1));
    want_busy("the last", 4095, 4095, BUSY(1, 1));
    want_busy("the last block", 4032, 4095, BUSY(1, 100));
    want_busy("the first block", 0, 63, BUSY(1, 100));
    wrong_totals(255);
    want_busy("the most", 0, 4095, BUSY(64, 16320));
    want_busy("9", 0, 4096, (uint64_t)9 << 32);
    want_busy("9 before 18", 4097, 4096, (uint64_t)9 << 32);
    want_busy("9 before 18", 0xffffffff, 65536, (uint64_t)9 << 32);
    want_busy("9", 5, 0xffffffff, (uint64_t)9 << 32);
    want_busy("18", 6, 5, (uint64_t)18 << 32);
    want_busy("18", 65536, 0, (uint64_t)18 << 32);
    want_busy("18", 4096, 4095, (uint64_t)18 << 32);
    want_busy("18", 0xffffffff, 4095, (uint64_t)18 << 32);
    want("rebuild", "all", try_rebuild(), 64);
    for (uint32_t first = 0; first < 4096; first += 1 + first % 7)
        for (uint32_t last = first; last < 4096; last += 61) {
            uint64_t got = try_busy(first, last);
            checks++;
            if ((LLACHUREP_BUSY_COUNT(got) != last - first + 1 || LLACHUREP_BUSY_LOOKED(got) > 188) && failed("busy"))
                printf("  circuits %u to %u: %llx\n", first, last, (unsigned long long)got);
        }
}

/* Circuits a to b are ticked, and no other. */
static void ticked(unsigned a, unsigned b)
{
    memset(before_tables.ticks, 0, 4097);
    memset(before_tables.ticks + a, 1, b - a + 1);
    ready_tables();
}

/* The plan for the ticks as they are: given in 9 octets for each, and not in one less; the check takes it, cut short nowhere. */
static void plans(const char *what, uint32_t kind, const char *wanted)
{
    static uint8_t other[64];
    size_t size = hex(wanted, other), count = 0;
    for (unsigned c = 0; c < 4096; c++)
        count += before_tables.ticks[c] != 0;
    if (count)
        want("plan, room one short", what, try_plan(7, kind, 9 * count - 1), REFUSED(13));
    want("plan", what, try_plan(7, kind, 9 * count + 5), size);
    want("plan, room exact", what, try_plan(7, kind, 9 * count), size);
    checks++;
    if (memcmp(planned, other, size) != 0 && failed("plan"))
        show(what, planned, planned_length);
    want("check_plan", what, try_check(7, kind, other, size), 1);
    for (size_t k = 0; k < size; k++)
        want("check_plan, cut off", what, try_check(7, kind, other, k), 0);
    want("check_plan, other sender", what, try_check(8, kind, other, size), size == 0);
    want("check_plan, other kind", what, try_check(7, 1 - kind, other, size), size == 0);
    want("check_plan, kind 2", what, try_check(7, 2, other, size), 0);
}

/* A plan that is not ours, for the ticks as they are. */
static void checks_plan(const char *what, uint32_t kind, const char *plan, uint32_t wanted)
{
    static uint8_t other[600];
    want("check_plan", what, try_check(7, kind, other, hex(plan, other)), wanted);
}

static void plan_cases(void)
{
    static const size_t lengths[] = {0, 1, 4095, 4097};
    static const uint32_t kinds[] = {2, 3, 4, 256, 65536, 0x80000000, 0xffffffff};
    /* Nothing is ticked: the empty plan, for any sender, where every row is legal. */
    table(7, 0, 4096, 7, 0);
    ticked(4096, 4096);
    plans("nothing", 0, "");
    plans("nothing", 1, "");
    for (uint32_t sender = 0; sender < 1024; sender += 255) {
        want("plan", "nothing, any sender", try_plan(sender, 0, 0), 0);
        want("check_plan", "nothing, any sender", try_check(sender, 1, octets, 0), 1);
    }
    /* Rows of ticks, at the edges of the table and of 32. */
    ticked(291, 291);
    plans("one", 0, "03 23 01 13");
    plans("one", 1, "08 23 01 18 01 01 02 01 01");
    ticked(0, 0);
    plans("the first", 0, "03 00 00 13");
    plans("the first", 1, "08 00 00 18 01 01 02 01 01");
    ticked(4095, 4095);
    plans("the last", 0, "03 FF 0F 13");
    plans("the last", 1, "08 FE 0F 18 01 01 02 01 02");
    ticked(5, 6);
    plans("two", 0, "08 05 00 18 00 01 02 01 03");
    plans("two", 1, "08 05 00 18 01 01 02 01 03");
    ticked(32, 62);
    plans("thirty-one", 0, "0B 20 00 18 00 01 05 1E FF FF FF 7F");
    ticked(0, 31);
    plans("thirty-two", 1, "0B 00 00 18 01 01 05 1F FF FF FF FF");
    ticked(0, 32);
    plans("thirty-three", 0, "0B 00 00 18 00 01 05 1F FF FF FF FF 03 20 00 13");
    plans("thirty-three", 1, "0B 00 00 18 01 01 05 1F FF FF FF FF 08 20 00 18 01 01 02 01 01");
    ticked(4063, 4095);
    plans("the last thirty-three", 1, "0B DF 0F 18 01 01 05 1F FF FF FF FF 08 FE 0F 18 01 01 02 01 02");
    ticked(4080, 4095);
    plans("the last sixteen", 0, "09 F0 0F 18 00 01 03 0F FF FF");
    ticked(10, 10);
    before_tables.ticks[12] = 255;
    before_tables.ticks[13] = 128;
    ready_tables();
    plans("one and two", 0, "03 0A 00 13 08 0C 00 18 00 01 02 01 03");
    plans("one and two", 1, "08 0A 00 18 01 01 02 01 01 08 0C 00 18 01 01 02 01 03");
    /* All: 128 CGB of 12 octets; and each other one: 2048 messages. */
    ticked(0, 4095);
    for (uint32_t kind = 0; kind < 2; kind++) {
        want("plan", "all", try_plan(7, kind, 36863), REFUSED(13));
        want("plan", "all", try_plan(7, kind, 36864), 128 * 12);
        want("check_plan", "all", try_check(7, kind, planned, planned_length), 1);
        want("check_plan", "all but one octet", try_check(7, kind, planned, planned_length - 1), 0);
        want("check_plan", "all but one message", try_check(7, kind, planned, planned_length - 12), 0);
        want("check_plan", "all but the first message", try_check(7, kind, planned + 12, planned_length - 12), 0);
    }
    for (unsigned c = 0; c < 4096; c++)
        before_tables.ticks[c] = (uint8_t)(c % 2 * c);
    before_tables.ticks[256] = 0;
    for (unsigned c = 1; c < 4096; c += 2)
        before_tables.ticks[c] |= 1;
    ready_tables();
    want("plan", "each other", try_plan(7, 0, 9 * 2048), 4 * 2048);
    want("check_plan", "each other", try_check(7, 0, planned, planned_length), 1);
    want("plan", "each other", try_plan(7, 1, 9 * 2048), 9 * 2048);
    want("check_plan", "each other", try_check(7, 1, planned, planned_length), 1);
    want("plan", "each other", try_plan(7, 1, 9 * 2048 - 1), REFUSED(13));

    /* 25, and who may be planned. */
    for (unsigned c = 0; c < 4096; c += c == 0 ? 5 : c == 5 ? 4090 : 4096) {
        table(9, 0, c, 7, 0); /* one circuit of its own: no neighbour for hardware */
        ticked(c, c);
        want("plan", "own, alone", try_plan(7, 0, 9), 4);
        want("plan", "own, alone", try_plan(7, 1, 9), REFUSED(25));
        want("plan", "25 before 13", try_plan(7, 1, 0), REFUSED(25));
        want("plan", "another's", try_plan(8, 0, 9), REFUSED(25));
        want("plan", "number above 255", try_plan(7 + 256, 0, 9), REFUSED(25));
        want("plan", "sender 0", try_plan(0, 0, 9), REFUSED(25));
        memset(before_tables.helpers, 7, 4097);
        ready_tables();
        want("plan", "a neighbour that is only helped", try_plan(7, 1, 9), REFUSED(25));
        table(7, 0, c, 9, 0);
        ticked(c, c);
        want("plan", "not its own", try_plan(7, 0, 9), REFUSED(25));
        before_tables.helpers[c] = 7;
        ready_tables();
        want("plan", "helped", try_plan(7, 0, 9), 4);
        want("plan", "helped", try_plan(7, 1, 9), REFUSED(25));
    }
    table(0, 0, 4096, 0, 0);
    ticked(5, 5);
    want("plan", "nobody's", try_plan(0, 0, 9), REFUSED(25));
    want("plan", "nobody's", try_plan(256, 0, 9), REFUSED(25));
    before_tables.owners[4] = before_tables.owners[5] = 7; /* the next is not owned: the one before */
    ready_tables();
    plans("the one before", 1, "08 04 00 18 01 01 02 01 02");
    before_tables.owners[6] = 7;
    ready_tables();
    plans("the next", 1, "08 05 00 18 01 01 02 01 01");
    helped(0, 4096, 9, 5, 0);
    ticked(5, 8);
    want("plan", "helped in a row", try_plan(5, 0, 36), 9);
    want("check_plan", "helped in a row", try_check(5, 0, planned, planned_length), 1);
    want("check_plan", "helped in a row, by its owner", try_check(9, 0, planned, planned_length), 1);
    want("check_plan", "helped in a row, another", try_check(6, 0, planned, planned_length), 0);
    want("plan", "helped in a row, for hardware", try_plan(5, 1, 36), REFUSED(25));
    want("plan", "helped in a row, by its owner", try_plan(9, 1, 36), 9);
    want("check_plan", "for hardware by its helper", try_check(5, 1, planned, planned_length), 0);

    /* Each row, ticked or not: 20 where it is not legal; and it is no matter which block stands. */
    for (unsigned state = 0; state < 256; state++) {
        table(7, 0, 77, 7, state);
        ticked(5, 6);
        int bad = (state & 7) == 5 || (state & 7) == 7 || state > 15;
        want("plan", "each state", try_plan(7, 0, 18), bad ? REFUSED(20) : 9);
        want("plan", "20 before 25", try_plan(8, 0, 18), bad ? REFUSED(20) : REFUSED(25));
        want("plan", "20 before 13", try_plan(7, 0, 0), bad ? REFUSED(20) : REFUSED(13));
        checks_plan("each state of another row", 0, "08 05 00 18 00 01 02 01 03", 1);
        ticked(77, 77);
        want("check_plan", "each state", try_check(7, 0, octets, hex("03 4D 00 13", octets)), !bad);
        want("check_plan", "each state", try_check(7, 1, octets, hex("08 4D 00 18 01 01 02 01 01", octets)), !bad);
        want("check_plan", "each state of the neighbour", (ticked(78, 78), try_check(7, 1, octets, hex("08 4D 00 18 01 01 02 01 02", octets))), !bad);
    }
    /* 16 and 14 first. */
    table(9, 5, 4096, 9, 5);
    ticked(0, 4095);
    for (int t = 0; t < 4; t++) {
        size_t *which = t == 0 ? &states_length : t == 1 ? &owners_length : t == 2 ? &helpers_length : &ticks_length;
        for (int i = 0; i < 4; i++) {
            *which = lengths[i];
            want("plan", "16 before all", try_plan(7, 2, 0), REFUSED(16));
            want("plan", "16", try_plan(7, 0, 36864), REFUSED(16));
            want("check_plan", "wrong length", try_check(7, 0, octets, 0), 0);
        }
        *which = 4096;
    }
    for (int i = 0; i < 7; i++) {
        want("plan", "14 before 20, 25 and 13", try_plan(7, kinds[i], 0), REFUSED(14));
        want("check_plan", "wrong kind", try_check(7, kinds[i], octets, 0), 0);
    }
    table(7, 0, 4096, 7, 0);
    ticked(4096, 4096);
    for (int t = 0; t < 4; t++) {
        size_t *which = t == 0 ? &states_length : t == 1 ? &owners_length : t == 2 ? &helpers_length : &ticks_length;
        for (int i = 0; i < 4; i++) {
            *which = lengths[i];
            want("check_plan", "wrong length, nothing ticked", try_check(7, 0, octets, 0), 0);
        }
        *which = 4096;
    }
    for (int i = 0; i < 7; i++)
        want("check_plan", "wrong kind, nothing ticked", try_check(7, kinds[i], octets, 0), 0);

    /* Plans that others made. */
    checks_plan("a length octet 0", 0, "00", 0);
    checks_plan("no mark", 0, "08 05 00 18 00 01 02 01 00", 1);
    checks_plan("no mark, spare bits alone", 1, "08 05 00 18 FD 01 02 01 FC", 1);
    ticked(5, 6);
    checks_plan("two BLO", 0, "03 05 00 13 03 06 00 13", 1);
    checks_plan("two BLO, the later first", 0, "03 06 00 13 03 05 00 13", 1);
    checks_plan("two BLO, spare bits of the circuit", 0, "03 05 F0 13 03 06 50 13", 1);
    checks_plan("two BLO for hardware", 1, "03 05 00 13 03 06 00 13", 0);
    checks_plan("twice", 0, "03 05 00 13 03 06 00 13 03 05 00 13", 0);
    checks_plan("twice by CGB", 0, "08 05 00 18 00 01 02 01 03 03 05 00 13", 0);
    checks_plan("one left out", 0, "03 05 00 13", 0);
    checks_plan("one too many", 0, "03 05 00 13 03 06 00 13 03 07 00 13", 0);
    checks_plan("one too many marked", 0, "08 05 00 18 00 01 02 02 07", 0);
    checks_plan("a wider group", 0, "08 02 00 18 00 01 02 07 18", 1);
    checks_plan("a group that names one marked", 0, "08 04 00 18 00 01 02 01 02 08 06 00 18 00 01 02 01 01", 1);
    checks_plan("spare bits", 1, "08 05 00 18 01 01 02 01 FF", 1);
    checks_plan("spare bits of the indicator", 1, "08 05 00 18 F1 01 02 01 03", 1);
    checks_plan("indicator 2", 1, "08 05 00 18 02 01 02 01 03", 0);
    checks_plan("range 0", 0, "08 05 00 18 00 01 02 00 01 03 06 00 13", 0);
    checks_plan("range and status at odds", 0, "09 05 00 18 00 01 03 01 03 00", 0);
    checks_plan("a gap after the pointer", 0, "09 05 00 18 00 02 AA 02 01 03", 1);
    checks_plan("spare octets at the end", 0, "09 05 00 18 00 01 02 01 03 77", 1);
    checks_plan("an empty message between", 0, "03 05 00 13 00 03 06 00 13", 0);
    checks_plan("UBL between", 0, "03 05 00 13 03 07 00 14 03 06 00 13", 0);
    checks_plan("CGU between", 0, "08 05 00 18 00 01 02 01 03 08 07 00 19 00 01 02 01 03", 0);
    checks_plan("RSC between", 0, "03 05 00 13 03 07 00 12 03 06 00 13", 0);
    checks_plan("a type that is not known", 0, "03 05 00 13 03 06 00 13 03 07 00 FF", 0);
    checks_plan("a length octet at the end", 0, "03 05 00 13 03 06 00 13 03", 0);
    checks_plan("256 circuits named", 0, "27 00 00 18 00 01 21 FF 60 00*31", 1);
    ticked(0, 32);
    checks_plan("thirty-three marks", 0, "0C 00 00 18 00 01 06 20 FF FF FF FF 01", 0);
    checks_plan("thirty-two marks and BLO", 0, "0C 00 00 18 00 01 06 20 FF FF FF FF 00 03 20 00 13", 1);
    ticked(4095, 4095);
    checks_plan("18", 1, "08 FF 0F 18 01 01 02 01 01", 0);
    table(7, 0, 6, 9, 0);
    ticked(5, 5);
    checks_plan("a neighbour of another, not marked", 1, "08 05 00 18 01 01 02 01 01", 0);
    checks_plan("a neighbour of another, not marked", 0, "08 05 00 18 00 01 02 01 01", 0);
    checks_plan("the other neighbour", 1, "08 04 00 18 01 01 02 01 02", 1);
    before_tables.helpers[6] = 7;
    ready_tables();
    checks_plan("a neighbour that is helped", 1, "08 05 00 18 01 01 02 01 01", 0);
    checks_plan("a neighbour that is helped", 0, "08 05 00 18 00 01 02 01 01", 1);
}

/* ------------------------------------------------------------------------------------------------ generated messages */

static const uint8_t types[24] = {0x01, 0x02, 0x05, 0x06, 0x07, 0x09, 0x0C, 0x0D, 0x0E, 0x10, 0x12, 0x13,
                                  0x14, 0x15, 0x16, 0x17, 0x18, 0x19, 0x1A, 0x1B, 0x29, 0x2A, 0x2B, 0x2C};
static const uint8_t acted[9] = {0x01, 0x0C, 0x12, 0x13, 0x14, 0x17, 0x18, 0x19, 0x2A};
static const uint8_t parameter_names[8] = {0x01, 0x03, 0x20, 0x20, 0x20, 0x80, 0xFF, 0x01};
static const uint8_t owners_of_zones[8] = {1, 2, 3, 7, 200, 255, 0, 7};
static const uint8_t legal_states[12] = {0, 1, 2, 3, 4, 6, 8, 9, 10, 11, 12, 14};

/* The table's columns, once more. */
static void shape_of(unsigned type, size_t *fixed, size_t *variable, int *optional)
{
    *fixed = type == 0x01 ? 5 : type == 0x06 || type == 0x07 ? 2 :
             type == 0x05 || type == 0x0D || type == 0x0E || type == 0x2C || (type >= 0x18 && type <= 0x1B) ? 1 : 0;
    *variable = type == 0x2B ? 2 : type == 0x01 || type == 0x02 || type == 0x0C || (type >= 0x17 && type <= 0x1B) ||
                type == 0x29 || type == 0x2A ? 1 : 0;
    *optional = type == 0x01 || type == 0x02 || type == 0x06 || type == 0x07 || type == 0x09 || type == 0x0C ||
                type == 0x0D || type == 0x0E || type == 0x10 || type == 0x2C;
}

static size_t some_run(uint8_t *to, size_t most)
{
    size_t length = 0;
    for (uint32_t n = one_in(20) ? 40 : below(5); n > 0; n--) {
        size_t size = one_in(12) ? below(100) : below(7);
        if (length + 2 + size > most)
            break;
        to[length] = one_in(5) ? (uint8_t)between(1, 255) : parameter_names[below(8)];
        to[length + 1] = (uint8_t)size;
        noise(to + length + 2, size);
        length += 2 + size;
    }
    return length;
}

static size_t some_number(uint8_t *to)
{
    size_t signals = one_in(8) ? between(27, 31) : below(16), count = 2 + (signals + 1) / 2;
    noise(to, count);
    to[0] = (uint8_t)((to[0] & 127) | (signals % 2 ? 128 : 0));
    if (signals % 2 && !one_in(16))
        to[count - 1] &= 15;
    return count;
}

/* Parts for a type, mostly right. */
static void some_parts(struct given *w)
{
    size_t fixed, variable;
    int optional;
    w->type = one_in(4) ? types[below(24)] : acted[below(9)];
    w->circuit = one_in(4) ? between(3830, 4095) : one_in(3) ? below(64) : below(4096);
    shape_of(w->type, &fixed, &variable, &optional);
    w->fixed_length = fixed;
    noise(w->fixed, sizeof w->fixed);
    if (!one_in(16))
        w->fixed[0] &= 0xFD;
    w->first_length = w->second_length = w->optional_length = 0;
    if (variable > 0) {
        if (w->type == 0x17 || w->type == 0x2A) {
            w->first_length = one_in(20) ? below(4) : 1;
            w->first[0] = (uint8_t)(one_in(12) ? below(256) : between(w->type == 0x17, 31));
            w->first[1] = w->first[2] = 0;
        } else if (w->type == 0x18 || w->type == 0x19) {
            unsigned range = one_in(3) ? between(1, 255) : one_in(30) ? 0 : between(1, 40);
            w->first[0] = (uint8_t)range;
            w->first_length = 1 + range / 8 + 1;
            noise(w->first + 1, w->first_length + 1);
            if (!one_in(6)) /* mostly 32 marks or fewer */
                for (unsigned j = 1; j < w->first_length; j++)
                    w->first[j] &= (uint8_t)(chance() & chance());
            if (one_in(20))
                w->first_length = w->first_length - 1 + below(3);
        } else if (w->type == 0x01) {
            w->first_length = some_number(w->first);
        } else {
            w->first_length = one_in(10) ? between(0, 255) : one_in(20) ? between(250, 255) : below(12);
            noise(w->first, w->first_length);
        }
    }
    if (variable > 1) {
        w->second_length = one_in(10) ? between(0, 255) : below(12);
        noise(w->second, w->second_length);
    }
    if (optional && !one_in(3))
        w->optional_length = some_run(w->optional, w->first_length > 240 ? 8 : 250);
}

/* A message of those parts: spare bits, any order of the parts, gaps, octets after the last. */
static size_t some_message(const struct given *w, uint8_t *to)
{
    size_t fixed, variable;
    int optional, written[3] = {0, 0, 0};
    shape_of(w->type, &fixed, &variable, &optional);
    size_t pointers = 3 + fixed, end = pointers + variable + (size_t)optional, length = end;
    to[0] = (uint8_t)w->circuit;
    to[1] = (uint8_t)(w->circuit >> 8 | (one_in(3) ? below(16) << 4 : 0));
    to[2] = (uint8_t)w->type;
    memcpy(to + 3, w->fixed, fixed);
    if (optional)
        to[end - 1] = 0;
    int shuffled = one_in(2);
    for (int i = 0; i < 3; i++) {
        unsigned part = (unsigned)i;
        if (shuffled) {
            part = below(3);
            while (written[part])
                part = (part + 1) % 3;
        }
        written[part] = 1;
        size_t gap = one_in(6) ? below(5) : 0;
        if (part < 2 ? part >= variable : !optional || (w->optional_length == 0 && !one_in(3)))
            continue;
        noise(to + length, gap);
        length += gap;
        to[part < 2 ? pointers + part : end - 1] = (uint8_t)(length - (part < 2 ? pointers + part : end - 1));
        const uint8_t *contents = part == 0 ? w->first : part == 1 ? w->second : w->optional;
        size_t count = part == 0 ? w->first_length : part == 1 ? w->second_length : w->optional_length;
        if (part < 2)
            to[length++] = (uint8_t)count;
        memcpy(to + length, contents, count);
        length += count;
        if (part == 2)
            to[length++] = 0;
    }
    if (one_in(4)) {
        size_t more = one_in(10) ? below(40) : below(6);
        noise(to + length, more);
        length += more;
    }
    return length;
}

/* Spoils a message a little. */
static size_t spoil(uint8_t *m, size_t length)
{
    for (uint32_t n = between(1, 2); n > 0; n--) {
        switch (below(8)) {
        case 0:
            m[below((uint32_t)length)] = (uint8_t)chance();
            break;
        case 1:
            m[between(2, 9)] ^= (uint8_t)(1u << below(8));
            break;
        case 2:
            m[between(3, 9)] += (uint8_t)(one_in(2) ? 1 : 255);
            break;
        case 3:
            length -= below(length < 4 ? (uint32_t)length : 4);
            break;
        case 4:
            m[below((uint32_t)length)] = 0;
            break;
        case 5: {
            unsigned p = between(3, 8);
            m[p + 1] = (uint8_t)(m[p] - 1 + below(3));
            break;
        }
        case 6:
            m[2] = (uint8_t)(one_in(3) ? chance() : types[below(24)]);
            break;
        default:
            noise(m + length, 300 - (length > 300 ? 300 : length));
            length = one_in(4) ? between(266, 270) : length + below(3);
            break;
        }
        if (length == 0)
            return 0;
    }
    return length;
}

static size_t near(size_t size)
{
    uint32_t n = below(8);
    return n == 0 ? 0 : n == 1 ? size - (size > 0) : n == 2 ? size + 1 : n == 3 ? 268 : n == 4 ? size + below(20) : size;
}

/* Owners in zones; rows legal but for a few. */
static void change_tables(int all)
{
    if (all) {
        for (unsigned c = 0; c < 4097;) {
            unsigned owner = owners_of_zones[below(8)];
            for (unsigned n = one_in(3) ? between(1, 30) : between(100, 600); n > 0 && c < 4097; n--)
                before_tables.owners[c++] = (uint8_t)owner;
        }
        for (unsigned c = 0; c < 4097;) {
            unsigned helper = one_in(3) ? 0 : owners_of_zones[below(8)];
            for (unsigned n = one_in(3) ? between(1, 30) : between(100, 600); n > 0 && c < 4097; n--)
                before_tables.helpers[c++] = (uint8_t)helper;
        }
        for (unsigned c = 0; c < 4097; c++)
            before_tables.states[c] = legal_states[one_in(2) ? below(6) : below(12)];
    }
    unsigned from = below(4096), count = below(64);
    for (unsigned c = from; c < from + count && c < 4096; c++)
        before_tables.states[c] = legal_states[one_in(2) ? 0 : below(12)];
    from = below(4096);
    count = below(64);
    unsigned helper = one_in(2) ? 0 : owners_of_zones[below(8)];
    for (unsigned c = from; c < from + count && c < 4096; c++)
        before_tables.helpers[c] = (uint8_t)helper;
    from = below(4096);
    count = below(8);
    unsigned owner = owners_of_zones[below(8)];
    for (unsigned c = from; c < from + count && c < 4096; c++)
        before_tables.owners[c] = (uint8_t)owner;
    before_tables.states[below(4096)] = (uint8_t)chance();
    before_tables.totals[below(64)] = (uint8_t)chance();
    ready_tables();
}

static void spoil_given(struct given *w)
{
    switch (below(9)) {
    case 0:
        w->circuit = one_in(2) ? 4096 + below(100) : chance();
        break;
    case 1:
        w->type = one_in(2) ? chance() : w->type + 256 * below(3);
        break;
    case 2:
        w->fixed_length = below(8);
        break;
    case 3:
        w->second_length = below(3);
        noise(w->second, w->second_length);
        break;
    case 4:
        w->first_length = one_in(2) ? between(250, 258) : below(400);
        noise(w->first, w->first_length);
        break;
    case 5:
        w->second_length = between(1, 300);
        noise(w->second, w->second_length);
        break;
    case 6:
        w->optional_length = some_run(w->optional, 790);
        break;
    case 7:
        if (w->optional_length)
            w->optional[below((uint32_t)w->optional_length)] = (uint8_t)(one_in(2) ? 0 : chance());
        break;
    default:
        if (w->optional_length)
            w->optional_length -= 1;
        break;
    }
}

static void generated(void)
{
    static struct given w;
    static uint8_t m[1200], call[1202], scratch[1024], defaults[400], signals[64];
    static const uint32_t strange[6] = {0, 256, 0xffffffff, 1, 7, 255};
    for (unsigned i = 0; i < MESSAGES; i++) {
        if (i % 64 == 0)
            change_tables(i % 16384 == 0);
        size_t length;
        some_parts(&w);
        if (one_in(10)) {
            length = one_in(10) ? between(260, 275) : one_in(20) ? below(4) : between(3, 24);
            noise(m, length + 3);
            if (!one_in(4))
                m[2] = types[below(24)];
            if (!one_in(3))
                for (size_t k = 3; k < 10; k++)
                    m[k] &= 7;
        } else {
            length = some_message(&w, m);
            if (one_in(3))
                length = spoil(m, length);
        }
        try_read(m, length, one_in(8) ? below(13) : 10);
        uint32_t size = plain_compact(m, length, scratch, 1024);
        try_compact(m, length, near(size >> 16 ? 0 : size));

        noise(call, 2);
        memcpy(call + 2, m, length);
        size_t call_length = one_in(40) ? below(7) : length + 2;
        try_bicc_read(call, call_length, one_in(8) ? below(13) : 10);
        size = plain_bicc_compact(call, call_length, scratch, 1024);
        try_bicc_compact(call, call_length, near(size >> 16 ? 0 : size));

        size_t run = one_in(3) ? 0 : some_run(defaults, 390);
        if (run && one_in(8))
            defaults[below((uint32_t)run)] = (uint8_t)(one_in(2) ? 0 : chance());
        try_find(m, length, defaults, run, one_in(10) ? chance() : one_in(10) ? below(258) : parameter_names[below(8)],
                 one_in(8) ? below(4) : 2);

        uint32_t owner = length < 3 ? 1 : before_tables.owners[m[0] + 256u * (m[1] & 15u)];
        uint32_t helper = length < 3 ? 1 : before_tables.helpers[m[0] + 256u * (m[1] & 15u)];
        uint32_t sender = one_in(12) ? strange[below(6)] : one_in(30) ? owner + 256 : one_in(4) ? helper : owner ? owner : 7;
        size_t needed = length > 2 && m[2] >= 0x17 && m[2] <= 0x19 ? 7 + w.first_length :
                        length > 2 && m[2] == 0x2A ? 9u + w.first[0] : 4;
        if (one_in(200)) {
            states_length = between(4095, 4097);
            owners_length = between(4095, 4097);
            helpers_length = between(4095, 4097);
            totals_length = between(63, 65);
        }
        try_act(sender, m, length, one_in(3) ? near(needed) : 268);
        states_length = owners_length = helpers_length = 4096;
        totals_length = 64;

        if (one_in(5)) {
            if (one_in(200)) {
                states_length = between(4095, 4097);
                totals_length = between(63, 65);
            }
            try_block(one_in(20) ? chance() : one_in(20) ? between(4090, 4100) : below(4096), one_in(3) ? 0 : chance(),
                      one_in(3) ? below(5) : 268);
            uint32_t first = one_in(20) ? chance() : one_in(4) ? 64 * below(65) : below(4098);
            try_busy(first, one_in(20) ? chance() : one_in(4) ? 64 * below(65) - 1 : one_in(4) ? first + below(130) : below(4098));
            if (one_in(100))
                try_rebuild();
            states_length = 4096;
            totals_length = 64;
        }

        if (one_in(3))
            spoil_given(&w);
        size = plain_write(w.circuit, w.type, w.fixed, w.fixed_length, w.first, w.first_length, w.second,
                           w.second_length, w.optional, w.optional_length, scratch, 1024);
        try_write(&w, near(size >> 16 ? 0 : size));
        uint32_t code = chance();
        size = plain_bicc_write(code, w.type, w.fixed, w.fixed_length, w.first, w.first_length, w.second, w.second_length,
                                w.optional, w.optional_length, scratch, 1024);
        try_bicc_write(code, &w, near(size >> 16 ? 0 : size));

        if (i % 4 == 0) {
            size_t count = one_in(4) ? below(20) : some_number(m);
            if (count && one_in(4))
                noise(m, count);
            uint64_t number = plain_number_read(m, count, scratch, 1024);
            try_number_read(m, count, near(number & 255));
            count = one_in(8) ? between(28, 32) : below(31);
            for (size_t k = 0; k < count; k++)
                signals[k] = (uint8_t)below(16);
            if (count && one_in(8))
                signals[below((uint32_t)count)] = (uint8_t)chance();
            try_number_write(one_in(10) ? chance() : below(130), one_in(20) ? chance() : below(8),
                             one_in(20) ? chance() : below(2), signals, count, near(2 + (count + 1) / 2));
        }
    }
}

/* ------------------------------------------------------------------------------------------------ generated nights */

/* Tables for a night of sender 7; ticks here and there, most of them on circuits that it may block. */
static void some_night(uint32_t kind)
{
    static const uint8_t who[6] = {7, 7, 7, 7, 9, 0};
    unsigned strange = one_in(4), density = below(4);
    for (unsigned c = 0; c < 4097;) {
        unsigned owner = who[below(6)], helper = who[below(6)];
        for (unsigned n = one_in(2) ? between(1, 6) : between(20, 300); n > 0 && c < 4097; n--, c++) {
            before_tables.owners[c] = (uint8_t)owner;
            before_tables.helpers[c] = (uint8_t)helper;
            before_tables.states[c] = legal_states[below(12)];
        }
    }
    memset(before_tables.ticks, 0, 4097);
    for (unsigned c = 0; c < 4096 && density;) {
        unsigned n = one_in(2) ? 1 : one_in(3) ? between(30, 70) : between(1, 12);
        for (; n > 0 && c < 4096; n--, c++) {
            const uint8_t *o = before_tables.owners;
            int may = kind == 0 ? o[c] == 7 || before_tables.helpers[c] == 7 :
                                  o[c] == 7 && ((c < 4095 && o[c + 1] == 7) || (c > 0 && o[c - 1] == 7));
            if (may || (strange && one_in(300)))
                before_tables.ticks[c] = (uint8_t)(1 + below(255));
        }
        c += density == 3 ? between(1, 3) : density == 2 ? between(1, 40) : between(50, 900);
    }
    if (one_in(12))
        before_tables.states[below(4096)] = (uint8_t)chance();
    ready_tables();
}

/* Where the message of a plan stands that has the octet k in it. */
static size_t message_at(const uint8_t *plan, size_t k)
{
    size_t i = 0;
    while (i + plan[i] < k)
        i += plan[i] + 1u;
    return i;
}

/* A plan, changed: most are no longer good. */
static size_t spoil_plan(uint8_t *plan, size_t length)
{
    static uint8_t copy[300];
    uint32_t way = below(10);
    size_t i = length ? message_at(plan, below((uint32_t)length)) : 0, size = length ? plan[i] + 1u : 0;
    if (size > length - i)
        size = length - i;
    if (way == 0 || length == 0) { /* a message more: BLO, or a CGB that may mark nothing */
        unsigned c = below(4096);
        uint8_t more[] = {3, (uint8_t)c, (uint8_t)(c >> 8), 0x13, 1, 2, 1, (uint8_t)below(4), 0};
        if (one_in(2)) {
            uint8_t cgb[] = {8, (uint8_t)c, (uint8_t)(c >> 8), 0x18, (uint8_t)below(3), 1, 2, 1, (uint8_t)below(4)};
            memcpy(more, cgb, sizeof cgb);
        }
        memcpy(plan + length, more, more[0] + 1u);
        return length + more[0] + 1u;
    }
    switch (way) {
    case 1: /* cut off */
        return length - between(1, length < 12 ? (uint32_t)length : 12);
    case 2: /* a message left out */
        memmove(plan + i, plan + i + size, length - i - size);
        return length - size;
    case 3: /* a message twice */
        memcpy(copy, plan + i, size);
        memcpy(plan + length, copy, size);
        return length + size;
    case 4: /* a message to the end: as good as before */
        memcpy(copy, plan + i, size);
        memmove(plan + i, plan + i + size, length - i - size);
        memcpy(plan + length - size, copy, size);
        return length;
    case 5: /* another octet */
        plan[below((uint32_t)length)] = (uint8_t)chance();
        return length;
    case 6: /* another bit of the last octet: a mark, a spare bit, or a type */
        plan[i + size - 1] ^= (uint8_t)(1u << below(8));
        return length;
    case 7: /* the spare bits of the circuit number, or another circuit */
        plan[i + 2] ^= (uint8_t)(1u << below(8));
        return length;
    case 8: /* a length octet at the end */
        plan[length] = (uint8_t)below(5);
        return length + 1;
    default:
        return length;
    }
}

static void generated_nights(void)
{
    static uint8_t plan[sizeof planned];
    for (unsigned i = 0; i < NIGHTS; i++) {
        uint32_t kind = below(2), sender = one_in(20) ? chance() % 512 : 7;
        some_night(kind);
        size_t count = 0;
        for (unsigned c = 0; c < 4096; c++)
            count += before_tables.ticks[c] != 0;
        if (one_in(50))
            kind = chance();
        if (one_in(50)) {
            states_length = between(4095, 4097);
            owners_length = between(4095, 4097);
            helpers_length = between(4095, 4097);
            ticks_length = between(4095, 4097);
        }
        size_t room = one_in(6) && count ? 9 * count - 1 : one_in(6) ? below(36865) : 9 * count;
        uint32_t got = try_plan(sender, kind, room);
        if (i % 16 == 0 && (got >> 16 == 0 || got >> 16 == 25 || got >> 16 == 13)) {
            checks++;
            if (no_plan(sender, kind) != (got >> 16 == 25) && failed("plan"))
                printf("  answers %x, and a plan %s\n", got, got >> 16 == 25 ? "exists" : "does not exist");
        }
        states_length = owners_length = helpers_length = ticks_length = 4096;
        if (got >> 16)
            continue;
        try_check(sender, kind, planned, planned_length);
        for (unsigned k = 0; k < 4; k++) {
            memcpy(plan, planned, planned_length);
            size_t length = spoil_plan(plan, planned_length);
            if (length && one_in(4))
                length = spoil_plan(plan, length);
            try_check(sender, kind, plan, length);
        }
        before_tables.ticks[below(4096)] ^= 1;
        ready_tables();
        try_check(sender, kind, planned, planned_length);
    }
}

/* ------------------------------------------------------------------------------------------------ BICC */

/* A message, what reading it answers, and its code where it reads. */
static void bicc_case(const char *text, uint32_t wanted, uint32_t code)
{
    size_t length = hex(text, octets);
    want("bicc_read", text, try_bicc_read(octets, length, 10), wanted);
    want("bicc_compact", text, try_bicc_compact(octets, length, 270), wanted == 10 ? length : wanted);
    if (wanted == 10) {
        uint32_t parts[10];
        llachurep_bicc_read(octets, length, parts, 10);
        want("bicc_read", "the code", parts[0], code);
        for (size_t count = 0; count <= 11; count++)
            want("bicc_read, count", text, try_bicc_read(octets, length, count), count < 10 ? REFUSED(13) : 10);
        want("bicc_compact, room one short", text, try_bicc_compact(octets, length, length - 1), REFUSED(13));
        want("bicc_compact, no room", text, try_bicc_compact(octets, length, 0), REFUSED(13));
    }
}

static void bicc_cases(void)
{
    bicc_case("", REFUSED(1), 0);
    bicc_case("12", REFUSED(1), 0);
    bicc_case("01020304", REFUSED(1), 0);
    bicc_case("ffffffff12", 10, 4294967295u);
    bicc_case("0000000012", 10, 0);
    bicc_case("010203040c0200028090", 10, 67305985);
    bicc_case("7856341217010103", 10, 305419896);
    bicc_case("0102030413", REFUSED(3) + 4, 0);
    bicc_case("0102030414", REFUSED(3) + 4, 0);
    bicc_case("0102030415", REFUSED(3) + 4, 0);
    bicc_case("0102030416", REFUSED(3) + 4, 0);
    bicc_case("01020304ff", REFUSED(3) + 4, 0);
    bicc_case("0100130000", REFUSED(3) + 4, 0);
    bicc_case("0102030417", REFUSED(4) + 5, 0);
    bicc_case("010203041700", REFUSED(5) + 5, 0);
    bicc_case("01020304170103", REFUSED(6) + 6, 0);
    bicc_case("010203040901200141", REFUSED(7) + 9, 0);
    bicc_case("010203040c0201010000", REFUSED(8) + 7, 0);
    /* ANM with one optional parameter and octets after it: 270 in all are read, 271 are not, whatever the type. */
    for (size_t length = 268; length <= 272; length++) {
        memset(octets, 0, length);
        octets[4] = 0x09;
        want("bicc_read, length", "ANM", try_bicc_read(octets, length, 10), length > 270 ? REFUSED(2) : 10);
        octets[4] = 0x13;
        want("bicc_read, length", "BLO", try_bicc_read(octets, length, 10), length > 270 ? REFUSED(2) : REFUSED(3) + 4);
    }
    /* ANM with a run: 270 octets are written, 271 are not. */
    static struct given w;
    w.type = 0x09;
    w.optional_length = 263;
    memset(w.optional, 0, sizeof w.optional);
    for (size_t k = 0; k + 2 <= 258; k += 2)
        w.optional[k] = 1;
    w.optional[258] = 1;
    w.optional[259] = 3;
    want("bicc_write, longest", "ANM", try_bicc_write(7, &w, 800), 270);
    want("bicc_write, longest, no room", "ANM", try_bicc_write(7, &w, 269), REFUSED(13));
    w.optional[259] = 4;
    w.optional_length = 264;
    want("bicc_write, too long", "ANM", try_bicc_write(7, &w, 800), REFUSED(2));
}

/* ------------------------------------------------------------------------------------------------ SCCP */

/* A message and what reading it answers; those that read are in compact form. */
static void sccp_case(const char *text, uint32_t wanted)
{
    size_t length = hex(text, octets);
    want("sccp_read", text, try_sccp_read(octets, length, 11), wanted);
    want("sccp_compact", text, try_sccp_compact(octets, length, 268), wanted == 11 ? length : wanted);
    if (wanted == 11) {
        for (size_t count = 0; count <= 12; count++)
            want("sccp_read, count", text, try_sccp_read(octets, length, count), count < 11 ? REFUSED(13) : 11);
        want("sccp_compact, room one short", text, try_sccp_compact(octets, length, length - 1), REFUSED(13));
        want("sccp_compact, no room", text, try_sccp_compact(octets, length, 0), REFUSED(13));
    }
}

static void sccp_cases(void)
{
    sccp_case("", REFUSED(1));
    sccp_case("13", REFUSED(3));
    sccp_case("14", REFUSED(3));
    sccp_case("00", REFUSED(3));
    sccp_case("ff010203", REFUSED(3));
    sccp_case("0c010203", 11);
    sccp_case("0c0102", REFUSED(4) + 3);
    sccp_case("0900", REFUSED(4) + 2);
    sccp_case("0900030303000000", 11);
    sccp_case("0900030405014201430201aa", 11);
    sccp_case("0900030405014201430201", REFUSED(6) + 9);
    sccp_case("0900000303000000", REFUSED(5) + 2);
    sccp_case("0900030303", REFUSED(5) + 2);
    sccp_case("0900030301000000", REFUSED(8) + 5);
    sccp_case("0900030201000000", REFUSED(8) + 5);
    sccp_case("0f01020304", REFUSED(4) + 5);
    sccp_case("0f0102030400", 11);
    sccp_case("0f010203040120014100", 11);
    sccp_case("0f0102030401200141", REFUSED(7) + 9);
    sccp_case("0f01020304012002", REFUSED(7) + 6);
    sccp_case("0d0102030405060700", 11);
    sccp_case("11010f04050606014201430020014100", 11);
    sccp_case("11010f040506ff014201430020014100", REFUSED(5) + 6);
    sccp_case("11010f04050605014201430020014100", REFUSED(8) + 11);
    /* ERR with octets after it: 268 in all are read, 269 are not, whatever the type. */
    for (size_t length = 266; length <= 272; length++) {
        memset(octets, 0, length);
        octets[0] = 0x0F;
        want("sccp_read, length", "ERR", try_sccp_read(octets, length, 11), length > 268 ? REFUSED(2) : 11);
        octets[0] = 0x13;
        want("sccp_read, length", "LUDT", try_sccp_read(octets, length, 11), length > 268 ? REFUSED(2) : REFUSED(3));
    }
    /* UDT: 252 octets in the first two contents put 255 into the third pointer, one more is 12. */
    static struct given w;
    w.type = 0x09;
    w.fixed_length = 1;
    w.first_length = w.second_length = 126;
    want("sccp_write, third pointer 255", "UDT", try_sccp_write(&w, 800), 260);
    w.first_length = 127;
    want("sccp_write, third pointer 256", "UDT", try_sccp_write(&w, 800), REFUSED(12));
    w.first_length = 0;
    w.second_length = 0;
    w.third_length = 255;
    want("sccp_write, a third of 255", "UDT", try_sccp_write(&w, 800), 263);
    w.third_length = 256;
    want("sccp_write, a third of 256", "UDT", try_sccp_write(&w, 800), REFUSED(12));
    w.third_length = 1;
    w.type = 0x06;
    w.fixed_length = 4;
    want("sccp_write, a third that the type lacks", "DT1", try_sccp_write(&w, 800), REFUSED(10));
    /* ERR with a run: 268 octets are written, 269 are not. */
    w.third_length = 0;
    w.type = 0x0F;
    w.optional_length = 261;
    memset(w.optional, 0, sizeof w.optional);
    for (size_t k = 0; k + 2 <= 258; k += 2)
        w.optional[k] = 1;
    w.optional[258] = 1;
    w.optional[259] = 1;
    want("sccp_write, longest", "ERR", try_sccp_write(&w, 800), 268);
    want("sccp_write, longest, no room", "ERR", try_sccp_write(&w, 267), REFUSED(13));
    w.optional[259] = 2;
    w.optional_length = 262;
    want("sccp_write, too long", "ERR", try_sccp_write(&w, 800), REFUSED(2));
    w.type = 0x0109;
    want("sccp_write, type", "265", try_sccp_write(&w, 800), REFUSED(3));
}

/* The shapes once more, for what is generated: fixed octets, variable parameters, an optional part. */
static const uint8_t sccp_rows[19][3] = {{0, 0, 0}, {4, 1, 1}, {7, 0, 1}, {4, 0, 1}, {7, 0, 1}, {6, 0, 0}, {4, 1, 0},
                                         {5, 1, 0}, {5, 0, 0}, {1, 3, 0}, {1, 3, 0}, {3, 1, 0}, {3, 0, 0}, {7, 0, 1},
                                         {6, 0, 0}, {4, 0, 1}, {10, 0, 0}, {2, 3, 1}, {2, 3, 1}};

/* What a writer is given: most of it fits the type. */
static void some_unit(struct given *w)
{
    w->type = between(1, 18);
    const uint8_t *row = sccp_rows[w->type];
    uint32_t most = one_in(8) ? 130 : one_in(8) ? 258 : 12;
    w->fixed_length = row[0];
    w->first_length = row[1] >= 1 ? below(most) : 0;
    w->second_length = row[1] == 3 ? below(most) : 0;
    w->third_length = row[1] == 3 ? below(one_in(8) ? 258 : 12) : 0;
    w->optional_length = row[2] && !one_in(3) ? some_run(w->optional, one_in(8) ? 300 : 30) : 0;
    noise(w->fixed, sizeof w->fixed);
    noise(w->first, w->first_length);
    noise(w->second, w->second_length);
    noise(w->third, w->third_length);
}

/* A message of those parts: in any order, with gaps, a pointer or an octet wrong at times. Gives its length. */
static size_t some_unit_message(const struct given *w, uint8_t *to)
{
    const uint8_t *row = sccp_rows[w->type];
    const uint8_t *const contents[3] = {w->first, w->second, w->third};
    const size_t sizes[3] = {w->first_length, w->second_length, w->third_length};
    size_t pointers = 1u + row[0], end = pointers + row[1] + row[2], length = end;
    to[0] = (uint8_t)w->type;
    memcpy(to + 1, w->fixed, row[0]);
    unsigned start = below(4), step = one_in(2) ? 1 : 3;
    for (unsigned turn = 0; turn < 4; turn++) {
        unsigned part = (start + turn * step) % 4;
        size_t gap = one_in(4) ? below(4) : 0;
        if (part < row[1]) {
            noise(to + length, gap);
            length += gap;
            to[pointers + part] = (uint8_t)(length - pointers - part);
            to[length++] = (uint8_t)sizes[part];
            memcpy(to + length, contents[part], sizes[part]);
            length += sizes[part];
        } else if (part == 3 && row[2]) {
            noise(to + length, gap);
            length += gap;
            to[end - 1] = (uint8_t)(w->optional_length || one_in(4) ? length - (end - 1) : 0);
            if (to[end - 1]) {
                memcpy(to + length, w->optional, w->optional_length);
                length += w->optional_length;
                to[length++] = 0;
            }
        }
    }
    if (one_in(3)) {
        size_t place = one_in(2) && end > pointers ? pointers + below((uint32_t)(end - pointers)) : below((uint32_t)length);
        to[place] = (uint8_t)(one_in(3) ? chance() : to[place] + below(5) - 2);
    }
    if (one_in(8))
        length -= below((uint32_t)length + 1);
    return length;
}

static void generated_sccp(void)
{
    static struct given w;
    static uint8_t m[2048], scratch[1024];
    for (unsigned i = 0; i < MESSAGES / 2; i++) {
        some_unit(&w);
        size_t length = one_in(20) ? below(20) : some_unit_message(&w, m);
        if (one_in(40)) {
            m[0] = (uint8_t)chance();
        } else if (one_in(20)) {
            noise(m + 1, length + 8);
            for (size_t k = 1; k < 24; k++)
                m[k] &= 7;
        }
        try_sccp_read(m, length, one_in(8) ? below(14) : 11);
        uint32_t size = plain_sccp_compact(m, length, scratch, 1024);
        try_sccp_compact(m, length, near(size >> 16 ? 0 : size));
        if (one_in(8))
            w.type = one_in(4) ? chance() : below(24);
        if (one_in(8))
            w.fixed_length = below(12);
        if (one_in(16))
            w.third_length = below(5);
        if (one_in(16))
            w.second_length = below(5);
        if (one_in(16))
            w.optional_length = some_run(w.optional, 30);
        if (w.optional_length && one_in(8))
            w.optional[below((uint32_t)w.optional_length)] = (uint8_t)(one_in(2) ? 0 : chance());
        size = plain_sccp_write(w.type, w.fixed, w.fixed_length, w.first, w.first_length, w.second, w.second_length, w.third,
                                w.third_length, w.optional, w.optional_length, scratch, 1024);
        try_sccp_write(&w, near(size >> 16 ? 0 : size));
    }
}

/* ------------------------------------------------------------------------------------------------ velocities */

static double of_bits(uint64_t bits)
{
    double value;
    memcpy(&value, &bits, sizeof value);
    return value;
}

/* A speed and its codes, horizontal and vertical; 26 for both where `code` is below 0. */
static void speeds(const char *what, double value, long code, long vertical)
{
    uint16_t codes[3];
    want(what, "speed", try_velocity(0, value, NULL, 2, codes), code < 0 ? REFUSED(26) : 2);
    if (code >= 0)
        want(what, "speed's code", codes[1], (uint64_t)code);
    want(what, "vertical", try_velocity(0, 0, &value, 3, codes), code < 0 ? REFUSED(26) : 3);
    if (code >= 0)
        want(what, "vertical's code", codes[2], (uint64_t)vertical);
}

static void bearings(const char *what, double value, long code)
{
    uint16_t codes[3];
    want(what, "bearing", try_velocity(value, 1, NULL, 2, codes), code < 0 ? REFUSED(26) : 2);
    if (code >= 0)
        want(what, "bearing's code", codes[0], (uint64_t)code);
    want(what, "bearing", try_velocity(value, 1, &value, 3, codes), code < 0 ? REFUSED(26) : 3);
}

static void velocity_cases(void)
{
    static const uint64_t wrong[9] = {0x7FF8000000000000u, 0x7FF0000000000001u, 0xFFF8000000000000u, 0xFFFFFFFFFFFFFFFFu,
                                      0x7FF0000000000000u, 0xFFF0000000000000u, 0xBFF0000000000000u, 0x8000000000000001u,
                                      0xC07F400000000000u};
    for (int i = 0; i < 9; i++) {
        speeds("wrong", of_bits(wrong[i]), -1, -1);
        bearings("wrong", of_bits(wrong[i]), -1);
    }
    speeds("minus zero", -0.0, 0, 0);
    speeds("the smallest", of_bits(1), 0, 0);
    speeds("0.49999999999999994", 0.49999999999999994, 0, 0);
    speeds("0.5", 0.5, 1, 1);
    speeds("1.4999999999999998", 1.4999999999999998, 1, 1);
    speeds("1.5", 1.5, 2, 2);
    speeds("2.5", 2.5, 3, 3);
    speeds("254.49999999999997", 254.49999999999997, 254, 254);
    speeds("254.5", 254.5, 255, 255);
    speeds("65534.49999999999", 65534.49999999999, 65534, 255);
    speeds("65534.5", 65534.5, 65535, 255);
    speeds("65536", 65536, 65535, 255);
    speeds("1e308", 1e308, 65535, 255);
    bearings("minus zero", -0.0, 0);
    bearings("the smallest", of_bits(1), 0);
    bearings("0.9999999999999999", 0.9999999999999999, 0);
    bearings("359.99999999999994", 359.99999999999994, 359);
    bearings("360", 360, -1);
    bearings("1e308", 1e308, -1);
    for (size_t count = 0; count <= 4; count++) {
        double vertical = 3;
        want("velocity, count", "1 2", try_velocity(1, 2, NULL, count, NULL), count < 2 ? REFUSED(13) : 2);
        want("vertical, count", "1 2 3", try_velocity(1, 2, &vertical, count, NULL), count < 3 ? REFUSED(13) : 3);
        want("velocity, count", "360 2", try_velocity(360, 2, NULL, count, NULL), REFUSED(26));
        want("velocity_read, count", "359 65535", try_velocity_read(359, 65535, count), count < 2 ? REFUSED(13) : 2);
        want("velocity_read, count", "360 0", try_velocity_read(360, 0, count), REFUSED(26));
        want("velocity_read, count", "0 65536", try_velocity_read(0, 65536, count), REFUSED(26));
        want("velocity_read, count", "65536 0", try_velocity_read(65536, 0, count), REFUSED(26));
    }
    /* Read back: N itself, and coded again the same. */
    for (uint32_t code = 0; code <= 65535; code++) {
        uint16_t codes[3];
        double values[2];
        uint32_t bearing = code % 360;
        try_velocity_read(bearing, code, 2);
        llachurep_velocity_read(bearing, code, values, 2);
        want("read back", "the value", values[0] == bearing && values[1] == code, 1);
        try_velocity(values[0], values[1], NULL, 2, codes);
        want("coded again", "the code", codes[0] == bearing && codes[1] == code, 1);
    }
}

/* Near a whole number or a half of one, or any 64 bits. */
static double some_value(uint32_t most)
{
    if (one_in(4))
        return of_bits((uint64_t)chance() << 32 | chance());
    double value = below(2 * most + 3) / 2.0;
    uint64_t bits;
    memcpy(&bits, &value, sizeof bits);
    return of_bits(bits + below(3) - (bits ? 1 : 0));
}

static void generated_velocities(void)
{
    for (unsigned i = 0; i < MESSAGES; i++) {
        double vertical = some_value(256);
        try_velocity(some_value(360), some_value(65536), one_in(2) ? &vertical : NULL, one_in(8) ? below(5) : 3, NULL);
        try_velocity_read(one_in(8) ? chance() : below(365), one_in(8) ? chance() : below(65540), one_in(8) ? below(4) : 2);
    }
}

/* ------------------------------------------------------------------------------------------------ all of it */

/* Each number that a function can give has come, and no other; each type was read, and each act was done. */
static void reached(void)
{
    static const char can[FUNCTIONS][27] = {
        [READ] = {1, 1, 1, 1, 1, 1, 1, 1, 1, 0, 0, 0, 0, 1},
        [WRITE] = {1, 0, 1, 1, 0, 0, 0, 0, 0, 1, 1, 1, 1, 1},
        [COMPACT] = {1, 1, 1, 1, 1, 1, 1, 1, 1, 0, 0, 0, 1, 1},
        [FIND] = {1, 1, 1, 1, 1, 1, 1, 1, 1, 0, 0, 1, 0, 1, 0, 1},
        [NUMBER_READ] = {1, 0, 0, 0, 0, 0, 0, 0, 0, 0, 0, 0, 0, 1, 1},
        [NUMBER_WRITE] = {1, 0, 0, 0, 0, 0, 0, 0, 0, 0, 0, 0, 0, 1, 1},
        [ACT] = {1, 1, 1, 1, 1, 1, 1, 1, 1, 0, 0, 0, 0, 1, 1, 0, 1, 1, 1, 1, 1, 1, 1},
        [BLOCK] = {[0] = 1, [9] = 1, [13] = 1, [16] = 1, [20] = 1},
        [VELOCITY_CODE] = {[0] = 1, [13] = 1, [26] = 1},
        [VELOCITY_VERTICAL] = {[0] = 1, [13] = 1, [26] = 1},
        [VELOCITY_READ] = {[0] = 1, [13] = 1, [26] = 1},
        [BICC_READ] = {1, 1, 1, 1, 1, 1, 1, 1, 1, 0, 0, 0, 0, 1},
        [BICC_WRITE] = {1, 0, 1, 1, 0, 0, 0, 0, 0, 0, 1, 1, 1, 1},
        [BICC_COMPACT] = {1, 1, 1, 1, 1, 1, 1, 1, 1, 0, 0, 0, 1, 1},
        [SCCP_READ] = {1, 1, 1, 1, 1, 1, 1, 1, 1, 0, 0, 0, 0, 1},
        [SCCP_WRITE] = {1, 0, 1, 1, 0, 0, 0, 0, 0, 0, 1, 1, 1, 1},
        [SCCP_COMPACT] = {1, 1, 1, 1, 1, 1, 1, 1, 1, 0, 0, 0, 1, 1},
        [ASKING] = {[0] = 1, [9] = 1, [16] = 1, [18] = 1},
        [REBUILD] = {[0] = 1, [16] = 1},
        [PLANNING] = {[0] = 1, [13] = 1, [14] = 1, [16] = 1, [20] = 1, [25] = 1},
        [CHECKING] = {1, 1}, /* no and yes */
    };
    for (int f = 0; f < FUNCTIONS; f++) {
        printf("%-13s", names[f]);
        for (unsigned n = 0; n < 32; n++) {
            checks++;
            if (seen[f][n])
                printf(" %u:%lu", n, seen[f][n]);
            if ((seen[f][n] != 0) != (n < 27 && can[f][n]) && failed(names[f]))
                printf("  number %u came %lu times\n", n, seen[f][n]);
        }
        printf("\n");
    }
    for (unsigned type = 0; type < 256; type++) {
        unsigned known = 0, acting = 0;
        for (int i = 0; i < 24; i++)
            known |= types[i] == type;
        for (int i = 0; i < 9; i++)
            acting |= acted[i] == type;
        unsigned called = known && (type < 0x13 || type > 0x16);
        checks++;
        if ((known != (types_read[type] > 1000) || acting != (types_acted[type] > 1000) || called != (types_called[type] > 1000)) &&
            failed("types"))
            printf("  %02x was read %lu times, acted on %lu times, read of BICC %lu times\n", type, types_read[type],
                   types_acted[type], types_called[type]);
        checks++;
        if ((type >= 1 && type <= 18) != (types_roaming[type] > 1000) && failed("types of SCCP"))
            printf("  %02x was read %lu times\n", type, types_roaming[type]);
    }
}

int main(void)
{
    if (!make_pages()) {
        printf("boundary: no pages\n");
        return 2;
    }
    noise(before, sizeof before);
    noise((uint8_t *)&before_tables, sizeof before_tables);
    ready_tables();
    reader_cases();
    writer_cases();
    compact_cases();
    find_cases();
    number_cases();
    act_cases();
    helper_cases();
    block_cases();
    totals_cases();
    plan_cases();
    bicc_cases();
    sccp_cases();
    velocity_cases();
    generated();
    generated_nights();
    generated_sccp();
    generated_velocities();
    reached();
    printf("boundary: %lu checks, %lu failures\n", checks, failures);
    return failures != 0;
}
