/* bench FUNCTION MESSAGE WHO CALLS: so many calls of one function on one message, about some circuits (all, most, one) or for some
 * ticks (unticked, thirty, each), by the library (l), by the plain code (p) or by a function that only returns (n). bench/run counts the instructions. Before the calls,
 * both are seen to answer alike. */
#include <string.h>

#include "../tests/boundary/plain.h"
#include "llachurep.h"

/* One instruction, to be called as any of the others. */
__asm__(".text\n.globl bench_none\nbench_none:\n\tret\n");
void bench_none(void);

typedef uint32_t reading(const uint8_t *, size_t, uint16_t *, size_t);
typedef uint32_t writing(uint32_t, uint32_t, const uint8_t *, size_t, const uint8_t *, size_t, const uint8_t *, size_t,
                         const uint8_t *, size_t, uint8_t *, size_t);
typedef uint32_t compacting(const uint8_t *, size_t, uint8_t *, size_t);
typedef uint32_t calling(const uint8_t *, size_t, uint32_t *, size_t);
typedef uint32_t roaming(uint32_t, const uint8_t *, size_t, const uint8_t *, size_t, const uint8_t *, size_t,
                         const uint8_t *, size_t, const uint8_t *, size_t, uint8_t *, size_t);
typedef uint32_t finding(const uint8_t *, size_t, const uint8_t *, size_t, uint32_t, size_t *, size_t);
typedef uint64_t numbering(const uint8_t *, size_t, uint8_t *, size_t);
typedef uint32_t number_writing(uint32_t, uint32_t, uint32_t, const uint8_t *, size_t, uint8_t *, size_t);
typedef uint32_t acting(uint8_t *, size_t, const uint8_t *, size_t, const uint8_t *, size_t, uint8_t *, size_t, uint32_t,
                        const uint8_t *, size_t, uint8_t *, size_t);
typedef uint32_t blocking(uint8_t *, size_t, uint8_t *, size_t, uint32_t, uint32_t, uint8_t *, size_t);
typedef uint64_t asking(const uint8_t *, size_t, const uint8_t *, size_t, uint32_t, uint32_t);
typedef uint32_t rebuilding(const uint8_t *, size_t, uint8_t *, size_t);
typedef uint32_t planning(const uint8_t *, size_t, const uint8_t *, size_t, const uint8_t *, size_t, const uint8_t *, size_t, uint32_t,
                          uint32_t, uint8_t *, size_t);
typedef uint32_t checking(const uint8_t *, size_t, const uint8_t *, size_t, const uint8_t *, size_t, const uint8_t *, size_t, uint32_t,
                          uint32_t, const uint8_t *, size_t);

static uint8_t m[268], states[4096], owners[4096], helpers[4096], ticks[4096], totals[64];
static size_t length;
static uint32_t last_name, first, last;
static volatile uint64_t sink;

static void put(unsigned octet)
{
    m[length++] = (uint8_t)octet;
}

static void put_parameter(unsigned name, unsigned size)
{
    put(name);
    put(size);
    for (unsigned i = 0; i < size; i++)
        put(7 * i + name);
    last_name = name;
}

/* An IAM with a number of 12 digits; its optional part comes next. */
static void put_iam(void)
{
    static const uint8_t start[] = {0x01, 0x00, 0x01, 0x00, 0x60, 0x01, 0x0A, 0x00, 0x02, 0x0A, 0x08,
                                    0x03, 0x10, 0x21, 0x43, 0x65, 0x87, 0x09, 0x21};
    memcpy(m, start, sizeof start);
    length = sizeof start;
}

/* The circuits that a question is about. */
static int circuits(const char *name)
{
    first = strcmp(name, "all") == 0 ? 0 : strcmp(name, "most") == 0 ? 1 : 5;
    last = strcmp(name, "all") == 0 ? 4095 : strcmp(name, "most") == 0 ? 4094 : 5;
    return last > 5 || strcmp(name, "one") == 0;
}

/* The circuits that are ticked for a night. */
static int night(const char *name)
{
    if (strcmp(name, "thirty") == 0)
        memset(ticks + 100, 1, 30);
    else if (strcmp(name, "each") == 0)
        memset(ticks, 1, sizeof ticks);
    else
        return strcmp(name, "unticked") == 0;
    return 1;
}

static int message(const char *name)
{
    if (strcmp(name, "grs") == 0 || circuits(name) || night(name)) {
        static const uint8_t grs[] = {0x05, 0x00, 0x17, 0x01, 0x01, 0x03};
        memcpy(m, grs, sizeof grs);
        length = sizeof grs;
    } else if (strcmp(name, "iam3") == 0) {
        put_iam();
        put_parameter(0x0A, 8);
        put_parameter(0x1D, 3);
        put_parameter(0x03, 4);
        put(0);
    } else if (strcmp(name, "iam29") == 0) {
        put_iam();
        for (unsigned i = 0; i < 28; i++)
            put_parameter(0x20 + i, 6);
        put_parameter(0x80, 22);
        put(0);
    } else if (strcmp(name, "cgb") == 0) {
        static const uint8_t cgb[] = {0x00, 0x00, 0x18, 0x00, 0x01, 0x21, 0xFF};
        memcpy(m, cgb, sizeof cgb);
        length = sizeof cgb;
        for (unsigned i = 0; i < 32; i++)
            put(1u << i % 8);
    } else if (strcmp(name, "cqm") == 0) {
        static const uint8_t cqm[] = {0x00, 0x00, 0x2A, 0x01, 0x01, 0x1F};
        memcpy(m, cqm, sizeof cqm);
        length = sizeof cqm;
    } else if (strcmp(name, "cpg") == 0) {
        static const uint8_t cpg[] = {0x01, 0x00, 0x2C, 0x02, 0x00};
        memcpy(m, cpg, sizeof cpg);
        length = sizeof cpg;
    } else if (strcmp(name, "udt") == 0) {
        /* UDT, class 0: called and calling address of 2 octets, data of 20. */
        static const uint8_t udt[] = {0x09, 0x00, 0x03, 0x05, 0x07, 0x02, 0x42, 0x08, 0x02, 0x42, 0x06, 0x14};
        memcpy(m, udt, sizeof udt);
        length = sizeof udt;
        for (unsigned i = 0; i < 20; i++)
            put(3 * i);
    } else if (strcmp(name, "xudt") == 0) {
        /* XUDT: the same with a hop counter, a segmentation and an importance parameter. */
        static const uint8_t xudt[] = {0x11, 0x00, 0x0F, 0x04, 0x06, 0x08, 0x1C, 0x02, 0x42, 0x08, 0x02, 0x42, 0x06, 0x14};
        memcpy(m, xudt, sizeof xudt);
        length = sizeof xudt;
        for (unsigned i = 0; i < 20; i++)
            put(3 * i);
        put_parameter(0x10, 4);
        put_parameter(0x12, 1);
        put(0);
    } else if (strcmp(name, "unknown") == 0) {
        static const uint8_t unknown[] = {0x05, 0x00, 0xFF, 0x01, 0x01, 0x03};
        memcpy(m, unknown, sizeof unknown);
        length = sizeof unknown;
    } else {
        return 0;
    }
    return 1;
}

/* The functions of SCCP, whose messages are not those of the others; and the planner with its check. */
static int sccp(const char *function, char who, unsigned calls);
static int nights(const char *function, char who, unsigned calls);

#define PICK(type, name) (who == 'l' ? llachurep_##name : who == 'p' ? plain_##name : (type *)bench_none)

int main(int count, char **words)
{
    if (count != 5 || !message(words[2]))
        return 2;
    const char *function = words[1];
    char who = words[3][0];
    unsigned calls = 0;
    for (const char *c = words[4]; *c; c++)
        calls = 10 * calls + (unsigned)(*c - '0');
    if (strcmp(function, "sccp_read") == 0 || strcmp(function, "sccp_write") == 0 || strcmp(function, "sccp_compact") == 0)
        return sccp(function, who, calls);
    if (strcmp(function, "plan") == 0 || strcmp(function, "check_plan") == 0)
        return nights(function, who, calls);

    uint16_t parts[10] = {0}, parts_of_plain[10] = {0};
    uint32_t values[10] = {0}, values_of_plain[10] = {0};
    uint8_t out[270] = {0}, out_of_plain[270] = {0}, call[270] = {0x01, 0x02, 0x03, 0x04};
    size_t stretch[2] = {0}, stretch_of_plain[2];
    static uint8_t states_of_plain[4096], totals_of_plain[64];
    memset(owners, 7, sizeof owners);
    memcpy(call + 4, m + 2, length - 2); /* the same message of BICC */
    uint32_t reading_answer = llachurep_read(m, length, parts, 10);
    if (plain_read(m, length, parts_of_plain, 10) != reading_answer || memcmp(parts, parts_of_plain, sizeof parts) != 0)
        return 1;
    if ((reading_answer != 10) != (strcmp(words[2], "unknown") == 0)) /* the one message that is refused */
        return 1;

    if (strcmp(function, "read") == 0) {
        reading *volatile f = PICK(reading, read);
        for (unsigned i = 0; i < calls; i++)
            sink += f(m, length, parts, 10);
    } else if (strcmp(function, "write") == 0) {
        const uint8_t *fixed = m + parts[2], *first = m + parts[4], *second = m + parts[6], *optional = m + parts[8];
        uint32_t size = llachurep_write(parts[0], parts[1], fixed, parts[3], first, parts[5], second, parts[7], optional,
                                        parts[9], out, sizeof out);
        if (size != length || memcmp(out, m, length) != 0 ||
            plain_write(parts[0], parts[1], fixed, parts[3], first, parts[5], second, parts[7], optional, parts[9],
                        out_of_plain, sizeof out) != size || memcmp(out_of_plain, m, length) != 0)
            return 1;
        writing *volatile f = PICK(writing, write);
        for (unsigned i = 0; i < calls; i++)
            sink += f(parts[0], parts[1], fixed, parts[3], first, parts[5], second, parts[7], optional, parts[9], out,
                      sizeof out);
    } else if (strcmp(function, "compact") == 0) {
        uint32_t size = llachurep_compact(m, length, out, sizeof out);
        if (size != length || memcmp(out, m, length) != 0 ||
            plain_compact(m, length, out_of_plain, sizeof out) != size || memcmp(out_of_plain, m, length) != 0)
            return 1;
        compacting *volatile f = PICK(compacting, compact);
        for (unsigned i = 0; i < calls; i++)
            sink += f(m, length, out, sizeof out);
    } else if (strcmp(function, "bicc_read") == 0) {
        if (llachurep_bicc_read(call, length + 2, values, 10) != 10 ||
            plain_bicc_read(call, length + 2, values_of_plain, 10) != 10 || memcmp(values, values_of_plain, sizeof values) != 0)
            return 1;
        calling *volatile f = PICK(calling, bicc_read);
        for (unsigned i = 0; i < calls; i++)
            sink += f(call, length + 2, values, 10);
    } else if (strcmp(function, "bicc_write") == 0) {
        const uint8_t *fixed = m + parts[2], *first = m + parts[4], *second = m + parts[6], *optional = m + parts[8];
        uint32_t size = llachurep_bicc_write(0x04030201, parts[1], fixed, parts[3], first, parts[5], second, parts[7],
                                             optional, parts[9], out, sizeof out);
        if (size != length + 2 || memcmp(out, call, length + 2) != 0 ||
            plain_bicc_write(0x04030201, parts[1], fixed, parts[3], first, parts[5], second, parts[7], optional, parts[9],
                             out_of_plain, sizeof out) != size || memcmp(out_of_plain, call, length + 2) != 0)
            return 1;
        writing *volatile f = PICK(writing, bicc_write);
        for (unsigned i = 0; i < calls; i++)
            sink += f(0x04030201, parts[1], fixed, parts[3], first, parts[5], second, parts[7], optional, parts[9], out,
                      sizeof out);
    } else if (strcmp(function, "bicc_compact") == 0) {
        uint32_t size = llachurep_bicc_compact(call, length + 2, out, sizeof out);
        if (size != length + 2 || memcmp(out, call, length + 2) != 0 ||
            plain_bicc_compact(call, length + 2, out_of_plain, sizeof out) != size || memcmp(out_of_plain, call, length + 2) != 0)
            return 1;
        compacting *volatile f = PICK(compacting, bicc_compact);
        for (unsigned i = 0; i < calls; i++)
            sink += f(call, length + 2, out, sizeof out);
    } else if (strcmp(function, "find") == 0) {
        if (llachurep_find(m, length, 0, 0, last_name, stretch, 2) != 0 ||
            plain_find(m, length, 0, 0, last_name, stretch_of_plain, 2) != 0 ||
            memcmp(stretch, stretch_of_plain, sizeof stretch) != 0)
            return 1;
        finding *volatile f = PICK(finding, find);
        for (unsigned i = 0; i < calls; i++)
            sink += f(m, length, 0, 0, last_name, stretch, 2);
    } else if (strcmp(function, "number") == 0) {
        uint64_t answer = llachurep_number_read(m + parts[4], parts[5], out, sizeof out);
        if (LLACHUREP_NUMBER_COUNT(answer) != 12 ||
            plain_number_read(m + parts[4], parts[5], out_of_plain, sizeof out) != answer || memcmp(out, out_of_plain, 12) != 0)
            return 1;
        numbering *volatile f = PICK(numbering, number_read);
        for (unsigned i = 0; i < calls; i++)
            sink += f(m + parts[4], parts[5], out, sizeof out);
    } else if (strcmp(function, "number_write") == 0) {
        static const uint8_t digits[12] = {1, 2, 3, 4, 5, 6, 7, 8, 9, 0, 1, 2};
        uint32_t size = llachurep_number_write(3, 1, 0, digits, sizeof digits, out, sizeof out);
        if (size != 8 || memcmp(out, m + parts[4], size) != 0 ||
            plain_number_write(3, 1, 0, digits, sizeof digits, out_of_plain, sizeof out) != size || memcmp(out, out_of_plain, size) != 0)
            return 1;
        number_writing *volatile f = PICK(number_writing, number_write);
        for (unsigned i = 0; i < calls; i++)
            sink += f(3, 1, 0, digits, sizeof digits, out, sizeof out);
    } else if (strcmp(function, "act") == 0) {
        uint32_t size = llachurep_act(states, 4096, owners, 4096, helpers, 4096, totals, 64, 7, m, length, out, sizeof out);
        if (size >> 16 ||
            plain_act(states_of_plain, 4096, owners, 4096, helpers, 4096, totals_of_plain, 64, 7, m, length, out_of_plain,
                      sizeof out) != size ||
            memcmp(out, out_of_plain, sizeof out) != 0 || memcmp(states, states_of_plain, sizeof states) != 0 ||
            memcmp(totals, totals_of_plain, sizeof totals) != 0)
            return 1;
        acting *volatile f = PICK(acting, act);
        for (unsigned i = 0; i < calls; i++) {
            states[parts[0]] = 0; /* so that an IAM is accepted each time */
            sink += f(states, 4096, owners, 4096, helpers, 4096, totals, 64, 7, m, length, out, sizeof out);
        }
    } else if (strcmp(function, "block") == 0) {
        if (llachurep_block(states, 4096, totals, 64, first, 1, out, sizeof out) != 3 ||
            plain_block(states_of_plain, 4096, totals_of_plain, 64, first, 1, out_of_plain, sizeof out) != 3 ||
            memcmp(out, out_of_plain, sizeof out) != 0 || memcmp(states, states_of_plain, sizeof states) != 0 ||
            memcmp(totals, totals_of_plain, sizeof totals) != 0)
            return 1;
        blocking *volatile f = PICK(blocking, block);
        for (unsigned i = 0; i < calls; i++)
            sink += f(states, 4096, totals, 64, first, 1, out, sizeof out);
    } else if (strcmp(function, "rebuild") == 0) {
        for (unsigned i = 0; i < 4096; i++)
            states[i] = (uint8_t)(7 * i);
        if (llachurep_rebuild(states, 4096, totals, 64) != 64 || plain_rebuild(states, 4096, totals_of_plain, 64) != 64 ||
            memcmp(totals, totals_of_plain, sizeof totals) != 0)
            return 1;
        rebuilding *volatile f = PICK(rebuilding, rebuild);
        for (unsigned i = 0; i < calls; i++)
            sink += f(states, 4096, totals, 64);
    } else if (strcmp(function, "busy") == 0) {
        for (unsigned i = 0; i < 4096; i++)
            states[i] = (uint8_t)(7 * i);
        llachurep_rebuild(states, 4096, totals, 64);
        uint64_t answer = llachurep_busy(states, 4096, totals, 64, first, last);
        if (answer >> 32 || plain_busy(states, 4096, totals, 64, first, last) != answer)
            return 1;
        asking *volatile f = PICK(asking, busy);
        for (unsigned i = 0; i < calls; i++)
            sink += f(states, 4096, totals, 64, first, last);
    } else {
        return 2;
    }
    return 0;
}

static int sccp(const char *function, char who, unsigned calls)
{
    uint16_t parts[11] = {0}, parts_of_plain[11] = {0};
    uint8_t out[268] = {0}, out_of_plain[268] = {0};
    if (llachurep_sccp_read(m, length, parts, 11) != 11 || plain_sccp_read(m, length, parts_of_plain, 11) != 11 ||
        memcmp(parts, parts_of_plain, sizeof parts) != 0)
        return 1;
    const uint8_t *fixed = m + parts[1], *first = m + parts[3], *second = m + parts[5], *third = m + parts[7], *optional = m + parts[9];
    if (llachurep_sccp_write(parts[0], fixed, parts[2], first, parts[4], second, parts[6], third, parts[8], optional, parts[10], out,
                             sizeof out) != length || memcmp(out, m, length) != 0 ||
        plain_sccp_write(parts[0], fixed, parts[2], first, parts[4], second, parts[6], third, parts[8], optional, parts[10],
                         out_of_plain, sizeof out) != length || memcmp(out_of_plain, m, length) != 0 ||
        llachurep_sccp_compact(m, length, out, sizeof out) != length || memcmp(out, m, length) != 0 ||
        plain_sccp_compact(m, length, out_of_plain, sizeof out) != length || memcmp(out_of_plain, m, length) != 0)
        return 1;
    if (strcmp(function, "sccp_read") == 0) {
        reading *volatile f = PICK(reading, sccp_read);
        for (unsigned i = 0; i < calls; i++)
            sink += f(m, length, parts, 11);
    } else if (strcmp(function, "sccp_write") == 0) {
        roaming *volatile f = PICK(roaming, sccp_write);
        for (unsigned i = 0; i < calls; i++)
            sink += f(parts[0], fixed, parts[2], first, parts[4], second, parts[6], third, parts[8], optional, parts[10], out,
                      sizeof out);
    } else if (strcmp(function, "sccp_compact") == 0) {
        compacting *volatile f = PICK(compacting, sccp_compact);
        for (unsigned i = 0; i < calls; i++)
            sink += f(m, length, out, sizeof out);
    } else {
        return 2;
    }
    return 0;
}

static int nights(const char *function, char who, unsigned calls)
{
    static uint8_t plan[36864], plan_of_plain[36864];
    memset(owners, 7, sizeof owners);
    uint32_t size = llachurep_plan(states, 4096, owners, 4096, helpers, 4096, ticks, 4096, 7, 0, plan, sizeof plan);
    if (size >> 16 ||
        plain_plan(states, 4096, owners, 4096, helpers, 4096, ticks, 4096, 7, 0, plan_of_plain, sizeof plan) != size ||
        memcmp(plan, plan_of_plain, sizeof plan) != 0 ||
        llachurep_check_plan(states, 4096, owners, 4096, helpers, 4096, ticks, 4096, 7, 0, plan, size) != 1 ||
        plain_check_plan(states, 4096, owners, 4096, helpers, 4096, ticks, 4096, 7, 0, plan, size) != 1)
        return 1;
    if (strcmp(function, "plan") == 0) {
        planning *volatile f = PICK(planning, plan);
        for (unsigned i = 0; i < calls; i++)
            sink += f(states, 4096, owners, 4096, helpers, 4096, ticks, 4096, 7, 0, plan, sizeof plan);
    } else {
        checking *volatile f = PICK(checking, check_plan);
        for (unsigned i = 0; i < calls; i++)
            sink += f(states, 4096, owners, 4096, helpers, 4096, ticks, 4096, 7, 0, plan, size);
    }
    return 0;
}
