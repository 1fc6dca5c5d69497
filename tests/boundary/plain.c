/* Documents 01 and 02 in plain C, written from the paper and not from the proved code. The boundary test holds the library to it,
 * and the benchmark takes it as the yardstick: bounds are checked, as a careful programmer does, nothing is done twice, and
 * what is inlined is left to the compiler. */
#include "plain.h"

#include <string.h>

enum { SHORTEST = 3, LONGEST = 268, CIRCUITS = 4096, BLOCK = 64, TOTALS = 64 };

enum {
    IAM = 0x01, SAM = 0x02, COT = 0x05, ACM = 0x06, CON = 0x07, ANM = 0x09, REL = 0x0C, SUS = 0x0D, RES = 0x0E,
    RLC = 0x10, RSC = 0x12, BLO = 0x13, UBL = 0x14, BLA = 0x15, UBA = 0x16, GRS = 0x17, CGB = 0x18, CGU = 0x19,
    CGBA = 0x1A, CGUA = 0x1B, GRA = 0x29, CQM = 0x2A, CQR = 0x2B, CPG = 0x2C
};

struct shape {
    uint8_t known, fixed, variable, optional;
};

static const struct shape shapes[256] = {
    [IAM] = {1, 5, 1, 1},
    [SAM] = {1, 0, 1, 1}, [REL] = {1, 0, 1, 1},
    [COT] = {1, 1, 0, 0},
    [ACM] = {1, 2, 0, 1}, [CON] = {1, 2, 0, 1},
    [ANM] = {1, 0, 0, 1}, [RLC] = {1, 0, 0, 1},
    [SUS] = {1, 1, 0, 1}, [RES] = {1, 1, 0, 1}, [CPG] = {1, 1, 0, 1},
    [RSC] = {1, 0, 0, 0}, [BLO] = {1, 0, 0, 0}, [UBL] = {1, 0, 0, 0}, [BLA] = {1, 0, 0, 0}, [UBA] = {1, 0, 0, 0},
    [GRS] = {1, 0, 1, 0}, [GRA] = {1, 0, 1, 0}, [CQM] = {1, 0, 1, 0},
    [CGB] = {1, 1, 1, 0}, [CGU] = {1, 1, 1, 0}, [CGBA] = {1, 1, 1, 0}, [CGUA] = {1, 1, 1, 0},
    [CQR] = {1, 0, 2, 0},
};

/* A refusal's number above, the octet that it is about below. */
static uint32_t placed(unsigned number, unsigned place)
{
    return (uint32_t)number << 16 | place;
}

/* A number that is about no octet. */
static uint32_t refusal(unsigned number)
{
    return placed(number, 0);
}

/* ------------------------------------------------------------------------------------------------ the reader */

struct stretch {
    unsigned start, length;
};

struct message {
    unsigned circuit, type;
    struct stretch fixed, variable[2], optional;
};

/* The later of two starts. */
static unsigned later(unsigned a, unsigned b)
{
    return a < b ? b : a;
}

/* The variable parameter that the pointer at `place` points at: 5 about the pointer, then 6 about the length octet. */
static uint32_t parse_variable(const uint8_t *octets, unsigned l, unsigned end, unsigned place, struct stretch *x)
{
    unsigned target = place + octets[place];
    if (target < end || target >= l) /* a pointer of 0 points at itself, before the end */
        return placed(5, place);
    unsigned size = octets[target];
    if (target + 1 + size > l)
        return placed(6, target);
    x->start = target + 1;
    x->length = size;
    return 0;
}

/* 1, 2, 3, 4; each variable pointer in turn 5 then 6; the optional pointer 5 then 7; then 8; from 3 on with the octet.
 * 0 is accepted. */
static uint32_t parse(const uint8_t *octets, size_t length, struct message *x)
{
    if (length < SHORTEST)
        return refusal(1);
    if (length > LONGEST)
        return refusal(2);
    unsigned l = (unsigned)length;
    struct shape row = shapes[octets[2]];
    if (!row.known)
        return placed(3, 2);
    unsigned pointers = 3u + row.fixed;
    unsigned end = pointers + row.variable + row.optional;
    if (end > l)
        return placed(4, l);

    struct stretch first = {0, 0}, second = {0, 0}, optional = {0, 0};
    uint32_t fault;
    if (row.variable >= 1) {
        fault = parse_variable(octets, l, end, pointers, &first);
        if (fault)
            return fault;
    }
    if (row.variable == 2) {
        fault = parse_variable(octets, l, end, pointers + 1, &second);
        if (fault)
            return fault;
    }
    if (row.optional && octets[end - 1] != 0) {
        unsigned target = end - 1 + octets[end - 1];
        if (target >= l)
            return placed(5, end - 1);
        unsigned at = target;
        while (octets[at] != 0) {
            if (at + 1 >= l)
                return placed(7, at);
            unsigned next = at + 2u + octets[at + 1];
            if (next >= l) /* it passes the end, or a name is due at the end */
                return placed(7, next > l ? at : l);
            at = next;
        }
        optional.start = target;
        optional.length = at - target;
        /* A variable parameter begins at its length octet, an optional part ends with its closing 0. */
        if (row.variable >= 1 && target < first.start + first.length && first.start - 1 < at + 1)
            return placed(8, later(first.start - 1, target));
    }
    /* No type has two variable parameters and an optional part. */
    if (row.variable == 2 && first.start - 1 < second.start + second.length && second.start - 1 < first.start + first.length)
        return placed(8, later(first.start - 1, second.start - 1));

    x->circuit = octets[0] + 256u * (octets[1] & 15u);
    x->type = octets[2];
    x->fixed.start = row.fixed ? 3 : 0;
    x->fixed.length = row.fixed;
    x->variable[0] = first;
    x->variable[1] = second;
    x->optional = optional;
    return 0;
}

uint32_t plain_read(const uint8_t *message, size_t length, uint16_t *parts, size_t count)
{
    struct message x;
    uint32_t fault = parse(message, length, &x);
    if (fault)
        return fault;
    if (count < 10)
        return refusal(13);
    parts[0] = (uint16_t)x.circuit;
    parts[1] = (uint16_t)x.type;
    parts[2] = (uint16_t)x.fixed.start;
    parts[3] = (uint16_t)x.fixed.length;
    parts[4] = (uint16_t)x.variable[0].start;
    parts[5] = (uint16_t)x.variable[0].length;
    parts[6] = (uint16_t)x.variable[1].start;
    parts[7] = (uint16_t)x.variable[1].length;
    parts[8] = (uint16_t)x.optional.start;
    parts[9] = (uint16_t)x.optional.length;
    return 10;
}

/* ------------------------------------------------------------------------------------------------ optional runs */

/* A run without its closing 0. 0, or 11: a name 0, or a parameter that passes its end. */
static unsigned walk(const uint8_t *run, size_t length)
{
    for (size_t at = 0; at < length;) {
        if (run[at] == 0 || length - at < 2 || length - at - 2 < run[at + 1])
            return 11;
        at += 2u + run[at + 1];
    }
    return 0;
}

/* The first parameter of that name in a run that is right; whether there is one. */
static int search(const uint8_t *run, size_t length, uint32_t name, size_t *start, size_t *size)
{
    for (size_t at = 0; at < length; at += 2u + run[at + 1]) {
        if (run[at] == name) {
            *start = at + 2;
            *size = run[at + 1];
            return 1;
        }
    }
    return 0;
}

/* The reader's, 11 for the defaults, 15, 13. */
uint32_t plain_find(const uint8_t *message, size_t length, const uint8_t *defaults, size_t defaults_length,
                    uint32_t name, size_t *stretch, size_t count)
{
    struct message x;
    uint32_t fault = parse(message, length, &x);
    if (fault)
        return fault;
    if (walk(defaults, defaults_length))
        return refusal(11);
    size_t start, size;
    uint32_t holder;
    if (x.optional.length && search(message + x.optional.start, x.optional.length, name, &start, &size)) {
        start += x.optional.start;
        holder = 0;
    } else if (search(defaults, defaults_length, name, &start, &size)) {
        holder = 100;
    } else {
        return refusal(15);
    }
    if (count < 2)
        return refusal(13);
    stretch[0] = start;
    stretch[1] = size;
    return holder;
}

/* ------------------------------------------------------------------------------------------------ the writer */

static uint8_t *put(uint8_t *at, const uint8_t *octets, size_t count)
{
    if (count)
        memcpy(at, octets, count);
    return at + count;
}

/* 12, 2, 13, then the compact form. The parts fit the shape. */
static uint32_t compose(uint32_t circuit, uint32_t type, struct shape row, const uint8_t *fixed, const uint8_t *first,
                        size_t first_length, const uint8_t *second, size_t second_length, const uint8_t *optional,
                        size_t optional_length, uint8_t *out, size_t room)
{
    if (first_length > 255 || second_length > 255)
        return refusal(12);
    size_t end = 3u + row.fixed + row.variable + row.optional;
    size_t second_at = end + 1 + first_length;
    size_t optional_at = end + row.variable + first_length + second_length;
    size_t second_pointer = second_at - (4u + row.fixed);
    size_t optional_pointer = optional_length ? optional_at - (end - 1) : 0;
    if ((row.variable == 2 && second_pointer > 255) || optional_pointer > 255)
        return refusal(12);
    if (optional_length > LONGEST)
        return refusal(2);
    size_t total = optional_at + (optional_length ? optional_length + 1 : 0);
    if (total > LONGEST)
        return refusal(2);
    if (total > room)
        return refusal(13);

    uint8_t *at = out;
    *at++ = (uint8_t)circuit;
    *at++ = (uint8_t)(circuit >> 8);
    *at++ = (uint8_t)type;
    at = put(at, fixed, row.fixed);
    if (row.variable >= 1)
        *at++ = (uint8_t)(row.variable + row.optional);
    if (row.variable == 2)
        *at++ = (uint8_t)second_pointer;
    if (row.optional)
        *at++ = (uint8_t)optional_pointer;
    if (row.variable >= 1) {
        *at++ = (uint8_t)first_length;
        at = put(at, first, first_length);
    }
    if (row.variable == 2) {
        *at++ = (uint8_t)second_length;
        at = put(at, second, second_length);
    }
    if (optional_length) {
        at = put(at, optional, optional_length);
        *at = 0;
    }
    return (uint32_t)total;
}

/* 9, 3, 10, 11, 12, 2, 13. */
uint32_t plain_write(uint32_t circuit, uint32_t type, const uint8_t *fixed, size_t fixed_length, const uint8_t *first,
                     size_t first_length, const uint8_t *second, size_t second_length, const uint8_t *optional,
                     size_t optional_length, uint8_t *out, size_t room)
{
    if (circuit > 4095)
        return refusal(9);
    if (type > 255 || !shapes[type].known)
        return refusal(3);
    struct shape row = shapes[type];
    if (fixed_length != row.fixed || (first_length && row.variable < 1) || (second_length && row.variable < 2) ||
        (optional_length && !row.optional))
        return refusal(10);
    if (walk(optional, optional_length))
        return refusal(11);
    return compose(circuit, type, row, fixed, first, first_length, second, second_length, optional, optional_length, out,
                   room);
}

/* The reader's, 12, 13. */
uint32_t plain_compact(const uint8_t *message, size_t length, uint8_t *out, size_t room)
{
    struct message x;
    uint32_t fault = parse(message, length, &x);
    if (fault)
        return fault;
    return compose(x.circuit, x.type, shapes[x.type], message + x.fixed.start, message + x.variable[0].start,
                   x.variable[0].length, message + x.variable[1].start, x.variable[1].length,
                   message + x.optional.start, x.optional.length, out, room);
}

/* ------------------------------------------------------------------------------------------------ BICC */

/* From its third octet on a BICC message is one of ISUP's, two octets of code in the circuit number's place: each place is two
 * octets further on, and the longest has two octets more. Four types are ISUP's alone. */
static int isup_only(unsigned type)
{
    return type == BLO || type == UBL || type == BLA || type == UBA;
}

/* The reader's numbers, with their octets. */
static uint32_t parse_call(const uint8_t *octets, size_t length, struct message *x)
{
    if (length < 2 + SHORTEST)
        return refusal(1);
    if (length <= 2 + LONGEST && isup_only(octets[4]))
        return placed(3, 4);
    uint32_t fault = parse(octets + 2, length - 2, x);
    return fault >> 16 < 3 ? fault : fault + 2;
}

/* A start in the whole message; nothing stands at 0. */
static uint32_t moved(unsigned start)
{
    return start ? start + 2 : 0;
}

uint32_t plain_bicc_read(const uint8_t *message, size_t length, uint32_t *parts, size_t count)
{
    struct message x;
    uint32_t fault = parse_call(message, length, &x);
    if (fault)
        return fault;
    if (count < 10)
        return refusal(13);
    parts[0] = message[0] | (uint32_t)message[1] << 8 | (uint32_t)message[2] << 16 | (uint32_t)message[3] << 24;
    parts[1] = x.type;
    parts[2] = moved(x.fixed.start);
    parts[3] = x.fixed.length;
    parts[4] = moved(x.variable[0].start);
    parts[5] = x.variable[0].length;
    parts[6] = moved(x.variable[1].start);
    parts[7] = x.variable[1].length;
    parts[8] = moved(x.optional.start);
    parts[9] = x.optional.length;
    return 10;
}

/* The low two octets of the code, then what ISUP's writer makes with the high two. */
static uint32_t compose_call(uint32_t code, uint32_t type, const uint8_t *fixed, const uint8_t *first,
                             size_t first_length, const uint8_t *second, size_t second_length, const uint8_t *optional,
                             size_t optional_length, uint8_t *out, size_t room)
{
    size_t left = room < 2 ? 0 : room - 2;
    uint32_t size = compose(code >> 16, type, shapes[type], fixed, first, first_length, second, second_length, optional,
                            optional_length, left ? out + 2 : out, left);
    if (size >> 16)
        return size;
    out[0] = (uint8_t)code;
    out[1] = (uint8_t)(code >> 8);
    return size + 2;
}

/* 3, 10, 11, 12, 2, 13. */
uint32_t plain_bicc_write(uint32_t code, uint32_t type, const uint8_t *fixed, size_t fixed_length, const uint8_t *first,
                          size_t first_length, const uint8_t *second, size_t second_length, const uint8_t *optional,
                          size_t optional_length, uint8_t *out, size_t room)
{
    if (type > 255 || !shapes[type].known || isup_only(type))
        return refusal(3);
    struct shape row = shapes[type];
    if (fixed_length != row.fixed || (first_length && row.variable < 1) || (second_length && row.variable < 2) ||
        (optional_length && !row.optional))
        return refusal(10);
    if (walk(optional, optional_length))
        return refusal(11);
    return compose_call(code, type, fixed, first, first_length, second, second_length, optional, optional_length, out,
                        room);
}

/* The reader's, 12, 13. */
uint32_t plain_bicc_compact(const uint8_t *message, size_t length, uint8_t *out, size_t room)
{
    struct message x;
    uint32_t fault = parse_call(message, length, &x);
    if (fault)
        return fault;
    const uint8_t *m = message + 2;
    uint32_t code = message[0] | (uint32_t)message[1] << 8 | (uint32_t)message[2] << 16 | (uint32_t)message[3] << 24;
    return compose_call(code, x.type, m + x.fixed.start, m + x.variable[0].start, x.variable[0].length,
                        m + x.variable[1].start, x.variable[1].length, m + x.optional.start, x.optional.length, out, room);
}

/* ------------------------------------------------------------------------------------------------ SCCP */

/* Source document 002, Table 1 and section 4: the octets of the parameters of type F after the type, how many there are of
 * type V, and whether there is a pointer to an optional part. LUDT and LUDTS, 13 and 14, are not built. */
static const struct shape sccp_shapes[256] = {
    [0x01] = {1, 4, 1, 1},  /* CR */
    [0x02] = {1, 7, 0, 1},  /* CC */
    [0x03] = {1, 4, 0, 1},  /* CREF */
    [0x04] = {1, 7, 0, 1},  /* RLSD */
    [0x05] = {1, 6, 0, 0},  /* RLC */
    [0x06] = {1, 4, 1, 0},  /* DT1 */
    [0x07] = {1, 5, 1, 0},  /* DT2 */
    [0x08] = {1, 5, 0, 0},  /* AK */
    [0x09] = {1, 1, 3, 0},  /* UDT */
    [0x0A] = {1, 1, 3, 0},  /* UDTS */
    [0x0B] = {1, 3, 1, 0},  /* ED */
    [0x0C] = {1, 3, 0, 0},  /* EA */
    [0x0D] = {1, 7, 0, 1},  /* RSR */
    [0x0E] = {1, 6, 0, 0},  /* RSC */
    [0x0F] = {1, 4, 0, 1},  /* ERR */
    [0x10] = {1, 10, 0, 0}, /* IT */
    [0x11] = {1, 2, 3, 1},  /* XUDT */
    [0x12] = {1, 2, 3, 1},  /* XUDTS */
};

struct unit {
    unsigned type;
    struct stretch fixed, variable[3], optional;
};

/* 1 for an empty message, 2 above 268, 3 about octet 0, 4; each variable pointer in turn 5 then 6; the optional pointer 5 then
 * 7; then 8: the pairs by first member, then second, parts in pointer order. */
static uint32_t parse_unit(const uint8_t *octets, size_t length, struct unit *x)
{
    if (length == 0)
        return refusal(1);
    if (length > LONGEST)
        return refusal(2);
    unsigned l = (unsigned)length;
    struct shape row = sccp_shapes[octets[0]];
    if (!row.known)
        return placed(3, 0);
    unsigned pointers = 1u + row.fixed;
    unsigned end = pointers + row.variable + row.optional;
    if (end > l)
        return placed(4, l);

    memset(x, 0, sizeof *x);
    unsigned from[4], past[4], count = 0; /* the parts that are there */
    for (unsigned i = 0; i < row.variable; i++) {
        uint32_t fault = parse_variable(octets, l, end, pointers + i, &x->variable[i]);
        if (fault)
            return fault;
        from[count] = x->variable[i].start - 1;
        past[count++] = x->variable[i].start + x->variable[i].length;
    }
    if (row.optional && octets[end - 1] != 0) {
        unsigned target = end - 1 + octets[end - 1];
        if (target >= l)
            return placed(5, end - 1);
        unsigned at = target;
        while (octets[at] != 0) {
            if (at + 1 >= l)
                return placed(7, at);
            unsigned next = at + 2u + octets[at + 1];
            if (next >= l)
                return placed(7, next > l ? at : l);
            at = next;
        }
        x->optional.start = target;
        x->optional.length = at - target;
        from[count] = target;
        past[count++] = at + 1;
    }
    for (unsigned i = 0; i + 1 < count; i++)
        for (unsigned j = i + 1; j < count; j++)
            if (from[i] < past[j] && from[j] < past[i])
                return placed(8, later(from[i], from[j]));
    x->type = octets[0];
    x->fixed.start = 1; /* every type has a fixed part */
    x->fixed.length = row.fixed;
    return 0;
}

uint32_t plain_sccp_read(const uint8_t *message, size_t length, uint16_t *parts, size_t count)
{
    struct unit x;
    uint32_t fault = parse_unit(message, length, &x);
    if (fault)
        return fault;
    if (count < 11)
        return refusal(13);
    parts[0] = (uint16_t)x.type;
    parts[1] = (uint16_t)x.fixed.start;
    parts[2] = (uint16_t)x.fixed.length;
    for (unsigned i = 0; i < 3; i++) {
        parts[3 + 2 * i] = (uint16_t)x.variable[i].start;
        parts[4 + 2 * i] = (uint16_t)x.variable[i].length;
    }
    parts[9] = (uint16_t)x.optional.start;
    parts[10] = (uint16_t)x.optional.length;
    return 11;
}

/* 12, 2, 13, then the compact form. The parts fit the shape. */
static uint32_t compose_unit(uint32_t type, struct shape row, const uint8_t *fixed, const uint8_t *const contents[3],
                             const size_t sizes[3], const uint8_t *optional, size_t optional_length, uint8_t *out, size_t room)
{
    size_t pointers = 1u + row.fixed;
    size_t next = pointers + row.variable + row.optional;
    uint8_t values[4];
    for (unsigned i = 0; i < row.variable; i++) {
        size_t value = next - (pointers + i);
        if (sizes[i] > 255 || value > 255)
            return refusal(12);
        values[i] = (uint8_t)value;
        next += 1 + sizes[i];
    }
    values[row.variable] = 0;
    if (optional_length) {
        size_t value = next - (pointers + row.variable);
        if (value > 255)
            return refusal(12);
        values[row.variable] = (uint8_t)value;
        if (optional_length > LONGEST)
            return refusal(2);
        next += optional_length + 1;
    }
    if (next > LONGEST)
        return refusal(2);
    if (next > room)
        return refusal(13);

    uint8_t *at = out;
    *at++ = (uint8_t)type;
    at = put(at, fixed, row.fixed);
    at = put(at, values, (size_t)row.variable + row.optional);
    for (unsigned i = 0; i < row.variable; i++) {
        *at++ = (uint8_t)sizes[i];
        at = put(at, contents[i], sizes[i]);
    }
    if (optional_length) {
        at = put(at, optional, optional_length);
        *at = 0;
    }
    return (uint32_t)next;
}

/* 3, 10, 11, 12, 2, 13. */
uint32_t plain_sccp_write(uint32_t type, const uint8_t *fixed, size_t fixed_length, const uint8_t *first, size_t first_length,
                          const uint8_t *second, size_t second_length, const uint8_t *third, size_t third_length,
                          const uint8_t *optional, size_t optional_length, uint8_t *out, size_t room)
{
    if (type > 255 || !sccp_shapes[type].known)
        return refusal(3);
    struct shape row = sccp_shapes[type];
    if (fixed_length != row.fixed || (first_length && row.variable < 1) || (second_length && row.variable < 2) ||
        (third_length && row.variable < 3) || (optional_length && !row.optional))
        return refusal(10);
    if (walk(optional, optional_length))
        return refusal(11);
    const uint8_t *const contents[3] = {first, second, third};
    const size_t sizes[3] = {first_length, second_length, third_length};
    return compose_unit(type, row, fixed, contents, sizes, optional, optional_length, out, room);
}

/* The reader's, 12, 13. */
uint32_t plain_sccp_compact(const uint8_t *message, size_t length, uint8_t *out, size_t room)
{
    struct unit x;
    uint32_t fault = parse_unit(message, length, &x);
    if (fault)
        return fault;
    const uint8_t *const contents[3] = {message + x.variable[0].start, message + x.variable[1].start,
                                        message + x.variable[2].start};
    const size_t sizes[3] = {x.variable[0].length, x.variable[1].length, x.variable[2].length};
    return compose_unit(x.type, sccp_shapes[x.type], message + x.fixed.start, contents, sizes, message + x.optional.start,
                        x.optional.length, out, room);
}

/* ------------------------------------------------------------------------------------------------ called numbers */

/* 14, 13. */
uint64_t plain_number_read(const uint8_t *contents, size_t length, uint8_t *signals, size_t room)
{
    if (length < 2 || length > 2 + 16)
        return (uint64_t)14 << 32;
    unsigned octets = (unsigned)length - 2, odd = contents[0] >> 7;
    if (odd && (octets == 0 || contents[length - 1] >> 4 != 0))
        return (uint64_t)14 << 32;
    unsigned count = 2 * octets - odd;
    if (count > 30)
        return (uint64_t)14 << 32;
    if (count > room)
        return (uint64_t)13 << 32;
    for (unsigned i = 0; i < count / 2; i++) {
        signals[2 * i] = contents[2 + i] & 15;
        signals[2 * i + 1] = contents[2 + i] >> 4;
    }
    if (odd)
        signals[count - 1] = contents[length - 1] & 15;
    return 65536u * (contents[0] & 127u) + 4096u * (contents[1] >> 7) + 256u * (contents[1] >> 4 & 7u) + count;
}

/* 14, 13. */
uint32_t plain_number_write(uint32_t nature, uint32_t plan, uint32_t internal, const uint8_t *signals, size_t count,
                            uint8_t *out, size_t room)
{
    if (nature > 127 || plan > 7 || internal > 1 || count > 30)
        return refusal(14);
    for (size_t i = 0; i < count; i++)
        if (signals[i] > 15)
            return refusal(14);
    size_t total = 2 + (count + 1) / 2;
    if (total > room)
        return refusal(13);
    out[0] = (uint8_t)(128 * (count % 2) + nature);
    out[1] = (uint8_t)(128 * internal + 16 * plan);
    for (size_t i = 0; i < count / 2; i++)
        out[2 + i] = (uint8_t)(signals[2 * i] | signals[2 * i + 1] << 4);
    if (count % 2)
        out[total - 1] = signals[count - 1];
    return (uint32_t)total;
}

/* ------------------------------------------------------------------------------------------------ velocities */

/* Whether a value is a finite number from 0 on; -0.0 is 0. */
static int measurable(double value)
{
    return value >= 0 && value <= 1.7976931348623157e308;
}

/* N - 0.5 <= h < N + 0.5; from top - 0.5 on, top. What is left over a whole number is exact below 65536. */
static uint16_t speed_code(double h, unsigned top)
{
    if (h >= top - 0.5)
        return (uint16_t)top;
    unsigned n = (unsigned)h;
    return (uint16_t)(h - n < 0.5 ? n : n + 1);
}

uint32_t plain_velocity_code(double bearing, double speed, uint16_t *codes, size_t count)
{
    if (!measurable(bearing) || !measurable(speed) || bearing >= 360)
        return refusal(26);
    if (count < 2)
        return refusal(13);
    codes[0] = (uint16_t)bearing;
    codes[1] = speed_code(speed, 65535);
    return 2;
}

uint32_t plain_velocity_code_vertical(double bearing, double speed, double vertical, uint16_t *codes, size_t count)
{
    if (!measurable(bearing) || !measurable(speed) || !measurable(vertical) || bearing >= 360)
        return refusal(26);
    if (count < 3)
        return refusal(13);
    codes[0] = (uint16_t)bearing;
    codes[1] = speed_code(speed, 65535);
    codes[2] = speed_code(vertical, 255);
    return 3;
}

uint32_t plain_velocity_read(uint32_t bearing, uint32_t speed, double *values, size_t count)
{
    if (bearing > 359 || speed > 65535)
        return refusal(26);
    if (count < 2)
        return refusal(13);
    values[0] = bearing;
    values[1] = speed;
    return 2;
}

/* ------------------------------------------------------------------------------------------------ the hub */

enum { BUSY = 1, MAINTENANCE = 2, HARDWARE = 4, LOCAL = 8 };

/* Legal states: 0, 1, 2, 3, 4, 6, and each of them with our own block, 8. */
static int legal(unsigned state)
{
    unsigned base = state & ~(unsigned)LOCAL;
    return base <= 4 || base == 6;
}

/* Idle 0C, busy 04; a remote maintenance block adds 02, a remote hardware block 20, our own block 01. */
static uint8_t circuit_state(unsigned state)
{
    return (uint8_t)((state & BUSY ? 0x04 : 0x0C) + (state & MAINTENANCE ? 0x02 : 0) + (state & HARDWARE ? 0x20 : 0) +
                     (state & LOCAL ? 0x01 : 0));
}

/* How many of the bits 0 to range are 1; those beyond are spare. */
static unsigned marks(const uint8_t *status, unsigned range)
{
    unsigned count = (unsigned)__builtin_popcount(status[range / 8] & (255u >> (7 - range % 8)));
    for (unsigned j = 0; j < range / 8; j++)
        count += (unsigned)__builtin_popcount(status[j]);
    return count;
}

/* How many rows of a block are busy. */
static uint8_t busy_in(const uint8_t *block)
{
    uint8_t count = 0;
    for (unsigned i = 0; i < BLOCK; i++)
        count += block[i] & BUSY;
    return count;
}

/* The blocks that hold the circuits first to last. */
static void recount(const uint8_t *states, uint8_t *totals, unsigned first, unsigned last)
{
    for (unsigned k = first / BLOCK; k <= last / BLOCK; k++)
        totals[k] = busy_in(states + BLOCK * k);
}

/* 16, the reader's, 17, 14, 18, 19, 22, 20, 21, 13. */
uint32_t plain_act(uint8_t *states, size_t states_length, const uint8_t *owners, size_t owners_length,
                   const uint8_t *helpers, size_t helpers_length, uint8_t *totals, size_t totals_length, uint32_t sender,
                   const uint8_t *message, size_t length, uint8_t *answer, size_t room)
{
    if (states_length != CIRCUITS || owners_length != CIRCUITS || helpers_length != CIRCUITS || totals_length != TOTALS)
        return refusal(16);
    struct message x;
    uint32_t fault = parse(message, length, &x);
    if (fault)
        return fault;

    const uint8_t *contents = message + x.variable[0].start;
    unsigned size = x.variable[0].length;
    unsigned range = 0, kind = 0, need;
    switch (x.type) {
    case IAM:
        need = 0;
        break;
    case REL:
    case RSC:
        need = 4;
        break;
    case BLO:
    case UBL:
        need = 3;
        break;
    case GRS:
        if (size != 1 || contents[0] < 1 || contents[0] > 31)
            return refusal(14);
        range = contents[0];
        need = 6 + range / 8 + 1;
        break;
    case CQM:
        if (size != 1 || contents[0] > 31)
            return refusal(14);
        range = contents[0];
        need = 9 + range;
        break;
    case CGB:
    case CGU:
        kind = message[3] & 3;
        if (kind > 1 || size < 1 || contents[0] < 1 || size != 1 + contents[0] / 8u + 1)
            return refusal(14);
        range = contents[0];
        if (marks(contents + 1, range) > 32)
            return refusal(14);
        need = 7 + range / 8 + 1;
        break;
    default:
        return refusal(17);
    }

    unsigned m = x.circuit;
    if (m + range >= CIRCUITS)
        return refusal(18);
    if (sender == 0)
        return refusal(19);
    unsigned owned = 0; /* how many are owned before the first that is not */
    while (owned <= range && owners[m + owned] == sender)
        owned++;
    if (owned <= range) {
        for (unsigned n = owned; n <= range; n++)
            if (owners[m + n] != sender && helpers[m + n] != sender)
                return refusal(19);
        if (!(x.type == BLO || x.type == UBL || x.type == CQM || ((x.type == CGB || x.type == CGU) && kind == 0)))
            return refusal(22);
    }
    uint8_t *row = states + m;
    for (unsigned n = 0; n <= range; n++)
        if (!legal(row[n]))
            return refusal(20);
    if (x.type == IAM && row[0] != 0)
        return refusal(21);
    if (x.type == RSC && row[0] & LOCAL)
        need = 7;
    if (need > room)
        return refusal(13);

    if (need) {
        answer[0] = (uint8_t)m;
        answer[1] = (uint8_t)(m >> 8);
    }
    switch (x.type) {
    case IAM:
        row[0] = BUSY;
        break;
    case REL:
        answer[2] = RLC;
        answer[3] = 0;
        row[0] &= (uint8_t)~BUSY;
        break;
    case RSC:
        if (need == 7) {
            answer[2] = BLO;
            answer[3] = (uint8_t)m;
            answer[4] = (uint8_t)(m >> 8);
        }
        answer[need - 2] = RLC;
        answer[need - 1] = 0;
        row[0] &= LOCAL;
        break;
    case BLO:
        answer[2] = BLA;
        row[0] |= MAINTENANCE;
        break;
    case UBL:
        answer[2] = UBA;
        row[0] &= (uint8_t)~MAINTENANCE;
        break;
    case GRS:
        answer[2] = GRA;
        answer[3] = 1;
        answer[4] = (uint8_t)(1 + range / 8 + 1);
        answer[5] = (uint8_t)range;
        memset(answer + 6, 0, range / 8 + 1);
        for (unsigned n = 0; n <= range; n++) {
            row[n] &= LOCAL;
            answer[6 + n / 8] |= (uint8_t)((row[n] ? 1u : 0u) << n % 8);
        }
        break;
    case CQM:
        answer[2] = CQR;
        answer[3] = 2;
        answer[4] = 3;
        answer[5] = 1;
        answer[6] = (uint8_t)range;
        answer[7] = (uint8_t)(range + 1);
        for (unsigned n = 0; n <= range; n++)
            answer[8 + n] = circuit_state(row[n]);
        break;
    case CGB:
    case CGU: {
        const uint8_t *status = contents + 1;
        answer[2] = x.type == CGB ? CGBA : CGUA;
        answer[3] = (uint8_t)kind;
        answer[4] = 1;
        answer[5] = (uint8_t)(1 + range / 8 + 1);
        answer[6] = (uint8_t)range;
        memcpy(answer + 7, status, range / 8 + 1);
        answer[7 + range / 8] &= (uint8_t)(255 >> (7 - range % 8));

        unsigned block = kind == 0 ? MAINTENANCE : HARDWARE;
        unsigned set = x.type == CGB ? block : 0;
        unsigned keep = x.type == CGU ? 255 - block : kind == 0 ? 255 : 255 - BUSY;
        /* By the answer's status, whose spare bits are 0. */
        for (unsigned n = 0; n <= range; n += 8)
            for (unsigned marks = answer[7 + n / 8], k = n; marks; marks >>= 1, k++)
                if (marks & 1)
                    row[k] = (uint8_t)((row[k] & keep) | set);
        break;
    }
    }
    recount(states, totals, m, m + range);
    return need;
}

/* 16, 9, 20, 13. */
uint32_t plain_block(uint8_t *states, size_t states_length, uint8_t *totals, size_t totals_length, uint32_t circuit,
                     uint32_t set, uint8_t *answer, size_t room)
{
    if (states_length != CIRCUITS || totals_length != TOTALS)
        return refusal(16);
    if (circuit >= CIRCUITS)
        return refusal(9);
    if (!legal(states[circuit]))
        return refusal(20);
    if (room < 3)
        return refusal(13);
    answer[0] = (uint8_t)circuit;
    answer[1] = (uint8_t)(circuit >> 8);
    answer[2] = set ? BLO : UBL;
    states[circuit] = (uint8_t)(set ? states[circuit] | LOCAL : states[circuit] & ~LOCAL);
    recount(states, totals, circuit, circuit);
    return 3;
}

/* How many of the rows from first on, before end, are busy: fewer than 256 rows. */
static unsigned busy_rows(const uint8_t *states, unsigned first, unsigned end)
{
    uint8_t count = 0;
    for (unsigned c = first; c < end; c++)
        count += states[c] & BUSY;
    return count;
}

/* 16, 9, 18. */
uint64_t plain_busy(const uint8_t *states, size_t states_length, const uint8_t *totals, size_t totals_length, uint32_t first,
                    uint32_t last)
{
    if (states_length != CIRCUITS || totals_length != TOTALS)
        return (uint64_t)16 << 32;
    if (last >= CIRCUITS)
        return (uint64_t)9 << 32;
    if (first > last)
        return (uint64_t)18 << 32;
    unsigned end = last + 1, from = (first + BLOCK - 1) / BLOCK, to = end / BLOCK;
    if (from >= to)
        return (uint64_t)(end - first) << 16 | busy_rows(states, first, end);
    unsigned count = busy_rows(states, first, BLOCK * from) + busy_rows(states, BLOCK * to, end);
    for (unsigned k = from; k < to; k++)
        count += totals[k];
    return (uint64_t)(BLOCK * from - first + to - from + end - BLOCK * to) << 16 | count;
}

/* 16. */
uint32_t plain_rebuild(const uint8_t *states, size_t states_length, uint8_t *totals, size_t totals_length)
{
    if (states_length != CIRCUITS || totals_length != TOTALS)
        return refusal(16);
    recount(states, totals, 0, CIRCUITS - 1);
    return TOTALS;
}

/* ------------------------------------------------------------------------------------------------ a maintenance night */

/* Kinds of a plan, as CGB's type indicator has them; and how many circuits a CGB marks at the most. */
enum { FOR_MAINTENANCE = 0, FOR_HARDWARE = 1, MARKS = 32 };

/* Whether CGB of that kind (BLO too, for maintenance) may name the circuit: a helper has maintenance alone. */
static int may_block(const uint8_t *owners, const uint8_t *helpers, uint32_t sender, uint32_t kind, unsigned c)
{
    return sender != 0 && (owners[c] == sender || (kind == FOR_MAINTENANCE && helpers[c] == sender));
}

/* Whether some message can mark the circuit. CGB names two circuits at the least, so for hardware a neighbour goes with it. */
static int can_mark(const uint8_t *owners, const uint8_t *helpers, uint32_t sender, uint32_t kind, unsigned c)
{
    if (!may_block(owners, helpers, sender, kind, c))
        return 0;
    return kind == FOR_MAINTENANCE || (c + 1 < CIRCUITS && may_block(owners, helpers, sender, kind, c + 1)) ||
           (c > 0 && may_block(owners, helpers, sender, kind, c - 1));
}

/* A CGB after its length octet, up to its status; gives where the status begins. */
static uint8_t *put_cgb(uint8_t *to, unsigned c, uint32_t kind, unsigned range)
{
    unsigned width = range / 8 + 1;
    to[0] = (uint8_t)(7 + width);
    to[1] = (uint8_t)c;
    to[2] = (uint8_t)(c >> 8);
    to[3] = CGB;
    to[4] = (uint8_t)kind;
    to[5] = 1;
    to[6] = (uint8_t)(1 + width);
    to[7] = (uint8_t)range;
    return to + 8;
}

/* 16, 14, 20, 25, 13. From circuit 0 up: ticked circuits in a row, 32 at the most, are one CGB; a single one is BLO, or for hardware
 * a CGB that names a neighbour too, the next one before the one before it. */
uint32_t plain_plan(const uint8_t *states, size_t states_length, const uint8_t *owners, size_t owners_length,
                    const uint8_t *helpers, size_t helpers_length, const uint8_t *ticks, size_t ticks_length, uint32_t sender,
                    uint32_t kind, uint8_t *plan, size_t room)
{
    if (states_length != CIRCUITS || owners_length != CIRCUITS || helpers_length != CIRCUITS || ticks_length != CIRCUITS)
        return refusal(16);
    if (kind > FOR_HARDWARE)
        return refusal(14);
    size_t count = 0;
    int stuck = 0;
    for (unsigned c = 0; c < CIRCUITS; c++) {
        if (!legal(states[c]))
            return refusal(20);
        if (ticks[c]) {
            if (!can_mark(owners, helpers, sender, kind, c))
                stuck = 1;
            count++;
        }
    }
    if (stuck)
        return refusal(25);
    if (room < 9 * count)
        return refusal(13);

    uint8_t *to = plan;
    for (unsigned c = 0; c < CIRCUITS;) {
        if (!ticks[c]) {
            c++;
            continue;
        }
        unsigned n = 1;
        while (n < MARKS && c + n < CIRCUITS && ticks[c + n])
            n++;
        if (n > 1) {
            to = put_cgb(to, c, kind, n - 1);
            for (unsigned left = n; left; left -= left < 8 ? left : 8)
                *to++ = (uint8_t)(left < 8 ? (1u << left) - 1 : 255);
        } else if (kind == FOR_MAINTENANCE) {
            to[0] = 3;
            to[1] = (uint8_t)c;
            to[2] = (uint8_t)(c >> 8);
            to[3] = BLO;
            to += 4;
        } else {
            int next = c + 1 < CIRCUITS && may_block(owners, helpers, sender, kind, c + 1);
            to = put_cgb(to, next ? c : c - 1, kind, 1);
            *to++ = next ? 1 : 2;
        }
        c += n;
    }
    return (uint32_t)(to - plan);
}

/* One message of a plan: the hub would accept it, it is of that kind, and no circuit that it marks was marked before. The hub's answer
 * has 39 octets at the most, so 268 are enough; blocking leaves a legal row legal, so each message can be held to the tables as given. */
static int marks_new(const uint8_t *states, const uint8_t *owners, const uint8_t *helpers, uint32_t sender, uint32_t kind,
                     const uint8_t *message, size_t length, uint8_t *marked)
{
    static const uint8_t alone[1] = {1};
    struct message x;
    if (parse(message, length, &x))
        return 0;
    unsigned range = 0;
    const uint8_t *status = alone;
    if (x.type == CGB) {
        const uint8_t *contents = message + x.variable[0].start;
        unsigned size = x.variable[0].length;
        if ((message[3] & 3u) != kind || size < 1 || contents[0] < 1 || size != 1 + contents[0] / 8u + 1)
            return 0;
        range = contents[0];
        status = contents + 1;
        if (marks(status, range) > MARKS)
            return 0;
    } else if (x.type != BLO || kind != FOR_MAINTENANCE) {
        return 0;
    }
    if (x.circuit + range >= CIRCUITS)
        return 0;
    for (unsigned n = 0; n <= range; n++) {
        unsigned c = x.circuit + n;
        if (!may_block(owners, helpers, sender, kind, c) || !legal(states[c]))
            return 0;
        if (status[n / 8] >> n % 8 & 1) {
            if (marked[c])
                return 0;
            marked[c] = 1;
        }
    }
    return 1;
}

/* 1 for a good plan, else 0. */
uint32_t plain_check_plan(const uint8_t *states, size_t states_length, const uint8_t *owners, size_t owners_length,
                          const uint8_t *helpers, size_t helpers_length, const uint8_t *ticks, size_t ticks_length,
                          uint32_t sender, uint32_t kind, const uint8_t *plan, size_t length)
{
    if (states_length != CIRCUITS || owners_length != CIRCUITS || helpers_length != CIRCUITS || ticks_length != CIRCUITS ||
        kind > FOR_HARDWARE)
        return 0;
    uint8_t marked[CIRCUITS] = {0};
    for (size_t at = 0; at < length;) {
        size_t size = plan[at++];
        if (size > length - at || !marks_new(states, owners, helpers, sender, kind, plan + at, size, marked))
            return 0;
        at += size;
    }
    for (unsigned c = 0; c < CIRCUITS; c++)
        if (marked[c] != (ticks[c] != 0))
            return 0;
    return 1;
}
