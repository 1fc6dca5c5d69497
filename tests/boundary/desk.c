/* The desk of the README, in C, over the library; with -DPLAIN over the plain code of this folder. tests/boundary/run puts the
 * stored requests of tests/model to both. Line forms as in the README; a line is read whole before it is answered. */
#include <stdio.h>
#include <string.h>

#ifdef PLAIN
#include "plain.h"
#define CALL(name) plain_##name
#define NUMBER_REFUSAL(answer) ((unsigned)((answer) >> 32))
#define BUSY_REFUSAL(answer) ((unsigned)((answer) >> 32))
#define BUSY_LOOKED(answer) ((unsigned)((answer) >> 16) & 65535u)
#define BUSY_COUNT(answer) ((unsigned)(answer) & 65535u)
#define REFUSAL(answer) ((answer) >> 16)
#define PLACE(answer) ((answer) & 65535u)
#else
#include "llachurep.h"
#define CALL(name) llachurep_##name
#define NUMBER_REFUSAL(answer) LLACHUREP_NUMBER_REFUSAL(answer)
#define BUSY_REFUSAL(answer) LLACHUREP_BUSY_REFUSAL(answer)
#define BUSY_LOOKED(answer) LLACHUREP_BUSY_LOOKED(answer)
#define BUSY_COUNT(answer) LLACHUREP_BUSY_COUNT(answer)
#define REFUSAL(answer) LLACHUREP_REFUSAL(answer)
#define PLACE(answer) LLACHUREP_PLACE(answer)
#endif

enum { LINE = 81920, OCTETS = 1024, PLAN_OCTETS = 36864, FIELDS = 8 };

struct field {
    uint32_t number;
    double value;
    size_t count;
    uint8_t octets[PLAN_OCTETS];
};

static uint8_t states[4096], owners[4096], helpers[4096], ticks[4096], totals[64], out[PLAN_OCTETS];
static char line[LINE + 2];
static struct field fields[FIELDS];

static int digit(char c)
{
    return c >= '0' && c <= '9' ? c - '0' : c >= 'a' && c <= 'f' ? c - 'a' + 10 : c >= 'A' && c <= 'F' ? c - 'A' + 10 : -1;
}

/* A measured value: `0x` and 16 hexadecimal digits, its bits; or a decimal of 1 to 15 digits, with a point between two of them
 * or none, and `-` before it or not. Both whole numbers of the quotient are exact, so it is the nearest value. */
static int measured(const char *word, size_t length, double *to)
{
    if (length == 18 && word[0] == '0' && word[1] == 'x') {
        uint64_t bits = 0;
        for (size_t i = 2; i < 18; i++) {
            if (digit(word[i]) < 0)
                return 0;
            bits = 16 * bits + (unsigned)digit(word[i]);
        }
        memcpy(to, &bits, sizeof bits);
        return 1;
    }
    size_t at = length > 0 && word[0] == '-', start = at, count = 0, point = 0;
    uint64_t number = 0, scale = 1;
    for (; at < length; at++) {
        if (word[at] == '.' && !point && at > start && at + 1 < length) {
            point = 1;
            continue;
        }
        if (word[at] < '0' || word[at] > '9' || ++count > 15)
            return 0;
        number = 10 * number + (unsigned)(word[at] - '0');
        scale *= point ? 10 : 1;
    }
    *to = (double)number / (double)scale;
    if (start)
        *to = -*to;
    return count > 0;
}

/* A word as the form says: o octets, p a plan's octets, t a type or name, n any number, r a room, q a plan's room, c a circuit,
 * b a block, s a small number, h a code, v a measured value, m a mark. */
static int parse(const char *word, size_t length, char form, struct field *to)
{
    if (form == 'o' || form == 'p' || form == 't') {
        to->count = 0;
        if (form != 't' && length == 1 && word[0] == '-')
            return 1;
        if (length == 0 || length % 2 || length > 2 * (form == 'p' ? PLAN_OCTETS : OCTETS) || (form == 't' && length != 2))
            return 0;
        for (size_t i = 0; i < length; i += 2) {
            if (digit(word[i]) < 0 || digit(word[i + 1]) < 0)
                return 0;
            to->octets[to->count++] = (uint8_t)(16 * digit(word[i]) + digit(word[i + 1]));
        }
        to->number = to->octets[0];
        return 1;
    }
    if (form == 'v')
        return measured(word, length, &to->value);
    if (form == 'm') {
        to->number = length == 4;
        return (length == 2 && memcmp(word, "up", 2) == 0) || (length == 4 && memcmp(word, "down", 4) == 0);
    }
    uint64_t value = 0, most = form == 'n' ? 4294967295u : form == 'h' ? 65535 : form == 'r' ? OCTETS :
                                form == 'q' ? PLAN_OCTETS : form == 'c' ? 4095 : form == 'b' ? 63 : 255;
    if (length == 0 || length > 10)
        return 0;
    for (size_t i = 0; i < length; i++) {
        if (word[i] < '0' || word[i] > '9')
            return 0;
        value = 10 * value + (unsigned)(word[i] - '0');
    }
    to->number = (uint32_t)value;
    return value <= most;
}

/* Whether the line is that word and then fields of those forms, one space between each. */
static int is(size_t length, const char *name, const char *forms)
{
    size_t at = strlen(name), field = 0;
    if (length < at || memcmp(line, name, at) != 0)
        return 0;
    for (; *forms; forms++, field++) {
        if (at >= length || line[at] != ' ')
            return 0;
        size_t start = ++at;
        while (at < length && line[at] != ' ')
            at++;
        if (!parse(line + start, at - start, *forms, &fields[field]))
            return 0;
    }
    return at == length;
}

static void hex(const uint8_t *octets, size_t count)
{
    if (count == 0)
        printf("-");
    for (size_t i = 0; i < count; i++)
        printf("%02x", octets[i]);
}

/* A refusal, with the octet that a reader's number from 3 to 8 is about where the request shows one. */
static void refused(uint32_t answer, int placed)
{
    uint32_t number = REFUSAL(answer);
    printf("refused %u", number);
    if (placed && number >= 3 && number <= 8)
        printf(" at %u", PLACE(answer));
    printf("\n");
}

static void octets(const char *word, uint32_t answer, int placed)
{
    if (REFUSAL(answer)) {
        refused(answer, placed);
        return;
    }
    printf("%s ", word);
    hex(out, answer);
    printf("\n");
}

/* The boundary has no question for the shape; what the writer takes shows it. */
static unsigned tried(int bicc, uint32_t type, size_t fixed, size_t first, size_t second, size_t optional)
{
    static const uint8_t zeros[5], run[2] = {1, 0};
    return (bicc ? CALL(bicc_write) : CALL(write))(0, type, zeros, fixed, zeros, first, zeros, second, run, optional, out,
                                                   OCTETS) >> 16;
}

static void shape(int bicc, uint32_t type)
{
    size_t fixed = 0;
    if (tried(bicc, type, 0, 0, 0, 0) == 3) {
        printf("refused 3\n");
        return;
    }
    while (tried(bicc, type, fixed, 0, 0, 0))
        fixed++;
    printf("fixed %u variable %u optional %s\n", (unsigned)fixed,
           !tried(bicc, type, fixed, 1, 0, 0) + !tried(bicc, type, fixed, 0, 1, 0),
           tried(bicc, type, fixed, 0, 0, 2) ? "no" : "yes");
}

/* The parts of a message, by its ten numbers. */
static void parts(const char *word, const uint8_t *message, const uint32_t *p)
{
    printf("%s %u type %02x fixed ", word, p[0], p[1]);
    hex(message + p[2], p[3]);
    printf(" first ");
    hex(message + p[4], p[5]);
    printf(" second ");
    hex(message + p[6], p[7]);
    printf(" optional ");
    hex(message + p[8], p[9]);
    printf("\n");
}

/* The same of SCCP, whose writer takes a third contents. */
static unsigned sccp_tried(uint32_t type, size_t fixed, size_t first, size_t second, size_t third, size_t optional)
{
    static const uint8_t zeros[10], run[2] = {1, 0};
    return CALL(sccp_write)(type, zeros, fixed, zeros, first, zeros, second, zeros, third, run, optional, out, OCTETS) >> 16;
}

static void sccp_shape(uint32_t type)
{
    size_t fixed = 0;
    if (sccp_tried(type, 0, 0, 0, 0, 0) == 3) {
        printf("refused 3\n");
        return;
    }
    while (sccp_tried(type, fixed, 0, 0, 0, 0))
        fixed++;
    printf("fixed %u variable %u optional %s\n", (unsigned)fixed,
           !sccp_tried(type, fixed, 1, 0, 0, 0) + !sccp_tried(type, fixed, 0, 1, 0, 0) + !sccp_tried(type, fixed, 0, 0, 1, 0),
           sccp_tried(type, fixed, 0, 0, 0, 2) ? "no" : "yes");
}

static void sccp_parts(const uint8_t *message, const uint16_t *p)
{
    static const char *const words[5] = {"fixed", "first", "second", "third", "optional"};
    printf("type %02x", p[0]);
    for (int i = 0; i < 5; i++) {
        printf(" %s ", words[i]);
        hex(message + p[1 + 2 * i], p[2 + 2 * i]);
    }
    printf("\n");
}

/* The boundary has no cursor; the run that a reader gave is walked here. */
static void list(uint32_t answer, const uint8_t *run, size_t length)
{
    if (REFUSAL(answer)) {
        refused(answer, 1);
        return;
    }
    printf(length ? "parameters" : "parameters -");
    for (size_t at = 0; at < length; at += 2u + run[at + 1]) {
        printf(" %02x ", run[at]);
        hex(run + at + 2, run[at + 1]);
    }
    printf("\n");
}

/* The totals of the blocks that hold those circuits become right, and no other. */
static void made_right(uint32_t first, uint32_t last)
{
    uint8_t all[64];
    CALL(rebuild)(states, 4096, all, 64);
    memcpy(totals + first / 64, all + first / 64, last / 64 - first / 64 + 1);
}

/* The codes of a velocity, or the values that codes stand for, in the same words. */
static void velocity(uint32_t answer, unsigned bearing, unsigned speed, const unsigned *vertical, uint32_t down)
{
    if (answer >> 16) {
        printf("refused %u\n", answer >> 16);
        return;
    }
    printf("bearing %u speed %u", bearing, speed);
    if (vertical)
        printf(" vertical %u %s", *vertical, down ? "down" : "up");
    printf("\n");
}

static void answer(size_t length)
{
    uint16_t codes[3] = {0};
    double values[2] = {0};
    unsigned vertical;
    const struct field *f = fields;
    if (is(length, "shape", "t")) {
        shape(0, f[0].number);
    } else if (is(length, "read", "o")) {
        uint16_t p[10];
        uint32_t got = CALL(read)(f[0].octets, f[0].count, p, 10);
        if (REFUSAL(got)) {
            refused(got, 1);
            return;
        }
        uint32_t wide[10];
        for (int i = 0; i < 10; i++)
            wide[i] = p[i];
        parts("circuit", f[0].octets, wide);
    } else if (is(length, "write", "ntoooor")) {
        octets("octets", CALL(write)(f[0].number, f[1].number, f[2].octets, f[2].count, f[3].octets, f[3].count,
                                     f[4].octets, f[4].count, f[5].octets, f[5].count, out, f[6].number), 0);
    } else if (is(length, "compact", "or")) {
        octets("octets", CALL(compact)(f[0].octets, f[0].count, out, f[1].number), 1);
    } else if (is(length, "find", "too")) {
        size_t s[2];
        uint32_t got = CALL(find)(f[1].octets, f[1].count, f[2].octets, f[2].count, f[0].number, s, 2);
        if (REFUSAL(got)) {
            refused(got, 1);
            return;
        }
        printf(got ? "defaults " : "message ");
        hex(f[got ? 2 : 1].octets + s[0], s[1]);
        printf("\n");
    } else if (is(length, "bicc-shape", "t")) {
        shape(1, f[0].number);
    } else if (is(length, "bicc-read", "o")) {
        uint32_t p[10];
        uint32_t got = CALL(bicc_read)(f[0].octets, f[0].count, p, 10);
        if (REFUSAL(got)) {
            refused(got, 1);
            return;
        }
        parts("code", f[0].octets, p);
    } else if (is(length, "bicc-write", "ntoooor")) {
        octets("octets", CALL(bicc_write)(f[0].number, f[1].number, f[2].octets, f[2].count, f[3].octets, f[3].count,
                                          f[4].octets, f[4].count, f[5].octets, f[5].count, out, f[6].number), 0);
    } else if (is(length, "bicc-compact", "or")) {
        octets("octets", CALL(bicc_compact)(f[0].octets, f[0].count, out, f[1].number), 1);
    } else if (is(length, "sccp-shape", "t")) {
        sccp_shape(f[0].number);
    } else if (is(length, "sccp-read", "o")) {
        uint16_t p[11];
        uint32_t got = CALL(sccp_read)(f[0].octets, f[0].count, p, 11);
        if (REFUSAL(got)) {
            refused(got, 1);
            return;
        }
        sccp_parts(f[0].octets, p);
    } else if (is(length, "sccp-write", "tooooor")) {
        octets("octets", CALL(sccp_write)(f[0].number, f[1].octets, f[1].count, f[2].octets, f[2].count, f[3].octets,
                                          f[3].count, f[4].octets, f[4].count, f[5].octets, f[5].count, out, f[6].number), 0);
    } else if (is(length, "sccp-compact", "or")) {
        octets("octets", CALL(sccp_compact)(f[0].octets, f[0].count, out, f[1].number), 1);
    } else if (is(length, "list", "o")) {
        uint16_t p[10] = {0};
        uint32_t got = CALL(read)(f[0].octets, f[0].count, p, 10);
        list(got, f[0].octets + p[8], p[9]);
    } else if (is(length, "bicc-list", "o")) {
        uint32_t p[10] = {0};
        uint32_t got = CALL(bicc_read)(f[0].octets, f[0].count, p, 10);
        list(got, f[0].octets + p[8], p[9]);
    } else if (is(length, "sccp-list", "o")) {
        uint16_t p[11] = {0};
        uint32_t got = CALL(sccp_read)(f[0].octets, f[0].count, p, 11);
        list(got, f[0].octets + p[9], p[10]);
    } else if (is(length, "number", "or")) {
        uint64_t got = CALL(number_read)(f[0].octets, f[0].count, out, f[1].number);
        if (NUMBER_REFUSAL(got)) {
            printf("refused %u\n", NUMBER_REFUSAL(got));
            return;
        }
        printf("nature %u plan %u internal %u signals ", (unsigned)(got >> 16), (unsigned)(got >> 8 & 7),
               (unsigned)(got >> 12 & 1));
        hex(out, got & 255);
        printf("\n");
    } else if (is(length, "dial", "nnnor")) {
        octets("octets", CALL(number_write)(f[0].number, f[1].number, f[2].number, f[3].octets, f[3].count, out,
                                            f[4].number), 0);
    } else if (is(length, "own", "ccs") && f[0].number <= f[1].number) {
        memset(owners + f[0].number, (int)f[2].number, f[1].number - f[0].number + 1);
        printf("ok\n");
    } else if (is(length, "helper", "ccs") && f[0].number <= f[1].number) {
        memset(helpers + f[0].number, (int)f[2].number, f[1].number - f[0].number + 1);
        printf("ok\n");
    } else if (is(length, "set", "ccs") && f[0].number <= f[1].number) {
        memset(states + f[0].number, (int)f[2].number, f[1].number - f[0].number + 1);
        made_right(f[0].number, f[1].number);
        printf("ok\n");
    } else if (is(length, "tick", "ccs") && f[0].number <= f[1].number) {
        memset(ticks + f[0].number, (int)f[2].number, f[1].number - f[0].number + 1);
        printf("ok\n");
    } else if (is(length, "plan", "nnq")) {
        octets("octets", CALL(plan)(states, 4096, owners, 4096, helpers, 4096, ticks, 4096, f[0].number, f[1].number, out,
                                    f[2].number), 0);
    } else if (is(length, "check", "nnp")) {
        printf(CALL(check_plan)(states, 4096, owners, 4096, helpers, 4096, ticks, 4096, f[0].number, f[1].number, f[2].octets,
                                f[2].count) ? "yes\n" : "no\n");
    } else if (is(length, "act", "nor")) {
        octets("answer", CALL(act)(states, 4096, owners, 4096, helpers, 4096, totals, 64, f[0].number, f[1].octets,
                                   f[1].count, out, f[2].number), 1);
    } else if (is(length, "block", "nr")) {
        octets("answer", CALL(block)(states, 4096, totals, 64, f[0].number, 1, out, f[1].number), 0);
    } else if (is(length, "unblock", "nr")) {
        octets("answer", CALL(block)(states, 4096, totals, 64, f[0].number, 0, out, f[1].number), 0);
    } else if (is(length, "busy", "nn")) {
        uint64_t got = CALL(busy)(states, 4096, totals, 64, f[0].number, f[1].number);
        if (BUSY_REFUSAL(got)) {
            printf("refused %u\n", BUSY_REFUSAL(got));
            return;
        }
        printf("count %u looked %u\n", BUSY_COUNT(got), BUSY_LOOKED(got));
    } else if (is(length, "totals", "")) {
        printf("totals ");
        hex(totals, 64);
        printf("\n");
    } else if (is(length, "total", "bs")) {
        totals[f[0].number] = (uint8_t)f[1].number;
        printf("ok\n");
    } else if (is(length, "rebuild", "")) {
        CALL(rebuild)(states, 4096, totals, 64);
        printf("ok\n");
    } else if (is(length, "rows", "cc") && f[0].number <= f[1].number) {
        printf("rows ");
        hex(states + f[0].number, f[1].number - f[0].number + 1);
        printf("\n");
    } else if (is(length, "velocity", "vv")) {
        uint32_t got = CALL(velocity_code)(f[0].value, f[1].value, codes, 2);
        velocity(got, codes[0], codes[1], NULL, 0);
    } else if (is(length, "velocity", "vvvm")) {
        uint32_t got = CALL(velocity_code_vertical)(f[0].value, f[1].value, f[2].value, codes, 3);
        vertical = codes[2];
        velocity(got, codes[0], codes[1], &vertical, f[3].number);
    } else if (is(length, "velocity-back", "hh")) {
        uint32_t got = CALL(velocity_read)(f[0].number, f[1].number, values, 2);
        velocity(got, (unsigned)values[0], (unsigned)values[1], NULL, 0);
    } else if (is(length, "velocity-back", "hhsm")) {
        uint32_t got = CALL(velocity_read)(f[0].number, f[1].number, values, 2);
        vertical = f[2].number;
        velocity(got, (unsigned)values[0], (unsigned)values[1], &vertical, f[3].number);
    } else {
        printf("bad line\n");
    }
}

int main(void)
{
    size_t length = 0;
    for (;;) {
        int c = getchar();
        if (c == EOF && length == 0)
            return 0;
        if (c != EOF && c != '\n') {
            if (length < LINE + 2)
                line[length] = (char)c;
            length++;
            continue;
        }
        if (c == '\n' && length > 0 && length <= LINE + 2 && line[length - 1] == '\r')
            length--;
        if (length > LINE)
            printf("bad line\n");
        else
            answer(length);
        length = 0;
        if (c == EOF)
            return 0;
    }
}
