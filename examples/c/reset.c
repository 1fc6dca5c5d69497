/* A group reset from C: a GRS is read, put to the hub's table, and its answer read back; then a stranger sends the same.
 * How many circuits are busy is asked for after each.
 *
 * Build and run, from the repository's top, with the kit alone:
 *     tools/link-c target/reset examples/c/reset.c && tools/run-c target/reset
 * On x86-64 with a C compiler:
 *     tools/staticlib && cc -I include examples/c/reset.c target/staticlib/libllachurep.a -o target/reset && target/reset
 */
#include <stdio.h>
#include <string.h>

#include "llachurep.h"

static uint8_t states[4096], owners[4096], helpers[4096]; /* nobody helps */
static uint8_t totals[64];

static void show(const char *what, const uint8_t *octets, size_t count)
{
    printf("%s", what);
    for (size_t i = 0; i < count; i++)
        printf(" %02x", octets[i]);
    printf("\n");
}

/* Puts a message of that sender to the table. */
static void put(uint32_t sender, const uint8_t *message, size_t length)
{
    uint8_t answer[268];
    uint32_t got = llachurep_act(states, sizeof states, owners, sizeof owners, helpers, sizeof helpers, totals, sizeof totals,
                                 sender, message, length, answer, sizeof answer);
    printf("sender %u: ", sender);
    if (LLACHUREP_REFUSAL(got) != 0)
        printf("refused with %u\n", LLACHUREP_REFUSAL(got));
    else
        show("answered", answer, LLACHUREP_VALUE(got));
    show("  states of circuits 4 to 9:", states + 4, 6);
    uint64_t busy = llachurep_busy(states, sizeof states, totals, sizeof totals, 0, 4095);
    printf("  busy: %u, by %u numbers\n", LLACHUREP_BUSY_COUNT(busy), LLACHUREP_BUSY_LOOKED(busy));
}

int main(void)
{
    /* Circuits 0 to 31 belong to sender 7; circuits 5 to 9 are busy. */
    memset(owners, 7, 32);
    memset(states + 5, 1, 5);
    llachurep_rebuild(states, sizeof states, totals, sizeof totals);

    /* GRS, circuit 5, range 3: circuits 5 to 8. */
    static const uint8_t grs[] = {0x05, 0x00, 0x17, 0x01, 0x01, 0x03};
    uint16_t parts[LLACHUREP_PARTS_COUNT];
    uint32_t got = llachurep_read(grs, sizeof grs, parts, LLACHUREP_PARTS_COUNT);
    if (LLACHUREP_REFUSAL(got) != 0) {
        printf("the message is refused with %u\n", LLACHUREP_REFUSAL(got));
        return 1;
    }
    printf("circuit %u, type %02x, ", parts[LLACHUREP_PART_CIRCUIT], parts[LLACHUREP_PART_TYPE]);
    show("contents", grs + parts[LLACHUREP_PART_FIRST], parts[LLACHUREP_PART_FIRST + 1]);

    put(9, grs, sizeof grs); /* not the owner: 19, and nothing changes */
    put(7, grs, sizeof grs);
    put(7, grs, sizeof grs - 1); /* the last octet is missing: 6 */
    return 0;
}
