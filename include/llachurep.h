/* llachurep.h: ISUP, BICC and SCCP messages, the hub's circuit table with its totals, and velocities, for C (C99) and C++.
 *
 * The library is target/staticlib/libllachurep.a, made by tools/staticlib, for x86-64.
 * Every function is proved to answer as the paper says (docs/PROMISES.md), and touches nothing but what it is lent.
 *
 * What is lent. A buffer comes as a pointer and a count of elements. A buffer of count 0 may have a null pointer.
 * The buffers of one call do not overlap one another. Nothing is kept after the call.
 *
 * What comes back. Answers are one number, 65536 * N + v. N is 0 where the call is accepted, and v is then said at each
 * function. Else N is the refusal's number, v is the octet of the message that it is about, and no lent octet has changed.
 * Only a reader's refusal from 3 to 8 is about an octet; v is 0 with every other number. Take the two apart by the macros
 * below: an answer is not to be compared with 65536 * N. (llachurep_number_read and llachurep_busy answer 64 bits: their
 * N stands above the low 32, and they have no place.)
 *
 * The octet that a reader's refusal is about, in llachurep_read, _compact, _find and _act and in
 * llachurep_bicc_read, _bicc_compact, _sccp_read and _sccp_compact: 3 the type octet (octet 0 of SCCP); 4 the
 * message's length; 5 the pointer; 6 the length octet; 7 the name octet of the parameter that failed, or the message's
 * length where a name was due and the message ended; 8 the later start of the first two parts that share an octet.
 *
 * Where several refusals apply, the first in the order that stands at the function is given.
 */
#ifndef LLACHUREP_H
#define LLACHUREP_H

#include <stddef.h>
#include <stdint.h>

/* The refusal's number, 0 where the call is accepted; the octet that a refusal is about; the value of an accepted call. */
#define LLACHUREP_REFUSAL(answer) ((uint32_t)(answer) >> 16)
#define LLACHUREP_PLACE(answer) ((uint32_t)(answer) & 65535u)
#define LLACHUREP_VALUE(answer) ((uint32_t)(answer) & 65535u)

/* The same for the 64 bits of llachurep_number_read, with the four fields of an accepted number. */
#define LLACHUREP_NUMBER_REFUSAL(answer) ((uint32_t)((uint64_t)(answer) >> 32))
#define LLACHUREP_NUMBER_NATURE(answer) ((uint32_t)((uint64_t)(answer) >> 16) & 127u)
#define LLACHUREP_NUMBER_INTERNAL(answer) ((uint32_t)((uint64_t)(answer) >> 12) & 1u)
#define LLACHUREP_NUMBER_PLAN(answer) ((uint32_t)((uint64_t)(answer) >> 8) & 7u)
#define LLACHUREP_NUMBER_COUNT(answer) ((uint32_t)(answer) & 255u)

/* And for llachurep_busy: how many totals and rows were looked at, and how many circuits are busy. */
#define LLACHUREP_BUSY_REFUSAL(answer) ((uint32_t)((uint64_t)(answer) >> 32))
#define LLACHUREP_BUSY_LOOKED(answer) ((uint32_t)((uint64_t)(answer) >> 16) & 65535u)
#define LLACHUREP_BUSY_COUNT(answer) ((uint32_t)(answer) & 65535u)

/* The refusals' numbers. */
enum {
    LLACHUREP_TOO_SHORT = 1,         /* under 3 octets, of BICC under 5, of SCCP none */
    LLACHUREP_TOO_LONG = 2,          /* over 268 octets, of BICC over 270 */
    LLACHUREP_NO_TYPE = 3,           /* type not in the table */
    LLACHUREP_CUT = 4,               /* fixed part or pointers cut off by the message's end */
    LLACHUREP_POINTER = 5,           /* a pointer that may not be */
    LLACHUREP_CONTENTS_PASS = 6,     /* variable contents pass the message's end */
    LLACHUREP_OPTIONAL_OPEN = 7,     /* optional part passes the message's end, or is not closed */
    LLACHUREP_SHARED = 8,            /* two parts share an octet */
    LLACHUREP_CIRCUIT = 9,           /* circuit number above 4095, to write, to block or to ask for */
    LLACHUREP_PARTS = 10,            /* fixed octets of wrong count, or contents for a part the type lacks */
    LLACHUREP_RUN = 11,              /* optional run: a name 0, or a parameter that passes its end */
    LLACHUREP_OVER_255 = 12,         /* a length or pointer to write exceeds 255 */
    LLACHUREP_ROOM = 13,             /* lent output too short */
    LLACHUREP_RULE = 14,             /* typed contents break their rule, or a plan's kind is not 0 or 1 */
    LLACHUREP_NONE = 15,             /* no such optional parameter */
    LLACHUREP_TABLE = 16,            /* a table of circuits not exactly 4096 octets, or not exactly 64 totals */
    LLACHUREP_NO_ACT = 17,           /* a type the hub does not act on */
    LLACHUREP_GROUP = 18,            /* group passes circuit 4095, or the first circuit asked for is above the last */
    LLACHUREP_NOT_OWNER = 19,        /* the sender neither owns nor helps a named circuit, or is 0 */
    LLACHUREP_STATE = 20,            /* a named circuit's state octet is not legal */
    LLACHUREP_NOT_FREE = 21,         /* IAM on a circuit that is busy or blocked */
    LLACHUREP_ONLY_HELPED = 22,      /* the sender only helps a named circuit, and the message is none for helpers */
    LLACHUREP_NO_PLAN = 25,          /* no plan exists that blocks the ticked circuits */
    LLACHUREP_VELOCITY = 26          /* a value that is no number, infinite or below zero; a bearing from 360 up */
};

/* What llachurep_read and llachurep_bicc_read put into parts[0] to parts[9]. Starts count from the message's first octet. */
enum {
    LLACHUREP_PART_CIRCUIT = 0,
    LLACHUREP_PART_CODE = 0,         /* of llachurep_bicc_read */
    LLACHUREP_PART_TYPE = 1,
    LLACHUREP_PART_FIXED = 2,        /* start, then length */
    LLACHUREP_PART_FIRST = 4,        /* start, then length; past the length octet */
    LLACHUREP_PART_SECOND = 6,       /* start, then length; past the length octet */
    LLACHUREP_PART_OPTIONAL = 8,     /* start, then length; without the closing 0 */
    LLACHUREP_PARTS_COUNT = 10
};

/* What llachurep_sccp_read puts into parts[0] to parts[10]: as above, with no code and a third contents. */
enum {
    LLACHUREP_SCCP_PART_TYPE = 0,
    LLACHUREP_SCCP_PART_FIXED = 1,
    LLACHUREP_SCCP_PART_FIRST = 3,
    LLACHUREP_SCCP_PART_SECOND = 5,
    LLACHUREP_SCCP_PART_THIRD = 7,
    LLACHUREP_SCCP_PART_OPTIONAL = 9,
    LLACHUREP_SCCP_PARTS_COUNT = 11
};

#ifdef __cplusplus
extern "C" {
#endif

/* Reads a message. Accepted: v is 10, and parts[0] to parts[9] are the circuit number, the type, then start and length
 * of the fixed part, of the first and of the second variable contents, and of the optional run. A part that the type or
 * the message lacks has 0, 0; contents that are there but empty have their start and length 0, and so has an optional
 * part that holds only its closing 0. Further elements of parts stay.
 * Refused: 1, 2, 3, 4; each variable pointer in turn 5 then 6; the optional pointer 5 then 7; 8; 13 where count is
 * under 10. */
uint32_t llachurep_read(const uint8_t *message, size_t length, uint16_t *parts, size_t count);

/* Writes a message in its compact form. `optional` is the optional run without its closing 0; a part that is not used is
 * empty. Accepted: v is how many octets were written, to the front of out; the rest of out stays.
 * Refused: 9, 3, 10, 11, 12, 2, 13. */
uint32_t llachurep_write(uint32_t circuit, uint32_t type, const uint8_t *fixed, size_t fixed_length,
                         const uint8_t *first, size_t first_length, const uint8_t *second, size_t second_length,
                         const uint8_t *optional, size_t optional_length, uint8_t *out, size_t out_length);

/* Reads a message and writes it again in its compact form. Accepted: v is how many octets were written, to the front of
 * out; the rest of out stays.
 * Refused: as llachurep_read, but for its 13; then 12, 13. */
uint32_t llachurep_compact(const uint8_t *message, size_t length, uint8_t *out, size_t out_length);

/* Reads a BICC message: a call instance code of four octets, the least significant first, then the type, and from there on
 * as in ISUP. Of ISUP's types BLO, UBL, BLA and UBA are none of BICC's. Accepted: v is 10, and parts[0] to parts[9] are the
 * code, the type, then start and length of the fixed part, of the first and of the second contents, and of the optional
 * run, each 0, 0 where there is none; further elements stay.
 * Refused: as llachurep_read. */
uint32_t llachurep_bicc_read(const uint8_t *message, size_t length, uint32_t *parts, size_t count);

/* Writes a BICC message in its compact form, as llachurep_write. Any number is a code, so there is no 9.
 * Refused: 3, 10, 11, 12, 2, 13. */
uint32_t llachurep_bicc_write(uint32_t code, uint32_t type, const uint8_t *fixed, size_t fixed_length,
                              const uint8_t *first, size_t first_length, const uint8_t *second, size_t second_length,
                              const uint8_t *optional, size_t optional_length, uint8_t *out, size_t out_length);

/* Reads a BICC message and writes it again in its compact form, as llachurep_compact.
 * Refused: as llachurep_bicc_read, but for its 13; then 12, 13. */
uint32_t llachurep_bicc_compact(const uint8_t *message, size_t length, uint8_t *out, size_t out_length);

/* Reads an SCCP message: the type octet comes first, and from there on it is as in ISUP, with up to three variable contents and
 * 1 to 268 octets. The types are those with pointers of one octet: LUDT and LUDTS are none. Accepted: v is 11, and parts[0] to
 * parts[10] are the type, then start and length of the fixed part, of the first, the second and the third contents, and of the
 * optional run, each 0, 0 where there is none; further elements stay.
 * Refused: as llachurep_read, 1 for an empty message, 13 where count is under 11. */
uint32_t llachurep_sccp_read(const uint8_t *message, size_t length, uint16_t *parts, size_t count);

/* Writes an SCCP message in its compact form, as llachurep_write, with a third contents and no circuit, so there is no 9.
 * Refused: 3, 10, 11, 12, 2, 13. */
uint32_t llachurep_sccp_write(uint32_t type, const uint8_t *fixed, size_t fixed_length, const uint8_t *first, size_t first_length,
                              const uint8_t *second, size_t second_length, const uint8_t *third, size_t third_length,
                              const uint8_t *optional, size_t optional_length, uint8_t *out, size_t out_length);

/* Reads an SCCP message and writes it again in its compact form, as llachurep_compact.
 * Refused: as llachurep_sccp_read, but for its 13; then 12, 13. */
uint32_t llachurep_sccp_compact(const uint8_t *message, size_t length, uint8_t *out, size_t out_length);

/* Finds the first parameter of that name in the message's optional part, else in the defaults, which are an optional run
 * without closing 0. Accepted: v is 0 where the message held it and 100 where the defaults did; stretch[0] and
 * stretch[1] are start and length of its contents within whichever held it; further elements stay.
 * Refused: as llachurep_read, but for its 13; 11 for the defaults; 15, also for a name 0 or above 255; 13 where count is
 * under 2. */
uint32_t llachurep_find(const uint8_t *message, size_t length, const uint8_t *defaults, size_t defaults_length,
                        uint32_t name, size_t *stretch, size_t count);

/* Reads the contents of a called party number. Answers 4294967296 * N + 65536 * nature + 4096 * internal + 256 * plan
 * + count, and puts that many signals, one to an octet, to the front of signals; the rest of signals stays.
 * Refused: 14, 13. */
uint64_t llachurep_number_read(const uint8_t *contents, size_t length, uint8_t *signals, size_t signals_length);

/* Writes the contents of a called party number; signals come one to an octet. Accepted: v is how many octets were
 * written, to the front of out; the rest of out stays.
 * Refused: 14, 13. */
uint32_t llachurep_number_write(uint32_t nature, uint32_t plan, uint32_t internal, const uint8_t *signals,
                                size_t signals_length, uint8_t *out, size_t out_length);

/* Applies a message of that sender to the table: one state octet, one ownership octet and one helper's octet (0 for none)
 * for each of 4096 circuits, and one total for each block of 64 circuits, which says how many of them are busy (1 in the
 * state). On a circuit that it helps and does not own a sender may use BLO, UBL, CQM, and CGB and CGU for maintenance.
 * Accepted: v is how many octets the answer has (0 for an IAM, 40 at the most), at the front of answer, and the states
 * of the circuits that the message names become what its rule says; all other states and the rest of answer stay. A
 * circuit query (CQM) changes no state and is answered by CQR, with an octet for each circuit: 0C idle, 04 busy, 02 more
 * where it is blocked for maintenance, 20 more where it is blocked for hardware, 01 more where it is blocked from our
 * side (8 in its state). RSC on such a circuit is answered by BLO and then RLC, seven octets; RSC and GRS keep the 8.
 * The totals of the blocks that hold a named circuit are counted anew, whatever they were; all other totals stay.
 * Refused: 16; as llachurep_read, but for its 13; 17, 14, 18, 19, 22, 20, 21, 13. */
uint32_t llachurep_act(uint8_t *states, size_t states_length, const uint8_t *owners, size_t owners_length,
                       const uint8_t *helpers, size_t helpers_length, uint8_t *totals, size_t totals_length,
                       uint32_t sender, const uint8_t *message, size_t length, uint8_t *answer, size_t answer_length);

/* Blocks a circuit from our side (8 in its state), or ends that where set is 0, whoever owns it. Accepted: v is 3, and the
 * BLO or UBL to send stands at the front of answer; the rest of answer and all other states stay. Setting what is set is
 * accepted and answers again. The total of the circuit's block is counted anew, and all other totals stay.
 * Refused: 16 where there are not 4096 states and 64 totals, 9 for a circuit above 4095, 20 where its state is not legal,
 * 13. */
uint32_t llachurep_block(uint8_t *states, size_t states_length, uint8_t *totals, size_t totals_length, uint32_t circuit,
                         uint32_t set, uint8_t *answer, size_t answer_length);

/* How many of the circuits from first to last are busy: whole blocks by their totals, and only the rows before and after
 * them one by one. Answers 4294967296 * N + 65536 * looked + count: looked is how many totals and rows were looked at, 188
 * at the most. Where every total is right, count is how many of these circuits are busy.
 * Refused: 16 where there are not 4096 states and 64 totals, 9 where last is above 4095, 18 where first is above last. */
uint64_t llachurep_busy(const uint8_t *states, size_t states_length, const uint8_t *totals, size_t totals_length,
                        uint32_t first, uint32_t last);

/* Makes every total right, whatever it was: the count of its block's busy circuits. Accepted: v is 64.
 * Refused: 16 where there are not 4096 states and 64 totals. */
uint32_t llachurep_rebuild(const uint8_t *states, size_t states_length, uint8_t *totals, size_t totals_length);

/* Plans a maintenance night: messages of one sender that block the ticked circuits, for maintenance where kind is 0, for hardware
 * where it is 1. `ticks` has an octet for each circuit, not 0 where it is ticked; states, owners and helpers are as for
 * llachurep_act. Accepted: v is how many octets the plan has (0 where nothing is ticked, 9 for each ticked circuit at the most),
 * at the front of plan; the rest of plan stays. A plan is messages one after the other, each after one octet that says its
 * length: ticked circuits in a row, 32 at the most, are one CGB, a single one is BLO, or for hardware a CGB that also names,
 * and does not mark, a neighbour. llachurep_check_plan answers 1 for it.
 * Refused: 16 where a table has not 4096 octets, 14 for a kind other than 0 or 1, 20 where any state is not legal, 25 exactly
 * where no plan exists, 13 exactly where plan has room for under 9 octets for each ticked circuit. */
uint32_t llachurep_plan(const uint8_t *states, size_t states_length, const uint8_t *owners, size_t owners_length,
                        const uint8_t *helpers, size_t helpers_length, const uint8_t *ticks, size_t ticks_length,
                        uint32_t sender, uint32_t kind, uint8_t *plan, size_t plan_length);

/* Whether a plan is good, whoever made it: 1 exactly where llachurep_act, lent these tables and 268 octets for its answer, would
 * accept every message of that sender in turn, each is a CGB of that kind or, for maintenance, a BLO, and together they mark
 * (or name by BLO) each ticked circuit once and no other. Else 0, also where a table has not 4096 octets, for another kind,
 * and for a plan cut off. It refuses nothing. */
uint32_t llachurep_check_plan(const uint8_t *states, size_t states_length, const uint8_t *owners, size_t owners_length,
                              const uint8_t *helpers, size_t helpers_length, const uint8_t *ticks, size_t ticks_length,
                              uint32_t sender, uint32_t kind, const uint8_t *plan, size_t plan_length);

/* Codes a bearing in degrees and a speed in km/h (Q.1902.3, 6.19.1). Accepted: v is 2; codes[0] is the bearing's whole
 * degrees and codes[1] the nearest whole speed, a half going up, 65535 from 65534.5 on; further elements of codes stay.
 * Refused: 26 where a value is not a number, infinite or below zero (minus zero is zero), or the bearing is 360 or more;
 * 13 where count is under 2. */
uint32_t llachurep_velocity_code(double bearing, double speed, uint16_t *codes, size_t count);

/* The same with a vertical speed in km/h (6.19.2); its mark, upward or downward, stays with the caller. Accepted: v is 3, and
 * codes[2] is the vertical speed's, 255 from 254.5 on.
 * Refused: 26, 13 where count is under 3. */
uint32_t llachurep_velocity_code_vertical(double bearing, double speed, double vertical, uint16_t *codes, size_t count);

/* What codes stand for. Accepted: v is 2; values[0] is the bearing and values[1] the speed, each the code itself; further
 * elements of values stay. (A vertical code, 0 to 255, stands for itself.)
 * Refused: 26 for a bearing above 359 or a speed above 65535; 13 where count is under 2. */
uint32_t llachurep_velocity_read(uint32_t bearing, uint32_t speed, double *values, size_t count);

#ifdef __cplusplus
}
#endif

#endif
