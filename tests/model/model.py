"""A model of the desk program, written from the paper's rules.

Each function below answers with a value, or with the number of the refusal (an int); the reader's numbers from 3 to 8
come with the octet that they are about (a Placed). The checks of a function stand in the paper's order.

As a program, it answers standard input on standard output, as the desk does.
"""

import sys
from typing import NamedTuple

import velocities

CIRCUITS = 4096
LONGEST = 268


class Placed(int):
    """A refusal's number with the octet that it is about."""

    def __new__(cls, number, place):
        placed = super().__new__(cls, number)
        placed.place = place
        return placed


def refused(answer):
    """A refusal is its number, with or without a place."""
    return isinstance(answer, int)


def refusal(answer):
    """A refusal as the desk says it."""
    return "refused %d at %d" % (answer, answer.place) if isinstance(answer, Placed) else "refused %d" % answer


# ---------------------------------------------------------------- the shapes of the types

class Shape(NamedTuple):
    fixed: int
    variable: int
    optional: bool


SHAPES = {}
for _types, _fixed, _variable, _optional in (
        ("01", 5, 1, True),
        ("02 0C", 0, 1, True),
        ("05", 1, 0, False),
        ("06 07", 2, 0, True),
        ("09 10", 0, 0, True),
        ("0D 0E 2C", 1, 0, True),
        ("12 13 14 15 16", 0, 0, False),
        ("17 29 2A", 0, 1, False),
        ("18 19 1A 1B", 1, 1, False),
        ("2B", 0, 2, False)):
    for _type in bytes.fromhex(_types):
        SHAPES[_type] = Shape(_fixed, _variable, _optional)

IAM, REL, RLC = 0x01, 0x0C, 0x10
RSC, BLO, UBL, BLA, UBA = 0x12, 0x13, 0x14, 0x15, 0x16
GRS, CGB, CGU, CGBA, CGUA, GRA = 0x17, 0x18, 0x19, 0x1A, 0x1B, 0x29
CQM, CQR = 0x2A, 0x2B


# ---------------------------------------------------------------- the reader

class Message(NamedTuple):
    circuit: int
    kind: int
    fixed: bytes
    variable: tuple     # the contents of each variable parameter, in pointer order
    optional: bytes     # the optional run without its closing 0


def closing(message, at):
    """Where the 0 stands that closes the run beginning at `at`; else 7, about the name octet of the parameter that failed,
    or about L where a name was due and the message ended."""
    length = len(message)
    while at < length:
        if message[at] == 0:
            return True, at
        if at + 2 > length or at + 2 + message[at + 1] > length:
            return False, Placed(7, at)
        at = at + 2 + message[at + 1]
    return False, Placed(7, length)


def share(one, other):
    """Whether two stretches, each (first octet, octet past the last), share an octet."""
    return max(one[0], other[0]) < min(one[1], other[1])


class Family(NamedTuple):
    """What one family of messages has other than another."""
    width: int          # the octets before the type octet
    longest: int
    rows: dict          # the shape of each type


ISUP = Family(2, LONGEST, SHAPES)
# Document 02, P4: a call instance code of four octets, 5 to 270 octets, and our types without those that are ISUP's alone.
BICC = Family(4, 270, {kind: row for kind, row in SHAPES.items() if kind not in (BLO, UBL, BLA, UBA)})

# Document 02, P6, and source document 002, Table 1 and section 4: the octets of the parameters of type F after the type,
# how many there are of type V, and whether there is a pointer to an optional part (RSR and ERR have one too).
SCCP_SHAPES = {}
for _type, _fixed, _variable, _optional in (
        (0x01, (3, 1), 1, True),                # CR
        (0x02, (3, 3, 1), 0, True),             # CC
        (0x03, (3, 1), 0, True),                # CREF
        (0x04, (3, 3, 1), 0, True),             # RLSD
        (0x05, (3, 3), 0, False),               # RLC
        (0x06, (3, 1), 1, False),               # DT1
        (0x07, (3, 2), 1, False),               # DT2
        (0x08, (3, 1, 1), 0, False),            # AK
        (0x09, (1,), 3, False),                 # UDT
        (0x0A, (1,), 3, False),                 # UDTS
        (0x0B, (3,), 1, False),                 # ED
        (0x0C, (3,), 0, False),                 # EA
        (0x0D, (3, 3, 1), 0, True),             # RSR
        (0x0E, (3, 3), 0, False),               # RSC
        (0x0F, (3, 1), 0, True),                # ERR
        (0x10, (3, 3, 1, 2, 1), 0, False),      # IT
        (0x11, (1, 1), 3, True),                # XUDT
        (0x12, (1, 1), 3, True)):               # XUDTS
    SCCP_SHAPES[_type] = Shape(sum(_fixed), _variable, _optional)
# The type octet comes first: 1 for an empty message, 2 above 268.
SCCP = Family(0, LONGEST, SCCP_SHAPES)


def row_of(family, kind):
    return family.rows.get(kind, 3)


def parse(family, message):
    """1, 2, 3, 4; each variable pointer in turn 5 then 6; the optional pointer 5 then 7; then 8. Gives type, fixed octets,
    variable contents and optional run."""
    length = len(message)
    if length < family.width + 1:
        return 1
    if length > family.longest:
        return 2
    kind = message[family.width]
    row = row_of(family, kind)
    if refused(row):
        return Placed(row, family.width)    # about the type octet
    pointers = family.width + 1 + row.fixed
    end = pointers + row.variable + (1 if row.optional else 0)
    if end > length:
        return Placed(4, length)        # about L

    parts = []
    contents = []
    for place in range(pointers, pointers + row.variable):
        # A pointer at octet p with value v points at p+v; a variable pointer may not be 0.
        target = place + message[place]
        if message[place] == 0 or target < end or target >= length:
            return Placed(5, place)     # about the pointer's octet
        past = target + 1 + message[target]
        if past > length:
            return Placed(6, target)    # about the length octet
        parts.append((target, past))
        contents.append(message[target + 1:past])

    run = b""
    if row.optional and message[end - 1] != 0:
        target = end - 1 + message[end - 1]
        if target < end or target >= length:
            return Placed(5, end - 1)
        closed, zero = closing(message, target)
        if not closed:
            return zero
        parts.append((target, zero + 1))
        run = message[target:zero]

    # The parts share no octet with one another: the pairs by first member, then second, parts in pointer order.
    for i in range(len(parts)):
        for j in range(i + 1, len(parts)):
            if share(parts[i], parts[j]):
                return Placed(8, max(parts[i][0], parts[j][0]))     # about the later start
    return kind, message[family.width + 1:pointers], tuple(contents), run


def read(message):
    got = parse(ISUP, message)
    # The high half of octet 1 is spare: ignored in reading.
    return got if refused(got) else Message(message[0] + 256 * (message[1] % 16), *got)


class Call(NamedTuple):
    code: int
    kind: int
    fixed: bytes
    variable: tuple
    optional: bytes


def bicc_read(message):
    got = parse(BICC, message)
    # The least significant octet of the code comes first.
    return got if refused(got) else Call(sum(message[i] << 8 * i for i in range(4)), *got)


class Unit(NamedTuple):
    kind: int
    fixed: bytes
    variable: tuple
    optional: bytes


def sccp_read(message):
    got = parse(SCCP, message)
    return got if refused(got) else Unit(*got)


# ---------------------------------------------------------------- the optional run

def parameters(run):
    """The (name, contents) of a run without closing 0; 11: a name 0, or a parameter that passes its end."""
    found = []
    at = 0
    while at < len(run):
        if run[at] == 0 or at + 2 > len(run):
            return 11
        past = at + 2 + run[at + 1]
        if past > len(run):
            return 11
        found.append((run[at], run[at + 2:past]))
        at = past
    return found


# ---------------------------------------------------------------- the writer

def compose(family, head, kind, fixed, given, optional, room):
    """3, 10, 11, 12, 2, 13. Given are the variable contents, an unused one empty."""
    row = row_of(family, kind)
    if refused(row):
        return row
    # Fixed octets of wrong count, or contents for a part the type lacks.
    if len(fixed) != row.fixed:
        return 10
    if any(given[row.variable:]) or optional and not row.optional:
        return 10
    found = parameters(optional)
    if refused(found):
        return found

    # Variable parameters in pointer order right after the pointers, the optional part next.
    contents = given[:row.variable]
    pointers = family.width + 1 + row.fixed
    place = pointers
    target = pointers + row.variable + (1 if row.optional else 0)
    numbers = []                # every length and pointer octet that will be written
    for each in contents:
        numbers += [target - place, len(each)]
        place += 1
        target += 1 + len(each)
    if optional:
        numbers.append(target - place)
    if any(value > 255 for value in numbers):
        return 12

    octets = bytearray(head + bytes([kind]))
    octets += fixed
    octets += bytes(numbers[0:2 * row.variable:2])
    if row.optional:
        octets.append(numbers[-1] if optional else 0)
    for each in contents:
        octets.append(len(each))
        octets += each
    if optional:
        octets += optional + b"\0"
    if len(octets) > family.longest:
        return 2
    if len(octets) > room:
        return 13
    return bytes(octets)


def write(circuit, kind, fixed, first, second, optional, room):
    """9, then as every family."""
    if circuit > 4095:
        return 9
    return compose(ISUP, bytes((circuit % 256, circuit // 256)), kind, fixed, (first, second), optional, room)


def bicc_write(code, kind, fixed, first, second, optional, room):
    """Any code is a code."""
    return compose(BICC, bytes(code >> 8 * i & 255 for i in range(4)), kind, fixed, (first, second), optional, room)


def sccp_write(kind, fixed, first, second, third, optional, room):
    """Nothing stands before the type."""
    return compose(SCCP, b"", kind, fixed, (first, second, third), optional, room)


def compact(message, room):
    """Reading and writing again: the reader's numbers, then 12 and 13."""
    got = read(message)
    if refused(got):
        return got
    first, second = (got.variable + (b"", b""))[:2]
    return write(got.circuit, got.kind, got.fixed, first, second, got.optional, room)


def bicc_compact(message, room):
    got = bicc_read(message)
    if refused(got):
        return got
    first, second = (got.variable + (b"", b""))[:2]
    return bicc_write(got.code, got.kind, got.fixed, first, second, got.optional, room)


def sccp_compact(message, room):
    got = sccp_read(message)
    if refused(got):
        return got
    contents = (got.variable + (b"", b"", b""))[:3]
    return sccp_write(got.kind, got.fixed, *contents, got.optional, room)


# ---------------------------------------------------------------- stepping

def steps(got):
    """The optional parameters of a message that was read, in order; over one that the reader refuses, that refusal."""
    return got if refused(got) else parameters(got.optional)


# ---------------------------------------------------------------- finding

def find(name, message, defaults):
    """The reader's numbers, 11 for the defaults, 15. The message comes first, the first match in wire order."""
    got = read(message)
    if refused(got):
        return got
    standing = parameters(defaults)
    if refused(standing):
        return standing
    if name == 0:
        return 15
    for holder, run in (("message", parameters(got.optional)), ("defaults", standing)):
        for each, contents in run:
            if each == name:
                return holder, contents
    return 15


# ---------------------------------------------------------------- called party numbers

class Number(NamedTuple):
    nature: int
    plan: int
    internal: int
    signals: bytes      # one per octet


def number(contents, room):
    """14, then 13."""
    if len(contents) < 2:
        return 14
    odd = contents[0] // 128
    signals = []
    for octet in contents[2:]:
        signals += [octet % 16, octet // 16]        # low half of an octet first
    if odd:
        # Odd with no signals; filler not 0.
        if not signals or signals.pop() != 0:
            return 14
    if len(signals) > 30:
        return 14
    if len(signals) > room:
        return 13
    return Number(contents[0] % 128, contents[1] // 16 % 8, contents[1] // 128, bytes(signals))


def dial(nature, plan, internal, signals, room):
    """14, then 13."""
    if nature > 127 or plan > 7 or internal > 1 or len(signals) > 30 or any(each > 15 for each in signals):
        return 14
    odd = len(signals) % 2
    halves = list(signals) + [0] * odd              # an odd count leaves a high half as filler 0
    octets = [128 * odd + nature, 128 * internal + 16 * plan]
    for i in range(0, len(halves), 2):
        octets.append(halves[i] + 16 * halves[i + 1])
    if len(octets) > room:
        return 13
    return bytes(octets)


# ---------------------------------------------------------------- the hub

BUSY, MAINTENANCE, HARDWARE, LOCAL = 1, 2, 4, 8
# Any of the six states of the base, or one of them with our own block on top.
LEGAL = (0, 1, 2, 3, 4, 6) + tuple(LOCAL + state for state in (0, 1, 2, 3, 4, 6))


class Ask(NamedTuple):
    reach: int          # the range r; 0 for one circuit
    marks: tuple        # for each of m to m+r, whether the rule changes it
    rule: object        # the new state of a marked circuit, from the old one
    answer: object      # the answer, from the old states of m to m+r


def plain(circuit, kind, fixed=b"", first=b"", second=b""):
    """A message of an answer: it carries m and has the compact form."""
    return write(circuit, kind, fixed, first, second, b"", LONGEST)


def always(answer):
    """An answer that does not look at the states."""
    return lambda states: answer


def circuit_state(state):
    """The circuit state octet of a query's answer: idle 0C, busy 04, remote maintenance block 02, remote hardware block 20,
    our own block 01."""
    coded = 0x04 if state & BUSY else 0x0C
    if state & MAINTENANCE:
        coded += 0x02
    if state & HARDWARE:
        coded += 0x20
    if state & LOCAL:
        coded += 0x01
    return coded


def reset_answer(m):
    """RLC; where the circuit is locally blocked, BLO followed by RLC."""
    return lambda states: (plain(m, BLO) if states[0] & LOCAL else b"") + plain(m, RLC)


def group_reset_answer(m, r):
    """GRA, whose status has a 1 for each circuit locally blocked."""
    def answer(states):
        status = bytearray(r // 8 + 1)
        for n, state in enumerate(states):
            if state & LOCAL:
                status[n // 8] |= 1 << n % 8
        return plain(m, GRA, first=bytes([r]) + bytes(status))
    return answer


def ask(message):
    """What a message asks of the circuits: 17, then 14."""
    m = message.circuit
    if message.kind == IAM:
        return Ask(0, (True,), lambda state: BUSY, always(b""))
    if message.kind == REL:
        return Ask(0, (True,), lambda state: state & ~BUSY, always(plain(m, RLC)))
    if message.kind == RSC:
        return Ask(0, (True,), lambda state: state & LOCAL, reset_answer(m))
    if message.kind == BLO:
        return Ask(0, (True,), lambda state: state | MAINTENANCE, always(plain(m, BLA)))
    if message.kind == UBL:
        return Ask(0, (True,), lambda state: state & ~MAINTENANCE, always(plain(m, UBA)))
    if message.kind in (GRS, CQM):
        contents = message.variable[0]
        # Range from 1 to 31, of a query from 0; contents exactly r's octet.
        if len(contents) != 1 or not (1 if message.kind == GRS else 0) <= contents[0] <= 31:
            return 14
        r = contents[0]
        if message.kind == CQM:
            return Ask(r, (False,) * (r + 1), None, lambda states: plain(
                m, CQR, first=bytes([r]), second=bytes(circuit_state(each) for each in states)))
        return Ask(r, (True,) * (r + 1), lambda state: state & LOCAL, group_reset_answer(m, r))
    if message.kind in (CGB, CGU):
        kind = message.fixed[0] % 4                 # the other bits are spare
        contents = message.variable[0]
        if kind > 1:
            return 14
        # Range 1 to 255, then exactly r/8+1 status octets.
        if len(contents) < 1 or contents[0] < 1 or len(contents) != 1 + contents[0] // 8 + 1:
            return 14
        r, status = contents[0], contents[1:]
        # Status bit n, low bit first, stands for circuit m+n; bits past r are spare.
        marks = tuple(status[n // 8] >> (n % 8) & 1 == 1 for n in range(r + 1))
        # At most 32 of them are marked; spare bits do not count.
        if sum(marks) > 32:
            return 14
        clean = bytearray(r // 8 + 1)
        for n in range(r + 1):
            if marks[n]:
                clean[n // 8] |= 1 << (n % 8)
        if message.kind == CGB:
            rule = (lambda state: state | MAINTENANCE) if kind == 0 else \
                   (lambda state: (state | HARDWARE) & ~BUSY)       # hardware also ends busy
            reply = CGBA
        else:
            rule = (lambda state: state & ~MAINTENANCE) if kind == 0 else \
                   (lambda state: state & ~HARDWARE)
            reply = CGUA
        return Ask(r, marks, rule, always(plain(m, reply, bytes([kind]), bytes([r]) + bytes(clean))))
    return 17


def for_helpers(message):
    """Whether a sender may use the message on a circuit that it only helps: BLO, UBL, CQM, and CGB and CGU for maintenance."""
    if message.kind in (CGB, CGU):
        return message.fixed[0] % 4 == 0
    return message.kind in (BLO, UBL, CQM)


def act(states, owners, helpers, sender, message, room):
    """16, the reader's, 17, 14, 18, 19, 22, 20, 21, 13. Accepted: the answer and the new states of m to m+r."""
    if len(states) != CIRCUITS or len(owners) != CIRCUITS or len(helpers) != CIRCUITS:
        return 16
    got = read(message)
    if refused(got):
        return got
    asked = ask(got)
    if refused(asked):
        return asked
    m = got.circuit
    if m + asked.reach > 4095:
        return 18
    named = range(m, m + asked.reach + 1)           # marked or not
    # 0 owns nothing and helps nothing.
    if sender == 0 or any(owners[c] != sender and helpers[c] != sender for c in named):
        return 19
    if any(owners[c] != sender for c in named) and not for_helpers(got):
        return 22
    if any(states[c] not in LEGAL for c in named):
        return 20
    if got.kind == IAM and states[m] != 0:
        return 21
    answer = asked.answer([states[c] for c in named])
    if len(answer) > room:
        return 13
    rows = bytes(asked.rule(states[c]) if asked.marks[c - m] else states[c] for c in named)
    return answer, rows


def block(states, circuit, set_it, room):
    """A call of our own desk: 16, 9, 20, 13. Accepted: the BLO or UBL to send, and the circuit's new state."""
    if len(states) != CIRCUITS:
        return 16
    if circuit > 4095:
        return 9
    if states[circuit] not in LEGAL:
        return 20
    notice = plain(circuit, BLO if set_it else UBL)
    if len(notice) > room:
        return 13
    return notice, states[circuit] | LOCAL if set_it else states[circuit] & ~LOCAL


# ---------------------------------------------------------------- the totals

BLOCK, BLOCKS = 64, 64      # circuits of a block, and blocks


def recount(states, totals, first, last):
    """Each block that holds one of the circuits first to last has its total equal to its rows' count; other totals stay."""
    for block in range(first // BLOCK, last // BLOCK + 1):
        totals[block] = sum(state & BUSY for state in states[BLOCK * block:BLOCK * block + BLOCK])


def busy(states, totals, a, b):
    """A question about circuits a to b: 16, 9, 18. The count, and how many numbers were looked at: whole blocks are taken from
    the totals, and only loose rows one by one."""
    if len(states) != CIRCUITS or len(totals) != BLOCKS:
        return 16
    if b > 4095:
        return 9
    if a > b:
        return 18
    whole = [block for block in range(BLOCKS) if a <= BLOCK * block and BLOCK * block + BLOCK - 1 <= b]
    loose = [c for c in range(a, b + 1) if c // BLOCK not in whole]
    return sum(totals[block] for block in whole) + sum(states[c] & BUSY for c in loose), len(whole) + len(loose)


def rebuild(states, totals):
    """16. Every total is made right, whatever it was."""
    if len(states) != CIRCUITS or len(totals) != BLOCKS:
        return 16
    recount(states, totals, 0, CIRCUITS - 1)
    return "ok"


# ---------------------------------------------------------------- a maintenance night

def group_block(kind, m, marks):
    """CGB of a kind: the circuits from m on, and for each whether it is marked."""
    status = bytearray((len(marks) - 1) // 8 + 1)
    for n, mark in enumerate(marks):
        if mark:
            status[n // 8] |= 1 << n % 8
    return plain(m, CGB, bytes([kind]), bytes([len(marks) - 1]) + bytes(status))


def markings(kind, c):
    """The shortest messages that mark circuit c alone: BLO for maintenance, and CGB of range 1 with a neighbour. Whatever else may be in a
    message that marks c can be left out of it, so one of these is accepted where any such message is."""
    found = [plain(c, BLO)] if kind == 0 else []
    if c < 4095:
        found.append(group_block(kind, c, (True, False)))
    if c > 0:
        found.append(group_block(kind, c - 1, (False, True)))
    return found


def plan(states, owners, helpers, ticks, sender, kind, room):
    """16, 14, 20 for any bad row, 25 where no plan exists, 13 under 9 octets for each ticked circuit. Accepted: the plan's octets.

    Of the plans that there are, ours is: from circuit 0 up, ticked circuits in a row, up to 32, are one CGB with every bit set; a single one is
    BLO for maintenance, and for hardware a CGB of range 1 with the next circuit where the sender owns that, else with the one before."""
    if any(len(table) != CIRCUITS for table in (states, owners, helpers, ticks)):
        return 16
    if kind > 1:
        return 14
    if any(state not in LEGAL for state in states):
        return 20
    ticked = [c for c in range(CIRCUITS) if ticks[c]]
    for c in ticked:
        if all(refused(act(states, owners, helpers, sender, message, LONGEST)) for message in markings(kind, c)):
            return 25
    if room < 9 * len(ticked):
        return 13
    made, c = b"", 0
    while c < CIRCUITS:
        count = 0
        while count < 32 and c + count < CIRCUITS and ticks[c + count]:
            count += 1
        if count > 1:
            message = group_block(kind, c, (True,) * count)
        elif count == 1 and kind == 0:
            message = plain(c, BLO)
        elif count == 1 and c < 4095 and owners[c + 1] == sender:
            message = group_block(kind, c, (True, False))
        elif count == 1:
            message = group_block(kind, c - 1, (False, True))
        if count:
            made += bytes([len(message)]) + message
        c += max(1, count)
    return made


def check(states, owners, helpers, ticks, sender, kind, plan):
    """Whether the hub would accept every message in turn, and the ticked circuits are marked, or named by BLO, once each, no others."""
    if any(len(table) != CIRCUITS for table in (states, owners, helpers, ticks)) or kind > 1:
        return False
    states, times = bytearray(states), [0] * CIRCUITS
    while plan:
        length, plan = plan[0], plan[1:]
        if len(plan) < length:
            return False
        message, plan = plan[:length], plan[length:]
        done = act(states, owners, helpers, sender, message, LONGEST)
        if refused(done):
            return False
        got = read(message)
        if not (got.kind == CGB and got.fixed[0] % 4 == kind or got.kind == BLO and kind == 0):
            return False
        for n, mark in enumerate(ask(got).marks):
            times[got.circuit + n] += mark
        states[got.circuit:got.circuit + len(done[1])] = done[1]
    return all(times[c] == (1 if ticks[c] else 0) for c in range(CIRCUITS))


# ---------------------------------------------------------------- the fields of a line

class BadLine(Exception):
    """A line that is no request."""


DIGITS = b"0123456789"
HEX = b"0123456789abcdef"
LONGEST_LINE = 81920
MOST_OCTETS = 1024
MOST_PLANNED = 36864


def to(most):
    """A field that is a number: decimal digits alone, at most ten of them, up to `most`."""
    def field(word):
        if not 1 <= len(word) <= 10 or any(each not in DIGITS for each in word):
            raise BadLine
        value = 0
        for each in word:
            value = 10 * value + DIGITS.index(each)
        if value > most:
            raise BadLine
        return value
    return field


def octets(word, most=MOST_OCTETS):
    """A field of octets: two hexadecimal digits each, either case; `-` for none; up to 1024, of a plan more."""
    if word == b"-":
        return b""
    digits = word.lower()
    if not digits or len(digits) % 2 or len(digits) > 2 * most or any(each not in HEX for each in digits):
        raise BadLine
    return bytes(16 * HEX.index(digits[i]) + HEX.index(digits[i + 1]) for i in range(0, len(digits), 2))


def planned(word):
    """A plan: octets, up to nine for each circuit."""
    return octets(word, MOST_PLANNED)


def octet(word):
    """A type or a parameter name: two hexadecimal digits."""
    if len(word) != 2:
        raise BadLine
    return octets(word)[0]


def value(word):
    """A measured value: a decimal, or the bits of a 64-bit number."""
    number = velocities.typed(word)
    if number is None:
        raise BadLine
    return number


def mark(word):
    """up or down."""
    if word not in velocities.MARKS:
        raise BadLine
    return word.decode()


ANY = to(4294967295)
CODE = to(65535)
ROOM = to(1024)
PLAN_ROOM = to(MOST_PLANNED)
CIRCUIT = to(4095)
SMALL = to(255)
ONE_BLOCK = to(63)

FIELDS = {
    b"shape": (octet,),
    b"read": (octets,),
    b"write": (ANY, octet, octets, octets, octets, octets, ROOM),
    b"compact": (octets, ROOM),
    b"find": (octet, octets, octets),
    b"number": (octets, ROOM),
    b"dial": (ANY, ANY, ANY, octets, ROOM),
    b"own": (CIRCUIT, CIRCUIT, SMALL),
    b"helper": (CIRCUIT, CIRCUIT, SMALL),
    b"set": (CIRCUIT, CIRCUIT, SMALL),
    b"act": (ANY, octets, ROOM),
    b"rows": (CIRCUIT, CIRCUIT),
    b"block": (ANY, ROOM),
    b"unblock": (ANY, ROOM),
    b"velocity": (value, value),
    b"velocity-back": (CODE, CODE),
    b"bicc-shape": (octet,),
    b"bicc-read": (octets,),
    b"bicc-write": (ANY, octet, octets, octets, octets, octets, ROOM),
    b"bicc-compact": (octets, ROOM),
    b"sccp-shape": (octet,),
    b"sccp-read": (octets,),
    b"sccp-write": (octet, octets, octets, octets, octets, octets, ROOM),
    b"sccp-compact": (octets, ROOM),
    b"list": (octets,),
    b"bicc-list": (octets,),
    b"sccp-list": (octets,),
    b"busy": (ANY, ANY),
    b"totals": (),
    b"total": (ONE_BLOCK, SMALL),
    b"rebuild": (),
    b"tick": (CIRCUIT, CIRCUIT, SMALL),
    b"plan": (ANY, ANY, PLAN_ROOM),
    b"check": (ANY, ANY, planned),
}

# The requests that have a second form, with more fields.
LONGER = {
    b"velocity": (value, value, value, mark),
    b"velocity-back": (CODE, CODE, SMALL, mark),
}


def request(line):
    """What a line asks: the request's word and its values. Words stand apart by one space."""
    if len(line) > LONGEST_LINE:
        raise BadLine
    words = line.split(b" ")
    fields = FIELDS.get(words[0])
    if fields is not None and len(words) != 1 + len(fields):
        fields = LONGER.get(words[0])
    if fields is None or len(words) != 1 + len(fields):
        raise BadLine
    values = [field(word) for field, word in zip(fields, words[1:])]
    if words[0] in (b"own", b"helper", b"set", b"rows", b"tick") and values[0] > values[1]:
        raise BadLine
    return words[0].decode().replace("-", "_"), values


def shown(these):
    return these.hex() or "-"


def said(message):
    """The type and the parts of a message."""
    first, second = (message.variable + (b"", b""))[:2]
    return "type %02x fixed %s first %s second %s optional %s" % (
        message.kind, shown(message.fixed), shown(first), shown(second), shown(message.optional))


def listed(found):
    """Name and contents of each parameter, in order."""
    if refused(found):
        return found
    return "parameters " + (" ".join("%02x %s" % (name, shown(contents)) for name, contents in found) or "-")


def written(answer):
    return answer if refused(answer) else "octets " + shown(answer)


# ---------------------------------------------------------------- the desk

class Desk:
    """One table of states, one of owners, one of helpers, the totals and the ticks, all 0 at the start."""

    def __init__(self):
        self.states = bytearray(CIRCUITS)
        self.owners = bytearray(CIRCUITS)
        self.helpers = bytearray(CIRCUITS)
        self.totals = bytearray(BLOCKS)
        self.ticks = bytearray(CIRCUITS)

    def answer(self, line):
        """The answer line, without LF. The line comes without its LF and without a CR right before that LF."""
        try:
            word, values = request(line)
        except BadLine:
            return b"bad line"
        answer = getattr(self, "on_" + word)(*values)
        return (refusal(answer) if refused(answer) else answer).encode()

    def on_shape(self, kind, family=ISUP):
        """One plain question with one answer for all 256 octets."""
        row = row_of(family, kind)
        if refused(row):
            return row
        return "fixed %d variable %d optional %s" % (row.fixed, row.variable, "yes" if row.optional else "no")

    def on_bicc_shape(self, kind):
        return self.on_shape(kind, BICC)

    def on_read(self, message):
        got = read(message)
        return got if refused(got) else "circuit %d " % got.circuit + said(got)

    def on_bicc_read(self, message):
        got = bicc_read(message)
        return got if refused(got) else "code %d " % got.code + said(got)

    def on_write(self, *values):
        return written(write(*values))

    def on_bicc_write(self, *values):
        return written(bicc_write(*values))

    def on_compact(self, message, room):
        return written(compact(message, room))

    def on_bicc_compact(self, message, room):
        return written(bicc_compact(message, room))

    def on_sccp_shape(self, kind):
        return self.on_shape(kind, SCCP)

    def on_sccp_read(self, message):
        got = sccp_read(message)
        if refused(got):
            return got
        first, second, third = (got.variable + (b"", b"", b""))[:3]
        return "type %02x fixed %s first %s second %s third %s optional %s" % (
            got.kind, shown(got.fixed), shown(first), shown(second), shown(third), shown(got.optional))

    def on_sccp_write(self, *values):
        return written(sccp_write(*values))

    def on_sccp_compact(self, message, room):
        return written(sccp_compact(message, room))

    def on_list(self, message):
        return listed(steps(read(message)))

    def on_bicc_list(self, message):
        return listed(steps(bicc_read(message)))

    def on_sccp_list(self, message):
        return listed(steps(sccp_read(message)))

    def on_find(self, name, message, defaults):
        found = find(name, message, defaults)
        return found if refused(found) else found[0] + " " + shown(found[1])

    def on_number(self, contents, room):
        got = number(contents, room)
        if refused(got):
            return got
        return "nature %d plan %d internal %d signals %s" % (
            got.nature, got.plan, got.internal, shown(got.signals))

    def on_dial(self, *values):
        written = dial(*values)
        return written if refused(written) else "octets " + shown(written)

    def on_own(self, first, last, sender):
        self.owners[first:last + 1] = bytes([sender]) * (last + 1 - first)
        return "ok"

    def on_helper(self, first, last, sender):
        self.helpers[first:last + 1] = bytes([sender]) * (last + 1 - first)
        return "ok"

    def on_set(self, first, last, state):
        self.states[first:last + 1] = bytes([state]) * (last + 1 - first)
        recount(self.states, self.totals, first, last)
        return "ok"

    def on_act(self, sender, message, room):
        done = act(self.states, self.owners, self.helpers, sender, message, room)
        if refused(done):
            return done
        answer, rows = done
        m = read(message).circuit
        self.states[m:m + len(rows)] = rows
        recount(self.states, self.totals, m, m + len(rows) - 1)     # all that are named, changed or not
        return "answer " + shown(answer)

    def on_block(self, circuit, room, set_it=True):
        done = block(self.states, circuit, set_it, room)
        if refused(done):
            return done
        notice, state = done
        self.states[circuit] = state
        recount(self.states, self.totals, circuit, circuit)
        return "answer " + shown(notice)

    def on_unblock(self, circuit, room):
        return self.on_block(circuit, room, set_it=False)

    def on_rows(self, first, last):
        return "rows " + shown(bytes(self.states[first:last + 1]))

    def on_busy(self, first, last):
        got = busy(self.states, self.totals, first, last)
        return got if refused(got) else "count %d looked %d" % got

    def on_totals(self):
        return "totals " + shown(bytes(self.totals))

    def on_total(self, block, value):
        """One total is overwritten, right or wrong."""
        self.totals[block] = value
        return "ok"

    def on_rebuild(self):
        return rebuild(self.states, self.totals)

    def on_tick(self, first, last, octet):
        self.ticks[first:last + 1] = bytes([octet]) * (last + 1 - first)
        return "ok"

    def on_plan(self, sender, kind, room):
        return written(plan(self.states, self.owners, self.helpers, self.ticks, sender, kind, room))

    def on_check(self, sender, kind, plan):
        return "yes" if check(self.states, self.owners, self.helpers, self.ticks, sender, kind, plan) else "no"

    def on_velocity(self, bearing, speed, vertical=None, mark=None):
        codes = velocities.coded(bearing, speed, vertical)
        return codes if refused(codes) else velocities.said(codes, mark)

    def on_velocity_back(self, bearing, speed, vertical=None, mark=None):
        values = velocities.known(bearing, speed, vertical)
        return values if refused(values) else velocities.said(values, mark)


def lines(data):
    """The lines of an input. A last line without LF is a line; nothing after the last LF is none."""
    pieces = data.split(b"\n")
    last = pieces.pop()
    # A CR right before the LF is no part of the line.
    found = [piece[:-1] if piece.endswith(b"\r") else piece for piece in pieces]
    return found + [last] if last else found


def answers(data):
    """What the desk writes for a whole input: one line for each line."""
    desk = Desk()
    return b"".join(desk.answer(line) + b"\n" for line in lines(data))


# ---------------------------------------------------------------- a recorded day

class Section:
    """Octets that are taken from their front; None where there are too few."""

    def __init__(self, data):
        self.rest = data

    def take(self, count):
        if count is None or len(self.rest) < count:
            return None
        taken, self.rest = self.rest[:count], self.rest[count:]
        return taken

    def number(self):
        """Two octets, low first."""
        two = self.take(2)
        return None if two is None else two[0] + two[1] * 256


def book(data):
    """The spans (first, last, sender) and the messages (sender, octets) of a book; 24: cut off, octets left over, a bad span, a message longer than 268."""
    data = Section(memoryview(data))
    spans, messages = [], []
    count = data.number()
    if count is None:
        return 24
    for _ in range(count):
        first, last, sender = data.number(), data.number(), data.take(1)
        if first is None or last is None or sender is None:
            return 24
        ascending = not spans or spans[-1][1] < first
        if not ascending or first > last or last > 4095 or sender[0] == 0:
            return 24
        spans.append((first, last, sender[0]))
    count = data.number()
    if count is None:
        return 24
    for _ in range(count):
        sender, length = data.take(1), data.number()
        if sender is None or length is None or length > LONGEST:
            return 24
        octets = data.take(length)
        if octets is None:
            return 24
        messages.append((sender[0], bytes(octets)))
    return 24 if len(data.rest) else (spans, messages)


def replay(data):
    """What is written for a book: each sender's line and the line of the sums, or that it is no book."""
    got = book(data)
    if refused(got):
        return b"refused %d\n" % got
    spans, messages = got
    # A book names no helpers.
    states, owners, helpers = bytearray(CIRCUITS), bytearray(CIRCUITS), bytes(CIRCUITS)
    for first, last, sender in spans:
        for c in range(first, last + 1):
            owners[c] = sender
    sent, took = {}, {}
    for sender, message in messages:
        sent[sender] = sent.get(sender, 0) + 1
        outcome = act(states, owners, helpers, sender, message, LONGEST)
        if refused(outcome):
            continue
        took[sender] = took.get(sender, 0) + 1
        m = read(message).circuit
        states[m:m + len(outcome[1])] = outcome[1]
    sums, text = [0, 0, 0, 0], b""
    for sender in sorted(sent):
        accepted = took.get(sender, 0)
        busy = sum(1 for c in range(CIRCUITS) if owners[c] == sender and states[c] & 1)
        numbers = [sent[sender], accepted, sent[sender] - accepted, busy]
        sums = [a + b for a, b in zip(sums, numbers)]
        text += b"%d %d %d %d %d\n" % (sender, *numbers)
    return text + b"all %d %d %d %d\n" % tuple(sums)


if __name__ == "__main__":
    sys.stdout.buffer.write(answers(sys.stdin.buffer.read()))
