"""generate.py N SEED [--cover]: N request lines for the desk, the same for the same seed.

Most are made by chance; among the first are the corners, a list of requests at the very edge of each rule.
For an odd seed, the last line has no LF. With --cover, standard error gets a table: how often each number was
answered to each kind of request.
"""

import random
import sys
from collections import Counter

sys.dont_write_bytecode = True
import model
import velocities
from roaming import Roaming
from nights import Nights
from model import SHAPES, IAM, REL, RSC, BLO, UBL, GRS, CGB, CGU, CQM

STORED_COUNT = 7000
STORED_SEED = 780

TYPES = sorted(SHAPES)
WITH_VARIABLE = [kind for kind in TYPES if SHAPES[kind].variable]
WITH_OPTIONAL = [kind for kind in TYPES if SHAPES[kind].optional]
WITHOUT_OPTIONAL = [kind for kind in TYPES if not SHAPES[kind].optional]
WITH_POINTERS = [kind for kind in TYPES if SHAPES[kind].variable or SHAPES[kind].optional]
WITH_BOTH = [kind for kind in WITH_VARIABLE if SHAPES[kind].optional]
NO_TYPES = [kind for kind in range(256) if kind not in SHAPES]
NEAR_TYPES = [0x00, 0x03, 0x04, 0x08, 0x0A, 0x0B, 0x0F, 0x11, 0x1C, 0x28, 0x2D, 0x81, 0xFF]
ACTED = [IAM, REL, RSC, BLO, UBL, GRS, CGB, CGU, CQM]
OTHERS = [kind for kind in TYPES if kind not in ACTED]
CQR = 0x2B
NAMES = [0x01, 0x03, 0x0A, 0x20, 0x31, 0x80, 0xFF]
ILLEGAL = [5, 7, 13, 15, 16, 24, 128, 255]
STATES = [0, 1, 2, 3, 4, 6, 8, 9, 10, 11, 12, 14]
TOP = 4294967295


def ends(kind):
    """Where the pointers of a type begin, and the octet past them."""
    row = SHAPES[kind]
    return 3 + row.fixed, 3 + row.fixed + row.variable + (1 if row.optional else 0)


class Generator(Roaming, Nights):
    def __init__(self, seed):
        self.rng = random.Random(seed)
        self.desk = model.Desk()        # follows the requests, so that a scene knows who owns what
        self.waiting = []               # the lines of the scene that is under way
        self.corners = []               # the corners still to come in this round
        self.rounds = 0

    # ------------------------------------------------------------ small choices

    def chance(self, part):
        return self.rng.random() < part

    def pick(self, these):
        return these[self.rng.randrange(len(these))]

    def between(self, low, high):
        return self.rng.randrange(low, high + 1)

    def weighted(self, pairs):
        at = self.rng.random() * sum(weight for weight, _ in pairs)
        for weight, each in pairs:
            at -= weight
            if at < 0:
                return each
        return pairs[-1][1]

    def shuffled(self, these):
        these = list(these)
        self.rng.shuffle(these)
        return these

    def octets(self, count):
        return bytes(self.rng.getrandbits(8) for _ in range(count))

    def circuit(self):
        return self.weighted([
            (6, self.between(0, 4095)), (2, self.between(0, 12)), (2, self.between(4080, 4095)),
            (1, self.pick([0, 1, 255, 256, 257, 2048, 4094, 4095]))])

    # ------------------------------------------------------------ fields of a line

    def hexed(self, these):
        if not these:
            return "-"
        text = these.hex()
        way = self.rng.random()
        if way < 0.75:
            return text
        if way < 0.9:
            return text.upper()
        return "".join(each.upper() if self.chance(0.5) else each for each in text)

    def decimal(self, value):
        text = str(value)
        if self.chance(0.04):
            text = text.zfill(self.pick([len(text) + 1, 10, 10]))[-10:]
        return text

    def line(self, word, *fields):
        words = [word]
        for each in fields:
            words.append(self.decimal(each) if isinstance(each, int) else
                         self.hexed(each) if isinstance(each, bytes) else each)
        return " ".join(words).encode()

    def octet(self, value):
        """A type or a name: two digits, either case."""
        return self.hexed(bytes([value]))

    def room(self, need):
        """Exactly enough, one less, one more, none, and all."""
        return max(0, min(1024, self.weighted([
            (5, need), (3, need - 1), (1, need + 1), (1, 0), (4, 1024), (1, self.between(0, 40))])))

    # ------------------------------------------------------------ optional runs

    def name(self):
        return self.pick(NAMES) if self.chance(0.7) else self.between(1, 255)

    def run(self, most=4):
        """A well-formed run: any order, repeats, unknown names, empty contents."""
        these = b""
        names = [self.name(), self.name(), self.name()]
        for _ in range(self.between(0, most)):
            contents = self.octets(self.pick([0, 0, 1, 1, 2, 3, 5]))
            if self.chance(0.15):
                contents = bytes(len(contents))
            these += bytes([self.pick(names), len(contents)]) + contents
        return these

    def run_of(self, length):
        """A well-formed run of exactly so many octets (not 1)."""
        these = b""
        while length:
            if length <= 257:
                size = length
            else:
                size = self.between(2, 257)
                if length - size == 1:
                    size -= 1
            if size < 2:
                size = 2
            these += bytes([self.name(), size - 2]) + self.octets(size - 2)
            length -= size
        return these

    def ill(self):
        """An ill-formed run: a name 0, a name without its length, contents that pass the end by one or more."""
        front = self.run(2)
        way = self.between(0, 5)
        if way == 0:
            return front + b"\0" + self.octets(self.between(0, 3))
        if way == 1:
            return front + bytes([self.name()])
        if way == 2:
            size = self.between(0, 4)
            return front + bytes([self.name(), size + 1]) + self.octets(size)
        if way == 3:
            return front + bytes([self.name(), 255]) + self.octets(self.between(0, 254))
        if way == 4:
            return b"\0" + self.run(2)
        return front + b"\0\0"

    # ------------------------------------------------------------ messages: well formed

    def lay(self, kind, circuit, fixed, contents, run, gaps=(), after=b"", order=None, spare=0):
        """A message whose parts stand in the given order; run None: optional pointer 0. None where it can't be."""
        row = SHAPES[kind]
        pointers, end = ends(kind)
        parts = [bytes([len(each)]) + each for each in contents]
        if row.optional and run is not None:
            parts.append(run + b"\0")
        order = list(range(len(parts))) if order is None else order
        body = b""
        targets = [0] * len(parts)
        for turn, part in enumerate(order):
            body += gaps[turn] if turn < len(gaps) else b""
            targets[part] = end + len(body)
            body += parts[part]
        values = [target - pointers - part for part, target in enumerate(targets)]
        if row.optional and run is None:
            values.append(0)
        if any(value > 255 for value in values) or end + len(body + after) > 268:
            return None
        return bytes([circuit % 256, circuit // 256 + 16 * spare, kind]) + fixed + bytes(values) + body + after

    def dress(self, kind, circuit, fixed, contents, run):
        """The message with random gaps, order, spare bits and octets after the last part."""
        while True:
            count = len(contents) + (1 if run is not None and SHAPES[kind].optional else 0)
            plain = self.chance(0.35)
            made = self.lay(
                kind, circuit, fixed, contents, run,
                [b"" if plain or self.chance(0.5) else self.octets(self.between(1, 6)) for _ in range(count)],
                b"" if plain or self.chance(0.5) else self.octets(self.between(1, 8)),
                list(range(count)) if plain else self.shuffled(range(count)),
                0 if plain or self.chance(0.5) else self.between(0, 15))
            if made is not None:
                return made
            made = self.lay(kind, circuit, fixed, contents, run)
            if made is not None:
                return made
            contents = [each[:len(each) // 2] for each in contents]

    def well(self, kind=None, circuit=None):
        kind = self.pick(TYPES) if kind is None else kind
        circuit = self.circuit() if circuit is None else circuit
        row = SHAPES[kind]
        sizes = [0, 0, 1, 1, 2, 3, 4, 8, 8, 20] if self.chance(0.93) else [60, 127, 128, 200, 250, 253, 254, 255]
        contents = [self.octets(self.pick(sizes)) for _ in range(row.variable)]
        run = None
        if row.optional and self.chance(0.75):
            run = b"" if self.chance(0.15) else self.run()
        return self.dress(kind, circuit, self.octets(row.fixed), contents, run)

    def unfit(self):
        """Well formed, but the compact form cannot hold a pointer, or only just."""
        size = self.pick([252, 253, 253, 254, 254, 255])
        if self.chance(0.3):
            contents = [self.octets(size), self.octets(self.between(0, 2))]
            made = self.lay(CQR, self.circuit(), b"", contents, None, order=[1, 0])
        else:
            kind = self.pick(WITH_BOTH)
            run = self.pick([b"", b"\x20\x00", b"\x31\x01\x07"])
            made = self.lay(kind, self.circuit(), self.octets(SHAPES[kind].fixed), [self.octets(size)], run,
                            order=self.pick([[0, 1], [1, 0], [1, 0]]))
        return made if made is not None else self.well()

    # ------------------------------------------------------------ messages: each rule nearly broken

    def near_1(self):
        return self.well()[:self.between(0, 4)]

    def near_2(self):
        length = self.pick([267, 268, 268, 269, 269, 270])
        if self.chance(0.1):
            length = self.pick([300, 512, 1023, 1024])
        way = self.rng.random()
        if way < 0.25 and length < 300:     # a variable part that ends with the message
            kind = self.pick([IAM, CGB, GRS, REL])
            pointers, end = ends(kind)
            size = self.between(240, 255)
            gap = length - end - 1 - size
            message = bytearray(self.octets(3 + SHAPES[kind].fixed) + bytes(end - pointers) +
                                self.octets(gap) + bytes([size]) + self.octets(size))
            message[2] = kind
            message[pointers] = end + gap - pointers
            return bytes(message)
        if way < 0.5 and length < 300:      # an optional part that ends with the message
            kind = self.pick([kind for kind in WITH_OPTIONAL if not SHAPES[kind].variable])
            pointers, end = ends(kind)
            return (self.octets(2) + bytes([kind]) + self.octets(SHAPES[kind].fixed) + b"\x01" +
                    self.run_of(length - end - 1) + b"\0")
        message = self.well()
        return (message + self.octets(length))[:max(length, len(message))]

    def near_3(self):
        message = bytearray(self.well())
        message[2] = self.pick(NEAR_TYPES) if self.chance(0.6) else self.pick(NO_TYPES)
        if self.chance(0.2):
            message[2] = self.pick(TYPES)       # another type's shape on these octets
        if self.chance(0.2):
            return bytes(message[:3])
        return bytes(message)

    def near_4(self):
        kind = self.pick(TYPES)
        message = self.well(kind)
        end = ends(kind)[1]
        if SHAPES[kind].optional and self.chance(0.4):      # no optional part: the pointers may be the end
            message = message[:end - 1] + b"\0" + message[end:]
        return message[:self.pick([end - 1, end - 1, end, end + 1, self.between(3, end)])]

    def near_5(self):
        kind = self.pick(WITH_POINTERS)
        message = bytearray(self.well(kind))
        pointers, end = ends(kind)
        if self.chance(0.5):
            message.append(0)               # so that a target at L-1 can be a whole part
        place = self.between(pointers, end - 1)
        length = len(message)
        values = [end - 1 - place, end - place, length - 1 - place, length - place, length + 1 - place,
                  0, 1, 255, end - 1 - place, length - place, 0]
        message[place] = min(255, max(0, self.pick(values)))
        return bytes(message)

    def near_6(self):
        kind = self.pick(WITH_VARIABLE)
        row = SHAPES[kind]
        contents = [self.octets(self.pick([0, 1, 2, 5])) for _ in range(row.variable)]
        run = self.run(1) if row.optional and self.chance(0.4) else None
        last = self.between(0, row.variable - 1)        # this variable part ends the message
        order = self.shuffled([part for part in range(row.variable + (run is not None)) if part != last]) + [last]
        message = bytearray(self.lay(kind, self.circuit(), self.octets(row.fixed), contents, run, order=order))
        at = len(message) - 1 - len(contents[last])
        way = self.between(0, 4)
        if way == 1:
            message[at] += 1
        elif way == 2 and len(contents[last]):
            message.pop()
        elif way == 3:
            message[at] = max(0, message[at] - 1)
        elif way == 4:
            message[at] = 255
        return bytes(message)

    def near_7(self):
        kind = self.pick(WITH_OPTIONAL)
        row = SHAPES[kind]
        contents = [self.octets(self.pick([0, 1, 3])) for _ in range(row.variable)]
        front, size = self.run(2), self.between(0, 3)
        inside = self.octets(size) if self.chance(0.6) else bytes(size)
        run = front + bytes([self.name(), size]) + inside
        message = bytearray(self.lay(kind, self.circuit(), self.octets(row.fixed), contents, run))
        at = len(message) - 1 - size - 1                # the length octet of the last parameter
        way = self.between(0, 8)
        if way == 1:
            message.pop()                               # not closed: a name is due at L
        elif way == 2:
            message[at] += 1                            # the closing 0 becomes contents
        elif way == 3:
            message[at] += 2
        elif way == 4:
            message[-1] = self.name()                   # a name is the last octet
        elif way == 5:
            message = message[:at + 1]                  # ends with a length octet
        elif way == 6:
            message = message[:at]                      # ends with a name
        elif way == 7:
            message[-1:] = bytes([self.name(), 0])      # ends with an empty parameter
        elif way == 8:
            message += self.octets(self.between(1, 3))
        return bytes(message)

    def near_8(self):
        """Two parts that touch, share one octet, or lie in one another, in each order."""
        kind = self.pick(WITH_BOTH + [CQR, CQR])
        row = SHAPES[kind]
        pointers, end = ends(kind)
        first_in_front = self.chance(0.5)
        shared = self.pick([0, 1, 1, 1, 2, 9])
        front_is_run = kind != CQR and not first_in_front
        back_is_run = kind != CQR and first_in_front
        gap = self.octets(self.pick([0, 0, 0, 2]))
        back = self.run(2) + b"\0" if back_is_run else b""
        if not back_is_run:
            size = self.pick([0, 0, 1, 2, 4])
            back = bytes([size]) + self.octets(size)
        if front_is_run:
            front = self.run(2) + b"\0"
            if shared:
                # The octet shared is the closing 0, which is then a length of 0.
                back, shared = b"\0", 1
                if self.chance(0.3):        # or the variable part lies in the contents of a parameter
                    front = bytes([self.name(), 3, 1, 0, self.between(0, 2), 0])
                    body = gap + front
                    at = len(gap) + self.between(2, 5)
                    return self.two(kind, row, pointers, end, body, at, len(gap))
        else:
            size = self.pick([0, 1, 2, 4])
            front = bytes([size]) + self.octets(size)
        shared = min(shared, len(front))
        if front_is_run:
            body = gap + front[:len(front) - shared] + back
            if shared == 0 and self.chance(0.5):
                body += self.octets(2)
            return self.two(kind, row, pointers, end, body, len(gap) + len(front) - shared, len(gap))
        if shared == len(front):            # both begin at the same octet
            shared = len(front)
            back = front if not back_is_run else back
        body = gap + front[:len(front) - shared] + back
        while len(body) < len(gap) + len(front):
            body += self.octets(1)
        one, two = len(gap), len(gap) + len(front) - shared
        if kind == CQR and not first_in_front:
            one, two = two, one
        return self.two(kind, row, pointers, end, body, one, two)

    def two(self, kind, row, pointers, end, body, first, second):
        """A message with two pointers, at these places of the body."""
        circuit = self.circuit()
        return (bytes([circuit % 256, circuit // 256, kind]) + self.octets(row.fixed) +
                bytes([end + first - pointers, end + second - pointers - 1]) + body +
                self.octets(self.pick([0, 0, 0, 3])))

    # ------------------------------------------------------------ messages: changed, and random

    def changed(self, message=None):
        message = bytearray(self.well() if message is None else message)
        for _ in range(self.pick([1, 1, 1, 2, 3])):
            if not message:
                break
            at = self.between(0, len(message) - 1)
            if len(message) > 3 and self.chance(0.6):
                at = self.between(3, min(len(message) - 1, 14))
            way = self.between(0, 6)
            if way == 0:
                message[at] = self.between(0, 255)
            elif way == 1:
                message[at] = min(255, message[at] + 1)
            elif way == 2:
                message[at] = max(0, message[at] - 1)
            elif way == 3:
                del message[at]
            elif way == 4:
                message.insert(at, self.between(0, 255))
            elif way == 5:
                message[at] ^= 1 << self.between(0, 7)
            else:
                del message[at:]
        return bytes(message)

    def random(self):
        message = bytearray(self.octets(self.pick([0, 1, 2, 3, 4, 5, 6, 8, 10, 14, 20, 40])))
        if len(message) > 2 and self.chance(0.9):
            message[2] = self.pick(TYPES)
        for at in range(3, len(message)):
            if self.chance(0.6):
                message[at] = self.between(0, 6)
        return bytes(message)

    def near(self):
        return self.weighted([
            (2, self.near_1), (3, self.near_2), (2, self.near_3), (3, self.near_4),
            (4, self.near_5), (4, self.near_6), (4, self.near_7), (5, self.near_8)])()

    def message(self):
        return self.weighted([(35, self.well), (42, self.near), (14, self.changed), (7, self.random)])()

    # ------------------------------------------------------------ requests without a table

    def shape(self):
        kind = self.weighted([(4, self.pick(TYPES)), (2, self.pick(NEAR_TYPES)), (2, self.between(0, 255))])
        return [self.line("shape", self.octet(kind))]

    def read(self):
        return [self.line("read", self.message())]

    def compact(self):
        message = self.unfit() if self.chance(0.12) else self.message() if self.chance(0.6) else self.well()
        whole = model.compact(message, 1024)
        need = len(message) if model.refused(whole) else len(whole)
        return [self.line("compact", message, self.room(need))]

    def find(self):
        message = self.weighted([
            (6, self.message), (5, lambda: self.well(self.pick(WITH_OPTIONAL))),
            (1, lambda: self.well(self.pick(WITHOUT_OPTIONAL)))])()
        got = model.read(message)
        defaults = self.run() if self.chance(0.75) else self.ill()
        if self.chance(0.02):
            defaults = self.run_of(self.pick([300, 1024, 1024]))
        names = [0, self.name(), self.name()]
        for run in (b"" if model.refused(got) else got.optional, defaults):
            held = model.parameters(run)
            if not model.refused(held):
                names += [name for name, _ in held] * 3
        if self.chance(0.2) and not model.refused(got) and got.optional:
            # Both hold the name.
            name = got.optional[0]
            defaults = bytes([name, 2]) + self.octets(2) + self.run(1)
            names = [name]
        return [self.line("find", self.octet(self.pick(names)), message, defaults)]

    def write(self):
        kind = self.pick(TYPES)
        row = SHAPES[kind]
        circuit = self.circuit()
        fixed = self.octets(row.fixed)
        contents = [b"", b""]
        for each in range(row.variable):
            contents[each] = self.octets(self.pick([0, 1, 2, 3, 8, 30]))
        run = self.run() if row.optional and self.chance(0.6) else b""

        way = self.rng.random()
        if way < 0.16:          # lengths and pointers near 255
            kind = self.pick(WITH_VARIABLE + [REL, IAM, CQR, CQR])
            row = SHAPES[kind]
            fixed = self.octets(row.fixed)
            contents = [self.octets(self.pick([253, 254, 255, 256])), b""]
            if row.variable == 2:
                contents[1] = self.octets(self.between(0, 12))
                if self.chance(0.3):
                    contents = [self.octets(self.between(0, 12)), contents[0]]
            run = self.run_of(self.pick([2, 3, 4, 8, 9])) if row.optional and self.chance(0.5) else b""
        elif way < 0.30:        # the whole at 268, or one past
            kind = self.pick(WITH_OPTIONAL + [CQR, CQR])
            row = SHAPES[kind]
            fixed = self.octets(row.fixed)
            left = self.pick([267, 268, 268, 269, 269, 270]) - ends(kind)[1]
            if kind == CQR:
                size = self.between(10, 250)
                contents, run = [self.octets(size), self.octets(left - 2 - size)], b""
            else:
                size = self.between(0, 250) if row.variable else 0
                contents = [self.octets(size), b""]
                rest = left - 1 - (1 + size if row.variable else 0)
                run = self.run_of(rest if rest != 1 else 2)
        elif way < 0.32:        # fields as long as they may be
            run = self.run_of(self.pick([265, 600, 1024]))
            if row.variable and self.chance(0.5):
                contents[0] = self.octets(self.pick([257, 1024]))

        faults = self.rng.random()
        count = 0 if faults < 0.5 else 1 if faults < 0.85 else 2
        for fault in self.shuffled(["circuit", "type", "fixed", "lacking", "run"])[:count]:
            if fault == "circuit":
                circuit = self.pick([4096, 4096, 4097, 8191, 65535, 65536, 65537, TOP])
            elif fault == "type":
                kind = self.pick(NEAR_TYPES)
            elif fault == "fixed":
                fixed = self.pick([fixed + self.octets(1), fixed[:-1], self.octets(self.between(0, 6)),
                                   self.octets(256 + len(fixed)), b""])
            elif fault == "lacking":
                if row.variable == 0 and self.chance(0.6):
                    contents[0] = self.octets(self.pick([1, 3, 256]))
                elif row.variable < 2 and self.chance(0.6):
                    contents[1] = self.octets(self.pick([1, 3, 256]))
                elif not row.optional:
                    run = self.run(1) if self.chance(0.5) else self.ill()
            elif fault == "run":
                run = self.ill()

        whole = model.write(circuit, kind, fixed, contents[0], contents[1], run, 1024)
        need = self.between(3, 40) if model.refused(whole) else len(whole)
        return [self.line("write", circuit, self.octet(kind), fixed, contents[0], contents[1], run, self.room(need))]

    def number(self):
        count = self.weighted([(12, self.between(0, 12)), (1, 0), (1, 29), (3, 30), (2, 31), (1, 32), (0.5, 40)])
        if self.chance(0.01):
            count = 2044
        signals = [self.between(0, 15) for _ in range(count)]
        odd = count % 2
        halves = signals + [self.pick([0, 0, 0, 0, 0, 0, 1, 8, 15])] * odd
        contents = bytes([128 * odd + self.pick([0, 3, 3, 4, 127, self.between(0, 127)]),
                          128 * self.between(0, 1) + 16 * self.between(0, 7) + self.pick([0, 0, 1, 8, 15])])
        contents += bytes(halves[i] + 16 * halves[i + 1] for i in range(0, len(halves), 2))
        way = self.rng.random()
        if way < 0.05:
            contents = contents[:self.between(0, 2)]
        elif way < 0.15:
            contents = bytes([contents[0] ^ 128]) + contents[1:]
        return [self.line("number", contents, self.room(count))]

    def dial(self):
        count = self.weighted([(12, self.between(0, 12)), (1, 0), (1, 29), (3, 30), (2, 31), (1, 32)])
        if self.chance(0.01):
            count = self.pick([256, 1024])
        signals = bytearray(self.between(0, 15) for _ in range(count))
        nature = self.pick([0, 1, 3, 3, 4, 126, 127, self.between(0, 127)])
        plan = self.between(0, 7)
        internal = self.between(0, 1)
        if self.chance(0.35):
            way = self.between(0, 3)
            if way == 0:
                nature = self.pick([128, 128, 255, 256, 259, 65536, TOP])
            elif way == 1:
                plan = self.pick([8, 8, 15, 255, 256, 257, 65537, TOP])
            elif way == 2:
                internal = self.pick([2, 2, 3, 255, 256, 257, TOP])
            elif count:
                signals[self.pick([0, count - 1, self.between(0, count - 1)])] = self.pick([16, 16, 17, 128, 255])
        return [self.line("dial", nature, plan, internal, bytes(signals), self.room(2 + (count + 1) // 2))]

    # ------------------------------------------------------------ BICC

    def call(self, message):
        """The same message of BICC: two octets more in front, so that every limit stands two octets further on."""
        if self.chance(0.03):
            return self.octets(self.between(0, 6))
        return self.octets(2) + message

    def code(self):
        return self.pick([0, 1, 255, 256, 4095, 4096, 65535, 65536, 16777216, 305419896, TOP - 1, TOP, self.rng.getrandbits(32)])

    def bicc_shape(self):
        return [b"bicc-" + line for line in self.shape()]

    def bicc_read(self):
        return [self.line("bicc-read", self.call(self.message()))]

    def bicc_compact(self):
        message = self.call(self.unfit() if self.chance(0.12) else self.message() if self.chance(0.6) else self.well())
        whole = model.bicc_compact(message, 1024)
        need = len(message) if model.refused(whole) else len(whole)
        return [self.line("bicc-compact", message, self.room(need))]

    def bicc_write(self):
        """What `write` is asked, with a code for the circuit: the whole has two octets more."""
        words = self.write()[0].split(b" ")
        fields = [bytes.fromhex(word.decode().replace("-", "")) for word in words[3:7]]
        code, kind = self.code(), int(words[2], 16)
        whole = model.bicc_write(code, kind, *fields, 1024)
        need = self.between(5, 42) if model.refused(whole) else len(whole)
        return [self.line("bicc-write", code, self.octet(kind), *fields, self.room(need))]

    # ------------------------------------------------------------ the hub

    def asking(self, kind, m, r=None):
        """A message of a type that the hub acts on, with nothing wrong in it."""
        row = SHAPES[kind]
        fixed = self.octets(row.fixed)
        contents = [self.octets(self.between(0, 6)) for _ in range(row.variable)]
        run = self.run(2) if row.optional and self.chance(0.5) else None
        if kind in (GRS, CQM):
            contents = [bytes([r])]
        elif kind in (CGB, CGU):
            fixed = bytes([self.between(0, 1) + (4 * self.between(0, 63) if self.chance(0.4) else 0)])
            contents = [bytes([r]) + self.status(r)]
        return self.dress(kind, m, fixed, contents, run)

    def status(self, r):
        count = r // 8 + 1
        way = self.rng.random()
        if way < 0.15:
            return self.octets(count)
        if way < 0.2:
            return bytes(count)
        if way < 0.25:
            return b"\xff" * count
        if way < 0.65:                      # so many marks among bits 0 to r, 32 at the most or just over, and any spare bits
            marks = min(r + 1, self.pick([0, 1, 2, 3, 8, 16, 31, 32, 32, 32, 33, 33, 34, self.between(0, 40)]))
            places = self.shuffled(list(range(r + 1)))[:marks]
            if self.chance(0.5):
                places += range(r + 1, 8 * count)
        else:                               # the ends of the group, and the first spare bit
            places = self.pick([[0], [r], [0, r], [r + 1], [r - 1], [7, 8], [15, 16]])
        marked = bytearray(count)
        for n in places:
            if n // 8 < count:
                marked[n // 8] |= 1 << n % 8
        return bytes(marked)

    def reach(self, kind):
        if kind == GRS:
            return self.pick([1, 1, 2, 3, 7, 8, 9, 15, 16, 30, 31, 31, self.between(1, 31)])
        if kind == CQM:
            return self.pick([0, 0, 1, 2, 3, 7, 8, 15, 16, 30, 31, 31, self.between(0, 31)])
        return self.pick([1, 1, 2, 3, 7, 8, 9, 15, 16, 23, 31, 32, 64, 254, 255, 255,
                          self.between(1, 40), self.between(1, 255)])

    def sender(self):
        return self.pick([1, 1, 2, 7, 100, 254, 255, self.between(1, 255)])

    def legal(self):
        return self.pick([0, 0, 0, 1, 1, 2, 3, 4, 6, 8, 8, 9, 10, 11, 12, 14])

    def rows(self, low, high):
        return self.line("rows", max(0, low), min(4095, high))

    def need(self, kind, r):
        """How many octets the hub answers; to RSC it may be four."""
        return {IAM: 0, REL: 4, RSC: self.pick([4, 7, 7]), BLO: 3, UBL: 3, GRS: 7 + r // 8, CGB: 8 + r // 8, CGU: 8 + r // 8,
                CQM: 9 + r}[kind]

    def prepare(self, m, r, sender):
        """Lines that give m to m+r to the sender, in legal states."""
        last = min(4095, m + r)
        made = [self.line("own", m, last, sender)]
        made.append(self.line("set", m, last, self.legal()))
        for _ in range(self.between(0, 2)):
            low = self.between(m, last)
            made.append(self.line("set", low, self.between(low, last), self.legal()))
        return made

    def spots(self, m, last):
        """The first, a middle, the last circuit, and the ones just outside."""
        middle = self.between(m, last)
        return [spot for spot in [m, m, middle, last, last, m - 1, last + 1] if 0 <= spot <= 4095]

    def group(self):
        kind = self.pick([GRS, CGB, CGB, CGU, CQM])
        r = self.reach(kind)
        m = self.weighted([(5, self.between(0, 4095 - r)), (2, 4095 - r), (1, 0)])
        last = m + r
        sender = self.sender()
        made = self.prepare(m, r, sender)
        start, asker, make = m, sender, self.asking
        faults = self.rng.random()
        for fault in self.shuffled(["foreign", "state", "asker", "contents", "contents", "past"])[
                :0 if faults < 0.4 else 1 if faults < 0.8 else 2]:
            if fault == "foreign":
                spot = self.pick(self.spots(m, last))
                made.append(self.line("own", spot, spot, self.pick([0, 0, sender % 255 + 1, sender ^ 1])))
            elif fault == "state":
                spot = self.pick(self.spots(m, last))
                made.append(self.line("set", spot, spot, self.pick(ILLEGAL)))
            elif fault == "asker":
                asker = self.pick([0, 0, sender % 255 + 1, 256, sender + 256, 255, TOP])
                if self.chance(0.3):
                    asker = 0           # nobody's circuits are not the sender's that is 0
                    made.append(self.line("own", m, last, 0))
            elif fault == "contents":
                make = self.broken
            elif fault == "past":
                made.append(self.line("own", max(0, 4095 - r), 4095, sender))
                start = min(4095, 4095 - r + self.pick([0, 1, 1, 2, r]))
        room = 1024 if self.chance(0.5) else self.room(self.need(kind, r))
        made.append(self.line("act", asker, make(kind, start, r), room))
        made.append(self.rows(start - 1, start + r + 1))
        for _ in range(self.pick([0, 0, 1, 2])):
            kind = self.pick([CQM] if r == 0 else [CGB, CGB, CGU, CGU, GRS, CQM] if r < 32 else [CGB, CGU])
            made.append(self.line("act", sender, self.asking(kind, m, r), self.room(self.need(kind, r))))
            made.append(self.rows(m - 1, last + 1))
        return made

    def broken(self, kind, m, r):
        """Typed contents that break their rule, or nearly."""
        fixed = b""
        if kind in (GRS, CQM):
            contents = self.pick([bytes([0]), bytes([32]), bytes([31]), bytes([255]), b"", bytes([r, 0]),
                                  bytes([r]) + self.octets(r // 8 + 1), bytes([128 + r])])
        else:
            fixed = bytes([self.between(0, 1)])
            size = r // 8 + 1
            contents = self.pick([
                b"", b"\0", b"\0\0", bytes([r]), bytes([r]) + self.octets(size - 1),
                bytes([r]) + self.octets(size + 1), bytes([255]) + self.octets(32), bytes([255]) + self.octets(31),
                bytes([7]) + self.octets(1), bytes([8]) + self.octets(1), bytes([7]) + self.octets(2),
                bytes([r]) + self.octets((r + 7) // 8), bytes([r]) + self.octets(size), bytes([r]) + self.octets(size)])
            if self.chance(0.4):
                fixed = bytes([self.between(0, 3) + 4 * self.pick([0, 0, 1, 32, 63])])
        return self.dress(kind, m, fixed, [contents], None)

    def single(self):
        kind = self.pick([IAM, IAM, REL, RSC, BLO, UBL])
        m = self.circuit()
        sender = self.sender()
        state = self.pick(STATES + [0, 1, 0, 8])
        made = [self.line("own", m, m, sender), self.line("set", m, m, state)]
        asker = sender
        faults = self.rng.random()
        room = 1024 if self.chance(0.4) else self.room(self.need(kind, 0))
        for fault in self.shuffled(["foreign", "state", "asker"])[:0 if faults < 0.65 else 1 if faults < 0.92 else 2]:
            if fault == "foreign":
                made.append(self.line("own", m, m, self.pick([0, sender ^ 1])))
            elif fault == "state":
                made.append(self.line("set", m, m, self.pick(ILLEGAL)))
            else:
                asker = self.pick([0, sender % 255 + 1, sender + 256, 256, 255, TOP])
        message = self.asking(kind, m)
        if self.chance(0.06):
            message = self.changed(message)
        made.append(self.line("act", asker, message, room))
        made.append(self.rows(m - 1, m + 1))
        if self.chance(0.3):
            again = self.pick([IAM, REL, BLO, UBL, RSC])
            made.append(self.line("act", sender, self.asking(again, m), self.room(self.need(again, 0))))
            made.append(self.rows(m, m))
        return made

    def helped(self):
        """A partner that helps on some of the owner's circuits: the listed messages and the others, from both and from a stranger."""
        kind = self.pick(ACTED)
        m = self.circuit()
        r = 0
        if kind in (GRS, CGB, CGU, CQM):
            r = self.pick([1, 2, 7, 8, self.between(1, 31)])
        last = min(4095, m + r)
        owner = self.sender()
        partner = self.pick([owner % 255 + 1, owner % 255 + 1, owner, 0])
        made = [self.line("own", m, last, owner), self.line("set", m, last, self.pick([0, 0, 1, 2, 8])),
                self.line("helper", m, last, partner)]
        for table in self.shuffled(["own", "helper", "set"])[:self.pick([0, 1, 1, 2])]:
            spot = self.between(m, last)
            if table == "own":
                made.append(self.line("own", spot, spot, self.pick([0, partner, owner, owner ^ 1])))
            elif table == "helper":
                made.append(self.line("helper", spot, spot, self.pick([0, 0, owner, owner ^ 1])))
            else:
                made.append(self.line("set", spot, spot, self.pick(STATES + ILLEGAL)))
        for _ in range(self.between(1, 3)):
            asker = self.pick([partner, partner, partner, owner, 0, partner + 256, owner ^ 1])
            made.append(self.line("act", asker, self.asking(kind, m, r), self.room(self.need(kind, r))))
            made.append(self.rows(m - 1, m + r + 1))
            if self.chance(0.5):
                kind = self.pick([BLO, UBL] if r == 0 else [CGB, CGU, CQM, GRS])
        return made

    def owned(self):
        """A circuit that somebody owns, if there is one, and its owner."""
        for _ in range(20):
            m = self.circuit()
            if self.desk.owners[m]:
                return m, self.desk.owners[m]
        return m, self.desk.owners[m]

    def going(self):
        """Acts on the tables as they are."""
        made = []
        for _ in range(self.between(1, 4)):
            m, sender = self.owned()
            kind = self.pick(ACTED)
            r = 0
            if kind in (GRS, CGB, CGU, CQM):
                r = self.pick([1, 2, 3, 7, 8, self.between(1, 31), self.reach(kind)])
            if self.chance(0.08):
                sender = self.pick([0, 1, 255, 256, TOP])
            made.append(self.line("act", sender, self.asking(kind, m, r), self.room(self.need(kind, r))))
            if self.chance(0.6):
                made.append(self.rows(m - 1, m + r + 1))
        return made

    def spans(self):
        """Large spans for some senders, and new rows."""
        low = self.between(0, 4000)
        high = self.between(low, min(4095, low + 1200))
        made = [self.line("own", low, high, self.sender())]
        if self.chance(0.6):
            made.append(self.line("set", low, high, self.legal()))
        if self.chance(0.1):
            made.append(self.line("set", 0, 4095, self.legal()))
        if self.chance(0.1):
            made.append(self.line("own", 0, 4095, self.pick([0, 1, 255])))
        return made

    def strange(self):
        """A type that the hub does not act on, and any message at all, from any sender."""
        m, sender = self.owned()
        if self.chance(0.2):
            sender = self.pick([0, 1, 255, 256, TOP])
        if self.chance(0.25):
            return [self.line("act", sender, self.well(self.pick(OTHERS), m), self.room(4))]
        return [self.line("act", sender, self.message(), self.room(4))]

    def ours(self):
        """The desk's own blocks, on circuits of anybody, in any state, and what the exchanges then hear."""
        m = self.circuit()
        made = []
        if self.chance(0.7):
            sender = self.pick([0, self.sender(), self.sender()])
            made += [self.line("own", m, m, sender), self.line("set", m, m, self.pick(STATES + ILLEGAL))]
        for _ in range(self.between(1, 4)):
            word = self.pick(["block", "block", "unblock"])
            where = self.weighted([(12, m), (2, self.pick([4095, 4096, 4097, 8192, 4096 + m, 65536 + m, TOP])), (1, self.circuit())])
            made.append(self.line(word, where, self.room(3)))
            if self.chance(0.5):
                kind = self.pick([IAM, REL, RSC, RSC, BLO, UBL, GRS, CQM])
                r = self.pick([1, 2, 7, 8]) if kind in (GRS, CQM) else 0
                made.append(self.line("act", self.desk.owners[m], self.asking(kind, m, r), self.room(self.need(kind, r))))
            made.append(self.rows(m - 1, m + 1))
        return made

    def counting(self):
        """Totals, right or wrong, calls that make those of their blocks right, and questions over whole blocks and loose rows."""
        m, sender = self.owned()
        made = []
        for _ in range(self.between(1, 5)):
            way = self.rng.random()
            if way < 0.3:
                block = self.weighted([(8, m // 64), (2, min(63, m // 64 + 1)), (1, 0), (1, 63), (2, self.between(0, 63))])
                made.append(self.line("total", block, self.pick([0, 1, 63, 64, 65, 255, self.between(0, 255)])))
            elif way < 0.6:
                kind = self.pick(ACTED)
                r = self.reach(kind) if kind in (GRS, CGB, CGU, CQM) else 0
                made.append(self.line("act", sender, self.asking(kind, m, r), self.room(self.need(kind, r))))
            elif way < 0.7:
                made.append(self.line(self.pick(["block", "unblock"]), m, self.room(3)))
            elif way < 0.8:
                low = self.pick([m, m // 64 * 64, max(0, m // 64 * 64 - 1)])
                made.append(self.line("set", low, min(4095, low + self.pick([0, 1, 63, 64, 65])), self.pick(STATES + ILLEGAL)))
            elif way < 0.85:
                made.append(self.line("rebuild"))
            made.append(self.question(m) if self.chance(0.75) else self.line("totals"))
        return made

    def question(self, m):
        """How many are busy: from and to the edges of blocks, the block of m, one circuit, all, the wrong way round, past the last."""
        low = self.pick([0, 1, 63, 64, 65, m, m, m // 64 * 64 + self.pick([0, 1, 62, 63]), self.between(0, 4095), self.circuit()])
        high = self.weighted([
            (8, min(4095, low + self.pick([0, 1, 62, 63, 64, 65, 126, 127, 128, 190, 191]))), (2, self.pick([4095, 4094])),
            (2, m), (3, self.between(low, 4095)), (2, self.between(0, low)), (2, self.pick([4096, 4097, 8191, 65535 + low, TOP]))])
        if self.chance(0.03):
            low = self.pick([4096, 4097, 65536 + low, TOP])
        return self.line("busy", low, high)

    def look(self):
        low = self.circuit()
        high = min(4095, low + self.pick([0, 0, 1, 3, 40]))
        if self.chance(0.02):
            low, high = 0, 4095
        return [self.line("rows", low, high)]

    # ------------------------------------------------------------ velocities

    def measured(self, most):
        """A measured value up to about `most`, near a whole number or a half of one, at an edge, or any 64 bits."""
        way = self.rng.random()
        if way < 0.25:
            return self.pick(velocities.EDGES)
        if way < 0.45:
            return "0x%016x" % self.rng.getrandbits(64)
        if way < 0.7:
            number = velocities.pattern(self.between(0, 2 * most + 2) / 2) + self.pick([-1, 0, 0, 1])
            return ("0x%016x" if self.chance(0.7) else "0x%016X") % max(0, number)
        digits = str(self.between(0, most + most // 20))
        part = "".join(str(self.between(0, 9)) for _ in range(self.between(0, 15 - len(digits))))
        part = self.pick([part, "5", "50000", "49999999", "0", ""])[:15 - len(digits)]
        return ("-" if self.chance(0.03) else "") + digits + ("." + part if part else "")

    def velocity(self):
        fields = [self.measured(360), self.measured(65536)]
        if self.chance(0.5):
            fields += [self.measured(256), self.pick(["up", "down"])]
        return [self.line("velocity", *fields)]

    def velocity_back(self):
        fields = [self.pick([0, 1, 358, 359, 360, 361, 511, 512, 65535, self.between(0, 359), self.between(0, 65535)]),
                  self.pick([0, 1, 65534, 65535, self.between(0, 65535)])]
        if self.chance(0.5):
            fields += [self.pick([0, 254, 255, self.between(0, 255)]), self.pick(["up", "down"])]
        return [self.line("velocity-back", *fields)]

    # ------------------------------------------------------------ lines that are no request

    def request(self):
        return self.pick([self.shape, self.read, self.write, self.compact, self.find, self.number, self.dial,
                          self.look, self.strange, self.spans, self.ours, self.counting, self.night, self.velocity, self.velocity_back, self.bicc_shape, self.bicc_read,
                          self.bicc_write, self.bicc_compact, self.sccp_shape, self.sccp_read, self.sccp_write, self.sccp_compact, self.lists])()[0]

    def long(self):
        """Long lines: of no request, with a field that is too long, and a write with as many octets as it may have."""
        count = self.pick([8191, 8192, 8193, 8194, 9000, 20000])
        if count > 8200 or self.chance(0.2):
            if self.chance(0.5):
                return b"read " + b"00" * ((count - 5) // 2) + b"0" * ((count - 5) % 2)
            return self.pick([b" ", b"a", b"\0", b"0"]) * count
        # A write with nearly as many octets as its fields may have.
        sizes = self.pick([[1024, 1024, 1024, 1012], [1012, 1024, 1024, 1024], [1024, 1012, 1024, 1024]])
        front = b"write "
        rest = b" %02x" % self.pick([REL, IAM, 0x2B, 0xFF])
        for size in sizes:
            rest += b" " + (b"%02x" % self.between(0, 255)) * size
        rest += b" 1024"
        return front + str(self.pick([1, 4095, 4096])).zfill(count - len(front + rest)).encode() + rest

    def bad(self):
        line = self.request()
        words = line.split(b" ")
        way = self.between(0, 15)
        if way == 0:
            return self.pick([b"", b" ", b"  ", b"-", b"0", b"\0", b"\t", b"\r", b"refused 1", b"quit", b"ok",
                              b"bad line", b"\xff\xfe", b"#", b"shape", b"read", b"rows", b"act", b"find 20"])
        if way == 1:
            words[0] = self.pick([words[0].upper(), words[0].title(), words[0][:-1], words[0] + b"s", b"",
                                  words[0] + b"\0", b"x" + words[0]])
        elif way == 2:
            words.pop(self.between(0, len(words) - 1))
        elif way == 3:
            words.insert(self.between(1, len(words)), self.pick([b"0", b"-", b"00", b"x"]))
        elif way == 4:
            words.insert(self.between(0, len(words)), b"")      # two spaces, or a space at an end
        elif way == 5:
            return self.pick([b"\t", b"  ", b",", b"_", b"\0", b"\r", b"\x0b", b"\xa0"]).join(words)
        elif way == 6:
            at = self.between(min(1, len(words) - 1), len(words) - 1)
            words[at] = words[at] + self.pick([b"0", b"f", b"\0", b"\r", b" ", b"\t", b"g", b"-"])
        elif way == 7 and len(line) > 0:
            at = self.between(0, len(line) - 1)
            one = self.pick([b"/", b":", b"@", b"G", b"`", b"g", b"\0", b"\x80", b"\xb0", b" ", b"-", b"+", b".", b"x",
                             b"\x10", b"\r"])
            return line[:at] + one + line[at + 1:]
        elif way == 8:
            at = self.between(min(1, len(words) - 1), len(words) - 1)
            words[at] = self.pick([b"-1", b"+1", b"0x1", b"1.", b"4294967296", b"9999999999", b"00000000001",
                                   b"18446744073709551617", b"4294967297", b"", b"-", b"--", b"0-", b"1025", b"4096",
                                   b"256", b"a", b"0000000001", b"10000000000"])
        elif way == 9:
            return self.pick([
                b"own 5 4 1", b"own 0 4096 1", b"own 4096 4096 1", b"own 0 1 256", b"set 5 4 1", b"set 0 4096 0",
                b"set 0 1 256", b"rows 5 4", b"rows 0 4096", b"rows 4096 4097", b"own 0 4294967295 1",
                b"set 0 0 4294967295", b"rows 4294967295 0", b"own 0 4294967296 1", b"own 0 65536 1"])
        elif way == 10:
            return self.pick([
                b"compact 01000900 1025", b"number 0310 1025", b"dial 3 1 0 01 1025", b"act 1 230113 1025",
                b"write 1 13 - - - - 1025", b"compact 01000900 4294967295", b"act 4294967296 230113 3",
                b"write 4294967296 13 - - - - 3", b"dial 4294967296 0 0 - 2", b"dial 0 4294967296 0 - 2",
                b"dial 0 0 4294967296 - 2", b"act 00000000001 230113 3", b"act -1 230113 3", b"act 1 230113 -"])
        elif way == 11:
            return self.pick([b"shape -", b"shape 1", b"shape 001", b"shape 0g", b"shape 0101", b"shape 0x",
                              b"find - 01000900 -", b"find 1 01000900 -", b"find 0020 01000900 -",
                              b"write 1 - - - - - 9", b"write 1 3 - - - - 9", b"write 1 013 - - - - 9"])
        elif way == 12:
            field = b"00" * self.pick([1024, 1025, 1025, 1026])     # 1024 octets are a field
            return self.pick([b"read %s", b"compact %s 9", b"find 20 01000900 %s", b"find 20 %s -", b"number %s 9",
                              b"dial 0 0 0 %s 9", b"act 1 %s 9", b"write 1 0c - %s - - 9",
                              b"write 1 09 - - - %s 9"]) % field
        elif way == 13:
            return self.octets(self.between(1, 30)).replace(b"\n", b"")
        elif way == 14:
            return self.pick([line + b"\r", b" " + line, line + b" ", b"\r" + line, line + b"\0", b"\0" + line,
                              b"\xef\xbb\xbf" + line])
        elif way == 15:
            return self.long() if self.chance(0.5) else line[:self.between(0, len(line))]
        return b" ".join(words)

    # ------------------------------------------------------------ corners

    def limits(self):
        """Requests without a table at the very edge of each rule, each a scene of one line."""
        made = [b"shape %02x" % kind for kind in TYPES + NEAR_TYPES]
        made += [b"bicc-shape %02x" % kind for kind in [0x12, 0x13, 0x14, 0x15, 0x16, 0x17, 0xFF]]

        # BICC: each of the reader's numbers at the edge, the four types that are ISUP's alone, the code's ends, 270 octets.
        for message in ("", "01020304", "0102030412", "ffffffff12", "00000000", "0000000012", "0102030413", "0102030414",
                        "0102030415", "0102030416", "01001300", "0100130000", "0102030417", "010203041700", "010203041701",
                        "01020304170100", "01020304170101", "0102030417010103", "010203040900", "010203040901",
                        "01020304090100", "010203040901200141", "01020304090120014100", "010203040c0200028090",
                        "010203040c0201010000", "010203040900" + "00" * 264, "010203040900" + "00" * 265):
            made += [b"bicc-read " + (message or "-").encode(), b"bicc-compact " + (message or "-").encode() + b" 270"]
        for kind, size in ((0x09, 263), (0x09, 264), (0x10, 263), (0x10, 264)):
            made.append(b"bicc-write 4294967295 %02x - - - %s 1024" % (kind, self.run_of(size).hex().encode()))
        for size in (253, 254, 255, 256):
            for run in (b"-", b"2000"):
                made.append(b"bicc-write 1 0c - %s - %s 1024" % (b"07" * size, run))

        # Lines: their ends, their length, their fields.
        for digits, tail in ((5, b""), (6, b""), (7, b""), (6, b"\r"), (7, b"\r"), (6, b"\r\r")):
            made.append(b"write " + b"1".zfill(digits) + b" 0c" + (b" " + b"00" * 1021) * 4 + b" 1024" + tail)
        made += [b"write 1 0c" + (b" " + b"00" * 1024) * 4 + b" 1024", b"x" * 20000, b"x" * 81920, b"x" * 100000]
        made += [b"", b"\r", b"\r\r", b" ", b"\0", b"shape 13\r", b"shape 13\r\r", b"shape 13 \r", b"shape 13\0"]
        made += [b"read " + b"00" * 1024, b"read " + b"00" * 1025]
        for line in (b"shape 13", b"read 230113", b"write 1 13 - - - - 3", b"compact 230113 3", b"find 20 01000900 200141",
                     b"bicc-shape 12", b"bicc-read 2301000012", b"bicc-write 1 12 - - - - 5", b"bicc-compact 2301000012 5",
                     b"number 0310 0", b"dial 3 1 0 01 3", b"own 9 9 3", b"helper 9 9 4", b"set 9 9 2", b"act 3 090013 3", b"rows 9 9",
                     b"busy 9 9", b"totals", b"total 9 9", b"rebuild", b"tick 9 9 0", b"plan 3 2 0", b"check 3 0 -"):
            made.append(line)
            words = line.split(b" ")
            for at in range(len(words)):
                made.append(b" ".join(words[:at] + [b""] + words[at + 1:]))
            made.append(line + b" 0")
        for word in (b"0000000003", b"00000000003", b"4294967295", b"4294967296", b"9999999999", b"10000000000", b""):
            made += [b"act %s 090013 3" % word, b"write %s 13 - - - - 3" % word, b"dial %s 0 0 - 2" % word]
        for word in (b"1024", b"1025", b"0000001024", b"00000001024"):
            made += [b"compact 230113 " + word, b"number 0310 " + word, b"dial 3 1 0 01 " + word,
                     b"write 1 13 - - - - " + word, b"act 3 090013 " + word]

        # Lengths 2, 3, 268 and 269, also with a type that is not in the table.
        for kind in (BLO, 0xFF):
            for length in (2, 3, 268, 269):
                made.append(b"read " + (b"2301%02x" % kind + b"00" * 266)[:2 * length])

        # Each of the reader's refusals, in each request that reads.
        for message in (b"-", b"2301", b"230113" + b"00" * 266, b"230100", b"010005", b"01000c02", b"01000c0100",
                        b"01000c0000", b"01000901", b"01000c02000380", b"01000901200141", b"010009012001",
                        b"0100090120", b"01000c0201010000", b"01002b02010100", b"01002b01010000"):
            made += [b"read " + message, b"compact %s 1024" % message, b"find 20 %s 200141" % message,
                     b"act 9 %s 1024" % message]
        # The writer's lengths and pointers at 255 and past it; 12 before 2.
        for kind, fixed in ((REL, b"-"), (IAM, b"0000000000"), (CQR, b"-"), (GRS, b"-")):
            for size in (253, 254, 255, 256):
                first = b"5a" * size
                made.append(b"write 1 %02x %s %s - - 1024" % (kind, fixed, first))
                if SHAPES[kind].optional:
                    made.append(b"write 1 %02x %s %s - 2000 1024" % (kind, fixed, first))
        made.append(b"write 1 0c - %s - 2010%s 1024" % (b"5a" * 254, b"00" * 16))
        made.append(b"write 1 0c - %s - 2010%s 1024" % (b"5a" * 253, b"00" * 16))
        # Spans: FIRST at most LAST.
        made += [b"own 9 8 3", b"helper 9 8 3", b"set 9 8 3", b"rows 9 8", b"own 0 4096 3", b"helper 0 4096 3", b"set 0 4096 3",
                 b"rows 0 4096", b"own 9 9 256", b"helper 9 9 256", b"set 9 9 256", b"helpers 9 9 3", b"helpe 9 9 3"]

        # Blocks, totals and questions: each number at its edge, and the order of 9 and 18.
        made += [b"total %d %d" % pair for pair in ((0, 0), (0, 255), (63, 255), (63, 256), (64, 0), (64, 255), (65536, 0), (TOP, 0))]
        made += [b"total", b"total 0", b"total 0 0 0", b"total -1 0", b"tota 0 0", b"totals 0 0", b"totalss", b"rebuil", b"rebuilds", b"rebuild-"]
        made += [b"busy %d %d" % pair for pair in (
            (0, 4095), (1, 4094), (1, 4095), (0, 4094), (5, 5), (63, 63), (64, 64), (63, 64), (0, 63), (64, 127), (1, 63), (0, 62),
            (0, 64), (63, 127), (63, 128), (65, 126), (62, 129), (4031, 4095), (4032, 4095), (4033, 4095), (4095, 4095),
            (0, 4096), (4096, 4096), (4096, 4095), (4097, 4096), (5, 4), (64, 63), (4095, 0), (65541, 5), (5, 65541), (TOP, 0), (0, TOP),
            (TOP, TOP), (0, TOP + 1), (TOP + 1, 0))]

        # Numbers: each value just in and just out of its range, or cut to an octet.
        for value in (0, 127, 128, 256, 65536, TOP):
            made.append(b"dial %d 1 0 0102 4" % value)
        for value in (0, 7, 8, 256, 65536, TOP):
            made.append(b"dial 3 %d 0 0102 4" % value)
        for value in (0, 1, 2, 256, 257, 65536, TOP):
            made.append(b"dial 3 1 %d 0102 4" % value)
        for signals in (b"0f0e0d", b"100000", b"000010", b"001000", b"ff"):
            made.append(b"dial 3 1 0 %s 1024" % signals)
        for count in (0, 1, 29, 30, 31, 32):
            signals = b"".join(b"%02x" % (n % 16) for n in range(1, count + 1)) or b"-"
            for room in (1 + (count + 1) // 2, 2 + (count + 1) // 2):
                made.append(b"dial 127 7 1 %s %d" % (signals, room))
        for octets, odd, filler in ((0, 0, 0), (0, 1, 0), (1, 1, 0), (1, 1, 1), (1, 1, 8), (1, 0, 0), (15, 0, 9), (15, 1, 0),
                                    (15, 1, 4), (16, 1, 0), (16, 0, 0), (17, 0, 0)):
            contents = bytes([128 * odd + 127, 0xFF]) + bytes([0x9A] * max(0, octets - 1))
            contents += bytes([16 * filler + 5] if octets else [])
            for room in (max(0, 2 * octets - odd - 1), max(0, 2 * octets - odd)):
                made.append(b"number %s %d" % (contents.hex().encode(), room))
        made += [b"number - 9", b"number 03 9", b"number 83 9"]
        # Measured values at each edge, in each place; codes at theirs; words that are no value, no code or no mark.
        for edge in velocities.EDGES:
            word = edge.encode()
            made += [b"velocity %s 12.5" % word, b"velocity 12.5 %s" % word, b"velocity 12.5 80.2 %s down" % word]
        for word in (b"", b"-", b".", b".5", b"5.", b"1.2.3", b"--1", b"+1", b"1e3", b"nan", b"inf", b"1000000000000000",
                     b"0.000000000000001", b"000000000000001", b"0x", b"0x000000000000001", b"0x00000000000000001",
                     b"0X0000000000000001", b"0x000000000000000g", b"-0x0000000000000001", b"-1.5", b"1,5", b"0x1", b"00012"):
            made += [b"velocity %s 1" % word, b"velocity 1 %s" % word, b"velocity 1 1 %s up" % word]
        for word in (b"", b"u", b"Up", b"upp", b"dow", b"down ", b"downn", b"up\0", b"doxn", b"dawn", b"0", b"-"):
            made += [b"velocity 1 1 1 " + word, b"velocity-back 1 1 1 " + word]
        for bearing in (b"0", b"359", b"360", b"511", b"65535", b"65536", b"4294967296", b"1.0", b"0x1", b"-0", b""):
            made += [b"velocity-back %s 0" % bearing, b"velocity-back 0 %s" % bearing, b"velocity-back %s 0 0 up" % bearing,
                     b"velocity-back 0 %s 255 down" % bearing]
        made += [b"velocity-back 0 0 255 up", b"velocity-back 0 0 256 up", b"velocity", b"velocity 1", b"velocity 1 1 1",
                 b"velocity 1 1 1 up 1", b"velocity-back", b"velocity-back 1", b"velocity-back 1 1 1", b"velocity-bac 1 1",
                 b"velocity-back- 1 1", b"velocity-backs 1 1", b"velocity- 1 1", b"velocity 1 1 up 1", b"velocity 1  1"]
        return [[line] for line in made + self.roaming_limits()] + self.night_limits()

    def tables(self):
        """Scenes with the tables at the very edge of each circuit rule."""
        made = []
        sets = [b"own 600 611 9"] + [b"set %d %d %d" % (600 + n, 600 + n, state) for n, state in enumerate(STATES)]
        # Every rule on every legal state.
        for kind in (IAM, REL, RSC, BLO, UBL):
            row = SHAPES[kind]
            acts = []
            for n in range(12):
                message = self.lay(kind, 600 + n, bytes(row.fixed), [b"\1"] * row.variable, None)
                acts.append(b"act 9 %s %d" % (message.hex().encode(), 7 if kind == RSC else self.need(kind, 0)))
            made.append(sets + acts + [b"rows 600 611"])
        for kind in (CGB, CGU):
            for fixed in (0, 1):
                message = self.lay(kind, 600, bytes([fixed]), [b"\x0b\xff\x0f"], None)
                made.append(sets + [b"act 9 %s 9" % message.hex().encode(), b"rows 600 611"])
        # Every state that is not legal, under an IAM, a BLO, a GRS.
        for state in ILLEGAL:
            made.append([b"own 700 703 9", b"set 700 703 0", b"set 701 701 %d" % state,
                         b"act 9 bd0201000000000002000100 9", b"act 9 bd0213 9", b"act 9 bc021701 9",
                         b"act 9 bc0217010103 9", b"rows 700 703"])

        # A query over rows of every legal state, over one that is not legal, over the last circuits, and with too little room.
        scene = [b"own 700 740 9"] + [b"set %d %d %d" % (700 + i, 700 + i, each) for i, each in enumerate(STATES)]
        for r in (0, 1, 4, 5, 11, 31):
            message = self.lay(CQM, 700, b"", [bytes([r])], None).hex().encode()
            scene += [b"act 9 %s %d" % (message, room) for room in (0, 8 + r, 9 + r, 10 + r)]
        made.append(scene + [b"set 703 703 5", b"act 9 bc022a010104 99", b"act 9 bc022a010102 99", b"rows 700 705",
                             b"own 4090 4095 9", b"set 4090 4095 6", b"act 9 fa0f2a010105 99", b"act 9 fb0f2a010105 99"])
        scene = [b"own 1000 1300 9", b"set 1000 1300 1"]
        for contents in ("00", "20", "ff", "", "0000", "0200", "8f", "01", "1f"):
            message = self.lay(CQM, 1000, b"", [bytes.fromhex(contents)], None)
            scene.append(b"act 9 %s 99" % message.hex().encode())
        made.append(scene + [b"rows 1000 1034"])

        # Our own block on every legal state, twice, and off again, twice; on states that are not legal; room 2, 3 and more; circuits
        # that nobody owns, the last one, and those past it, also such as would be 5 if they were cut to twelve bits.
        made.append(sets + [b"%s %d 3" % (word, 600 + n) for word in (b"block", b"block", b"unblock", b"unblock") for n in range(12)]
                    + [b"rows 600 611"])
        made.append(sets + [b"block %d 3" % (600 + n) for n in range(12)] + [b"rows 600 611"])
        for state in ILLEGAL:
            made.append([b"set 700 700 %d" % state, b"block 700 3", b"unblock 700 2", b"rows 700 700"])
        made.append([b"own 5 5 0", b"set 5 5 0", b"own 4095 4095 0", b"set 4095 4095 0"]
                    + [b"%s %d %d" % (word, circuit, room) for word in (b"block", b"unblock")
                       for circuit in (5, 4095, 4096, 4101, 65541, 4294967295) for room in (2, 3, 4, 0, 1024)]
                    + [b"rows 5 5", b"rows 4095 4095", b"block 4294967296 3", b"block 5 1025", b"block 5", b"block", b"blocks 5 3",
                       b"unblock 5 3 1", b"unbloc 5 3", b"block -1 3", b"block 0x5 3"])
        # RSC where the 8 is set, with room for four, six and seven octets; GRS over locally blocked circuits at every place; IAM.
        rsc = [b"act 9 580212 %d" % room for room in (3, 4, 6, 7)]
        made.append([b"own 600 600 9", b"set 600 600 11"] + rsc + [b"rows 600 600", b"unblock 600 3"] + rsc + [b"rows 600 600"])
        for r in (1, 7, 8, 31):
            for spots in ((0,), (r,), tuple(range(0, r + 1, 2))):
                scene = [b"own 600 640 9", b"set 600 640 3"] + [b"block %d 3" % (600 + n) for n in spots] + [b"block %d 3" % (601 + r)]
                message = self.lay(GRS, 600, b"", [bytes([r])], None).hex().encode()
                made.append(scene + [b"act 9 %s %d" % (message, room) for room in (6 + r // 8, 7 + r // 8)] + [b"rows 600 640"])
        made.append([b"own 600 600 9", b"set 600 600 0", b"block 600 3", b"act 9 580201000000000002000100 9", b"act 9 580213 3",
                     b"act 9 58020c020001 4", b"act 9 580214 3", b"unblock 600 3", b"act 9 580201000000000002000100 9", b"block 600 3",
                     b"act 9 58022a010100 99", b"act 9 58020c02000180 4", b"rows 600 600"])

        # Typed contents of a GRS, and of a CGB: every indicator, ranges and status octets of right and wrong count.
        scene = [b"own 1000 1300 9", b"set 1000 1300 1"]
        for contents in ("00", "20", "ff", "", "0100", "0200", "8f", "01", "1f"):
            message = self.lay(GRS, 1000, b"", [bytes.fromhex(contents)], None)
            scene.append(b"act 9 %s 99" % message.hex().encode())
        made.append(scene + [b"rows 1000 1034"])
        scene = [b"own 1000 1300 9", b"set 1000 1300 0"]
        for fixed in (0, 1, 2, 3, 4, 5, 6, 7, 0xFC, 0xFD, 0xFE, 0xFF):
            scene.append(b"act 9 e80318%02x010201ff 99" % fixed)
        made.append(scene + [b"rows 1000 1003"])
        scene = [b"own 1000 1300 9", b"set 1000 1300 0"]
        for r, count in ((0, 0), (0, 1), (0, 2), (1, 0), (1, 1), (1, 2), (7, 1), (7, 2), (8, 1), (8, 2), (8, 3), (254, 32),
                         (255, 31), (255, 32), (255, 33)):
            message = self.lay(self.pick([CGB, CGU]), 1000, b"\0", [bytes([r]) + b"\xff" * count], None)
            scene.append(b"act 9 %s 99" % message.hex().encode())
        made.append(scene + [b"act 9 e803180001 99", b"act 9 e80318000100 99", b"rows 1000 1256"])

        # 31, 32 and 33 marks, at the front, at the end, spread over the octets, with spare bits and without; 18 comes after 14.
        scene = [b"own 1000 1300 9", b"set 1000 1300 0", b"own 4000 4095 9"]
        for marks in (31, 32, 33):
            for r, places in ((39, range(marks)), (39, range(40 - marks, 40)), (255, range(0, 8 * marks, 8) if marks < 33 else range(0, 7 * marks, 7)),
                              (33, range(marks)), (33, list(range(marks)) + list(range(34, 40)))):
                status = bytearray(r // 8 + 1)
                for n in places:
                    status[n // 8] |= 1 << n % 8
                for kind in (CGB, CGU):
                    message = self.lay(kind, 1000, b"\0", [bytes([r]) + bytes(status)], None)
                    scene.append(b"act 9 %s 99" % message.hex().encode())
            message = self.lay(CGB, 4090, b"\0", [bytes([39]) + (2 ** marks - 1).to_bytes(5, "little")], None)
            scene.append(b"act 9 %s 99" % message.hex().encode())
        made.append(scene + [b"rows 1000 1256"])

        # Wrong totals of a call's blocks and of the next ones: an accepted call makes those of its blocks right, a refused one none.
        for kind in ACTED:
            row = SHAPES[kind]
            scene = [b"own 560 960 9", b"set 560 960 1"]
            spans = {GRS: [(639, 1), (640, 1), (632, 31)], CQM: [(639, 1), (703, 0), (632, 31)], CGB: [(639, 1), (703, 255)],
                     CGU: [(640, 1), (703, 255)]}.get(kind, [(640, 0), (703, 0)])
            for m, r in spans:
                fixed = b"\1" if kind == CGB else bytes(row.fixed)     # for hardware, so that busy ends
                contents = bytes([r]) if kind in (GRS, CQM) else bytes([r, 3] + [0] * (r // 8)) if kind in (CGB, CGU) else b"\1"
                message = self.lay(kind, m, fixed, [contents] * row.variable, None).hex().encode()
                scene += [b"set %d %d 0" % (m, m)] if kind == IAM else []
                scene += [b"total %d 77" % block for block in range(m // 64 - 1, (m + r) // 64 + 2)]
                scene += [b"act 8 %s 99" % message, b"busy %d %d" % (m // 64 * 64 - 64, m), b"act 9 %s 99" % message, b"totals"]
            made.append(scene)
        wrong = [b"set 600 800 1"] + [b"total %d 99" % block for block in (9, 10, 11)]
        asks = [b"totals", b"busy 577 767", b"busy 640 703", b"busy 641 703", b"busy 640 702"]
        for word in (b"block", b"unblock"):
            made.append(wrong + [b"set 650 650 5", b"total 10 99", b"%s 650 3" % word, b"%s 640 2" % word, b"%s 4096 3" % word] + asks
                        + [b"%s 703 3" % word] + asks)
        # Rows made by the desk: the totals of the blocks that they touch; bit 1 of a row that is not legal counts; 255 in each total.
        for low, high, state in ((640, 703, 0), (639, 640, 255), (703, 704, 254), (640, 640, 5), (0, 4095, 1)):
            made.append(wrong + [b"set %d %d %d" % (low, high, state)] + asks)
        made.append([b"total %d 255" % block for block in range(64)]
                    + [b"busy 0 4095", b"busy 1 4094", b"totals", b"rebuild", b"totals", b"busy 0 4095", b"busy 1 4094"])

        # Groups that reach outside the sender's span, at the first, a middle and the last circuit, marked or not.
        for spot in (1499, 1500, 1504, 1508, 1509):
            for status in (b"0000", b"ffff"):
                front = [b"own 1490 1520 9", b"set 1490 1520 0"]
                act = b"act 9 dc0518000103" + b"08" + status + b" 99"
                made.append(front + [b"own %d %d 8" % (spot, spot), act, b"rows 1499 1509"])
                made.append(front + [b"set %d %d 5" % (spot, spot), act, b"rows 1499 1509"])
        # A partner on circuits that it only helps: each type, each kind of a group, over one circuit, a whole group and a part of one;
        # 19 over the whole group before 22, 22 over the whole group before 20, 20 before 21 and 13; 0 helps nothing.
        for kind in ACTED:
            for fixed in ((0, 1) if kind in (CGB, CGU) else (0,)):
                row = SHAPES[kind]
                contents = b"\3\7" if kind in (CGB, CGU) else b"\3" if kind in (GRS, CQM) else b"\1"
                message = self.lay(kind, 1900, bytes([fixed] + [0] * 9)[:row.fixed], [contents] * row.variable, None).hex().encode()
                acts = [b"act %d %s %d" % (sender, message, room) for sender, room in ((5, 0), (5, 99), (9, 99))]
                for some in ([], [b"own 1900 1900 5"], [b"helper 1902 1902 0"], [b"set 1903 1903 5"]):
                    made.append([b"own 1900 1903 9", b"set 1900 1903 0", b"helper 1900 1903 5"] + some + acts + [b"rows 1900 1903"])
        made.append([b"own 1950 1951 0", b"helper 1950 1951 0", b"act 0 9e0713 3", b"act 256 9e0713 3", b"helper 1950 1950 5",
                     b"act 5 9e0713 3", b"act 261 9e0713 3", b"act 5 9e0714 3", b"act 5 9f0713 3", b"rows 1950 1951"])
        # 19 is decided over the whole group before 20; 20 before 21; all before 13.
        made += [
            [b"own 1600 1608 9", b"set 1600 1608 0", b"set 1600 1600 7", b"own 1608 1608 0", b"act 9 400617010108 0",
             b"own 1608 1608 9", b"act 9 400617010108 0", b"set 1600 1600 0", b"act 9 400617010108 0",
             b"set 1600 1608 3", b"act 9 400617010108 7", b"rows 1600 1608", b"act 9 400617010108 8", b"rows 1600 1608"],
            [b"own 1700 1700 9", b"set 1700 1700 5", b"act 0 a40601000000000002000100 0", b"act 9 a40601000000000002000100 0",
             b"set 1700 1700 4", b"act 9 a40601000000000002000100 0", b"set 1700 1700 0",
             b"act 9 a40601000000000002000100 0", b"act 9 a40601000000000002000100 0", b"rows 1700 1700"],
            # 17 and 14 before 18, 18 before 19.
            [b"own 4090 4095 9", b"set 4090 4095 0", b"act 0 ff0f15 0", b"act 0 ff0f170100 0", b"act 0 ff0f17010120 0",
             b"act 0 ff0f1802010301ff 0", b"act 0 ff0f17010101 0", b"act 9 fe0f17010101 99", b"act 9 fe0f17010102 99",
             b"act 9 ff0f17010101 99", b"act 0 ff0f13 0", b"act 9 ff0f13 2", b"act 9 ff0f13 3", b"rows 4090 4095"],
            # Senders: 0 serves nobody, and one above 255 owns nothing.
            [b"own 1800 1800 0", b"set 1800 1800 0", b"act 0 080713 3", b"act 256 080713 3", b"own 1800 1800 255",
             b"act 255 080713 3", b"act 511 080713 3", b"act 4294967295 080713 3", b"act 256 080713 3",
             b"rows 1800 1800", b"own 1800 1800 1", b"act 257 080714 3", b"act 1 080714 3", b"rows 1800 1800"],
        ]
        return made

    def corner(self):
        """The next corner; all of them come before one comes again."""
        if not self.corners:
            self.rounds += 1
            self.corners = self.shuffled(self.limits() + self.tables() + self.night_tables())
        return list(self.corners.pop())

    # ------------------------------------------------------------ the stream

    def scene(self):
        if self.chance(0.45 if self.rounds < 2 else 0.05):
            return self.corner()
        return self.weighted([
            (3, self.shape), (22, self.read), (20, self.write), (15, self.compact), (18, self.find),
            (9, self.number), (9, self.dial), (10, self.group), (7, self.single), (7, self.helped), (4, self.going), (1, self.spans),
            (18, self.strange), (6, self.ours), (4, self.counting), (4, self.night), (1, self.look), (10, self.velocity), (4, self.velocity_back), (2, self.bicc_shape), (14, self.bicc_read), (12, self.bicc_write),
            (10, self.bicc_compact), (3, self.sccp_shape), (16, self.sccp_read), (14, self.sccp_write), (12, self.sccp_compact), (20, self.lists),
            (12, lambda: [self.bad()])])()

    def next(self):
        """The next line, without LF; with a CR in some."""
        if self.waiting and self.chance(0.02):
            line = self.bad()
        else:
            if not self.waiting:
                self.waiting = self.scene()
            line = self.waiting.pop(0)
        if self.chance(0.015):
            line += b"\r"
        self.desk.answer(line[:-1] if line.endswith(b"\r") else line)
        return line


def generate(count, seed):
    """An input of `count` lines. For an odd seed, the last line has no LF."""
    generator = Generator(seed)
    made = [generator.next() for _ in range(count)]
    data = b"\n".join(made) + b"\n" if made else b""
    return data[:-1] if made and made[-1] and seed % 2 else data


def coverage(data):
    """How often each outcome was answered to each kind of request: (kind, outcome) to count."""
    desk = model.Desk()
    counts = Counter()
    for line in model.lines(data):
        answer = desk.answer(line).decode()
        word = line.split(b" ")[0]
        kind = word.decode() if word in model.FIELDS else "other"
        if answer.startswith("refused "):
            counts[kind, int(answer.split()[1])] += 1
        else:
            counts[kind, "bad line" if answer == "bad line" else "accepted"] += 1
    return counts


def table(counts):
    columns = ["accepted"] + list(range(1, 27)) + ["bad line"]
    columns = [each for each in columns if any(outcome == each for _, outcome in counts)]
    lines = ["%-13s" % "" + "".join("%9s" % each if isinstance(each, str) else "%5d" % each for each in columns)]
    for kind in [word.decode() for word in model.FIELDS] + ["other"]:
        lines.append("%-13s" % kind + "".join(
            ("%9s" if isinstance(each, str) else "%5s") % (counts[kind, each] or ".") for each in columns))
    return "\n".join(lines)


if __name__ == "__main__":
    words = [word for word in sys.argv[1:] if word != "--cover"]
    if len(words) != 2:
        sys.exit("usage: generate.py N SEED [--cover]")
    made = generate(int(words[0]), int(words[1]))
    sys.stdout.buffer.write(made)
    if "--cover" in sys.argv[1:]:
        print(table(coverage(made)), file=sys.stderr)
