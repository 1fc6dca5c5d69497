"""What goes into the messages: contents that mean something, made by chance and the same for the same seed."""

import random
from typing import NamedTuple, Optional

from shapes import *

EMPTY = 0.01            # the part of the messages with variable parameters whose contents are empty

# Optional parameters that are a number: octets of indicators, then signals. Generic number has a qualifier in front.
NUMBERS = [0x0A, 0x0B, 0x0C, 0x21, 0x28, 0x3F, 0x45, 0x6F]
GENERIC_NUMBER = 0xC0

# Optional parameters with a length that Q.1902.3 gives them; at another one, tshark would miss octets in some.
OF_ONE_LENGTH = {
    0x01: 5, 0x02: 1, 0x06: 1, 0x07: 2, 0x08: 1, 0x09: 1, 0x0D: 7, 0x0E: 2, 0x0F: 2, 0x11: 2, 0x13: 2, 0x18: 1, 0x1A: 4, 0x1E: 2,
    0x27: 1, 0x29: 1, 0x2A: 1, 0x2B: 2, 0x2C: 1, 0x2D: 2, 0x2E: 1, 0x31: 2, 0x35: 1, 0x36: 1, 0x37: 1, 0x3A: 6, 0x3B: 1, 0x3C: 1,
    0x3D: 1, 0x3E: 1, 0x40: 1, 0x43: 1, 0x44: 1, 0x4B: 1, 0x79: 1,
}

# Optional parameters that tshark takes with any contents: user-to-user information, service activation, display information and the like.
FREE = [0x1D, 0x20, 0x2F, 0x30, 0x32, 0x33, 0x34, 0x4C, 0x4D, 0x5B, 0x65, 0x66, 0x71, 0x73, 0x81, 0x83]

# Names that Q.1902.3 gives to no parameter, or leaves to national use.
UNKNOWN = [0x64, 0x7E, 0x90, 0x9F, 0xA0, 0xBF, 0xC8, 0xDF, 0xF0, 0xFD, 0xFE, 0xFF]

ACCESS_TRANSPORT, ACCESS_ELEMENT = 0x03, bytes.fromhex("7d029181")
COMPATIBILITY = 0x39


class Number(NamedTuple):
    nature: int
    plan: int
    internal: int
    signals: bytes      # one in an octet

    def contents(self, spare=0):
        """The octets of a called party number, with these four spare bits."""
        odd = len(self.signals) % 2
        padded = self.signals + bytes(odd)
        pairs = bytes(low | high << 4 for low, high in zip(padded[::2], padded[1::2]))
        return bytes([odd << 7 | self.nature, self.internal << 7 | self.plan << 4 | spare]) + pairs


class Message(NamedTuple):
    circuit: int                # of BICC the call instance code
    kind: int
    fixed: bytes
    variable: tuple             # the contents of each variable parameter, in pointer order
    optional: tuple             # (name, contents) of each optional parameter, in wire order
    number: Optional[Number]    # what an IAM's called party number says; None where its contents are empty

    def run(self):
        """The optional run without its closing 0."""
        return b"".join(bytes([name, len(contents)]) + contents for name, contents in self.optional)


def compact_pointers(message):
    """The pointers of the compact form: variable parameters in pointer order right after the pointers, then the optional part. They are
    counted from themselves, so they are alike in both families."""
    pointer, place = after_pointers(message.kind)
    found = []
    for contents in message.variable:
        found.append(place - pointer)
        pointer, place = pointer + 1, place + 1 + len(contents)
    if SHAPES[message.kind].optional:
        found.append(place - pointer if message.optional else 0)
    return found


def compact_length(message, family=ISUP):
    """How many octets the compact form has, all of them with a meaning."""
    variable = sum(1 + len(contents) for contents in message.variable)
    return after_pointers(message.kind, family)[1] + variable + (len(message.run()) + 1 if message.optional else 0)


class Maker:
    def __init__(self, seed, family=ISUP):
        self.rng = random.Random(seed)
        self.family = family

    # ------------------------------------------------------------ small choices

    def chance(self, part):
        return self.rng.random() < part

    def between(self, low, high):
        return self.rng.randrange(low, high + 1)

    def octets(self, count):
        return bytes(self.rng.randrange(256) for _ in range(count))

    def digits(self, most):
        return bytes(self.between(0, 9) for _ in range(self.between(1, most)))

    def signals(self, most):
        """Digits; now and then another signal among them, and an ending 15."""
        found = bytearray(self.digits(most))
        if self.chance(0.15):
            found[self.between(0, len(found) - 1)] = self.between(10, 15)
        if self.chance(0.2):
            found[-1] = 15
        return bytes(found)

    # ------------------------------------------------------------ mandatory contents

    def number(self):
        signals = b"" if self.chance(0.02) else self.signals(30)
        return Number(self.rng.choice([1, 2, 3, 3, 4, 4, 5, self.between(0, 127)]), self.rng.choice([1, 1, 1, 3, 4, self.between(0, 7)]),
                      self.between(0, 1), signals)

    def subsequent(self):
        """The odd bit alone, then signals."""
        signals = self.signals(20)
        return bytes([len(signals) % 2 << 7]) + Number(0, 0, 0, signals).contents()[2:]

    def cause(self):
        """Location and cause, the last octet of each marked, and now and then a diagnostic, short or as long as can be."""
        diagnostic = self.octets(self.rng.choice([1, 2, 3, self.between(4, 30), self.between(31, 250), 251])) if self.chance(0.4) else b""
        return bytes([0x80 | self.rng.choice([0, 1, 2, 3, 4, 5, 7, 10]), 0x80 | self.between(1, 127)]) + diagnostic

    def range_and_status(self, kind):
        """The range, and r/8+1 status octets where the type has a status field, at most 32 bits of them set."""
        if kind in (GRS, GRA, CQM, CQR):
            reach = self.between(0 if kind in (CQM, CQR) else 1, 31)
        else:
            reach = self.rng.choice([1, 6, 7, 8, 15, 16, 31, 254, 255] + [self.between(1, 255) for _ in range(9)])
        if kind in (GRS, CQM, CQR):
            return bytes([reach])
        status = bytearray(reach // 8 + 1)
        for bit in self.rng.sample(range(reach + 1), self.between(0, min(32, reach + 1))):
            status[bit // 8] |= 1 << bit % 8
        return bytes([reach]) + status

    def states(self, reach):
        """An octet for each circuit of the range."""
        return bytes(self.rng.choice([0x00, 0x03, 0x0C, 0x0D, 0x0E, 0x04, 0x08, 0x1C, 0x2C]) for _ in range(reach + 1))

    def variable(self, kind, number):
        """The contents of the variable parameters; now and then they are empty."""
        if SHAPES[kind].variable and self.chance(EMPTY):
            return (b"",) * len(SHAPES[kind].variable)
        if kind == IAM:
            return (number.contents(),)
        if kind == SAM:
            return (self.subsequent(),)
        if kind == REL:
            return (self.cause(),)
        if not SHAPES[kind].variable:
            return ()
        group = self.range_and_status(kind)
        return (group, self.states(group[0])) if kind == CQR else (group,)

    def fixed(self, kind):
        if kind in (CGB, CGU, CGBA, CGUA):
            return bytes([self.between(0, 1)])
        return b"".join(self.octets(length) for _, length in SHAPES[kind].fixed)

    # ------------------------------------------------------------ optional parameters

    def parameter(self):
        what = self.rng.choice(["number", "one length", "one length", "free", "free", "unknown", "unknown", "empty", "odd"])
        if what == "number":
            name = self.rng.choice(NUMBERS + [GENERIC_NUMBER])
            contents = Number(self.between(1, 4), 1, 0, self.digits(15)).contents()
            return name, self.octets(1) + contents if name == GENERIC_NUMBER else contents
        if what == "one length":
            name = self.rng.choice(sorted(OF_ONE_LENGTH))
            return name, self.octets(OF_ONE_LENGTH[name])
        if what == "free":
            return self.rng.choice(FREE), self.octets(self.between(1, 40))
        if what == "unknown":
            return self.rng.choice(UNKNOWN), self.octets(self.rng.choice([1, 2, 3, self.between(1, 60), self.between(1, 255)]))
        if what == "empty":
            return self.rng.choice(FREE + UNKNOWN), b""
        if self.chance(0.5):
            return ACCESS_TRANSPORT, ACCESS_ELEMENT * self.between(1, 3)
        return COMPATIBILITY, b"".join(bytes([name, 0x80 | self.between(0, 127)]) for name in self.rng.sample(UNKNOWN, self.between(1, 4)))

    def optional(self, room):
        """Parameters that fit into the room with their closing 0; repeats are let stand."""
        found, used = [], 1
        for _ in range(self.rng.choice([0, 1, 1, 2, 3, 5, 9])):
            name, contents = self.parameter()
            if used + 2 + len(contents) > room:
                continue
            found.append((name, contents))
            used += 2 + len(contents)
            if self.chance(0.05) and used + 2 + len(contents) <= room:
                found.append((name, contents))
                used += 2 + len(contents)
        return tuple(found)

    def message(self, kind, longest):
        """A message of the type, of at most so many octets in the compact form."""
        number = self.number() if kind == IAM else None
        fixed, variable = self.fixed(kind), self.variable(kind, number)
        number = number if any(variable) else None
        used = after_pointers(kind, self.family)[1] + sum(1 + len(contents) for contents in variable)
        optional = self.optional(longest - used) if SHAPES[kind].optional else ()
        return Message(self.between(0, self.family.numbers() - 1), kind, fixed, variable, optional, number)


def messages(count, seed, family=ISUP):
    """So many messages, of the family's types in turn."""
    maker = Maker(seed, family)
    return [maker.message(family.types[place % len(family.types)], family.longest) for place in range(count)]
