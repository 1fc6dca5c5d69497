"""SCCP held against Wireshark's dissector: what our writer writes and what our reader reads, where tshark finds the same parts.

tshark names an SCCP parameter by what it makes of it, so a part is known here by its place and its length: the type, where the fixed
part ends, each pointer, the length octet of each variable parameter, and the length octet of each optional one with the closing 0.
"""

import random
import subprocess
import sys
from collections import Counter
from typing import NamedTuple

import desk
import shark

SERVICE = 0x83          # a national network, and SCCP
LONGEST = 268
SHOWN = 5

# From Q.713, section 4: octets of the fixed parameters, how many variable parameters, whether there is an optional part.
SHAPES = {0x01: (4, 1, True), 0x02: (7, 0, True), 0x03: (4, 0, True), 0x04: (7, 0, True), 0x05: (6, 0, False), 0x06: (4, 1, False),
          0x07: (5, 1, False), 0x08: (5, 0, False), 0x09: (1, 3, False), 0x0A: (1, 3, False), 0x0B: (3, 1, False), 0x0C: (3, 0, False),
          0x0D: (7, 0, True), 0x0E: (6, 0, False), 0x0F: (4, 0, True), 0x10: (10, 0, False), 0x11: (2, 3, True), 0x12: (2, 3, True)}
TYPES = sorted(SHAPES)
DT1, DT2, RSR, ERR, XUDT = 0x06, 0x07, 0x0D, 0x0F, 0x11

# tshark reads no pointer of these three: it leaves the data of DT2 alone, and it knows no optional part of RSR and ERR.
FIXED_ALONE = (DT2, RSR, ERR)

# The place of the protocol class in the fixed part, and the classes that a type may have: another one tshark complains of.
CLASSES = {0x01: (3, (2, 3)), 0x02: (6, (2, 3)), 0x10: (6, (2, 3)), 0x09: (0, (0, 1, 0x80, 0x81)), 0x11: (0, (0, 1, 0x80, 0x81))}

# Optional parameters by their length; an address has an indicator octet and a subsystem that tshark hands to nobody. Data is left out:
# tshark looks for a connection to hand it to.
OF_ONE_LENGTH = {0x09: 1, 0x11: 1, 0x12: 1}
ADDRESSES = [0x03, 0x04]
UNKNOWN = [0x20, 0x41, 0x7E, 0xA0, 0xC8, 0xFE]


class Unit(NamedTuple):
    kind: int
    fixed: bytes
    variable: tuple
    optional: tuple     # (name, contents) of each

    def run(self):
        return b"".join(bytes([name, len(contents)]) + contents for name, contents in self.optional)


class Laid(NamedTuple):
    unit: Unit
    octets: bytes
    view: dict


def view_of(octets, kind, pointers, lengths, closing):
    """What tshark should say: lengths are (place, length) of each length octet, variable parameters first; closing is where the 0 stands."""
    fixed = SHAPES[kind][0]
    if kind in FIXED_ALONE:
        return {"type": "%02x" % kind, "fixed ends": 1 + fixed, "pointers": [], "lengths": [], "closing": None, "complaint": ""}
    return {"type": "%02x" % kind, "fixed ends": 1 + fixed, "pointers": list(pointers), "lengths": [] if kind == DT1 else sorted(lengths),
            "closing": closing, "complaint": ""}


def laid(unit, order, gaps, after, empty_run):
    """The message with its parts in that order; None where a pointer or the whole is too large."""
    fixed, variable, optional = SHAPES[unit.kind]
    begin = 1 + fixed
    end = begin + variable + optional
    parts = [bytes([len(contents)]) + contents for contents in unit.variable]
    if optional and (unit.optional or empty_run):
        parts.append(unit.run() + b"\0")
    pointers, body, lengths, closing = bytearray(variable + optional), b"", [], None
    for turn, part in enumerate(order):
        body += gaps[turn]
        place = end + len(body)
        if place - begin - part > 255:
            return None
        pointers[part] = place - begin - part
        if part < variable:
            lengths.append((place, len(unit.variable[part])))
        else:
            at = place
            for _, contents in unit.optional:
                lengths.append((at + 1, len(contents)))
                at += 2 + len(contents)
            closing = at
        body += parts[part]
    octets = bytes([unit.kind]) + unit.fixed + bytes(pointers) + body + after
    return Laid(unit, octets, view_of(octets, unit.kind, pointers, lengths, closing)) if len(octets) <= LONGEST else None


class Maker:
    def __init__(self, seed):
        self.rng = random.Random(seed)

    def octets(self, count):
        return bytes(self.rng.randrange(256) for _ in range(count))

    def address(self):
        return bytes([0x42, self.rng.randrange(0xC8, 0xF0)])

    def parameter(self):
        what = self.rng.randrange(3)
        if what == 0:
            name = self.rng.choice(sorted(OF_ONE_LENGTH))
            return name, self.octets(1)
        if what == 1:
            return self.rng.choice(ADDRESSES), self.address()
        return self.rng.choice(UNKNOWN), self.octets(self.rng.choice([1, 2, 3, self.rng.randrange(1, 40)]))

    def unit(self, kind):
        fixed, variable, optional = SHAPES[kind]
        octets = bytearray(self.octets(fixed))
        if kind in CLASSES:
            at, classes = CLASSES[kind]
            octets[at] = self.rng.choice(classes)
        data = b"\xAA" + self.octets(self.rng.choice([0, 1, 20, self.rng.randrange(120)]))      # what tshark hands to nobody
        contents = () if variable == 0 else (self.address() if kind == 0x01 else data,) if variable == 1 else (self.address(), self.address(), data)
        run = tuple(self.parameter() for _ in range(self.rng.choice([0, 1, 2, 4]))) if optional else ()
        return Unit(kind, bytes(octets), contents, run)

    def compact(self, kind):
        while True:
            unit = self.unit(kind)
            count = len(unit.variable) + bool(unit.optional)
            made = laid(unit, range(count), [b""] * count, b"", False)
            if made:
                return made

    def composed(self, kind):
        while True:
            unit, empty = self.unit(kind), self.rng.random() < 0.3
            count = len(unit.variable) + bool(unit.optional or empty and SHAPES[kind][2])
            order = list(range(count))
            self.rng.shuffle(order)
            gaps = [self.octets(self.rng.choice([0, 0, 1, 7])) for _ in order]
            made = laid(unit, order, gaps, self.octets(self.rng.choice([0, 0, 3])), empty)
            if made:
                return made


# ---------------------------------------------------------------- what tshark reads

def place(field):
    return int(field.get("pos")) - shark.LABEL


def reading(packet):
    """The parts that tshark shows, or None where it finds no SCCP."""
    sccp = next((each for each in packet.findall("proto") if each.get("name") == "sccp"), None)
    if sccp is None:
        return None
    found = {"type": None, "fixed ends": 1, "pointers": [], "lengths": set(), "closing": None, "complaint": shark.complaint_of(packet)}
    for field in sccp.findall("field"):
        name = field.get("name")
        if name == "sccp.message_type":
            found["type"] = "%02x" % int(field.get("show"), 0)
        elif name.startswith("sccp.variable_pointer") or name == "sccp.optional_pointer":
            found["pointers"].append(int(field.get("show"), 0))
        elif name == "sccp.parameter_length":
            found["lengths"].add((place(field), int(field.get("show"), 0)))
        elif name == "sccp.segmented_data":
            found["lengths"].add((place(field), int(field.get("value")[:2], 16)))
        elif name == "sccp.end_optional_param":
            found["closing"] = place(field)
        elif not found["pointers"]:
            found["fixed ends"] = max(found["fixed ends"], place(field) + int(field.get("size")))
    # The data of a DT1 waits for the whole that it is a piece of, and tshark shows it at one time and not at another.
    found["lengths"] = [] if found["type"] == "%02x" % DT1 else sorted(found["lengths"])
    return found


def held(title, capture, cases):
    """Each case is a Laid and a fault of our own side, empty where there is none. Prints the summary; answers how many differ."""
    path = desk.TOP / "target" / "wireshark" / capture
    shark.write_packets(path, [shark.labelled(SERVICE, case.octets) for case, _ in cases])
    views = shark.read_with(path, reading)
    if len(views) != len(cases):
        sys.exit("tshark reads %d packets of %d" % (len(views), len(cases)))
    agree = differ = 0
    for (case, fault), theirs in zip(cases, views):
        if not fault and theirs == case.view:
            agree += 1
            continue
        differ += 1
        if differ <= SHOWN:
            print("message %s\n  fault:  %s\n  ours:   %s\n  tshark: %s" % (case.octets.hex(), fault, case.view, theirs))
    print("%s: %d agree, %d differ, 0 explained" % (title, agree, differ))
    return differ


def run(count, seed):
    maker = Maker(seed)
    units = [maker.compact(TYPES[i % len(TYPES)]) for i in range(count)]
    requests = []
    for each in units:
        contents = (each.unit.variable + (b"", b"", b""))[:3]
        requests.append(" ".join(["sccp-write %02x" % each.unit.kind] + [desk.word(part) for part in (each.unit.fixed,) + contents + (each.unit.run(),)] + ["268"]))
    written = [(each, "" if answer == "octets " + each.octets.hex() else "the desk answers " + answer) for each, answer in zip(units, desk.ask(requests))]
    differ = held("our writer of SCCP", "sccp-written.pcap", written)
    units = [maker.composed(TYPES[i % len(TYPES)]) for i in range(count)]
    read = []
    for each, answer in zip(units, desk.ask(["sccp-read " + each.octets.hex() for each in units])):
        first, second, third = (each.unit.variable + (b"", b"", b""))[:3]
        wanted = "type %02x fixed %s first %s second %s third %s optional %s" % ((each.unit.kind,) + tuple(
            desk.word(part) for part in (each.unit.fixed, first, second, third, each.unit.run())))
        read.append((each, "" if answer == wanted else "the desk answers " + answer))
    return differ + held("our reader of SCCP", "sccp-composed.pcap", read)
