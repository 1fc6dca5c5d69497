"""Requests of SCCP, and those that list a message's parameters: a part of the generator."""

import model
from model import SCCP_SHAPES as ROWS

KINDS = sorted(ROWS)
NO_KINDS = [kind for kind in range(256) if kind not in ROWS]
NEAR_KINDS = [0x00, 0x13, 0x13, 0x14, 0x15, 0x20, 0x81, 0xFF]       # 13 and 14 are LUDT and LUDTS
WITH_POINTERS = [kind for kind in KINDS if ROWS[kind].variable or ROWS[kind].optional]
WITH_VARIABLE = [kind for kind in KINDS if ROWS[kind].variable]
WITH_OPTIONAL = [kind for kind in KINDS if ROWS[kind].optional]
WITH_THREE = [kind for kind in KINDS if ROWS[kind].variable == 3]
CR, UDT, ERR, XUDT = 0x01, 0x09, 0x0F, 0x11


def ends(kind):
    """Where the pointers of a type begin, and the octet past them."""
    row = ROWS[kind]
    return 1 + row.fixed, 1 + row.fixed + row.variable + (1 if row.optional else 0)


class Roaming:
    """What the generator knows of SCCP; the small choices are the generator's."""

    # ------------------------------------------------------------ messages

    def unit(self, kind, contents, run, order=None, gaps=(), after=b""):
        """A message whose parts stand in the given order; run None: optional pointer 0. None where it can't be."""
        row = ROWS[kind]
        pointers, end = ends(kind)
        parts = [bytes([len(each)]) + each for each in contents]
        if row.optional and run is not None:
            parts.append(run + b"\0")
        body = b""
        targets = [0] * len(parts)
        for turn, part in enumerate(range(len(parts)) if order is None else order):
            body += gaps[turn] if turn < len(gaps) else b""
            targets[part] = end + len(body)
            body += parts[part]
        values = [target - pointers - part for part, target in enumerate(targets)]
        if row.optional and run is None:
            values.append(0)
        if any(value > 255 for value in values) or end + len(body + after) > 268:
            return None
        return bytes([kind]) + self.octets(row.fixed) + bytes(values) + body + after

    def unit_well(self, kind=None):
        """Any order of the parts, gaps, octets after them."""
        kind = self.pick(KINDS) if kind is None else kind
        row = ROWS[kind]
        while True:
            sizes = [0, 0, 1, 1, 2, 3, 5, 9, 20] if self.chance(0.9) else [60, 84, 85, 126, 127, 200, 252, 255]
            contents = [self.octets(self.pick(sizes)) for _ in range(row.variable)]
            run = None
            if row.optional and self.chance(0.75):
                run = b"" if self.chance(0.15) else self.run()
            count = row.variable + (run is not None)
            plain = self.chance(0.35)
            made = self.unit(
                kind, contents, run, list(range(count)) if plain else self.shuffled(range(count)),
                [b"" if plain or self.chance(0.5) else self.octets(self.between(1, 6)) for _ in range(count)],
                b"" if plain or self.chance(0.5) else self.octets(self.between(1, 8)))
            if made is not None:
                return made

    def unit_unfit(self):
        """Well formed, but the compact form cannot hold the last pointer, or only just: the last part stands in front."""
        kind = self.pick(WITH_THREE + [CR])
        whole = self.pick([251, 252, 252, 253, 253, 254])
        if kind == CR:
            made = self.unit(kind, [self.octets(whole)], b"\x20\x00", order=[1, 0])
        else:
            size = self.between(0, whole)
            made = self.unit(kind, [self.octets(size), self.octets(whole - size), b""], None,
                             order=self.pick([[2, 0, 1], [2, 1, 0], [0, 2, 1]]))
        return made if made is not None else self.unit_well()

    def unit_near(self):
        """Each rule of the reader nearly broken."""
        way = self.between(1, 8)
        if way == 1:
            return self.unit_well()[:self.between(0, 2)]
        if way == 2:
            message = self.unit_well()
            length = self.pick([267, 268, 268, 269, 269, 270, 300, 1024])
            return (message + self.octets(length))[:max(length, len(message))]
        if way == 3:
            return bytes([self.pick(NEAR_KINDS + [self.pick(NO_KINDS), self.pick(KINDS)])]) + self.unit_well()[1:]
        if way == 4:
            kind = self.pick(KINDS)
            end = ends(kind)[1]
            return self.unit_well(kind)[:self.pick([end - 1, end - 1, end, self.between(1, end)])]
        kind = self.pick(WITH_VARIABLE if way == 6 else WITH_OPTIONAL if way == 7 else WITH_POINTERS)
        row = ROWS[kind]
        pointers, end = ends(kind)
        if way == 5:
            message = bytearray(self.unit_well(kind))
            place = self.between(pointers, end - 1)
            length = len(message)
            message[place] = min(255, max(0, self.pick([0, 1, end - 1 - place, end - place, length - 1 - place, length - place, 255])))
            return bytes(message)
        if way == 6:
            contents = [self.octets(self.pick([0, 1, 2, 5])) for _ in range(row.variable)]
            last = self.between(0, row.variable - 1)        # this part ends the message
            order = self.shuffled([part for part in range(row.variable) if part != last]) + [last]
            message = bytearray(self.unit(kind, contents, None, order=order))
            message[len(message) - 1 - len(contents[last])] += self.pick([0, 1, 1, 2, 200])
            return bytes(message) if self.chance(0.8) else bytes(message[:-1])
        if way == 7:
            contents = [self.octets(self.pick([0, 1, 3])) for _ in range(row.variable)]
            size = self.between(0, 3)
            message = bytearray(self.unit(kind, contents, self.run(2) + bytes([self.name(), size]) + self.octets(size)))
            at = len(message) - 2 - size                    # the length octet of the last parameter
            how = self.between(0, 5)
            if how == 0:
                message.pop()                               # a name is due at L
            elif how == 1:
                message[at] += self.pick([1, 2])            # the closing 0 becomes contents, or is passed
            elif how == 2:
                message[-1] = self.name()                   # a name is the last octet
            elif how == 3:
                message = message[:at + self.between(0, 1)]
            elif how == 4:
                message[-1:] = bytes([self.name(), 0])      # ends with an empty parameter
            return bytes(message)
        message = bytearray(self.unit_well(self.pick(WITH_THREE + [CR])))
        kind = message[0]
        pointers, end = ends(kind)
        one, other = self.shuffled(range(pointers, end))[:2]        # two parts that touch, share an octet, or lie in one another
        target = other + message[other]
        past = target + 1 + (message[target] if target < len(message) else 0)
        message[one] = min(255, max(0, self.pick([target, target, target + 1, past - 1, past, target - 1]) - one))
        return bytes(message)

    def unit_changed(self):
        message = bytearray(self.unit_well())
        for _ in range(self.pick([1, 1, 2, 3])):
            at = self.between(0, len(message) - 1)
            message[at] = self.pick([self.between(0, 255), min(255, message[at] + 1), max(0, message[at] - 1), 0])
        return bytes(message)

    def unit_random(self):
        message = bytearray(self.between(0, 6) if self.chance(0.6) else self.between(0, 255) for _ in range(self.between(1, 24)))
        message[0] = self.pick(KINDS)
        return bytes(message)

    def any_unit(self):
        return self.weighted([(35, self.unit_well), (42, self.unit_near), (14, self.unit_changed), (8, self.unit_random)])()

    # ------------------------------------------------------------ requests

    def sccp_shape(self):
        kind = self.weighted([(4, self.pick(KINDS)), (2, self.pick(NEAR_KINDS)), (2, self.between(0, 255))])
        return [self.line("sccp-shape", self.octet(kind))]

    def sccp_read(self):
        return [self.line("sccp-read", self.any_unit())]

    def sccp_compact(self):
        message = self.unit_unfit() if self.chance(0.15) else self.any_unit() if self.chance(0.6) else self.unit_well()
        whole = model.sccp_compact(message, 1024)
        return [self.line("sccp-compact", message, self.room(len(message) if model.refused(whole) else len(whole)))]

    def sccp_write(self):
        kind = self.pick(KINDS)
        row = ROWS[kind]
        contents = [b"", b"", b""]
        for each in range(row.variable):
            contents[each] = self.octets(self.pick([0, 1, 2, 3, 8, 30]))
        run = self.run() if row.optional and self.chance(0.6) else b""
        way = self.rng.random()
        if way < 0.25:          # the third pointer reaches over the first two contents
            kind = self.pick(WITH_THREE)
            row = ROWS[kind]
            whole = self.pick([250, 251, 252, 252, 253, 253, 254, 500])
            size = self.between(max(0, whole - 256), min(256, whole))
            contents = [self.octets(size), self.octets(whole - size), self.octets(self.pick([0, 0, 1, 5, 9, 255]))]
            run = self.run(1) if row.optional and self.chance(0.3) else b""
        elif way < 0.35:        # one length near 255
            kind = self.pick(WITH_VARIABLE)
            row = ROWS[kind]
            contents = [self.octets(0) for _ in range(3)]
            contents[self.between(0, row.variable - 1)] = self.octets(self.pick([252, 253, 254, 255, 256]))
            run = self.run_of(self.pick([2, 3, 4])) if row.optional and self.chance(0.5) else b""
        elif way < 0.5:         # the whole at 268, or one past
            kind = self.pick(WITH_OPTIONAL)
            row = ROWS[kind]
            contents = [b"", b"", b""]
            left = self.pick([267, 268, 268, 269, 269, 270]) - ends(kind)[1] - row.variable - 1
            run = self.run_of(left)
        fixed = self.octets(row.fixed)
        for fault in self.shuffled(["type", "fixed", "lacking", "run"])[:self.pick([0, 0, 0, 1, 1, 2])]:
            if fault == "type":
                kind = self.pick(NEAR_KINDS)
            elif fault == "fixed":
                fixed = self.pick([fixed + b"\7", fixed[:-1], self.octets(self.between(0, 11)), b""])
            elif fault == "lacking" and row.variable < 3:
                contents[self.between(row.variable, 2)] = self.octets(self.pick([1, 3, 256]))
            elif fault == "lacking" and not row.optional:
                run = self.run(1) if self.chance(0.5) else self.ill()
            elif fault == "run":
                run = self.ill()
        whole = model.sccp_write(kind, fixed, *contents, run, 1024)
        need = self.between(1, 40) if model.refused(whole) else len(whole)
        return [self.line("sccp-write", self.octet(kind), fixed, *contents, run, self.room(need))]

    def lists(self):
        """Of each family, most of them messages with an optional part."""
        way = self.between(0, 2)
        if way == 0:
            message = self.message() if self.chance(0.5) else self.well(self.pick([0x01, 0x06, 0x09, 0x0C, 0x2C]))
            return [self.line("list", message)]
        if way == 1:
            message = self.message() if self.chance(0.5) else self.well(self.pick([0x01, 0x06, 0x09, 0x0C, 0x2C]))
            return [self.line("bicc-list", self.call(message))]
        return [self.line("sccp-list", self.any_unit() if self.chance(0.5) else self.unit_well(self.pick(WITH_OPTIONAL)))]

    # ------------------------------------------------------------ corners

    def roaming_limits(self):
        """Requests at the very edge of each rule."""
        made = [b"sccp-shape %02x" % kind for kind in KINDS + [0x00, 0x13, 0x14, 0xFF]]
        # Each of the reader's numbers at the edge; the type stands at octet 0.
        units = ["", "0c", "0c010203", "0c0102", "13", "14", "00", "ff", "1300", "0900", "0900030405", "09000304050000",
                 "0900030303000000", "0900030405000000", "09000304050142014301aa", "09000304050142014302aa", "0900010203", "0900000302000000",
                 "0900030203000000", "0900030201000000", "0900030302000000", "0f01020304", "0f0102030400", "0f0102030401", "0f010203040100",
                 "0f0102030401200141", "0f010203040120014100", "0f010203040120014121", "0f01020304012001412100", "0f0102030401200141210000",
                 "0d0102030405060700", "0101020304020100", "01010203040200002000", "0101020304020101000000", "11000f040404040000000000",
                 "11000f0404040400000020014100", "11000f040302010000", "11000f04040400000000", "0f0102030400" + "00" * 262, "0f0102030400" + "00" * 263]
        for unit in units:
            made += [b"sccp-read " + (unit or "-").encode(), b"sccp-list " + (unit or "-").encode(), b"sccp-compact " + (unit or "-").encode() + b" 268"]
        # 126 and 126 octets put 255 into the third pointer, and one more is 12; what a type lacks, content by content.
        for one, two in ((126, 126), (127, 126), (126, 127), (252, 0), (0, 252), (253, 0), (255, 0), (0, 253)):
            for three in (0, 1):
                made.append(b"sccp-write 09 00 %s %s %s - 1024" % ((b"07" * one or b"-"), (b"08" * two or b"-"), (b"09" * three or b"-")))
                made.append(b"sccp-write 11 0001 %s %s %s - 1024" % ((b"07" * one or b"-"), (b"08" * two or b"-"), (b"09" * three or b"-")))
        made += [b"sccp-write 09 00 01 02 03 - 11", b"sccp-write 09 00 01 02 03 - 10", b"sccp-write 09 00 - - - - 8", b"sccp-write 0c 010203 - - - - 4",
                 b"sccp-write 0c 010203 01 - - - 4", b"sccp-write 0c 010203 - 01 - - 4", b"sccp-write 0c 010203 - - 01 - 4", b"sccp-write 0c 010203 - - - 2000 4",
                 b"sccp-write 01 01020304 - - 05 - 99", b"sccp-write 01 01020304 05 06 - - 99", b"sccp-write 13 00 - - - - 99", b"sccp-write ff - - - - - 0",
                 b"sccp-write 0f 01020304 - - - 20 99", b"sccp-write 0f 01020304 - - - 00 99", b"sccp-write 0f 010203 - - - 00 0", b"sccp-write 09 00 01 02 03 2000 99"]
        for size in (261, 262):
            made.append(b"sccp-write 0f 01020304 - - - %s 1024" % self.run_of(size).hex().encode())
        # Lists: none, one, an empty one, a run of many, a refusal of each family, with the octet.
        for isup in ("-", "2301", "230113", "230100", "01000900", "0100090100", "0100090120014100", "01000901200021000000", "0100090120014121", "01000c0200028090",
                     "010009012001412002414200", "01000c0201010000", "010009" + "01" + "2000" * 131 + "00", "010009" + "01" + "2000" * 132 + "00"):
            made += [b"list " + isup.encode(), b"bicc-list " + (isup if isup == "-" else "0102" + isup).encode()]
        for line in (b"list 230113", b"bicc-list 0102030412", b"sccp-list 0c010203", b"sccp-shape 09", b"sccp-read 0c010203", b"sccp-write 0c 010203 - - - - 4",
                     b"sccp-compact 0c010203 4"):
            words = line.split(b" ")
            made += [line, line + b" 0"] + [b" ".join(words[:at] + [b""] + words[at + 1:]) for at in range(len(words))]
        return made
