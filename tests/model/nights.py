"""nights.py: the generator's part for a maintenance night: ticks, plans that are good, and plans spoiled in each way."""

import copy

import model
from model import IAM, REL, RSC, UBL, CGB, CGU, CQM


def framed(messages):
    """The messages in turn, each after its length octet."""
    return b"".join(bytes([len(each)]) + each for each in messages)


def split(plan):
    """The messages of a plan."""
    found = []
    while plan:
        found.append(plan[1:1 + plan[0]])
        plan = plan[1 + plan[0]:]
    return found


class Nights:
    def spoiled(self, messages, ticked, kind):
        """The octets of a plan: as it is, in another order or another form that is as good, or spoiled in one way."""
        messages = list(messages)
        way = self.between(0, 16)
        at = self.between(0, max(0, len(messages) - 1))
        if way == 0 and len(messages) > 1:                                      # cut off
            return framed(messages)[:-self.between(1, 4)]
        if way == 1:                                                            # a length octet of 0
            return self.pick([framed(messages) + b"\0", b"\0" + framed(messages)])
        if way == 2 and messages:                                               # marked twice
            messages.insert(self.between(0, len(messages)), messages[at])
        elif way == 3 and messages:                                             # a tick left out
            messages.pop(at)
        elif way == 4 and messages and messages[at][2] == CGB:                  # the other kind, a kind that is none, and spare bits
            messages[at] = messages[at][:3] + bytes([self.pick([kind ^ 1, kind ^ 1, 2, 3, kind + 4, kind + 252])]) + messages[at][4:]
        elif way == 5 and messages and messages[at][2] == CGB:                  # a mark more or less, or a spare bit
            spot = self.between(7, len(messages[at]) - 1)
            messages[at] = messages[at][:spot] + bytes([messages[at][spot] ^ 1 << self.between(0, 7)]) + messages[at][spot + 1:]
        elif way == 6:                                                          # a message of another type
            other = self.pick([IAM, REL, RSC, UBL, CGU, CQM])
            messages.append(self.asking(other, self.pick(ticked or [0]), 1 if other in (CGU, CQM) else 0))
        elif way == 7 and messages:                                             # any octet changed
            messages[at] = self.changed(messages[at])[:255]
        elif way == 8:                                                          # BLO for each
            messages = [model.plain(c, model.BLO) for c in ticked[:80]]
        elif way == 9 and ticked:                                               # one CGB over the gaps
            reach = range(ticked[0], min(ticked[-1], ticked[0] + 255) + 1)
            if len(reach) > 1:
                messages = [model.group_block(kind, reach[0], [c in ticked for c in reach])]
        elif way == 10 and ticked:                                              # a CGB that marks nothing
            messages.append(model.group_block(kind, min(ticked[0], 4094), (False, False)))
        elif way == 11 and ticked:                                              # one unticked circuit marked too
            messages.append(model.group_block(kind, min(ticked[-1], 4094), (False, True)))
        elif way == 12:                                                         # octets after the last message
            return framed(messages) + self.octets(self.between(1, 3))
        elif way == 13:
            messages = self.shuffled(messages)
        return framed(messages)

    def night(self):
        """Circuits of one sender, some ticked; a plan for them, and checks of it and of others."""
        desk, made = copy.deepcopy(self.desk), []

        def tell(word, *fields):
            made.append(self.line(word, *fields))
            desk.answer(made[-1])

        sender, kind = self.sender(), self.between(0, 1)
        low = self.weighted([(5, self.between(0, 4095)), (2, 0), (2, self.between(4050, 4095)), (1, 4094)])
        last = min(4095, low + self.pick([0, 1, 2, 7, 8, 30, 31, 32, 33, 40, 64, 70]))
        tell("tick", 0, 4095, 0)
        if self.chance(0.9):
            tell("set", 0, 4095, self.legal())
        tell("own", low, last, sender)
        if self.chance(0.3):
            spot = self.between(low, last)
            tell("own", spot, self.between(spot, last), self.pick([0, sender ^ 1]))
            tell("helper", low, last, sender)
        for _ in range(self.pick([0, 1, 1, 2, 3])):
            spot = self.between(low, last)
            tell("tick", spot, min(last, spot + self.pick([0, 0, 1, 2, 7, 30, 31, 32, 33])), self.pick([1, 1, 2, 128, 255]))
        if self.chance(0.12):
            spot = self.pick([max(0, low - 1), min(4095, last + 1)])
            tell("tick", spot, spot, 1)
        if self.chance(0.1):
            spot = self.between(low, last)
            tell("own", spot, spot, self.pick([0, sender ^ 1]))
        if self.chance(0.1):
            spot = self.circuit()
            tell("set", spot, spot, self.pick([5, 7, 13, 16, 255]))
        ticked = [c for c in range(4096) if desk.ticks[c]]
        need = 9 * len(ticked)
        room = self.weighted([(4, need), (2, need - 1), (3, 36864), (1, need + 1), (1, 0), (1, need // 2)])
        tell("plan", sender, kind if self.chance(0.9) else self.pick([2, 3, 256, 257, 4294967295]), max(0, min(36864, room)))
        plan = model.plan(desk.states, desk.owners, desk.helpers, desk.ticks, sender, kind, 36864)
        messages = [model.group_block(kind, min(c, 4094), (True, False)) for c in ticked[:5]] if model.refused(plan) else split(plan)
        for _ in range(self.between(1, 4)):
            asker = sender if self.chance(0.92) else self.pick([0, sender ^ 1, sender + 256])
            asked = kind if self.chance(0.92) else self.pick([kind ^ 1, 2, 256])
            tell("check", asker, asked, self.spoiled(messages, ticked, kind))
        if self.chance(0.3):
            for message in messages[:4]:
                tell("act", sender, message, self.pick([268, 9, 12]))
            tell("check", sender, kind, framed(messages))
            tell("rows", max(0, low - 1), min(4095, last + 1))
        return made

    def night_limits(self):
        """Lines at the edges of the three requests, each a scene of one line."""
        made = [b"tick %d %d %d" % each for each in ((9, 8, 1), (0, 4096, 1), (4096, 4096, 1), (9, 9, 256), (9, 9, 255), (4095, 4095, 0))]
        made += [b"tick", b"tick 9", b"tick 9 9", b"tick 9 9 1 1", b"tic 9 9 1", b"ticks 9 9 1", b"plan", b"plan 1 0", b"plan 1 0 9 9", b"plans 1 0 9",
                 b"pla 1 0 9", b"check", b"check 1 0", b"check 1 0 - -", b"chec 1 0 -", b"checks 1 0 -", b"check 1 0 0", b"check 1 0 0g", b"check 1 0 "]
        made += [b"plan %d %d %d" % each for each in (
            (1, 2, 0), (1, 255, 9), (1, 256, 9), (1, 4294967295, 9), (4294967295, 2, 9), (4294967296, 0, 9), (1, 4294967296, 9), (1, 2, 36864),
            (1, 2, 36865), (1, 2, 4294967295), (0, 2, 1025))]
        made += [b"check 1 0 00", b"check 1 0 01", b"check 1 0 03010013", b"check 1 2 -", b"check 4294967296 0 -", b"check 1 4294967296 -"]
        made += [b"check 1 0 " + b"00" * 36864, b"check 1 0 " + b"00" * 36865]
        return [[line] for line in made]

    def night_tables(self):
        """Scenes with the tables at the edge of each of the planner's rules."""
        clear = [b"tick 0 4095 0", b"set 0 4095 0", b"own 0 4095 0", b"helper 0 4095 0"]
        asks = [b"plan 9 0 36864", b"plan 9 1 36864"]
        made = [clear + asks + [b"check 9 0 -", b"check 0 1 -", b"plan 0 0 0", b"check 9 2 -"]]
        # The neighbour at the edges: circuit 0 has none before it, and circuit 4095 none after it. One that is only helped is none for hardware.
        for c, other in ((0, 1), (4095, 4094), (2000, 1999), (2000, 2001)):
            front = clear + [b"own %d %d 9" % (c, c), b"tick %d %d 1" % (c, c)]
            made.append(front + asks + [b"helper %d %d 9" % (other, other)] + asks + [b"own %d %d 9" % (other, other)] + asks)
            made.append(clear + [b"helper %d %d 9" % (c, c), b"own %d %d 9" % (other, other), b"tick %d %d 1" % (c, c)] + asks)
        # Rows of 31, 32, 33, 64 and 65 ticks, at the front, in the middle and at the end.
        for count in (2, 7, 8, 9, 30, 31, 32, 33, 64, 65):
            for low in (0, 2000, 4096 - count):
                made.append(clear + [b"own 0 4095 9", b"tick %d %d 1" % (low, low + count - 1), b"plan 9 %d %d" % (count % 2, 9 * count),
                                     b"plan 9 0 %d" % (9 * count - 1)])
        # 14 before 20, 20 before 25, 25 before 13; 20 for any row, ticked or not.
        made.append(clear + [b"own 100 109 9", b"tick 100 110 1", b"set 4095 4095 5", b"plan 9 2 0", b"plan 9 0 0", b"set 4095 4095 0", b"plan 9 0 0",
                             b"tick 110 110 0", b"plan 9 0 0", b"plan 9 0 89", b"plan 9 0 90", b"plan 8 0 90", b"plan 0 0 90", b"plan 265 0 90"])
        return made
