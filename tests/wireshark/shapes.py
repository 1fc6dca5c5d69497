"""The two families, and the 24 types: the fixed and variable parameters of each by name, and whether it has an optional part.

From document 01's table; the names and the lengths of the parameters from Q.1902.3, clause 7.
"""

from typing import NamedTuple

IAM, SAM, COT, ACM, CON, ANM, REL = 0x01, 0x02, 0x05, 0x06, 0x07, 0x09, 0x0C
SUS, RES, RLC, RSC, BLO, UBL, BLA, UBA = 0x0D, 0x0E, 0x10, 0x12, 0x13, 0x14, 0x15, 0x16
GRS, CGB, CGU, CGBA, CGUA, GRA, CQM, CQR, CPG = 0x17, 0x18, 0x19, 0x1A, 0x1B, 0x29, 0x2A, 0x2B, 0x2C

# The parameters that are mandatory in some type.
CONNECTION, FORWARD, CATEGORY, MEDIUM, CALLED = 0x06, 0x07, 0x09, 0x02, 0x04
SUBSEQUENT, CAUSE, CONTINUITY, BACKWARD, SUSPENSION, EVENT = 0x05, 0x12, 0x10, 0x11, 0x22, 0x24
SUPERVISION, RANGE, STATES = 0x15, 0x16, 0x26


class Shape(NamedTuple):
    fixed: tuple        # (name, length) of each parameter of the fixed part
    variable: tuple     # the name of each variable parameter
    optional: bool


IAM_FIXED = ((CONNECTION, 1), (FORWARD, 2), (CATEGORY, 1), (MEDIUM, 1))

SHAPES = {}
for _types, _fixed, _variable, _optional in (
        ([IAM], IAM_FIXED, (CALLED,), True),
        ([SAM], (), (SUBSEQUENT,), True),
        ([REL], (), (CAUSE,), True),
        ([COT], ((CONTINUITY, 1),), (), False),
        ([ACM, CON], ((BACKWARD, 2),), (), True),
        ([ANM, RLC], (), (), True),
        ([SUS, RES], ((SUSPENSION, 1),), (), True),
        ([CPG], ((EVENT, 1),), (), True),
        ([RSC, BLO, UBL, BLA, UBA], (), (), False),
        ([GRS, GRA, CQM], (), (RANGE,), False),
        ([CGB, CGU, CGBA, CGUA], ((SUPERVISION, 1),), (RANGE,), False),
        ([CQR], (), (RANGE, STATES), False)):
    for _type in _types:
        SHAPES[_type] = Shape(_fixed, _variable, _optional)

TYPES = sorted(SHAPES)
assert len(TYPES) == 24


class Family(NamedTuple):
    """What one family of messages has other than another."""
    prefix: str         # before the word of a request
    number: str         # what the desk calls the number in front of the type
    width: int          # the octets of that number
    spare: int          # its spare bits
    longest: int
    types: list
    service: int        # the service information octet: a national network, and the family
    protocol: str       # tshark's name of the family
    field: str          # tshark's field for that number

    def numbers(self):
        """How many numbers there are."""
        return 1 << 8 * self.width - self.spare


ISUP = Family("", "circuit", 2, 4, 268, TYPES, 0x85, "isup", "isup.cic")
BICC = Family("bicc-", "code", 4, 0, 270, [kind for kind in TYPES if kind not in (BLO, UBL, BLA, UBA)], 0x8D, "bicc", "bicc.cic")


def after_pointers(kind, family=ISUP):
    """Where the pointers of a type begin, and the octet past them."""
    shape = SHAPES[kind]
    begin = family.width + 1 + sum(length for _, length in shape.fixed)
    return begin, begin + len(shape.variable) + (1 if shape.optional else 0)
