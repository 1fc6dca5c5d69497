"""Ours and tshark's held side by side: a view is what one side says of a message, an entry for each thing."""

from shapes import RANGE, REL, SHAPES

MALFORMED = "Expert Info (Error/Malformed): Malformed Packet (Exception occurred)"
NO_BITS = "Expert Info (Error/Malformed): field isup.bitbucket passed to proto_tree_add_bits_format_value() has a bit width of 0"

# What tshark cannot say any more where it gave up inside a variable parameter.
AFTER_IT = {"names", "pointers", "variable", "optional", "circuits", "number", "digits", "octets with a meaning", "complaint"}


# ---------------------------------------------------------------- the views

def in_hex(optional):
    return None if optional is None else ["%02x %s" % (name, contents.hex()) for name, contents in optional]


def circuits_of(message):
    """How many circuits the range names, by Q.1902.3, 6.80: the range and one more."""
    if RANGE in SHAPES[message.kind].variable and message.variable[0]:
        return message.variable[0][0] + 1
    return None


def our_view(message, pointers, meaning):
    """What our side says of a message with these pointers, in which so many octets have a meaning."""
    shape, number = SHAPES[message.kind], message.number
    return {
        "circuit": message.circuit,
        "type": "%02x" % message.kind,
        "names": [name for name, _ in shape.fixed] + list(shape.variable),
        "fixed": message.fixed.hex(),
        "pointers": list(pointers),
        "variable": [contents.hex() for contents in message.variable],
        "optional": in_hex(message.optional if shape.optional else None),
        "octets with a meaning": meaning,
        "circuits": circuits_of(message),
        "number": number,
        "digits": number and "".join("%X" % signal for signal in number.signals),
        "complaint": "",
    }


def their_view(reading):
    """What tshark says of a message; None where it finds no ISUP in the packet."""
    return reading and {
        "circuit": reading.circuit,
        "type": "%02x" % reading.kind,
        "names": list(reading.names),
        "fixed": reading.fixed.hex(),
        "pointers": list(reading.pointers),
        "variable": [contents.hex() for contents in reading.variable],
        "optional": in_hex(reading.optional),
        "octets with a meaning": reading.covered,
        "circuits": reading.circuits,
        "number": reading.number,
        "digits": reading.digits,
        "complaint": reading.complaint,
    }


def differing(ours, theirs):
    return {name for name in ours if ours[name] != theirs[name]}


# ---------------------------------------------------------------- differences that are tshark's doing

def range_of_256(ours, theirs):
    """Range 255 with a status field: tshark counts the circuits in an octet, shows 0 for 256, and gives up on the status."""
    return (ours["circuits"] == 256 and theirs["circuits"] == 0 and theirs["complaint"] == NO_BITS
            and differing(ours, theirs) == {"circuits", "complaint"})


def empty_contents(ours, theirs):
    """A variable parameter of length 0, but for a cause: tshark looks into it, finds nothing and gives up. Up to there it must say what we say."""
    if "" not in ours["variable"] or ours["type"] == "%02x" % REL or theirs["complaint"] != MALFORMED:
        return False
    seen = ours["variable"].index("") + 1
    before = len(ours["names"]) - len(ours["variable"]) + seen
    return (differing(ours, theirs) <= AFTER_IT and theirs["variable"] == ours["variable"][:seen] and theirs["names"] == ours["names"][:before]
            and theirs["pointers"] == ours["pointers"][:seen] and theirs["optional"] is None and theirs["circuits"] is None and theirs["number"] is None)


RULES = [("range 255", range_of_256), ("empty contents", empty_contents)]


def explanation(ours, theirs):
    """The name of the rule that explains a difference, or None."""
    return next((name for name, rule in RULES if rule(ours, theirs)), None)
