"""Messages laid out by hand, in other ways than the compact form, that still mean one thing."""

from typing import NamedTuple

from contents import Maker, Message
from shapes import ISUP, SHAPES, after_pointers


class Composed(NamedTuple):
    message: Message    # what was put in
    octets: bytes       # how it was laid out
    pointers: bytes
    unused: int         # how many of the octets belong to no part


def part_octets(maker, message):
    """The parts as they stand in the message: each variable parameter, and the optional part, None where its pointer is to be 0."""
    parts = [bytes([len(contents)]) + contents for contents in message.variable]
    if SHAPES[message.kind].optional:
        empty = not message.optional and maker.chance(0.5)
        parts.append(message.run() + b"\0" if message.optional or empty else None)
    return parts


def gap(maker, most):
    return maker.octets(maker.between(1, most)) if most and maker.chance(0.6) else b""


def lay_out(maker, message, most):
    """The message with its parts in any order and gaps of at most so many octets, or None where a pointer or the length would not do."""
    family = maker.family
    begin, end = after_pointers(message.kind, family)
    parts = part_octets(maker, message)
    pointers, body = bytearray(len(parts)), bytearray()
    order = [place for place in range(len(parts)) if parts[place] is not None]
    maker.rng.shuffle(order)
    for place in order:
        body += gap(maker, most)
        pointer = end + len(body) - (begin + place)
        if pointer > 255:
            return None
        pointers[place] = pointer
        body += parts[place]
    body += gap(maker, most)
    spare = maker.between(0, (1 << family.spare) - 1) * family.numbers()
    head = (message.circuit | spare).to_bytes(family.width, "little") + bytes([message.kind])
    octets = head + message.fixed + pointers + body
    used = end + sum(len(parts[place]) for place in order)
    return Composed(message, octets, bytes(pointers), len(octets) - used) if len(octets) <= family.longest else None


def with_spare_bits(maker, message):
    """An IAM's called party number with any spare bits in its second octet."""
    if message.number is None:
        return message
    return message._replace(variable=(message.number.contents(maker.between(0, 15)),))


def compose(maker, kind):
    message = with_spare_bits(maker, maker.message(kind, maker.between(60, maker.family.longest)))
    most = 40
    while True:
        found = lay_out(maker, message, most)
        if found is not None:
            return found
        most //= 2


def composed(count, seed, family=ISUP):
    """So many messages, of the family's types in turn."""
    maker = Maker(seed, family)
    return [compose(maker, family.types[place % len(family.types)]) for place in range(count)]
