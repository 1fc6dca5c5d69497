"""Velocities, written from the paper (Q.1902.3, 6.19.1 and 6.19.2) and the request, in exact fractions.

A velocity is a bearing and a speed, and for the second form a vertical speed with a mark besides. A measured value is a 64-bit
floating number, taken as the exact fraction that its bits name.
"""

import math
import struct
from fractions import Fraction

MARKS = (b"up", b"down")
TOP_SPEED, TOP_VERTICAL = 2 ** 16 - 1, 2 ** 8 - 1
HALF = Fraction(1, 2)


def bits(pattern):
    """The number that 64 bits are: sign, eleven bits of exponent, 52 of digits."""
    return struct.unpack(">d", struct.pack(">Q", pattern))[0]


def pattern(number):
    return struct.unpack(">Q", struct.pack(">d", number))[0]


def wrong(value):
    """Not a number, infinite, or below zero; minus zero is zero."""
    return math.isnan(value) or math.isinf(value) or Fraction(value) < 0


def speed_code(value, top):
    """N - 1/2 <= h < N + 1/2, a half going up, and for the top everything from top - 1/2 on."""
    h = Fraction(value)
    if h >= top - HALF:
        return top
    n = math.floor(h)
    return n if h < n + HALF else n + 1


def coded(bearing, speed, vertical=None):
    """The codes, or 26: a value that is wrong, or a bearing from 360 up."""
    given = [bearing, speed] if vertical is None else [bearing, speed, vertical]
    if any(wrong(value) for value in given) or Fraction(bearing) >= 360:
        return 26
    codes = [math.floor(Fraction(bearing)), speed_code(speed, TOP_SPEED)]
    return codes if vertical is None else codes + [speed_code(vertical, TOP_VERTICAL)]


def known(bearing, speed, vertical=None):
    """What codes stand for, N itself; 26 for a bearing above 359."""
    if bearing > 359:
        return 26
    return [bearing, speed] if vertical is None else [bearing, speed, vertical]


def typed(word):
    """The 64-bit number that a word means, None where it is no measured value.

    Bits: `0x` and 16 hexadecimal digits. A decimal: `-` or not, then 1 to 15 digits, with at most one point between two of them;
    it means the nearest number.
    """
    if len(word) == 18 and word[:2] == b"0x":
        return bits(int(word[2:], 16)) if all(each in b"0123456789abcdefABCDEF" for each in word[2:]) else None
    digits = word[1:] if word[:1] == b"-" else word
    whole, point, part = digits.partition(b".")
    if not whole or point and not part or len(whole + part) > 15 or any(each not in b"0123456789" for each in whole + part):
        return None
    return float(word)


def said(codes, mark):
    """The codes, or the values read back, in the desk's words."""
    words = "bearing %d speed %d" % tuple(codes[:2])
    return words if mark is None else words + " vertical %d %s" % (codes[2], mark)


# Values at the edges of the rules, each by its bits or as a person types it.
EDGES = [
    "0x7ff8000000000000", "0x7ff0000000000001", "0xffffffffffffffff",       # not a number
    "0x7ff0000000000000", "0xfff0000000000000",                             # infinite
    "-1", "-0.00000000000001", "0x8000000000000001", "0xbff0000000000000",  # below zero
    "-0", "-0.0", "0x8000000000000000", "0", "0.0", "0x0000000000000000",   # zero
    "0x0000000000000001", "0x000fffffffffffff", "0x0010000000000000",       # the smallest
    "0x3fdfffffffffffff", "0.49999999999999", "0.5", "0x3fe0000000000000", "0x3fe0000000000001",
    "1.5", "2.5", "0x3ff7ffffffffffff",
    "0x40efffcfffffffff", "65534.4999999999", "65534.5", "0x40efffd000000000", "65535", "65535.5", "65536", "999999999999999",
    "0x7fe1ccf385ebc8a0", "0x7fefffffffffffff",                             # 1e308 and the largest
    "254.4999999999", "0x406fcfffffffffff", "254.5", "255", "256",
    "359", "359.9999999999", "0x40767fffffffffff", "360", "0x4076800000000001", "361", "511",
]
