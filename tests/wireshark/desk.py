"""The desk program: requests put to it, and its answers taken apart."""

import os
import shlex
import subprocess
import sys
from pathlib import Path
from typing import NamedTuple

from contents import Number
from shapes import ISUP

TOP = Path(__file__).resolve().parents[2]


def ask(requests):
    """An answer for each request, from one run of the desk: the environment variable DESK, else ./desk at the repository's top."""
    command = shlex.split(os.environ.get("DESK", "./desk"))
    data = "".join(request + "\n" for request in requests).encode()
    try:
        desk = subprocess.run(command, input=data, stdout=subprocess.PIPE, cwd=TOP)
    except OSError as fault:
        sys.exit("cannot run the desk: %s" % fault)
    answers = desk.stdout.decode().split("\n")[:-1]
    if desk.returncode or len(answers) != len(requests):
        sys.exit("the desk ended with status %d, %d answers to %d requests" % (desk.returncode, len(answers), len(requests)))
    return answers


def word(octets):
    return octets.hex() or "-"


def octets(text):
    return b"" if text == "-" else bytes.fromhex(text)


# ---------------------------------------------------------------- requests

def write_request(message, family=ISUP):
    first, second = (message.variable + (b"", b""))[:2]
    return "%swrite %d %02x %s %s %s %s %d" % (family.prefix, message.circuit, message.kind, word(message.fixed), word(first), word(second),
                                               word(message.run()), family.longest)


def dial_request(number):
    return "dial %d %d %d %s 268" % (number.nature, number.plan, number.internal, word(number.signals))


def read_request(message, family=ISUP):
    return family.prefix + "read " + word(message)


def number_request(contents):
    return "number %s 30" % word(contents)


# ---------------------------------------------------------------- answers

class Read(NamedTuple):
    circuit: int
    kind: int
    fixed: bytes
    first: bytes
    second: bytes
    optional: bytes


def octets_answer(answer):
    """The octets of an answer `octets ..`, or None."""
    words = answer.split(" ")
    return octets(words[1]) if words[0] == "octets" else None


def read_answer(answer, family=ISUP):
    """The parts of an answer `circuit ..` or `code ..`, or None."""
    words = answer.split(" ")
    if words[0::2] != [family.number, "type", "fixed", "first", "second", "optional"]:
        return None
    circuit, kind, *rest = words[1::2]
    return Read(int(circuit), int(kind, 16), *map(octets, rest))


def number_answer(answer):
    """The number of an answer `nature ..`, or None."""
    words = answer.split(" ")
    if words[0::2] != ["nature", "plan", "internal", "signals"]:
        return None
    return Number(int(words[1]), int(words[3]), int(words[5]), octets(words[7]))
