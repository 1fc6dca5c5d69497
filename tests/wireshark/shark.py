"""tshark: the capture file that it is given, and what it reads there."""

import os
import shutil
import struct
import subprocess
import sys
import tempfile
import xml.etree.ElementTree as ElementTree
from typing import NamedTuple, Optional

from contents import Number
from shapes import ISUP

LINKTYPE_MTP3 = 141
HERE, THERE = 5, 9      # the two signalling points of the routing label
LABEL = 5               # octets in front of the message: the service information octet and the routing label


# ---------------------------------------------------------------- the program

def install():
    """Sees that tshark is there; ends the run with 2 where it is not and cannot be installed."""
    if shutil.which("tshark"):
        return
    if not shutil.which("apt-get"):
        give_up("there is no apt-get to install it with")
    print("tshark is not installed: asking apt-get for it", file=sys.stderr)
    quiet = dict(os.environ, DEBIAN_FRONTEND="noninteractive")
    fetch = ["apt-get", "install", "-y", "--no-install-recommends", "tshark"]
    for command in (fetch, ["apt-get", "update"], fetch):
        done = subprocess.run(command, env=quiet, stdin=subprocess.DEVNULL, stdout=subprocess.PIPE, stderr=subprocess.STDOUT)
        if shutil.which("tshark"):
            return
    give_up("apt-get could not install it:\n" + done.stdout.decode(errors="replace")[-2000:])


def give_up(why):
    print("tshark is missing, and %s" % why, file=sys.stderr)
    sys.exit(2)


def version():
    return subprocess.run(["tshark", "--version"], stdout=subprocess.PIPE, stderr=subprocess.DEVNULL).stdout.decode().split("\n")[0]


# ---------------------------------------------------------------- the capture file

def labelled(service, octets):
    """A message behind its service information octet and its routing label; the link is chosen by the circuit, as 5.2 has it."""
    label = HERE | THERE << 14 | (octets[0] & 15) << 28
    return bytes([service]) + struct.pack("<I", label) + octets


def wrapped(octets, family):
    return labelled(family.service, octets)


def write_packets(path, these):
    with open(path, "wb") as out:
        out.write(struct.pack("<IHHiIII", 0xA1B2C3D4, 2, 4, 0, 0, 65535, LINKTYPE_MTP3))
        for place, packet in enumerate(these):
            out.write(struct.pack("<IIII", place, 0, len(packet), len(packet)) + packet)


def write_capture(path, messages, family=ISUP):
    write_packets(path, [wrapped(octets, family) for octets in messages])


# ---------------------------------------------------------------- what tshark reads

class Reading(NamedTuple):
    circuit: int
    kind: int
    names: tuple                # the name of each mandatory parameter, as it comes
    fixed: bytes
    pointers: tuple             # each variable parameter's, then the optional part's
    variable: tuple             # the contents of each variable parameter, in pointer order
    optional: Optional[tuple]   # (name, contents) of each, in wire order; None where tshark sees no optional pointer
    covered: int                # how many octets of the message tshark gives a meaning
    circuits: Optional[int]     # how many circuits the range names
    number: Optional[Number]    # the called party number of an IAM
    digits: Optional[str]       # its signals as tshark shows them in one word
    complaint: str              # empty where tshark has none


def inside(field, name):
    """The first field of that name, at any depth."""
    return next((found for found in field.iter("field") if found.get("name") == name), None)


def shown(field, name):
    found = inside(field, name)
    return None if found is None else int(found.get("show"), 0)


def called_number(field):
    """The called party number below a parameter's field, its signals one by one."""
    signals = bytes(int(each.get("show"), 0) for each in field.iter("field")
                    if each.get("name") in ("isup.called_party_odd_address_signal_digit", "isup.called_party_even_address_signal_digit"))
    return Number(shown(field, "isup.called_party_nature_of_address_indicator"), shown(field, "isup.numbering_plan_indicator"),
                  shown(field, "isup.inn_indicator"), signals)


def complaint_of(packet):
    """The first warning or error that tshark has about the packet."""
    for each in packet.iter("field"):
        text = each.get("showname") or ""
        if each.get("name") == "_ws.expert" and ("(Error/" in text or "(Warning/" in text):
            return text
    return ""


class Gathered:
    """What the fields of one packet say, put together field by field. A field has its octets in `value` and its place in the packet in `pos`."""

    def __init__(self, width):
        self.width = width
        self.names, self.pointers, self.variable, self.optional = [], [], [], None
        self.fixed = b""
        self.covered = width + 1
        self.circuits = self.number = self.digits = None
        self.complaint = ""

    def field(self, field):
        """A field right below the message: a pointer, the closing 0, or a parameter, which has its name below it."""
        if field.get("name") == "isup.optional_parameter_part_pointer":
            self.optional = []
            self.pointer(int(field.get("show"), 0))
        elif field.get("name") == "isup.parameter_type":
            self.covered += 1
        else:
            name = field.find("field[@name='isup.parameter_type']")
            if name is not None:
                self.parameter(field, int(name.get("show"), 0), in_message=name.get("size") == "1")

    def pointer(self, value):
        self.pointers.append(value)
        self.covered += 1

    def parameter(self, field, name, in_message):
        """Only an optional parameter has its name in the message, and only a variable one a pointer."""
        octets = bytes.fromhex(field.get("value") or "")
        pointer = shown(field, "isup.mandatory_variable_parameter_pointer")
        self.covered += len(octets)
        if in_message:
            self.take_optional(field, name, octets)
            return
        self.names.append(name)
        if pointer is None:
            self.take_fixed(field, octets)
        else:
            self.pointer(pointer)
            self.take_variable(field, octets)

    def take_fixed(self, field, octets):
        if int(field.get("pos")) != LABEL + self.width + 1 + len(self.fixed):
            self.complaint = "a fixed parameter that is not where the one before it ends"
        self.fixed += octets

    def take_variable(self, field, octets):
        if octets[0] != shown(field, "isup.parameter_length"):
            self.complaint = "a variable parameter whose first octet is not its length"
        self.variable.append(octets[1:])
        if inside(field, "isup.range_indicator") is not None:
            self.circuits = shown(field, "isup.range_indicator")
        if inside(field, "isup.called_party_nature_of_address_indicator") is not None:
            self.number = called_number(field)
            word = inside(field, "isup.called")
            self.digits = "" if word is None else word.get("show")

    def take_optional(self, field, name, octets):
        if octets[:2] != bytes([name, shown(field, "isup.parameter_length")]):
            self.complaint = "an optional parameter that does not begin with its name and length"
        self.optional.append((name, octets[2:]))


def read_packet(packet, family):
    """The reading of one packet in PDML, or None where tshark finds no message of the family in it."""
    isup = next((each for each in packet.findall("proto") if each.get("name") == family.protocol), None)
    if isup is None:
        return None
    found = Gathered(family.width)
    for field in isup.findall("field"):
        found.field(field)
    return Reading(shown(isup, family.field), shown(isup, "isup.message_type"), tuple(found.names), found.fixed, tuple(found.pointers),
                   tuple(found.variable), None if found.optional is None else tuple(found.optional), found.covered,
                   found.circuits, found.number, found.digits, found.complaint or complaint_of(packet))


def packets(stream):
    """Each packet of a PDML stream, one at a time."""
    for _, element in ElementTree.iterparse(stream):
        if element.tag == "packet":
            yield element
            element.clear()


def readings(path, family=ISUP):
    """What tshark reads in each packet of a capture."""
    return read_with(path, lambda packet: read_packet(packet, family))


def read_with(path, reader):
    """What a reader makes of each packet, in one run of tshark, with no settings of the user's."""
    command = ["tshark", "-n", "-r", str(path), "-T", "pdml", "-o", "mtp3.standard:ITU", "-o", "isup.variant:ITU Standard"]
    # What tshark tells on standard error goes to a file: it is much, and nobody reads it while the packets come.
    with tempfile.TemporaryDirectory() as settings, tempfile.TemporaryFile() as told:
        own = dict(os.environ, WIRESHARK_CONFIG_DIR=settings)
        run = subprocess.Popen(command, stdin=subprocess.DEVNULL, stdout=subprocess.PIPE, stderr=told, env=own)
        found = [reader(packet) for packet in packets(run.stdout)]
        if run.wait():
            told.seek(0)
            sys.exit("tshark ended with status %d: %s" % (run.returncode, told.read().decode(errors="replace")))
    return found
