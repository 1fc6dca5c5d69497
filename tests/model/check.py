"""check.py: the model against the paper's samples, and the generator against the list of numbers to reach."""

import sys
from pathlib import Path

sys.dont_write_bytecode = True
import model
from generate import Generator, generate, coverage, table, STORED_COUNT, STORED_SEED, TYPES
from samples import SAMPLES

# The numbers that each request can give. 16 is out of reach: the desk's tables have 4096 octets each, its ticks too, and its totals 64.
READER = [1, 2, 3, 4, 5, 6, 7, 8]
REACHED = {
    "shape": [3],
    "read": READER,
    "write": [9, 3, 10, 11, 12, 2, 13],
    "compact": READER + [12, 13],
    "find": READER + [11, 15],
    "number": [14, 13],
    "dial": [14, 13],
    "own": [],
    "helper": [],
    "set": [],
    "act": READER + [17, 14, 18, 19, 22, 20, 21, 13],
    "rows": [],
    "block": [9, 20, 13],
    "unblock": [9, 20, 13],
    "velocity": [26],
    "velocity-back": [26],
    "bicc-shape": [3],
    "bicc-read": READER,
    "bicc-write": [3, 10, 11, 12, 2, 13],
    "bicc-compact": READER + [12, 13],
    "sccp-shape": [3],
    "sccp-read": READER,
    "sccp-write": [3, 10, 11, 12, 2, 13],
    "sccp-compact": READER + [12, 13],
    "list": READER,
    "bicc-list": READER,
    "sccp-list": READER,
    "busy": [9, 18],
    "totals": [],
    "total": [],
    "rebuild": [],
    "tick": [],
    "plan": [14, 20, 25, 13],
    "check": [],
}

faults = []


def check(truth, what):
    if not truth:
        faults.append(what)


def samples():
    desk = model.Desk()
    for request, wanted in SAMPLES:
        got = desk.answer(request.encode()).decode()
        check(got == wanted, "%s\n  answers %s\n  wanted  %s" % (request, got, wanted))
    check(not any(desk.states + desk.owners + desk.helpers + desk.totals + desk.ticks), "the samples leave the tables as at the start")


def lines():
    """Ends of lines, and the limits of a line's fields."""
    for data, wanted in (
            (b"", b""),
            (b"\n", b"bad line\n"),
            (b"\r\n", b"bad line\n"),
            (b"shape 13", b"fixed 0 variable 0 optional no\n"),
            (b"shape 13\r\nshape 00\n", b"fixed 0 variable 0 optional no\nrefused 3\n"),
            (b"shape 13\r\r\n", b"bad line\n"),
            (b"shape 13\r", b"bad line\n"),
            (b"shape 13 \n shape 13\nshape  13\n", b"bad line\n" * 3),
            (b"own 0000000000 0000004095 0000000255\n", b"ok\n"),
            (b"own 00000000000 4095 255\n", b"bad line\n"),
            (b"own 3 2 1\nown 0 4096 1\nown 0 0 256\nset 0 0 256\n", b"bad line\n" * 4),
            (b"act 4294967295 230113 3\nact 4294967296 230113 3\n", b"refused 19\nbad line\n"),
            (b"read " + b"00" * 1024 + b"\nread " + b"00" * 1025 + b"\n", b"refused 2\nbad line\n"),
            (b"read -\nread \nread\n", b"refused 1\nbad line\nbad line\n"),
            (b"compact 01000900 1024\ncompact 01000900 1025\n", b"octets 01000900\nbad line\n"),
            (b"find 20 0100090120000000 -\nfind 00 0100090120000000 -\n", b"message -\nrefused 15\n"),
            (b"find 20 230113 200141\nfind 20 0100090120000000 200141\n", b"defaults 41\nmessage -\n"),
            (b"find 20 0100090120000000 2001\n", b"refused 11\n"),
            (b"totals\r\ntotals \n totals\ntotals 0\ntotal\n", b"totals " + b"00" * 64 + b"\n" + b"bad line\n" * 4),
            (b"rebuild\nrebuild \nrebuild 0\n", b"ok\n" + b"bad line\n" * 2),
            (b"total 63 255\ntotal 64 0\ntotal 0 256\ntotal 0\ntotal 0 0 0\n", b"ok\n" + b"bad line\n" * 4),
            (b"tick 0 4095 255\ntick 9 8 1\ntick 0 4096 1\ntick 0 0 256\ntick 0 0\n", b"ok\n" + b"bad line\n" * 4),
            (b"plan 1 0 36864\nplan 1 0 36865\nplan 1 2 0\nplan 4294967295 4294967295 0\nplan 1 0\n", b"octets -\nbad line\nrefused 14\nrefused 14\nbad line\n"),
            (b"check 4294967295 1 -\ncheck 1 2 -\ncheck 1 0\ncheck 1 0 0\n", b"yes\nno\nbad line\nbad line\n"),
            (b"check 1 0 " + b"00" * 36864 + b"\ncheck 1 0 " + b"00" * 36865 + b"\n", b"no\nbad line\n"),
            (b"busy 4294967295 0\nbusy 0 4294967295\nbusy 0 4294967296\nbusy 0\n", b"refused 18\nrefused 9\nbad line\nbad line\n")):
        got = model.answers(data)
        check(got == wanted, "%r\n  answers %r\n  wanted  %r" % (data[:60], got, wanted))
    # No request has as many octets as a line may have; this is the longest.
    line = b"check 4294967295 4294967295 " + b"00" * 36864
    check(len(line) < 81920 and model.answers(line + b"\r\n") == b"no\n", "a line of %d octets" % len(line))
    for count in (81920, 81921, 200000):
        check(model.answers(b"x" * count + b"\r\n") == b"bad line\n", "a line of %d octets" % count)


def shapes():
    """The table of types: 24 of them, of BICC 20, of SCCP 18."""
    check(len(TYPES) == 24, "24 types")
    check(len(model.BICC.rows) == 20, "20 types of BICC")
    check(len(model.SCCP.rows) == 18, "18 types of SCCP")


def transcripts():
    """The examples: a request, and its answer on the line after it, indented."""
    files = sorted((Path(__file__).resolve().parents[2] / "examples").glob("*.txt"))
    check(len(files) >= 3, "three transcripts")
    for file in files:
        desk = model.Desk()
        lines = [line for line in file.read_text().split("\n") if line and not line.startswith("#")]
        check(len(lines) > 1 and len(lines) % 2 == 0, "%s: requests and answers in turn" % file.name)
        for request, wanted in zip(lines[::2], lines[1::2]):
            got = "  " + desk.answer(request.encode()).decode()
            check(got == wanted, "%s: %s\n  answers %s\n  wanted  %s" % (file.name, request, got, wanted))


def days():
    """The paper's book, and the edges of what a book is."""
    blo = bytes.fromhex("020013")
    span = lambda first, last, sender: first.to_bytes(2, "little") + last.to_bytes(2, "little") + bytes([sender])
    day = lambda spans, sents: len(spans).to_bytes(2, "little") + b"".join(spans) + len(sents).to_bytes(2, "little") + b"".join(
        bytes([sender]) + len(message).to_bytes(2, "little") + message for sender, message in sents)
    for data, wanted in (
            (bytes.fromhex("010001000400070100070300020013"), b"7 1 1 0 0\nall 1 1 0 0\n"),
            (b"", b"refused 24\n"),
            (bytes(4), b"all 0 0 0 0\n"),
            (bytes(5), b"refused 24\n"),
            (day([span(1, 4, 7), span(5, 5, 7)], [(7, blo), (8, blo), (0, blo), (7, b"")]), b"0 1 0 1 0\n7 2 1 1 0\n8 1 0 1 0\nall 4 1 3 0\n"),
            (day([span(1, 4, 7), span(4, 5, 8)], []), b"refused 24\n"),
            (day([span(4, 3, 7)], []), b"refused 24\n"),
            (day([span(4095, 4095, 255)], []), b"all 0 0 0 0\n"),
            (day([span(4095, 4096, 255)], []), b"refused 24\n"),
            (day([span(1, 4, 0)], []), b"refused 24\n"),
            (day([span(1, 4, 7)], [(7, bytes(268))]), b"7 1 0 1 0\nall 1 0 1 0\n"),
            (day([span(1, 4, 7)], [(7, bytes(269))]), b"refused 24\n")):
        got = model.replay(data)
        check(got == wanted, "the book %s\n  gives  %r\n  wanted %r" % (data.hex()[:60], got, wanted))


def stored():
    """The stored case is what the model and the generator make of the stored seed."""
    import store
    data = store.stored()
    for name, wanted in (("stdin", data), ("stdout", model.answers(data))):
        check((store.DESK / name).read_bytes() == wanted, "crates/desk/%s is what tests/model/store writes" % name)


def reached():
    data = generate(STORED_COUNT, STORED_SEED)
    check(data == generate(STORED_COUNT, STORED_SEED), "the same for the same seed")
    check(len(model.lines(data)) == STORED_COUNT, "as many lines as asked for")
    generator = Generator(STORED_SEED)
    for _ in range(STORED_COUNT):
        generator.next()
    check(generator.rounds > 1, "every corner comes")
    counts = coverage(data)
    print(table(counts))
    for kind, numbers in REACHED.items():
        for outcome in ["accepted", "bad line"] + numbers:
            check(counts[kind, outcome], "%s: %s is reached" % (kind, outcome))
        for (other, outcome), count in counts.items():
            check(other != kind or outcome in ["accepted", "bad line"] + numbers, "%s: %s is given" % (kind, outcome))


for each in (samples, lines, shapes, transcripts, days, stored, reached):
    each()
for fault in faults:
    print("FAULT: " + fault)
print("%d faults" % len(faults))
sys.exit(1 if faults else 0)
