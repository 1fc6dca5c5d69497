#!/usr/bin/env python3
"""store: writes the stored case, the requests to crates/desk/stdin and the model's answers to crates/desk/stdout.

The requests are the paper's samples, then the generator's for the stored count and seed.
"""

import sys
from pathlib import Path

sys.dont_write_bytecode = True
sys.path.insert(0, str(Path(__file__).resolve().parent))
import model
from generate import generate, STORED_COUNT, STORED_SEED
from samples import SAMPLES

DESK = Path(__file__).resolve().parents[2] / "crates" / "desk"


def stored():
    front = "".join(request + "\n" for request, _ in SAMPLES).encode()
    return front + generate(STORED_COUNT, STORED_SEED)


if __name__ == "__main__":
    data = stored()
    DESK.mkdir(parents=True, exist_ok=True)
    (DESK / "stdin").write_bytes(data)
    (DESK / "stdout").write_bytes(model.answers(data))
    print("%d requests stored" % len(model.lines(data)))
