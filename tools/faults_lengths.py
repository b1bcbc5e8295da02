"""Rows of tools/faults: files of each length around what they are cut into, and their digests by other implementations."""

import os
import re
from itertools import product
from pathlib import Path

from faults_rows import Z0, Z1

# Their lines are those of the tests of the engines: the bytes of `gN` are N numbers 0 to 250, over and over.
CONTENTS = Path(__file__).resolve().parent.parent / "crates/b3_check_tests/src/tests/contents.rt"
LINE = re.compile(r"([0-9a-f]{64})  g(\d+)")
# Lengths of which the spans are two pieces, and of more than a region of 2^30 bytes, each by one byte.
LONGER = [((1 << 28) + 1, "7e30cd0b28af6e9394b8a43254e477a3eafc1b8d1e9193424c1c781d05c6b009"),
          ((1 << 30) + 1, "88123cac922eb9aaabf114195d2a90a6cae336a738c8cfc29e4f750dda58045b")]
PIECE = bytes(range(251)) * (1 << 14)
# A file that is longer is hashed by one thread and by four alone.
SHORT = 1 << 21


def write_pattern(path, length):
    with open(path, "wb") as file:
        for start in range(0, length, len(PIECE)):
            file.write(PIECE[: length - start])


def each_length(faults):
    """A file, then one of a byte and an empty one: the memory of one content serves the next. And the same as input."""
    for digest, length in LINE.findall(CONTENTS.read_text()):
        write_pattern("g", int(length))
        for threads in ("1", "2", "3", "4", "64") if int(length) < SHORT else ("1", "4"):
            by_threads(faults, int(length), digest, threads)
        with open("g", "rb") as given:
            faults.row(f"{length} bytes of input that is a file", [], f"{digest}  -\n", stdin=given)
        faults.row(f"{length} bytes by a pipe", [], f"{digest}  -\n", input=Path("g").read_bytes())
    for length, digest in LONGER:
        write_pattern("g", length)
        by_threads(faults, length, digest, "4")
    os.remove("g")


def input_from_a_place(faults):
    """Input that is a file is read from its position on, at whatever number of threads, and left at its end."""
    digests = {int(length): digest for digest, length in LINE.findall(CONTENTS.read_text())}
    for length, place in product((1, 1025, 1 << 18, (1 << 20) + 1, 1 << 21), (1, (1 << 18) + 1)):
        write_pattern("g", length)
        Path("placed").write_bytes(bytes(place) + Path("g").read_bytes())
        for threads in ("1", "2", "4"):
            name = f"{length} bytes of input that is a file, from {place} on, {threads} threads"
            with open("placed", "rb", buffering=0) as given:
                given.seek(place)
                faults.row(name, ["--num-threads", threads], f"{digests[length]}  -\n", stdin=given)
                faults.compare(f"{name}: where it is left", (None, None, given.tell()), ("", "", place + length))


def by_threads(faults, length, digest, threads):
    faults.row(f"{length} bytes in a file, {threads} threads", ["--num-threads", threads, "g", "z", "e"],
               f"{digest}  g\n{Z1}  z\n{Z0}  e\n")
