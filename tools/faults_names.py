"""Rows of tools/faults: names from lists of them."""

import shutil
import subprocess
from pathlib import Path

from faults_rows import KEY, KEYED_Z0, Z0

MANY = 100_000


def said_of(names, list_name):
    """What is said of such names where `e` is the only file: the lines, the complaints and the status."""
    pieces = names.split(b"\0")
    if not pieces[-1]:
        pieces.pop()
    complaints = []
    for number, piece in enumerate(pieces, 1):
        try:
            name = piece.decode()
        except UnicodeDecodeError:
            complaints.append(f"b3sum: {list_name}: name {number} is not text\n")
            continue
        if name != "e":
            why = "cannot read" if name else "bad name"
            complaints.append(f"b3sum: {name}: {why}\n")
    return f"{Z0}  e\n" * pieces.count(b"e"), "".join(complaints), 1 if complaints else 0


def lists_of_names(faults):
    """Names in a file and by a pipe, few and many, what they are refused for, and lists that cannot be read."""
    for names in (b"", b"e", b"e\0", b"e\0e", b"e\0e\0", b"\0", b"\0\0", b"e\0\0e", b"\0e", b"none\0e", b"\xff",
                  b"e\0a\xffb\0e", b"e\0\xed\xa0\x80", b"e\xc3\0e"):
        Path("names").write_bytes(names)
        for name in ("names", "-"):
            faults.row(f"the names {names!r} in {name}", ["--files0-from", name], *said_of(names, name), input=names)
    faults.row("a line feed in a name", ["--files0-from", "-"], "", "b3sum: \\e\\n: cannot read\n", 1, input=b"e\n")
    Path("names").write_bytes(b"p\0e\n\0e")
    faults.row("missing names, one with a line feed, before one that is there", ["--files0-from", "names"], f"{Z0}  e\n",
               "b3sum: p: cannot read\nb3sum: \\e\\n: cannot read\n", 1)
    for given in (b"-\0e", b"e\0-\0"):
        faults.row(f"input in a list from input, {given!r}", ["--files0-from", "-"], f"{Z0}  e\n",
                   "b3sum: -: cannot read\n", 1, input=given)
    Path("names").write_bytes(b"-")
    faults.row("input in a list from a file", ["--files0-from", "names"], f"{Z0}  -\n", input=b"")
    checks = b"good\0\xff\0missing\0\0good"
    said = "b3sum: -: name 2 is not text\nb3sum: missing: cannot read\nb3sum: : cannot read\n"
    faults.row("lists to check", ["-c", "--files0-from", "-"], "e: OK\ne: OK\n", said, 1, input=checks)
    faults.row("lists to check, the status alone", ["-c", "--status", "--files0-from", "-"], status=1, input=checks)
    for given, status in ((b"", 0), (b"\xff", 1)):
        faults.row(f"the lists {given!r} to check, the status alone", ["-c", "--status", "--files0-from", "-"],
                   status=status, input=given)
    faults.row("no lists to check", ["-c", "--files0-from", "-"])
    for name in ("missing", "folder", "", "large"):
        why = "b3sum: endless input\n" if name == "large" else f"b3sum: {name}: cannot read\n"
        for words in ([], ["--raw"], ["-c"], ["-c", "--status"]):
            faults.row(f"{' '.join(words)} names from {name!r}", [*words, "--files0-from", name], err=why, status=1)
    Path("names").write_bytes(b"e\0-\0")
    faults.row("a key, and input in the list", ["--keyed", "--files0-from", "names"], "", "b3sum: --keyed needs files\n",
               2, input=KEY)
    faults.row("raw, and two names", ["--raw", "--files0-from", "names"], "", "b3sum: --raw takes one input\n", 2)
    Path("names").write_bytes(b"e")
    faults.row("a key, and a list", ["--keyed", "--files0-from", "names"], f"{KEYED_Z0}  e\n", input=KEY)
    faults.row("raw, and one name", ["--raw", "--files0-from", "names"], bytes.fromhex(Z0))
    faults.row("raw, and no name", ["--raw", "--files0-from", "-"])


def many_names(faults):
    """Names by the hundred thousand, by a pipe and by a file; and what `du` takes of a list."""
    many = b"".join(b"m/%05d\0" % number for number in range(MANY))
    Path("m").mkdir()
    for name in many.split(b"\0")[:-1]:
        Path(name.decode()).touch()
    lines = "".join(f"{Z0}  m/{number:05}\n" for number in range(MANY))
    Path("names").write_bytes(many)
    faults.row("many names by a pipe", ["--files0-from", "-"], lines, input=many)
    faults.row("many names by a file", ["--files0-from", "names"], lines)
    if shutil.which("du"):
        for names in (b"e\0", b"e", b"e\0z"):
            taken = subprocess.run(["du", "-l", "--files0-from=-"], input=names, stdout=subprocess.PIPE).stdout
            ours = subprocess.run([faults.program, "--no-names", "--files0-from", "-"], input=names,
                                  stdout=subprocess.PIPE).stdout
            faults.compare(f"as many names of {names!r} as du takes", (None, None, ours.count(b"\n")),
                           (None, None, taken.count(b"\n")))
    shutil.rmtree("m")
