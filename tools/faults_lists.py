"""Rows of tools/faults: lists of every kind, and the results of their checks."""

import os
import resource
import shutil
from pathlib import Path

from blake3 import digest
from faults_rows import Z0, Z1, Faults, limited, warning


def lists(faults):
    """Lists that were mailed, damaged or forged."""
    three = f"{Z1}  x\r\n{Z1}  y\n{Z0} ".encode()
    Path("x").write_bytes(b"\0")
    Path("y").touch()
    said = "b3sum: line 3: short line\n" + warning(2)
    faults.row("good, changed and short", ["-c"], "x: OK\ny: FAILED\n", said, 1, input=three)
    faults.row("good, changed and short, quietly", ["-c", "--quiet"], "y: FAILED\n", said, 1, input=three)
    both = f"BLAKE3 (e) = {Z0}\n{Z0}  e\nBLAKE3 (x) = {Z0.upper()}\n{Z1}  x\n".encode()
    faults.row("both forms in one list", ["-c"], "e: OK\ne: OK\nx: FAILED\nx: OK\n", warning(1), 1, input=both)
    Path("a\\b").touch()
    both = (f"BLAKE3 (y) = {Z0}\r\n{Z0}  y\n\\BLAKE3 (a\\\\b) = {Z0}\n\\BLAKE3 (a\\\\b) = {Z1}\nBLAKE3 (x) = {Z1}\n"
            f"BLAKE3 (none) = {Z1}\nBLAKE3 (x] = {Z1}\nBLAKE3 (\n").encode()
    faults.row("both forms, good, changed, missing and malformed", ["-c"],
               "y: OK\ny: OK\n\\a\\\\b: OK\n\\a\\\\b: FAILED\nx: OK\nnone: FAILED (cannot read)\n",
               "b3sum: line 7: missing spaces\nb3sum: line 8: short line\n" + warning(4), 1, input=both)
    faults.row("an empty list", ["-c"])
    faults.row("digits in upper case", ["-c"], "e: OK\n", input=f"{Z0.upper()}  e\n".encode())
    faults.row("a mark with no escape", ["-c"], "\\e: OK\n", input=f"\\{Z0}  e\n".encode())
    Path("p\\nq").touch()
    faults.row("a backslash in a line with no mark", ["-c"], "p\\nq: OK\n", input=f"{Z0}  p\\nq\n".encode())
    wrong = [f"{Z0[:place]}{int(Z0[place], 16) ^ 1:x}{Z0[place + 1 :]}  e\n" for place in range(64)]
    faults.row("each digit wrong in turn", ["-c"], "e: FAILED\n" * 64, warning(64), 1, input="".join(wrong).encode())
    unread = "-: FAILED (cannot read)\n"
    faults.row("input in a list read from input", ["-c"], unread, warning(1), 1, input=f"{Z0}  -\n".encode())
    faults.row("input as a list twice", ["-c", "-", "-"], err="b3sum: -: cannot read\n", status=1)
    faults.row("lines are counted anew in each list", ["-c", "short", "good", "short"], "e: OK\n",
               "b3sum: line 1: short line\n" * 2 + warning(2), 1)
    faults.row("the warning does not count lists", ["-c", "missing", "bad", "folder"], "e: FAILED\n",
               "b3sum: missing: cannot read\nb3sum: folder: cannot read\n" + warning(1), 1)
    faults.row("a long line", ["-c"], "", "b3sum: line 1: bad digits\n" + warning(1), 1, input=b"x" * (1 << 22))
    many = 100000
    few = limited(resource.RLIMIT_NOFILE, 16)
    text = f"{Z0}  e\n".encode() * many
    faults.row("a list of 100,000 lines, with few descriptors", ["-c"], "e: OK\n" * many, input=text, preexec_fn=few)
    said = "".join(f"b3sum: line {number}: empty line\n" for number in range(1, many + 1)) + warning(many)
    faults.row("100,000 bad lines", ["-c"], "", said, 1, input=b"\n" * many)


# What stands before and after the digits of a line that is taken, and its name as it is shown.
TAKEN = ((b"", b"   ", " "), (b"", b"  x\r", "x"), (b"", b"  x\r\r", "x\r"), (b"\\", b"  ab", "\\ab"),
         (b"", b"  a\\nb", "a\\nb"), (b"\\", b"  a\\nb", "\\a\\nb"),
         (b"\\", "  \u00e9\\\\\\r\u20ac".encode(), "\\\u00e9\\\\\\r\u20ac"),
         (b"BLAKE3 (-) = ", b"", "-"), (b"BLAKE3 (-) = ", b"\r", "-"), (b"BLAKE3 ()) = ", b"", ")"),
         (b"BLAKE3 ( ) = ", b"", " "), (b"BLAKE3 (a) = b) = ", b"", "a) = b"), (b"BLAKE3 (a\\nb) = ", b"", "a\\nb"),
         (b"\\BLAKE3 (ab) = ", b"", "\\ab"),
         ("\\BLAKE3 (\u00e9\\\\\\r\u20ac) = ".encode(), b"", "\\\u00e9\\\\\\r\u20ac"))
# What stands around those of a line that is refused, by the reason.
REFUSED = {
    "short line": ((b"", b" "), (b"\\", b" "), (b"BLAKE3 () =", b""), (b"\\BLAKE3 () =", b""), (b"BLAKE3 (", b"")),
    "no name": ((b"", b"  "), (b"\\", b"  "), (b"", b"  \r"), (b"BLAKE3 () = ", b""), (b"\\BLAKE3 () = ", b"")),
    "missing spaces": ((b"", b" xy"), (b"BLAKE3 (x] = ", b""), (b"BLAKE3 (x)= ", b""), (b"BLAKE3 (x) =", b""),
                       (b"BLAKE3 (x) =  ", b"")),
    "bad digits": ((b"g", b"  x"), (b"blake3 (x) = ", b""), (b"BLAKE3(x) = ", b""), (b" BLAKE3 (x) = ", b""),
                   (b"BLAKE2 (x) = ", b""), (b"BLAKE3 (x) = ", b" "), (b"BLAKE3 (x) = ", b"g")),
    "bad escape": ((b"\\", b"  a\\q"), (b"\\", b"  \\q\0"), (b"\\BLAKE3 (a\\qb) = ", b""), (b"\\BLAKE3 (a\\) = ", b""),
                   (b"\\BLAKE3 (\0\\q) = ", b"")),
    "bad character": ((b"", b"  x\0"), (b"", b"  x\xef\xbf\xbdy"), (b"BLAKE3 (x\0) = ", b""),
                      (b"BLAKE3 (x\xef\xbf\xbd) = ", b""))}


def lines_by_their_bytes(faults):
    """What stands around the digits of a line, where no file has any of the names."""
    os.mkdir("bare")
    os.chdir("bare")
    for before, after, name in TAKEN:
        line = before + Z0.encode() + after
        faults.row(f"the line {line!r}", ["-c"], f"{name}: FAILED (cannot read)\n", warning(1), 1, input=line)
    whole = [(b"\r\n", "empty line"), (b"\xff", "not text"), (b"\\", "short line"), (b"BLAKE3 (", "short line"),
             (f"g{Z0[1:]}  x".encode(), "bad digits")]
    refused = [(before + Z0.encode() + after, reason) for reason, rows in REFUSED.items() for before, after in rows]
    for line, reason in whole + refused:
        faults.row(f"the line {line!r}", ["-c"], "", f"b3sum: line 1: {reason}\n" + warning(1), 1, input=line)
    os.chdir("..")


def malformed_lines(faults):
    """Each reason to refuse a line; the next line is still read."""
    for reason, line in {"empty line": b"", "not text": b"\xff\xfe", "short line": b"\\",
                         "bad digits": f"g{Z0[1:]}  e".encode(), "missing spaces": f"{Z0} *e".encode(),
                         "no name": f"{Z0}  ".encode(), "bad escape": f"\\{Z0}  \\q".encode(),
                         "bad character": f"{Z0}  e\0".encode()}.items():
        said = f"b3sum: line 1: {reason}\n" + warning(1)
        faults.row(reason, ["-c"], "e: OK\n", said, 1, input=line + f"\n{Z0}  e".encode())
    for reason, line in {"short line": "BLAKE3 (", "bad digits": f"BLAKE3 (x) = {Z0[1:]}",
                         "no name": f"BLAKE3 () = {Z0}", "missing spaces": f"BLAKE3 (x] = {Z0}",
                         "bad escape": f"\\BLAKE3 (a\\qb) = {Z0}", "bad character": f"BLAKE3 (e\0) = {Z0}"}.items():
        said = f"b3sum: line 1: {reason}\n" + warning(1)
        faults.row(f"tagged, {reason}", ["-c"], "e: OK\n", said, 1, input=f"{line}\nBLAKE3 (e) = {Z0}".encode())


def lists_of_lists(faults):
    """Lists that name one another and themselves: they are checked like any other file."""
    Path("first").write_text(f"{Z0}  second\n{Z1}  z\n")
    Path("second").write_text(f"{digest(Path('first').read_bytes())}  first\n{Z0}  second\n")
    told = "second: FAILED\nz: OK\n", "first: OK\nsecond: FAILED\n"
    for threads in ("1", "2", "4"):
        words = ["--num-threads", threads, "-c"]
        name = f"lists that name each other, {threads} threads"
        faults.row(name, [*words, "first", "second"], "".join(told), warning(2), 1)
        faults.row(f"{name}, one of them twice", [*words, "second", "first", "second"], told[1] + told[0] + told[1],
                   warning(3), 1)
        faults.row(f"{name}, and input between", [*words, "first", "-", "second"], "e: OK\n".join(told), warning(2), 1,
                   input=f"{Z0}  e\n".encode())


def missing_files(faults):
    """--ignore-missing skips only files that do not exist."""
    words = ["-c", "--ignore-missing"]
    for path, name in {"missing": "a missing file", "dangling": "a link to nothing", "e/x": "a file taken for a folder",
                       "e/": "a file with a slash after it"}.items():
        given = f"{Z0}  e\n{Z0}  {path}\n".encode()
        faults.row(f"{name}, passed over", words, "e: OK\n", input=given)
        faults.row(f"{name} alone, passed over", words, "", "b3sum: -: no file was verified\n", 1,
                   input=f"{Z0}  {path}\n".encode())
    for path, name in {"folder": "a folder", "loop": "a link to itself", "x" * 300: "a name that is too long",
                       "folder/" * 1000: "a path that is too long"}.items():
        unread = f"e: OK\n{path}: FAILED (cannot read)\n"
        faults.row(f"{name}, not passed over", words, unread, warning(1), 1, input=f"{Z0}  e\n{Z0}  {path}\n".encode())
    closed_to_others(faults, words)
    faults.row("a differing file is verified", words, "z: FAILED\n", warning(1), 1, input=f"{Z0}  z\n".encode())
    faults.row("a missing list is not passed over", [*words, "missing", "good"], "e: OK\n",
               "b3sum: missing: cannot read\n", 1)
    faults.row("an empty list verifies nothing", words, "", "b3sum: -: no file was verified\n", 1)
    faults.row("input in a list read from input is not missing", words, "-: FAILED (cannot read)\n",
               "b3sum: -: no file was verified\n" + warning(1), 1, input=f"{Z0}  -\n".encode())


def closed_to_others(faults, words):
    """A file without read permission is not missing. Root, who can read it, runs this as another user."""
    given, unread = f"{Z0}  e\n{Z0}  closed\n".encode(), "e: OK\nclosed: FAILED (cannot read)\n"
    if os.geteuid() != 0:
        faults.row("a file without leave to read, not passed over", words, unread, warning(1), 1, input=given)
        return
    os.chmod(".", 0o755)
    shutil.copy(faults.program, "program")
    other = Faults(os.path.abspath("program"))
    other.row("a file without leave to read, not passed over", words, unread, warning(1), 1, input=given,
              preexec_fn=lambda: os.setuid(65534))
    faults.rows, faults.differing = faults.rows + other.rows, faults.differing + other.differing


def strict_and_silent_checks(faults):
    none, empty = "b3sum: -: no check line found\n", "line 1: empty line\n"
    faults.row("an empty list, strictly", ["-c", "--strict"], "", none, 1)
    faults.row("a list of no check line, strictly", ["-c", "--strict"], "", f"b3sum: {empty}{none}{warning(1)}", 1,
               input=b"\n")
    faults.row("a list of one check line, strictly", ["-c", "--strict", "good"], "e: OK\n")
    unread = "missing: FAILED (cannot read)\n"
    faults.row("a list of a missing file, strictly", ["-c", "--strict"], unread, warning(1), 1,
               input=f"{Z0}  missing\n".encode())
    both = "b3sum: -: no file was verified\n" + none
    faults.row("an empty list that verifies nothing, strictly", ["-c", "--strict", "--ignore-missing"], "", both, 1)
    for word in ("-w", "--warn"):
        said = "b3sum: short: line 1: short line\nb3sum: -: " + empty + warning(2)
        faults.row(f"each list of a malformed line, {word}", ["-c", word, "short", "good", "-"], "e: OK\n", said, 1,
                   input=b"\n")
    Path("a\\b").write_text("x\n")
    faults.row("an odd list of a malformed line", ["-c", "-w", "a\\b"], "",
               "b3sum: \\a\\\\b: line 1: short line\n" + warning(1), 1)
    for given, status in ((["good"], 0), (["bad"], 1), (["short"], 1), (["missing"], 1), (["folder", "good"], 1),
                          (["--strict"], 1), (["--ignore-missing"], 1), (["-w", "short", "bad"], 1)):
        faults.row(f"the status alone, {' '.join(given)}", ["-c", "--status", *given], status=status)
    with open("/dev/full", "wb") as full:
        faults.row("the status alone, onto a full device", ["-c", "--status", "good"], stdout=full)
    faults.row("the status alone, and a run fault", ["-c", "--status", "large"], err="b3sum: endless input\n", status=1)


def each_text_where_it_is_due(faults):
    """Lists that fail in each way, with the words that say what is passed over, what is strict and what is told."""
    empty, short, none = "line 1: empty line\n", "line 1: short line\n", "no check line found\n"
    right, wrong, gone = f"{Z1}  x\n", f"{Z0}  x\n", f"{Z0}  gone\n"
    for name, text in {"x": "\0", "m\n": f"{gone}\n", "d": wrong + gone, "lineless": "", "blank": "\n", "late": f"\n{gone}",
                       "a\\b": "x\n", "all": f"{right}{wrong}{gone}no line\n"}.items():
        Path(name).write_text(text)
    unread, all_said = "gone: FAILED (cannot read)\n", "b3sum: line 4: short line\nb3sum: missing: cannot read\n"
    for words, out, err in (
            (["--ignore-missing", "m\n", "d"], "x: FAILED\n",
             "b3sum: line 2: empty line\nb3sum: \\m\\n: no file was verified\n" + warning(2)),
            (["--strict", "lineless", "blank", "late"], unread,
             f"b3sum: lineless: {none}b3sum: {empty}b3sum: blank: {none}b3sum: {empty}{warning(3)}"),
            (["blank", "a\\b"], "", f"b3sum: {empty}b3sum: {short}{warning(2)}"),
            (["-w", "blank", "a\\b"], "", f"b3sum: blank: {empty}b3sum: \\a\\\\b: {short}{warning(2)}"),
            (["--strict", "all", "missing"], f"x: OK\nx: FAILED\n{unread}", all_said + warning(3)),
            (["--quiet", "all", "missing"], f"x: FAILED\n{unread}", all_said + warning(3)),
            (["--strict", "--status", "all", "missing"], "", "")):
        faults.row(f"a check of {words}", ["-c", *words], out, err, 1)


def checks_with_all_words(faults):
    """A list of a right line, a missing name and an empty line, and a list that is empty."""
    Path("x").write_bytes(b"\0")
    Path("l").write_text(f"{Z1}  x\n{Z1}  none\n\n")
    said = ("b3sum: l: line 3: empty line\nb3sum: e: no file was verified\nb3sum: e: no check line found\n" + warning(1))
    words = ["--ignore-missing", "--strict", "l", "e"]
    faults.row("a check with all its words", ["-c", "-w", *words], "x: OK\n", said, 1)
    faults.row("a check with all its words, quietly", ["-c", "-w", "--quiet", *words], "", said, 1)
    faults.row("a check with all its words, the status alone", ["-c", "--status", *words], status=1)


def truncated_lists(faults):
    """A plain line and a line with escapes, each cut off after every number of bytes."""
    def is_due(reason=None, shown=None, good=False):
        if reason:
            return "", f"b3sum: line 1: {reason}\n" + warning(1), 1
        return (f"{shown}: OK\n", "", 0) if good else (f"{shown}: FAILED (cannot read)\n", warning(1), 1)

    plain = f"{Z1}  w\n".encode()
    Path("w").write_bytes(b"\0")
    faults.row("a plain line cut to nothing", ["-c"])
    for k in range(1, len(plain) + 1):
        due = is_due("short line") if k < 66 else is_due("no name") if k == 66 else is_due(shown="w", good=True)
        faults.row(f"a plain line cut to {k} bytes", ["-c"], *due, input=plain[:k])
    marked = f"\\{Z0}  k\\\\l\\nm\n".encode()
    Path("k\\l\nm").touch()
    names = {68: "\\k", 70: "\\k\\\\", 71: "\\k\\\\l", 73: "\\k\\\\l\\n"}
    for k in range(1, len(marked) + 1):
        if k <= 66:
            due = is_due("short line")
        elif k == 67:
            due = is_due("no name")
        elif k in (69, 72):
            due = is_due("bad escape")
        else:
            due = is_due(shown=names.get(k, "\\k\\\\l\\nm"), good=k >= 74)
        faults.row(f"a marked line cut to {k} bytes", ["-c"], *due, input=marked[:k])
