"""Rows of tools/faults: which bytes are read, that a failed read is not taken for the end, and that no file changes."""

import os
import shutil
import subprocess
from pathlib import Path

from blake3 import Tree, digest
from faults_progress import run
from faults_rows import PATTERN, Z0, Z1, shown, warning

DISTURBER = Path(__file__).resolve().parent / "disturb.c"
# Lengths of one block, of a chunk and a byte, of two reads in order, and of spans that workers read.
DISTURBED = (3, 1025, (1 << 16) + 1, 1 << 19)
OTHER = PATTERN[::-1]


def disturbed_reads(faults):
    """A file fails if a read in the middle of it fails. A read that is interrupted by signals is repeated."""
    if not shutil.which("cc"):
        faults.skip("reads that fail in the middle of a file, and those that are interrupted", "there is no C compiler")
        return
    library = os.path.abspath("disturb.so")
    subprocess.run(["cc", "-shared", "-fPIC", "-O1", "-Wall", "-o", library, DISTURBER], check=True)
    preloaded = {"LD_PRELOAD": library, "DISTURBED_FILE": os.path.realpath("disturbed")}
    tree = Tree(PATTERN)
    for length in DISTURBED:
        Path("disturbed").write_bytes(PATTERN[:length])
        expected = tree.digest(length)
        for place in sorted({0, 1, length // 2, length - 1}):
            reads_that_fail(faults, f"a file of {length} bytes that fails from {place} on", expected,
                            {**preloaded, "FAILS_FROM": str(place)})
        for told in ({"FAILS_FROM": str(length + 1)}, {"INTERRUPTIONS": "1"}, {"INTERRUPTIONS": "999"}):
            reads_that_end(faults, f"a file of {length} bytes with {told}", expected, {**preloaded, **told})
    Path("disturbed").write_bytes(PATTERN)
    with open("disturbed", "rb") as given:
        faults.row("a key that fails in the middle", ["--keyed", "e"], "", "b3sum: cannot read the key\n", 1,
                   stdin=given, env={**preloaded, "FAILS_FROM": "31"})


def reads_that_fail(faults, name, expected, env):
    said, unread = "b3sum: disturbed: cannot read\n", "disturbed: FAILED (cannot read)\n"
    for threads in ("1", "4"):
        words = ["--num-threads", threads]
        faults.row(name, [*words, "disturbed"], "", said, 1, env=env)
        faults.row(f"{name}, among others", [*words, "e", "disturbed", "z"], f"{Z0}  e\n{Z1}  z\n", said, 1, env=env)
        faults.row(f"{name}, in a list", [*words, "-c"], unread, warning(1), 1, env=env,
                   input=f"{expected}  disturbed\n".encode())
        with open("disturbed", "rb") as given:
            faults.row(f"{name}, as input", words, "", "b3sum: -: cannot read\n", 1, stdin=given, env=env)
    faults.row(f"{name}, as a list", ["-c", "disturbed"], "", said, 1, env=env)


def reads_that_end(faults, name, expected, env):
    line = f"{expected}  disturbed\n"
    for threads in ("1", "4"):
        words = ["--num-threads", threads]
        faults.row(name, [*words, "disturbed"], line, env=env)
        faults.row(f"{name}, among others", [*words, "e", "disturbed", "z"], f"{Z0}  e\n{line}{Z1}  z\n", env=env)
        with open("disturbed", "rb") as given:
            faults.row(f"{name}, as input", words, f"{expected}  -\n", stdin=given, env=env)


def outputs_that_are_files(faults):
    """Standard input that is a plain file is not confused with an output that is one."""
    for length in (1, 1025, len(PATTERN)):
        for name, content in (("given", PATTERN[:length]), ("outs", OTHER), ("errs", OTHER)):
            Path(name).write_bytes(content)
        name = f"{length} bytes of input, outputs appended to long files"
        with open("given", "rb") as given, open("outs", "ab") as outs, open("errs", "ab") as errs:
            faults.row(name, ["-", "missing"], status=1, stdin=given, stdout=outs, stderr=errs)
        line, unread = f"{digest(PATTERN[:length])}  -\n", "b3sum: missing: cannot read\n"
        faults.compare(f"{name}: what they gain", (Path("outs").read_bytes(), Path("errs").read_bytes(), 0),
                       (OTHER + line.encode(), OTHER + unread.encode(), 0))


def a_file_named_as_input(faults):
    """A file whose name is `-` is not confused with standard input."""
    Path("-").write_bytes(OTHER)
    content = PATTERN[:1025]
    line, other = f"{digest(content)}  -\n", f"{digest(OTHER)}  ./-\n"
    Path("given").write_bytes(content)
    for words, out in (([], line), (["-"], line), (["e", "-", "z"], f"{Z0}  e\n{line}{Z1}  z\n"), (["./-"], other),
                       (["-", "./-"], line + other), (["--num-threads", "1", "./-", "-"], other + line)):
        faults.row(f"a file named -, {words}, by a pipe", words, out, input=content)
        with open("given", "rb") as given:
            faults.row(f"a file named -, {words}, by a file", words, out, stdin=given)
    Path("of-both").write_text(line + other)
    faults.row("a file named -, in a list", ["-c", "of-both"], "-: OK\n./-: OK\n", input=content)
    os.remove("-")


def state(folder):
    """The state of all files, to find changes."""
    told = {}
    for path in [Path(folder), *Path(folder).iterdir()]:
        status = path.lstat()
        content = path.read_bytes() if path.is_file() else None
        told[str(path)] = (content, status.st_mode, status.st_size, status.st_mtime_ns, status.st_ino, status.st_nlink)
    return told


def a_folder_of_odd_names(faults):
    """Names that differ only in blanks, line ends, case or signs, each with its own content. No run changes a file."""
    names = ["n", " n", "n ", " n ", "\tn", "n\t", "n\n", "\nn", "n\r", "n\r\n", "\\n", "n\\", "N", "nn", "-n", "--n",
             "n.", ".n", "ñ", "n\u0303", "*", "?", "'", '"', "$n", "~", "n" * 255, "n" * 254, " " * 255,
             f"{Z0}  n", "#n"]
    os.mkdir("odd")
    for number, name in enumerate(names):
        Path("odd", name).write_bytes(PATTERN[number : number + 1 + 700 * number])
    os.chdir("odd")
    contents = {name: digest(Path(name).read_bytes()) for name in names}
    before = state(".")
    lines = {name: line_of(name, expected) for name, expected in contents.items()}
    for threads in ("1", "4"):
        faults.row(f"odd names, {threads} threads", ["--num-threads", threads, "--", *names], "".join(lines.values()))
    verdicts = "".join(f"{shown(name)}: OK\n" for name in names)
    faults.row("odd names in a list", ["-c"], verdicts, input="".join(lines.values()).encode())
    for name in names:
        faults.row(f"the odd name {name!r}", ["--", name], lines[name])
        for path in (f"{name}/", f"{name}/."):
            faults.row(f"the odd name {path!r}", ["--", path], "", f"b3sum: {shown(path)}: cannot read\n", 1)
    faults.compare("odd names: what is there", (b"", b"", before), ("", "", state(".")))
    os.chdir("..")


def line_of(name, expected):
    text = shown(name)
    return f"{expected}  {name}\n" if text == name else f"\\{expected}  {text[1:]}\n"


def texts_in_order(faults):
    """The texts about a name are written before those about the next, on both outputs. Here both are one pipe, for which
    lines are gathered, or one terminal, for which they are not."""
    unread, bad, line = "b3sum: missing: cannot read\n", "b3sum: : bad name\n", f"{Z1}  z\n"
    names = ["z", "z", "b\ufffd", "z", "missing", "z", "", "-", "-"]
    said = (line * 2 + "b3sum: b\ufffd: bad name\n" + line + unread + line + bad + f"{Z1}  -\n" + "b3sum: -: cannot read\n")
    by_pipe_and_terminal(faults, "lines and complaints", names, said, b"\0")
    Path("listed").write_bytes(b"z\0\xff\0z\0missing\0\0z\0l\xc3")
    said = (line + "b3sum: listed: name 2 is not text\n" + line + unread + bad + line
            + "b3sum: listed: name 7 is not text\n")
    by_pipe_and_terminal(faults, "lines and complaints of a list of names", ["--files0-from", "listed"], said, b"")
    Path("of-z").write_text(f"{line}x\n{line}{Z1}  missing\n{Z1}  e\n{line}")
    ok = "z: OK\n"
    verdicts = f"{ok}b3sum: line 2: short line\n{ok}missing: FAILED (cannot read)\ne: FAILED\n{ok}"
    by_pipe_and_terminal(faults, "verdicts and complaints", ["-c", "of-z", "missing", "of-z"],
                   verdicts + unread + verdicts + warning(6), b"")


def by_pipe_and_terminal(faults, name, words, said, given):
    for threads in ("1", "2", "4"):
        words_of_threads = ["--num-threads", threads, *words]
        faults.row(f"{name} over one pipe, {threads} threads", words_of_threads, said, status=1, input=given,
                   stderr=subprocess.STDOUT)
        with open("given", "wb+", buffering=0) as file:
            file.write(given)
            file.seek(0)
            _, written, status, _ = run(faults, words_of_threads, stdin=file, stdout="terminal")
        faults.compare(f"{name} on one terminal, {threads} threads", (written.replace(b"\r\n", b"\n"), None, status),
                       (said, "", 1))
