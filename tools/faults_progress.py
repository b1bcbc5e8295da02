"""Rows of tools/faults: the line of progress, on a terminal of 80 columns."""

import os
import pty
import re
import subprocess
import threading
import time
import unicodedata
from contextlib import contextmanager, suppress
from pathlib import Path

from faults_rows import CANNOT_WRITE, PATTERN, SECONDS, Z0, Z1, Z1025, warning

COLUMNS = 80
# How long a FIFO is fed, in seconds, and in how many parts.
FEEDING, PARTS = 1.0, 8
# A length that a thread hashes beside others; and the digest of that many bytes, all 0, by another implementation.
AHEAD_LEN = 1 << 24
AHEAD = "b4834959bc889fed1abf3c45d5da0e384134386a4b2786cc5dbb9fe8fa853bbb"
ERASE = "\x1b[K"
DRAWN = re.compile(r"\r([^\r\n\x1b]+)\x1b\[K")
BYTES = r"[\d.]+ [KMGTPE]?i?B"
LINE = re.compile(rf"{BYTES}( of ~?{BYTES}, \d+%)?, {BYTES}/s(, [\d:]+ left)?, \d+ of \d+: \S*")


def columns_of(text):
    return sum(0 if unicodedata.combining(it) else 2 if unicodedata.east_asian_width(it) in "WF" else 1 for it in text)


def rows_after(written):
    """The rows of the terminal down to that of the cursor, after these bytes were written."""
    rows, column = [[]], 0
    for part in re.split(r"(\x1b\[K|.)", written.decode(), flags=re.DOTALL):
        if part == ERASE:
            del rows[-1][column:]
        elif part == "\r":
            column = 0
        elif part == "\n":
            rows.append([])
        elif part:
            width = columns_of(part)
            if column + width > COLUMNS:
                rows.append([])
                column = 0
            rows[-1].extend(" " * (column - len(rows[-1])))
            rows[-1][column : column + width] = [part, *[""] * (width - 1)]
            column += width
    return ["".join(row) for row in rows]


class Screen:
    """A terminal, and what was written to it so far."""

    def __init__(self):
        self.master, self.end = pty.openpty()
        self.written = b""
        self.reader = threading.Thread(target=self.read)
        self.reader.start()

    def read(self):
        # The last end that is closed is an error of reading here.
        with suppress(OSError):
            while part := os.read(self.master, 1 << 16):
                self.written += part

    def close(self):
        os.close(self.end)
        self.reader.join()
        os.close(self.master)


@contextmanager
def fed_slowly(name):
    """A FIFO with a writer that takes its time."""

    def feed():
        with suppress(BrokenPipeError), open(name, "wb", buffering=0) as fifo:
            for part in range(PARTS):
                fifo.write(PATTERN[1025 * part // PARTS : 1025 * (part + 1) // PARTS])
                time.sleep(FEEDING / PARTS)

    os.mkfifo(name)
    writer = threading.Thread(target=feed)
    writer.start()
    yield
    # Lets the writer continue if nobody opened the FIFO.
    os.close(os.open(name, os.O_RDONLY | os.O_NONBLOCK))
    writer.join()
    os.unlink(name)


def shown_lines(faults, name, written, seconds):
    """The lines that were shown: each on a row of its own, within the columns, five in a second at most."""
    text = written.decode()
    lines = DRAWN.findall(text)
    wrong = [line for line in lines if not LINE.fullmatch(line) or columns_of(line) >= COLUMNS]
    for drawn in DRAWN.finditer(text):
        above = rows_after(text[: drawn.end()].encode())[:-1]
        wrong += [row for row in above if LINE.fullmatch(row)]
    faults.compare(f"{name}: lines", (None, None, wrong), ("", "", []))
    is_few = len(lines) <= 5 * seconds + 1
    faults.compare(f"{name}: how many lines", (None, None, (len(lines) > 0, is_few)), ("", "", (True, True)))
    return lines


def names_in(lines):
    """How many names are done of how many, and the name in hand, in each of the lines."""
    return {line.split(", ")[-1] for line in lines}


def run(faults, words, **streams):
    """A run with its error output on a terminal: its output, what the terminal took, the status and the time."""
    screen = Screen()
    streams = {"stdin": subprocess.DEVNULL, "stdout": subprocess.PIPE, "stderr": screen.end, **streams}
    if streams["stdout"] == "terminal":
        streams["stdout"] = screen.end
    start = time.monotonic()
    ended = subprocess.run([faults.program, *words], timeout=SECONDS, **streams)
    seconds = time.monotonic() - start
    screen.close()
    return ended.stdout, screen.written, ended.returncode, seconds


def row(faults, name, words, out="", said="", status=0, is_shown=True, **streams):
    """A run whose error output is a terminal: what is on the screen at its end is what is there without the line. Returns
    the lines that were shown."""
    got, written, ended, seconds = run(faults, words, **streams)
    screen = "\n".join(rows_after(written))
    faults.compare(name, (got, screen.encode(), ended), (out, said, status))
    if is_shown:
        return shown_lines(faults, name, written, seconds)
    faults.compare(f"{name}: no line", (None, None, DRAWN.findall(written.decode())), ("", "", []))
    return []


def progress_where_it_is_wanted(faults):
    """A run that lasts shows it if it was asked to, writes on a terminal, and does not tell by its status alone."""
    unread, sums = "b3sum: missing: cannot read\n", f"{Z1025}  slow\n"
    Path("of-slow").write_text(f"{Z1025}  slow\n{Z0}  z\n")
    with fed_slowly("slow"):
        lines = row(faults, "progress of a FIFO", ["--progress", "e", "missing", "slow"], f"{Z0}  e\n{sums}", unread, 1)
    faults.compare("progress of a FIFO: names", (None, None, names_in(lines)), ("", "", {"2 of 3: slow"}))
    with fed_slowly("slow"):
        lines = row(faults, "progress of a check", ["-c", "--progress", "of-slow"], "slow: OK\nz: FAILED\n", warning(1), 1)
    faults.compare("progress of a check: names", (None, None, names_in(lines)), ("", "", {"1 of 2: slow"}))
    for words, out, status in ((["slow"], sums, 0), (["-c", "--status", "--progress", "of-slow"], "", 1)):
        with fed_slowly("slow"):
            row(faults, f"no progress: {' '.join(words)}", words, out, "", status, is_shown=False)
    with fed_slowly("slow"):
        faults.row("no progress without a terminal", ["--progress", "slow"], sums)


def progress(faults):
    """Names of every kind, and outputs beside it."""
    unread, sums = "b3sum: missing: cannot read\n", f"{Z1025}  slow\n"
    with fed_slowly("slow"):
        row(faults, "progress with both outputs on the terminal", ["--progress", "e", "slow", "missing", "e"], None,
            f"{Z0}  e\n{sums}{unread}{Z0}  e\n", 1, stdout="terminal")
    wide = "漢字" * 40
    with fed_slowly(wide):
        row(faults, "progress of a name in wide characters", ["--progress", wide], f"{Z1025}  {wide}\n")
    name = "line\nfeed\x1b[2J"
    with fed_slowly(name):
        lines = row(faults, "progress of a name that moves the cursor", ["--progress", "--no-names", name], f"{Z1025}\n")
    seen = [line.split(": ")[-1] for line in lines[:1]]
    faults.compare("progress of a name that moves the cursor: the name", (None, None, seen),
                   ("", "", ["line?feed?[2J"]))
    full = open("/dev/full", "wb")
    with fed_slowly("slow"):
        row(faults, "progress before a fault", ["--progress", "slow", "e"], None, CANNOT_WRITE, 1, stdout=full)
    full.close()
    row(faults, "no progress of a short run", ["--progress", "e", "z"], f"{Z0}  e\n{Z1}  z\n", is_shown=False)


def progress_among_lines(faults):
    """Threads show progress while lines and complaints are written: on the screen these stand whole, and alone."""
    Path("ahead").touch()
    os.truncate("ahead", AHEAD_LEN)
    texts = {"ahead": f"{AHEAD}  ahead\n", "e": f"{Z0}  e\n", "missing": "b3sum: missing: cannot read\n"}
    names = [*["ahead"] * 4, "e", "missing"] * 40
    due = "".join(texts[name] for name in names) + f"{Z1025}  slow\n"
    for threads in ("1", "2", "4"):
        name = f"progress among lines, {threads} threads"
        with fed_slowly("slow"):
            _, written, status, seconds = run(faults, ["--progress", "--num-threads", threads, *names, "slow"],
                                              stdout="terminal")
        faults.compare(name, ("\n".join(rows_after(written)).encode(), None, status), (due, "", 1))
        shown_lines(faults, name, written, seconds)
    os.unlink("ahead")


def progress_of_long_files(faults):
    """Plain files tell their lengths, and so how much is left."""
    for name in ("long-1", "long-2", "long-3"):
        Path(name).touch()
        os.truncate(name, 1 << 30)
    names = ["long-1", "long-2", "long-3"]
    due = run(faults, names)[0]
    for threads in ("1", "4"):
        name = f"progress of long files, {threads} threads"
        out, written, status, seconds = run(faults, ["--progress", "--num-threads", threads, *names])
        faults.compare(name, (out, "\n".join(rows_after(written)).encode(), status), (due, "", 0))
        lines = "\n".join(shown_lines(faults, name, written, seconds))
        lengths = set(re.findall(r" of ~?(.*?), ", lines))
        faults.compare(f"{name}: their lengths", (None, None, lengths), ("", "", {"3.0 GiB"}))
        parts = [int(it) for it in re.findall(r"(\d+)%", lines)]
        faults.compare(f"{name}: per cent", (None, None, parts), ("", "", sorted(parts)))
    for name in names:
        os.unlink(name)


def a_terminal_that_is_closed(faults):
    """What it does not take is no fault of the run."""
    with fed_slowly("slow"):
        master, end = pty.openpty()
        ended = subprocess.Popen([faults.program, "--progress", "slow", "e"], stdin=subprocess.DEVNULL,
                                 stdout=subprocess.PIPE, stderr=end)
        os.close(end)
        os.read(master, 1)
        os.close(master)
        out, _ = ended.communicate(timeout=SECONDS)
        faults.compare("progress on a terminal that is closed", (out, None, ended.returncode),
                       (f"{Z1025}  slow\n{Z0}  e\n", "", 0))
