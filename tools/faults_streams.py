"""Rows of tools/faults: outputs that fail, readers that exit, and input from pipes, files and terminals."""

import os
import re
import resource
import select
import socket
import subprocess
import threading
import time
from contextlib import contextmanager, suppress
from pathlib import Path

from blake3 import digest
from faults_rows import CANNOT_WRITE, KEY, KEYED_Z0, PATTERN, SECONDS, Z0, Z1, Z1025, closing, limited

# A plain file that reports no length, and does not end.
KERNEL_LOG = "/proc/kmsg"
# What is typed where a terminal's input ends.
END_OF_INPUT = b"\x04"


def full_and_closed_outputs(faults):
    """Streams that cannot be written: the error is reported if possible, and always by the exit status."""
    full = open("/dev/full", "wb")
    for words in ([], ["e"], ["--raw", "e"], ["--no-names", "e"], ["-c", "good"], ["--help"], ["--version"]):
        name = f"{' '.join(words) or 'no words'}, "
        faults.row(name + "onto a full device", words, err=CANNOT_WRITE, status=1, stdout=full)
        faults.row(name + "with the output closed", words, err=CANNOT_WRITE, status=1, preexec_fn=closing(1))
        faults.row(name + "with both outputs closed", words, status=1, preexec_fn=closing(1, 2))
    for how, streams in (("full", {"stderr": full}), ("closed", {"preexec_fn": closing(2)})):
        err = f", with the error output {how}"
        faults.row("a missing file" + err, ["e", "missing", "e"], out=f"{Z0}  e\n", status=1, **streams)
        faults.row("a bad name" + err, ["", "e"], status=1, **streams)
        faults.row("a warning" + err, ["-c", "bad"], out="e: FAILED\n", status=1, **streams)
        faults.row("a bad line" + err, ["-c", "short", "good"], status=1, **streams)
        faults.row("nothing to complain of" + err, ["-c", "good"], out="e: OK\n", **streams)
        faults.row("a usage fault" + err, ["--quiet"], status=2, **streams)
        faults.row("an unknown option" + err, ["--bogus"], status=2, **streams)
        faults.row("an argument that is not text" + err, [b"\xff"], status=2, **streams)
        faults.row("a run fault" + err, ["--keyed", "e"], status=1, **streams)
    faults.row("nothing to write, onto a full device", ["-c", "--quiet", "good"], stdout=full)
    unread = "b3sum: missing: cannot read\n"
    faults.row("a complaint alone, onto a full device", ["missing"], err=unread, status=1, stdout=full)
    faults.row("all streams closed", ["e"], status=1, preexec_fn=closing(0, 1, 2))
    full.close()


def outputs_cut_short(faults):
    """An output that takes some bytes of a text, and no more."""
    line, unread = f"{Z1025}  -\n", "b3sum: missing: cannot read\n"
    for most in range(len(line)):
        cut_short(faults, f"a line onto an output of {most} bytes", [], "stdout", most, line[:most], CANNOT_WRITE)
    for most in range(len(unread)):
        cut_short(faults, f"a complaint onto an output of {most} bytes", ["missing"], "stderr", most, unread[:most], "")
    for words, begins in ((["--help"], "Wri"), (["--version"], "b3s"), (["-c", "good"], "e: ")):
        cut_short(faults, f"{words} onto an output of three bytes", words, "stdout", 3, begins, CANNOT_WRITE)


def cut_short(faults, name, words, stream, most, begins, err):
    with open("cut", "wb") as cut:
        # Such a write is a fault where the signal of this limit is ignored, as it is here.
        faults.row(name, words, err=err, status=1, input=PATTERN[:1025], restore_signals=False,
                   preexec_fn=limited(resource.RLIMIT_FSIZE, most), **{stream: cut})
    faults.compare(f"{name}: what it took", (Path("cut").read_bytes(), None, 0), (begins, "", 0))


def a_reader_that_goes_away(faults):
    for stream, words, err in (("stdout", ["e"], CANNOT_WRITE), ("stderr", ["missing"], "")):
        reader, writer = os.pipe()
        os.close(reader)
        faults.row(f"a reader gone from {stream}", words, err=err, status=1, **{stream: writer})
        os.close(writer)
    # Far more lines than the buffer of a pipe holds.
    many = ["e"] * 20000
    reader, writer = os.pipe()
    os.set_blocking(writer, False)
    faults.row("a full output that does not wait", many, err=CANNOT_WRITE, status=1, stdout=writer)
    os.close(writer)
    os.close(reader)
    run = subprocess.Popen([faults.program, *many], stdout=subprocess.PIPE, stderr=subprocess.PIPE)
    first = run.stdout.read1(1)
    run.stdout.close()
    err = run.stderr.read()
    faults.compare("a reader that takes one byte", (first, err, run.wait()), (Z0[0], CANNOT_WRITE, 1))


def input_in_the_middle(faults):
    """Standard input among files, as a pipe and as a plain file, which is read from its position to its end."""
    for length in (1, 1025, len(PATTERN)):
        among = f"{Z0}  e\n{digest(PATTERN[:length])}  -\n{Z1}  z\n"
        faults.row(f"{length} bytes by a pipe among files", ["e", "-", "z"], among, input=PATTERN[:length])
    places = (1, (1 << 18) - 1, 1 << 18, (1 << 18) + 1, len(PATTERN))
    for length, place in ((1025, 1), (1025, 1025), *((len(PATTERN), place) for place in places)):
        Path("placed").write_bytes(PATTERN[:length])
        line = f"{digest(PATTERN[place:length])}  -\n"
        for words, out in (([], line), (["e", "-", "z"], f"{Z0}  e\n{line}{Z1}  z\n")):
            name = f"input that is a file of {length} bytes, from {place} on, {words}"
            with open("placed", "rb", buffering=0) as given:
                given.seek(place)
                faults.row(name, words, out, stdin=given)
                faults.compare(f"{name}: where it is left", (None, None, given.tell()), ("", "", length))
    content = 5 * PATTERN
    Path("spread").write_bytes(content)
    for place in (0, (1 << 20) + 1):
        line = f"{digest(content[place:])}  -\n"
        for threads in ("2", "4", "64"):
            name = f"input that is a file of {len(content)} bytes, from {place} on, by {threads} threads"
            with open("spread", "rb", buffering=0) as given:
                given.seek(place)
                faults.row(name, ["--num-threads", threads], line, stdin=given)
                left_at = given.tell()
                rest = subprocess.run(["cat"], stdin=given, stdout=subprocess.PIPE).stdout
                faults.compare(f"{name}: what is left", (rest, None, left_at), ("", "", len(content)))
    with open("placed", "rb", buffering=0) as given:
        os.remove("placed")
        faults.row("input that is a file that was removed", [], f"{digest(PATTERN)}  -\n", stdin=given)
    Path("placed").write_bytes(PATTERN)
    with open("placed", "ab", buffering=0) as given:
        faults.row("input that is a file that is only written", [], err="b3sum: -: cannot read\n", status=1, stdin=given)
    Path("placed").write_text(f"x\n{Z0}  e\n")
    with open("placed", "rb", buffering=0) as given:
        given.seek(2)
        faults.row("a list from its second line on", ["-c"], "e: OK\n", stdin=given)


@contextmanager
def terminal(typed):
    """A terminal at which a text and then the end of input was typed; and its name."""
    keyboard, screen = os.openpty()
    os.write(keyboard, typed + END_OF_INPUT)
    yield screen, os.ttyname(screen)
    os.close(keyboard)
    os.close(screen)


def terminals(faults):
    """A terminal as standard input, as a file and as a list."""
    typed = b"typed\n"
    digits = digest(typed)
    with terminal(typed) as (screen, _):
        faults.row("a terminal as input", [], f"{digits}  -\n", stdin=screen)
    with terminal(typed) as (_, name):
        faults.row("a terminal among files", ["e", name, "z"], f"{Z0}  e\n{digits}  {name}\n{Z1}  z\n")
    with terminal(typed) as (_, name):
        faults.row("a terminal in a list", ["-c"], f"e: OK\n{name}: OK\n",
                   input=f"{Z0}  e\n{digits}  {name}\n".encode())
    with terminal(f"{Z0}  e\n".encode()) as (screen, _):
        faults.row("a list from a terminal", ["-c"], "e: OK\n", stdin=screen)


def slow_writers(faults):
    def feed(path):
        with suppress(BrokenPipeError), open(path, "wb", buffering=0) as fifo:
            for start in range(0, 1025, 41):
                fifo.write(PATTERN[start : min(start + 41, 1025)])
                time.sleep(0.005)

    def fed(name, words, out, err="", status=0):
        writer = threading.Thread(target=feed, args=["fifo"])
        writer.start()
        faults.row(name, words, out, err, status)
        # Lets the writer continue if nobody opened the FIFO.
        os.close(os.open("fifo", os.O_RDONLY | os.O_NONBLOCK))
        writer.join()

    os.mkfifo("fifo")
    fed("a FIFO with a slow writer", ["fifo"], f"{Z1025}  fifo\n")
    fed("a FIFO among others", ["e", "fifo", "z"], f"{Z0}  e\n{Z1025}  fifo\n{Z1}  z\n")
    Path("of-fifo").write_text(f"{Z1025}  fifo\n")
    fed("a FIFO in a list", ["-c", "of-fifo"], "fifo: OK\n")
    fed("a FIFO is there", ["-c", "--ignore-missing", "of-fifo"], "fifo: OK\n")
    reader, writer = os.pipe()
    os.set_blocking(writer, False)

    def write_key():
        for byte in KEY:
            os.write(writer, bytes([byte]))
            time.sleep(0.005)
        os.close(writer)

    thread = threading.Thread(target=write_key)
    thread.start()
    faults.row("a key from a slow writer", ["--keyed", "e"], f"{KEYED_Z0}  e\n", stdin=reader)
    thread.join()
    os.close(reader)


def inputs_that_are_long_in_coming(faults):
    """The line of a file that a thread hashes is not delayed by a name that waits for its writer."""
    content = 2 * PATTERN
    Path("mebibyte").write_bytes(content)
    line = f"{digest(content)}  mebibyte\n"
    pipe = subprocess.PIPE
    for name in ("-", "fifo"):
        run = subprocess.Popen([faults.program, "mebibyte", name], stdin=pipe, stdout=pipe, stderr=pipe)
        is_due, _, _ = select.select([run.stdout], [], [], 20)
        first = os.read(run.stdout.fileno(), len(line)) if is_due else b""
        if name == "fifo":
            Path(name).write_bytes(b"\0")
        rest, err = run.communicate(b"\0" if name == "-" else None)
        faults.compare(f"the line before {name}", (first, err, run.returncode), (line, "", 0))
        faults.compare(f"the line of {name} itself", (rest, err, run.returncode), (f"{Z1}  {name}\n", "", 0))
    if os.access(KERNEL_LOG, os.R_OK):
        run = subprocess.Popen([faults.program, "mebibyte", KERNEL_LOG], stdout=pipe)
        is_due, _, _ = select.select([run.stdout], [], [], 20)
        first = os.read(run.stdout.fileno(), len(line)) if is_due else b""
        run.kill()
        run.communicate()
        faults.compare("the line before a plain file that waits", (first, b"", 0), (line, "", 0))


def writes_of_lines(faults):
    """Lines in quick succession are written together to a pipe, and one by one to a terminal. The writes are counted
    while the run waits for a FIFO, before which all lines must have been written."""
    names = [f"zero{number}" for number in range(300)]
    for name in names:
        Path(name).write_bytes(b"\0")
    lines = "".join(f"{Z1}  {name}\n" for name in names).encode()
    for kind, (reader, writer), due in (("a pipe", os.pipe(), 0), ("a terminal", os.openpty(), 300)):
        run = subprocess.Popen([faults.program, "--num-threads", "2", *names, "fifo"], stdout=writer)
        os.close(writer)
        got = b""
        while len(got) < len(lines) and select.select([reader], [], [], 20)[0]:
            got += os.read(reader, 1 << 16).replace(b"\r", b"")
        counted = re.search(r"^syscw: (\d+)", Path(f"/proc/{run.pid}/io").read_text(), re.MULTILINE)
        writes = int(counted[1])
        faults.compare(f"lines by {kind}, by {writes} writes", (got, None, writes // 30 * 30), (lines, "", due))
        run.kill()
        run.wait()
        os.close(reader)


def writes_of_one_thread(faults):
    """One thread writes the line of a longer file before it reads the next, and those of short ones together. Each write to
    a socket of this kind is a message."""
    for length, due in ((1 << 20, 12), (1 << 10, 1)):
        content = (2 * PATTERN)[:length]
        Path("same").write_bytes(content)
        reader, writer = socket.socketpair(socket.AF_UNIX, socket.SOCK_SEQPACKET)
        with reader, writer:
            words = ["--num-threads", "1", *["same"] * 12]
            subprocess.run([faults.program, *words], stdout=writer, timeout=SECONDS, check=False)
            writer.close()
            writes = list(iter(lambda: reader.recv(1 << 16), b""))
        lines = f"{digest(content)}  same\n".encode() * 12
        got = (b"".join(writes), None, len(writes))
        faults.compare(f"12 files of {length} bytes, by one thread: writes", got, (lines, "", due))
