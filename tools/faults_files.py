"""Rows of tools/faults: files of every kind and length, and files that change meanwhile."""

import os
import re
import resource
import shutil
import subprocess
import time
from contextlib import suppress
from itertools import product
from pathlib import Path

from blake3 import Tree, digest
from faults_rows import (PATTERN, SECONDS, Z0, Z1, Z1024, Z1025, closing, limited, meanwhile, opened_folder,
                         warning)

OUT_OF_MEMORY = "b3sum: out of memory\n"
# The most bytes of a list; and the digest of one byte more, all 0, by another implementation.
LARGEST = 1 << 30
LARGE = "8c5cb1562ffe2af8b4c8c7f0b4395c518a027f6d97c4bfc950f91eaa77e00e90"
# A length over 32 bits; and the digest of that many bytes, all 0, by another implementation.
HUGE_LEN = (5 << 30) + 1
HUGE = "f7b8b344dd849ce2b499c285a4865025866ba33ff78204c332412a9347b1d6c6"
# Two lengths, a page apart, of a file whose spans are two pieces; and the digests of that many bytes, all 0, by another
# implementation.
LONG_SPANS = {(1 << 28) + (1 << 18): "a18329feca9f606ab3fbbdf384b20787453394b9c8d04ebd63c42f709c4a87f8",
              (1 << 28) + (1 << 18) + 4096: "6add509c1b1fd6c2fff40a4eb80519b2ce2f417177dd2a7b30bd2fb6f11f4dad"}
PIECE = 1 << 18
# Lengths around which the program works differently. A pipe is read 64 KiB at a time. In a single file that is longer
# than a piece all workers read pieces: two, three and more of them.
WAYS = (1 << 16, PIECE, 2 * PIECE, 3 * PIECE, 4 * PIECE, 1 << 22)
# The length of files that change during a run: a single one is read by all workers, each of many by one worker.
CHANGING = 12 * PIECE
# The most bytes of a page in the system's cache. A read of one meanwhile cut in two may give zeros that the file never had.
LARGEST_PAGE = 1 << 21
# A plain file that reports 4,096 bytes and has fewer.
SHORTER = "/sys/devices/system/cpu/possible"


def files_that_cannot_be_read(faults):
    rows = {"missing": "a missing file", "folder": "a folder", "e/x": "a file taken for a folder",
            "dangling": "a link to nothing", "loop": "a link to itself", "x" * 300: "a name that is too long",
            "folder/" * 1000: "a path that is too long", "/proc/self/mem": "a file that fails once it is open"}
    for path, name in rows.items():
        said = f"b3sum: {path}: cannot read\n"
        faults.row(name, [path], "", said, 1)
        faults.row(f"{name}, among others", ["e", path, "z"], f"{Z0}  e\n{Z1}  z\n", said, 1)
        faults.row(f"{name}, as a list", ["-c", path, "good"], "e: OK\n", said, 1)
        faults.row(f"{name}, in a list", ["-c"], f"{path}: FAILED (cannot read)\n", warning(1), 1,
                   input=f"{Z0}  {path}\n".encode())
    if os.geteuid() == 0:
        faults.skip("a file without leave to read", "root reads all")
    else:
        faults.row("a file without leave to read", ["closed"], err="b3sum: closed: cannot read\n", status=1)
    said = "b3sum: -: cannot read\n"
    with opened_folder() as folder:
        faults.row("a folder as input", [], "", said, 1, stdin=folder)
        faults.row("a folder as a list from input", ["-c"], "", said, 1, stdin=folder)
    # A file that is opened then gets the descriptor of standard input, and must not be confused with it.
    for given, out in ((["-", "z"], f"{Z1}  z\n"), (["z", "-"], f"{Z1}  z\n"), (["-c", "-"], "")):
        faults.row(f"a closed input, {' '.join(given)}", given, out, said, 1, preexec_fn=closing(0))
    Path("of-input").write_text(f"{Z0}  -\n" * 2)
    unread = "-: FAILED (cannot read)\n"
    faults.row("a closed input in a list", ["-c", "of-input"], unread * 2, warning(2), 1, preexec_fn=closing(0))
    faults.row("input twice in a list", ["-c", "of-input"], "-: OK\n" + unread, warning(1), 1)
    reader, writer = os.pipe()
    os.set_blocking(reader, False)
    faults.row("an input that has nothing yet and does not wait", [], "", said, 1, stdin=reader)
    os.close(reader)
    os.close(writer)


def files_of_every_kind(faults):
    for length, expected in ((0, Z0), (1, Z1), (1024, Z1024), (1025, Z1025)):
        faults.row(f"{length} bytes of input", [], f"{expected}  -\n", input=PATTERN[:length])
        Path(f"of{length}").write_bytes(PATTERN[:length])
        faults.row(f"a file of {length} bytes", [f"of{length}"], f"{expected}  of{length}\n")
    version = Path("/proc/version").read_bytes()
    faults.row("a file that tells no size", ["/proc/version"], f"{digest(version)}  /proc/version\n")
    if os.access(SHORTER, os.R_OK):
        line = f"{digest(Path(SHORTER).read_bytes())}  {SHORTER}\n"
        faults.row("a file that is shorter than it tells", [SHORTER], line)
        faults.row("one among others", ["e", SHORTER, "z"], f"{Z0}  e\n{line}{Z1}  z\n")
    else:
        faults.skip("a file that is shorter than it tells", f"there is no {SHORTER}")
    faults.row("a link to a file", ["link"], f"{Z0}  link\n")
    faults.row("a path with a folder", ["./folder/../z"], f"{Z1}  ./folder/../z\n")
    faults.row("the empty device", ["/dev/null"], f"{Z0}  /dev/null\n")
    faults.row("input twice", ["-", "-"], f"{Z1}  -\n", "b3sum: -: cannot read\n", 1, input=b"\0")
    faults.row("no file means input", ["--no-names"], f"{Z0}\n")


def large_files(faults):
    """Files, and a list, of more bytes than a list may have, than 32 bits count, and than there is memory."""
    with open("huge", "wb") as huge:
        huge.truncate(HUGE_LEN)
    faults.row("a file of more bytes than 32 bits count", ["huge"], f"{HUGE}  huge\n")
    little = limited(resource.RLIMIT_AS, 1 << 28)
    hashed = f"{LARGE}  large\n"
    faults.row("a file that is larger than a list may be", ["e", "large", "e"], f"{Z0}  e\n{hashed}{Z0}  e\n")
    faults.row("a file that is larger than the memory", ["large"], hashed, preexec_fn=little)
    faults.row("a list that is too large", ["-c", "large"], err="b3sum: endless input\n", status=1)
    faults.row("a list that is too large for little memory", ["-c", "large"], "", OUT_OF_MEMORY, 1, preexec_fn=little)


def names_of_every_kind(faults):
    """Lines and complaints stand in the order of the names, whatever stands under each, by any number of threads."""
    version = "/proc/version"
    texts = {name: f"b3sum: {name}: cannot read\n" for name in ("missing", "e/x", "folder")}
    texts |= {"e": f"{Z0}  e\n", "z": f"{Z1}  z\n", version: f"{digest(Path(version).read_bytes())}  {version}\n",
              "kinds": f"{Z1025}  kinds\n"}
    several = [name for name in texts if name != "kinds"] * 100
    names = [*several, "kinds", *several]
    os.mkfifo("kinds")
    for threads in ("1", "2", "4"):
        with meanwhile(lambda _: Path("kinds").write_bytes(PATTERN[:1025])):
            faults.row(f"names of every kind, {threads} threads", ["--num-threads", threads, *names],
                       "".join(texts[name] for name in names), status=1, stderr=subprocess.STDOUT)
            # Lets the writer continue if nobody opened the FIFO.
            os.close(os.open("kinds", os.O_RDONLY | os.O_NONBLOCK))


def long_files(faults):
    """Random bytes of each length around which the program works differently, with one thread and with many."""
    content = os.urandom(max(WAYS) + 1)
    tree = Tree(content)
    for way in WAYS:
        for length in (way - 1, way, way + 1):
            expected = tree.digest(length)
            Path("long").write_bytes(content[:length])
            for threads in ("1", "2", "4", "64"):
                name, words = f"{length} bytes, {threads} threads", ["--num-threads", threads]
                faults.row(name, [*words, "long"], f"{expected}  long\n")
                faults.row(f"{name}, beside another", [*words, "long", "e"], f"{expected}  long\n{Z0}  e\n")
                faults.row(f"{name}, by a pipe", words, f"{expected}  -\n", input=content[:length])
                with open("long", "rb") as given:
                    faults.row(f"{name}, as input", words, f"{expected}  -\n", stdin=given)


def number_of_threads(faults):
    """A run over a long file, or over many names, has as many threads as requested, and never more."""
    Path("64 KiB").write_bytes(bytes(1 << 16))
    for names, told in product((["large"], ["64 KiB"] * 2_000), (1, 2, 4)):
        run = subprocess.Popen([faults.program, "--num-threads", str(told), *names], stdout=subprocess.DEVNULL)
        most = 0
        while run.poll() is None:
            with suppress(OSError):
                found = re.search(r"^Threads:\s+(\d+)", Path(f"/proc/{run.pid}/status").read_text(), re.MULTILINE)
                most = max(most, int(found[1]) if found else 0)
        name = f"{told} threads, names: {len(names)}, threads seen: {most}"
        faults.compare(name, (None, None, most), ("", "", told))


def lines_of_one(digests, name, times):
    """This many lines of one name, each with one of the digests."""
    return re.compile(f"(({'|'.join(digests)})  {name}\n){{{times}}}".encode())


def growing_files(faults):
    """A file that grows while it is read gets the digest of its content at one moment."""
    page, begins = 4096, 1 << 16
    tree = Tree(PATTERN)
    digests = [tree.digest(length) for length in range(begins, len(PATTERN) + 1, page)]

    def grow(_):
        with open("growing", "ab", buffering=0) as growing:
            for start in range(begins, len(PATTERN), page):
                growing.write(PATTERN[start : start + page])
                time.sleep(0.00002)

    for turn, times in product(range(1, 21), (1, 2)):
        Path("growing").write_bytes(PATTERN[:begins])
        with meanwhile(grow):
            faults.row(f"a file that grows, turn {turn}, named {times} times", ["growing"] * times,
                       lines_of_one(digests, "growing", times))
    for turn in range(1, 21):
        Path("growing").write_bytes(PATTERN[:begins])
        with meanwhile(grow), open("growing", "rb") as given:
            time.sleep(turn * 0.0002)
            faults.row(f"input that is a file that grows, turn {turn}", [], lines_of_one(digests, "-", 1), stdin=given)


def changing_files(faults):
    """Each line has the digest of the content of one file, even if that is replaced, truncated or removed meanwhile."""
    contents = [os.urandom(CHANGING) for _ in range(2)]
    trees = [Tree(content) for content in contents]
    replaced_files(faults, contents, trees)
    cut_files(faults, contents[0], trees[0])
    removed_files(faults, contents[0], trees[0].digest(CHANGING))


def replaced_files(faults, contents, trees):
    for length in (1 << 20, CHANGING):
        for name, content in zip(("one", "other"), contents):
            Path(name).write_bytes(content[:length])
        shutil.copy("other", "next")
        os.replace("next", "replaced")
        either = [tree.digest(length) for tree in trees]
        with meanwhile(replacing):
            for turn, times in product(range(1, 6), (1, 20)):
                faults.row(f"a file of {length} bytes that is replaced, turn {turn}, named {times} times",
                           ["replaced"] * times, lines_of_one(either, "replaced", times))


def cut_files(faults, content, tree):
    page, left = 4096, LARGEST_PAGE
    digests = [tree.digest(length) for length in range(left, CHANGING + 1, page)]
    for turn, (times, pause) in product(range(1, 21), ((1, 0.0002), (20, 0.0008))):
        Path("cut").write_bytes(content)
        with meanwhile(lambda _: (time.sleep(turn * pause), os.truncate("cut", left))):
            faults.row(f"a file that is cut, turn {turn}, named {times} times", ["cut"] * times,
                       lines_of_one(digests, "cut", times))
    for turn in range(1, 21):
        Path("cut").write_bytes(content)
        with meanwhile(lambda _: (time.sleep(turn * 0.0002), os.truncate("cut", left))), open("cut", "rb") as given:
            faults.row(f"input that is a file that is cut, turn {turn}", [], lines_of_one(digests, "-", 1), stdin=given)


def long_changing_files(faults):
    """A file whose spans are read in pieces is read whole, or in order, if it is cut or grows meanwhile."""
    def change(is_over):
        while not is_over.is_set():
            for length in LONG_SPANS:
                os.truncate("changing", length)
                time.sleep(0.01)

    Path("changing").touch()
    for turn, threads in product(range(1, 11), ("2", "4")):
        os.truncate("changing", max(LONG_SPANS))
        with meanwhile(change):
            faults.row(f"a long file that changes, {threads} threads, turn {turn}", ["--num-threads", threads, "changing"],
                       lines_of_one(LONG_SPANS.values(), "changing", 1))


def removed_files(faults, content, expected):
    for turn in range(1, 11):
        Path("removed").write_bytes(content)
        with meanwhile(lambda _: (time.sleep(turn * 0.002), os.remove("removed"))):
            run = subprocess.run([faults.program, *["removed"] * 20], timeout=SECONDS, capture_output=True)
        there = run.stdout.count(b"\n")
        due = (f"{expected}  removed\n" * there, "b3sum: removed: cannot read\n" * (20 - there), int(there < 20))
        faults.compare(f"a file that is removed, turn {turn}", (run.stdout, run.stderr, run.returncode), due)


def replacing(is_over):
    """Replaces a file by one and then by another, again and again."""
    while not is_over.is_set():
        for name in ("one", "other"):
            os.link(name, "next")
            os.replace("next", "replaced")
