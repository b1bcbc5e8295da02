"""What tools/bench compares ./b3sum and libb3.so with: the installed b3sum and the original C code, each as it is and
with AVX-512 hidden from it. What this machine lacks is left out, with a message."""

import os
import shutil
import subprocess
import sys
from dataclasses import dataclass
from pathlib import Path

from bench_page import INSTALLED, ON_AVX2, ORIGINAL, ORIGINAL_ON_AVX2, Row
from original import original_code, original_parts

TOOLS = Path(__file__).resolve().parent
MESSAGES = {"16 bytes": 16, "64 bytes": 64, "100 bytes": 100, "1 KiB": 1 << 10, "16 KiB": 1 << 14, "1 MiB": 1 << 20}
STREAM = 20_000
PIECES = (1, 16, 64, 100, 1_000)
# For each row of the library the lengths of a message and of the pieces in which it is given. tools/library/speed.c has
# the same ones.
WORKS = {**{f"library: {name}": (length, length) for name, length in MESSAGES.items()},
         **{f"library: {STREAM:,} bytes by {piece:,}": (STREAM, piece) for piece in PIECES}}
# The ratio that is wanted of each to the original on AVX2.
WANTED = 1.0
# Starts of the timing program, each with many turns: a machine can be slow for longer than one start takes.
STARTS = 10


@dataclass
class Program:
    """A program, and the library that is preloaded when it runs."""
    path: str
    preloaded: str | None = None

    @property
    def environment(self):
        return {**os.environ, "LD_PRELOAD": self.preloaded} if self.preloaded else None


def left_out(what):
    print(f"bench: left out: {what}", file=sys.stderr)


def is_built(*words):
    """Whether the C compiler succeeds with these arguments."""
    return subprocess.run(["cc", *words], stdin=subprocess.DEVNULL).returncode == 0


def hiding_library(folder):
    """The library that hides AVX-512 from a program, built in a folder; or None, after a message that says why."""
    library = f"{folder}/hide_avx512.so"
    if "avx512f" not in Path("/proc/cpuinfo").read_text().split():
        left_out("peers on AVX2: the processor has no AVX-512, so the others are on AVX2")
    elif not shutil.which("cc"):
        left_out("peers on AVX2: no C compiler is installed")
    elif not is_built("-shared", "-fPIC", "-O2", "-o", library, TOOLS / "hide_avx512.c"):
        left_out("peers on AVX2: hide_avx512.c is not compiled")
    elif subprocess.run(["true"], env=Program("true", library).environment).returncode:
        left_out("peers on AVX2: CPUID does not fault on this machine")
    else:
        return library


def peers_of(path, hiding):
    """The installed program, as it is and, where AVX-512 can be hidden, on AVX2."""
    peers = {INSTALLED: Program(path)}
    return {**peers, ON_AVX2: Program(path, hiding)} if hiding else peers


def speed_words(folder):
    """The command that times the library and the original C code, built in a folder; or None, after a message that says
    why."""
    ours, code = TOOLS.parent / "libb3.so", original_code()
    program, theirs = f"{folder}/speed", f"{folder}/original.so"
    if not shutil.which("cc"):
        left_out("the library: no C compiler is installed")
    elif not ours.exists():
        left_out("the library: libb3.so is not built (make lib)")
    elif code is None:
        left_out("the library: the original C code is not installed (Debian: librust-blake3-dev)")
    elif not (is_built("-shared", "-fPIC", "-O3", "-o", theirs, *original_parts(code))
              and is_built("-O2", f"-I{TOOLS.parent / 'include'}", TOOLS / "library/speed.c", "-ldl", "-o", program)):
        left_out("the library: the original C code or speed.c is not compiled")
    else:
        return [program, ours, theirs]


def least_times(words, programs):
    """The least times of all starts in nanoseconds, ours and the peer's, by the peer's name and the lengths of a
    message and of its pieces. A peer of which a start failed is left out. The peers take turns."""
    least = {}
    for _ in range(STARTS):
        for name, program in programs.items():
            run = subprocess.run(words, env=program.environment, stdout=subprocess.PIPE, text=True)
            for length, piece, *times in map(str.split, run.stdout.splitlines() if run.returncode == 0 else []):
                work = name, int(length), int(piece)
                before = least.get(work, (float("inf"),) * 2)
                least[work] = tuple(min(pair) for pair in zip(before, map(float, times)))
    return least


def library_rows(folder, hiding, only):
    """The rows of the library, in nanoseconds, whose names contain a word; none if the library or the peers are not
    there."""
    works = {name: work for name, work in WORKS.items() if only in name}
    words = speed_words(folder) if works else None
    if words is None:
        return []
    print(f"{'work':30} {'beside':20} {'ours, ns':>10} {'that, ns':>10} {'ratio':>7} {'wanted':>7}")
    programs = {ORIGINAL: Program(words[0])}
    if hiding:
        programs[ORIGINAL_ON_AVX2] = Program(words[0], hiding)
    least = least_times(words, programs)
    return [Row(name, peer, *least.get((peer, *lengths), (None, None)), WANTED if peer == ORIGINAL_ON_AVX2 else None)
            for name, lengths in works.items() for peer in programs]
