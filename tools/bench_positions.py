"""What it costs where the stacks of ./b3sum begin: the code on lanes keeps vectors there, and one that lies in two
lines of the cache, or in two pages, takes longer. tools/bench asks for these rows, and has the file that is hashed.

The system chooses the position of the main thread's stack at each start, by multiples of 16. Here setarch stops that,
and a variable of the environment, which lies above this stack, moves it. The stack of a started thread is moved by
tools/thread_storage.c.
"""

import os
import shutil
import subprocess
import time
from statistics import median

from bench_page import Row
from bench_peers import TOOLS, Program, is_built, left_out

FILE = "piped"
TURNS = 7
# By how many bytes the stacks are moved, all over a page. Those of started threads in steps that are shorter than the
# vectors that are used most, so that the end of a page comes to lie among these; that of the main thread to both
# positions modulo 32.
STORAGES = range(0, 4096, 128)
LENGTHS = [length + more for length in range(0, 4096, 448) for more in (0, 16)]
SLOWEST, USUAL = "256 MiB, 4 threads, slowest", "256 MiB, 1 thread, median"


def time_of(program, threads, length):
    """The milliseconds of a run, with the main thread's stack moved by a length; None if it fails, or if the loader
    says that it does not preload the library."""
    environment = {**(program.environment or os.environ), "LOWER": "x" * length}
    command = ["setarch", "--addr-no-randomize", program.path, "--num-threads", str(threads), FILE]
    start = time.perf_counter()
    run = subprocess.run(command, stdin=subprocess.DEVNULL, stdout=subprocess.DEVNULL, stderr=subprocess.PIPE,
                         env=environment)
    elapsed = (time.perf_counter() - start) * 1000
    return None if run.returncode or run.stderr else elapsed


def best_times(threads, positions):
    """The best time at each position, which is a program and a length; none if a run failed. They take turns."""
    turns = [[time_of(program, threads, length) for program, length in positions] for _ in range(TURNS)]
    times = [*zip(*turns)]
    return [] if any(None in runs for runs in times) else [min(runs) for runs in times]


def row_of(name, threads, positions, chosen, wanted):
    """The row of the time that is chosen among those at all positions, beside that at the fastest."""
    times = best_times(threads, positions)
    mine, theirs = (chosen(times), min(times)) if times else (None, None)
    return Row(name, "fastest position", mine, theirs, wanted)


def moved_programs(path, folder):
    """The program with the stacks of the threads that it starts moved, once for each storage; none, after a message, if
    that cannot be built."""
    libraries = {storage: f"{folder}/storage{storage:04}.so" for storage in STORAGES}
    if not shutil.which("cc"):
        left_out("4 threads with their stacks moved: no C compiler is installed")
    elif not all(is_built("-shared", "-fPIC", f"-DROOM={storage}", "-o", library, TOOLS / "thread_storage.c")
                 for storage, library in libraries.items()):
        left_out("4 threads with their stacks moved: thread_storage.c is not compiled")
    else:
        return [Program(path, library) for library in libraries.values()]
    return []


def position_rows(ours, folder, only):
    """The rows, in milliseconds, whose names contain a word; none if the stacks cannot be moved. By four threads the
    slowest position counts, since those of started threads are the same in each run; by one thread the median."""
    if not (only in SLOWEST or only in USUAL):
        return
    fixed = ["setarch", "--addr-no-randomize", "true"]
    if not shutil.which("setarch") or subprocess.run(fixed, stderr=subprocess.DEVNULL).returncode:
        left_out("stacks moved: setarch does not stop the system from choosing positions")
        return
    programs = moved_programs(ours.path, folder) if only in SLOWEST else []
    if programs:
        yield row_of(SLOWEST, 4, [(program, 0) for program in programs], max, 1.15)
    if only in USUAL:
        yield row_of(USUAL, 1, [(ours, length) for length in LENGTHS], median, 1.06)
