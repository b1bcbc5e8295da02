"""Whether ./b3sum takes the same path for two digests: digits may be a secret's, so no jump may depend on one, and what
the toolchain makes of the code that writes them is not seen in its source. Each run is stopped at each instruction. So
it does not matter into which functions that code is inlined."""

import ctypes
import os
import signal
import subprocess
import tempfile

from bench_peers import left_out

# Of ptrace(2), waitpid(2) and personality(2).
TRACE_ME, PEEK_USER, SINGLE_STEP, SET_OPTIONS = 0, 3, 9, 0x4200
TRACE_CLONE, ALL_THREADS = 8, 0x40000000
ADDR_NO_RANDOMIZE = 0x0040000
# Where the address of the next instruction is among the registers of a stopped process.
ADDRESS = 16 * 8
# Where a program lies then; above are the C library, and code of the system whose path depends on the time.
PROGRAM = range(0x5555_5555_4000, 0x5655_5555_4000)
LIBC = ctypes.CDLL(None)
LIBC.ptrace.restype = ctypes.c_long
LIBC.ptrace.argtypes = [ctypes.c_long, ctypes.c_long, ctypes.c_void_p, ctypes.c_void_p]
# Of one length. Of the last of 45 bytes of their digests the one has both digits decimal, and the other both letters.
INPUTS = [bytes([value]) * 64 for value in (7, 16)]
# Both functions that write a line. 45 bytes are some whose digits are written at once, and some that are left over.
FORMS = {"lines": ["--length", "45"], "tagged lines": ["--length", "45", "--tag"]}


def begin():
    """In a new process: it stops when it executes the program, which lies where it lies in each such run."""
    if LIBC.personality(ADDR_NO_RANDOMIZE) < 0 or LIBC.ptrace(TRACE_ME, 0, None, None) < 0:
        raise PermissionError


def path_of(command):
    """The addresses of all instructions of the program in a run of it, in their order; none if the run fails. A thread
    that it starts would not be seen, so then there are none either."""
    run = subprocess.Popen(command, stdin=subprocess.DEVNULL, stdout=subprocess.DEVNULL, stderr=subprocess.DEVNULL,
                           preexec_fn=begin)
    path, (_, status) = [], os.waitpid(run.pid, 0)
    LIBC.ptrace(SET_OPTIONS, run.pid, None, TRACE_CLONE)
    # Other stops than those after an instruction have more bits.
    while status == signal.SIGTRAP << 8 | 0x7f:
        address = LIBC.ptrace(PEEK_USER, run.pid, ADDRESS, None)
        path += [address] if address in PROGRAM else []
        LIBC.ptrace(SINGLE_STEP, run.pid, None, None)
        _, status = os.waitpid(run.pid, 0)
    if os.WIFSTOPPED(status):
        status = killed(run)
    run.returncode = os.waitstatus_to_exitcode(status)
    return path if run.returncode == 0 else []


def killed(run):
    """The status of a stopped run that is killed. The threads that it started have to be waited for too."""
    found, status = None, 0
    run.kill()
    while found != run.pid or os.WIFSTOPPED(status):
        found, status = os.waitpid(-1, ALL_THREADS)
    return status


def can_be_stopped():
    try:
        return bool(path_of(["true"]))
    except subprocess.SubprocessError:
        return False


def paths_of(command, file):
    """The paths of runs over a file that has each input in turn."""
    for content in INPUTS:
        file.seek(0)
        file.write(content)
        file.flush()
        yield path_of([*command, file.name])


def parting(paths):
    """Where the paths of runs part: a text, or None if they are the same."""
    if not all(paths):
        return "a run failed, or started a thread"
    for addresses in zip(*paths):
        if len({*addresses}) > 1:
            return "at " + " or ".join(f"{address:#x}" for address in sorted({*addresses}))
    return None if len({*map(len, paths)}) == 1 else "at their end"


def digits_that_part(program):
    """The forms of lines for which the paths of a program depend on the digits, after a line for each form that says
    what was seen. The addresses are those at which gdb has the program."""
    if not can_be_stopped():
        left_out("the path on which digits are written: no run can be stopped at each instruction here")
        return []
    wrong = []
    for form, words in FORMS.items():
        with tempfile.NamedTemporaryFile() as file:
            where = parting([*paths_of([program, "--num-threads", "1", *words], file)])
        print(f"the digits of {form}:", f"WRONG, the paths of two digests part: {where}" if where else "one path")
        wrong += [form] if where else []
    return wrong
