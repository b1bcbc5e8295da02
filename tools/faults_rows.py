"""Shared by the rows of tools/faults: values of the standard, texts of errors, and runs of the program."""

import os
import re
import resource
import subprocess
import threading
from contextlib import contextmanager

# The official vectors: no bytes, one byte, a chunk, and a chunk and a byte of the bytes i mod 251.
Z0 = "af1349b9f5f9a1a6a0404dea36dcc9499bcb25c9adc112b7cc9a93cae41f3262"
Z1 = "2d3adedff11b61f14c886e35afa036736dcd87a74d27b5c1510225d0f592e213"
Z1024 = "42214739f095a406f3fc83deb889744ac00df831c10daa55189b5d121c855af7"
Z1025 = "d00278ae47eb27b34faecf67b4fe263f82d5412916c1ffd97c8cb7fb814b8444"
KEY = b"whats the Elvish word for friend"
KEYED_Z0 = "92b2b75604ed3c761f9d6f62392c8a9227ad0ea3f09573e783f1498a4ed60d26"

PATTERN = bytes(i % 251 for i in range(1 << 19))
CANNOT_WRITE = "b3sum: cannot write\n"
SECONDS = 120


def warning(count):
    return f"b3sum: WARNING: {count} computed checksum{'' if count == 1 else 's'} did NOT match\n"


def shown(name):
    """A name as the program writes it."""
    escaped = name.replace("\\", "\\\\").replace("\n", "\\n").replace("\r", "\\r")
    return escaped if escaped == name else "\\" + escaped


def closing(*descriptors):
    def close():
        for descriptor in descriptors:
            os.close(descriptor)

    return close


def limited(kind, most):
    return lambda: resource.setrlimit(kind, (most, most))


@contextmanager
def opened_folder():
    folder = os.open("folder", os.O_RDONLY)
    yield folder
    os.close(folder)


@contextmanager
def meanwhile(change):
    """Runs a change in a thread during the rows, then tells it to stop, and waits for its end."""
    is_over = threading.Event()
    changer = threading.Thread(target=change, args=[is_over])
    changer.start()
    try:
        yield
    finally:
        is_over.set()
        changer.join()


class Faults:
    """Runs the rows in a folder of their own, and counts those that differ."""

    def __init__(self, program):
        self.program, self.rows, self.differing = program, 0, 0

    def row(self, name, words, out="", err="", status=0, **streams):
        """One run. By default its input is empty."""
        if not {"input", "stdin"} & streams.keys():
            streams["stdin"] = subprocess.DEVNULL
        streams = {"stdout": subprocess.PIPE, "stderr": subprocess.PIPE, **streams}
        try:
            ended = subprocess.run([self.program, *words], timeout=SECONDS, **streams)
            got = (ended.stdout, ended.stderr, ended.returncode)
        except subprocess.TimeoutExpired:
            got = (None, None, f"none after {SECONDS} s")
        self.compare(name, got, (out, err, status))

    def compare(self, name, got, expected):
        """Prints what differs. An output of None was not captured."""
        self.rows += 1
        told = []
        for label, is_now, is_due in zip(("out", "err", "status"), got, expected):
            if isinstance(is_due, str):
                is_due = is_due.encode()
            holds = is_due.fullmatch(is_now or b"") if isinstance(is_due, re.Pattern) else is_now in (is_due, None)
            if not holds:
                told.append(f"    {label}: {shortened(is_now)}, and not {shortened(is_due)}")
        if told:
            self.differing += 1
            print(f"faults: {name}", *told, sep="\n")

    def skip(self, name, why):
        print(f"faults: left out, since {why}: {name}")


def shortened(value):
    text = repr(getattr(value, "pattern", value))
    return text if len(text) <= 200 else f"{text[:120]}..{text[-60:]}"
