"""Proves, compiles and links what a release holds, in out/release: for each level of x86-64 the objects, which the kit
makes, and the shared library; and of the objects of all levels one program, linked statically and with the system's libc."""

import shutil
import subprocess
from concurrent.futures import ThreadPoolExecutor
from pathlib import Path

from dist_common import ENVIRONMENT, LEVELS, ROOT, WORK, empty, put, run, stop
from kit import OF_C

# The objects with what links them, and a copy with what they are linked to.
OBJECTS, LINKED = WORK / "objects", WORK / "linked"
STATIC, DYNAMIC = LINKED / "b3sum", LINKED / "b3sum.dynamic"
# What tools/prove makes for each level.
PRODUCTS = ("b3sum.o", "libb3.a")
# The programs that are used, and what each is a part of.
TOOLS = {"rt": "the Rattle toolchain", "git": "git", "make": "GNU make", "cc": "gcc", "objcopy": "binutils",
         "tar": "GNU tar", "gzip": "gzip", "dpkg-deb": "dpkg"}


def missing():
    """A line for each thing that is needed and not there."""
    lines = [f"{tool} is not there: it is a part of {whole}" for tool, whole in TOOLS.items() if not shutil.which(tool)]
    if shutil.which("cc"):
        if not libc().is_absolute():
            lines.append("libc.a is not there: it is a part of glibc, for static programs (Debian: libc6-dev)")
        words = ["cc", "-fsyntax-only", ROOT / "release/choose.c"]
        if subprocess.run(words, stdout=subprocess.DEVNULL, stderr=subprocess.DEVNULL).returncode:
            lines.append("sys/platform/x86.h is not there: it is a part of glibc from 2.33 on (Debian: libc6-dev)")
    return lines


def libc():
    """The C library that a static program is linked with; only a name, if there is none."""
    return Path(run("cc", "-print-file-name=libc.a"))


def proved(product, level):
    """Proves and compiles a product for a level, and tells how far that is: the prover's last line."""
    words = [ROOT / "tools/prove", OBJECTS / level / product, f"--cpu={level}"]
    lines = []
    with subprocess.Popen(words, env=ENVIRONMENT, stdin=subprocess.DEVNULL, stdout=subprocess.PIPE, text=True) as prover:
        for line in prover.stdout:
            lines.append(line.strip())
            print(f"dist: {product} for {level}: {lines[-1]}", flush=True)
    found = [line for line in lines if line.startswith("logic=proved ")]
    if prover.returncode or len(found) != 1 or level_of(found[0]) != level:
        stop(f"{product} is not proved for {level}")
    return found[0]


def proved_all(level):
    """The prover's last lines for what there is for a level, by level and product."""
    (OBJECTS / level).mkdir(parents=True)
    return {f"{level}/{product}": proved(product, level) for product in PRODUCTS}


def level_of(verdict):
    """The level of which a prover's last line speaks. It does not name the lowest."""
    return next((it.removeprefix("cpu=") for it in verdict.split() if it.startswith("cpu=")), LEVELS[0])


def built():
    """Builds all, and returns the prover's last lines by level and product."""
    empty(WORK)
    first, *others = LEVELS
    # The libraries below are proved once, with the first.
    verdicts = proved_all(first)
    with ThreadPoolExecutor(len(others)) as pool:
        for more in pool.map(proved_all, others):
            verdicts |= more
    link()
    return verdicts


def link():
    """Links the objects by release/link, on a copy of their folder."""
    for level in LEVELS:
        # The builds in one file must share no name that one could take from another.
        names = run("nm", "--extern-only", "--defined-only", "--format=just-symbols", OBJECTS / level / "b3sum.o")
        if names != "main":
            stop(f"b3sum.o for {level} defines more than main: {names}")
    put(ROOT / "release/link", OBJECTS / "link", 0o755)
    for path in (ROOT / "release/choose.c", *OF_C):
        put(path, OBJECTS / path.name)
    shutil.copytree(OBJECTS, LINKED)
    run("./link", cwd=LINKED)
