"""What the parts of tools/dist and tools/dist-test share: the folders, the version, commands and files."""

import hashlib
import os
import re
import shutil
import subprocess
import sys
from pathlib import Path

from crates import ROOT

# What is published, and what it is made of.
DIST, WORK = ROOT / "dist", ROOT / "out/release"
LEVELS = ["x86-64", "x86-64-v2", "x86-64-v3"]
# That of the static library, which has one build.
STATIC_LEVEL = LEVELS[1]
# Where Debian has the libraries for this kind of processor, below /usr.
DEBIAN_LIB = "lib/x86_64-linux-gnu"
# All that commands see of the environment, since much else could change what they make.
ENVIRONMENT = {name: os.environ[name] for name in ("PATH", "HOME", "TMPDIR") if name in os.environ} | {"LC_ALL": "C"}


def stop(text):
    sys.exit("\n".join(f"dist: {line}" for line in text.splitlines()))


def run(*words, cwd=ROOT, **more):
    """What a command writes; if it fails, the end of this run."""
    words = [str(it) for it in words]
    ran = subprocess.run(words, cwd=cwd, env={**ENVIRONMENT, **more}, stdin=subprocess.DEVNULL, stdout=subprocess.PIPE,
                         stderr=subprocess.STDOUT, text=True, errors="replace")
    if ran.returncode:
        stop(f"this failed: {' '.join(words)}\n{ran.stdout}")
    return ran.stdout.strip()


def program_version():
    """The version that the program prints."""
    found = re.search(r'\.version\("([^"]+)"\)', (ROOT / "crates/b3_arguments/src/command.rt").read_text())
    return found[1] if found else stop("crates/b3_arguments/src/command.rt has no version")


def sha256(path):
    return hashlib.sha256(path.read_bytes()).hexdigest()


def empty(folder):
    shutil.rmtree(folder, ignore_errors=True)
    folder.mkdir(parents=True)
    return folder


def put(source, to, mode=0o644):
    """Copies a file to a place whose folder may not be there."""
    to.parent.mkdir(parents=True, exist_ok=True)
    shutil.copyfile(source, to)
    to.chmod(mode)


def write(to, text):
    to.parent.mkdir(parents=True, exist_ok=True)
    to.write_text(text)
    to.chmod(0o644)


def filled(path, **values):
    """The text of a file, with each @NAME@ replaced by the value of that name."""
    return re.sub(r"@([A-Z_]+)@", lambda found: values[found[1]], path.read_text())


def files_of(root):
    """The files and links below a folder, in the order of their names."""
    return sorted(it for it in root.rglob("*") if it.is_symlink() or it.is_file())
