"""The toolchain: where it is, how it is called, and what is linked to a program that it makes, its calls of the system."""

import shutil
from pathlib import Path

from crates import ROOT, crate_lines

KIT = Path(shutil.which("rattle") or "rattle").resolve().parent.parent
OF_C = [KIT / "c/libos_c.a", KIT / "c/liblibc_c.a"]
# Where the libraries lie that `make` proved.
PROVED = ROOT / "out/proved"


def command_of(verb, name, jobs):
    """The compiler's command that checks or builds a crate, in its folder, over what is proved of those below it."""
    lines = crate_lines()
    words, uses = (part.split() for part in lines[name].split(":"))
    top = "main" if (ROOT / "crates" / name / "src/main.rt").exists() else "lib"
    kind = ["--crate-type", "staticlib"] if "staticlib" in words else []
    folders = {it: PROVED if it in lines else KIT / "rlibs" for it in ["std", *uses]}
    externs = [word for it, folder in folders.items() for word in ("--extern", f"{it}={folder}/{it}.rlib")]
    return ["rattle", verb, "--crate-name", name, f"src/{top}.rt", *kind, *externs, "-L", f"dependency={PROVED}",
            "-L", f"dependency={KIT}/rlibs", "--antt-project", KIT / "rattle/logic/antt-project.json",
            "--logic-built", KIT / "logic_built", "--links", f"{name}=", "--jobs", str(jobs)]
