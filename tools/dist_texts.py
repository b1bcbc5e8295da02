"""The texts of a release: its version, the statement of what was proved, and the licences."""

import re
from dataclasses import dataclass
from datetime import datetime, timezone

from crates import crates_below
from dist_build import OBJECTS, libc
from dist_common import LEVELS, ROOT, filled, program_version, run, sha256, stop
from kit import KIT

LICENCE = ROOT / "LICENSE"
NO_LICENCE = "No licence has been chosen: all rights are reserved."
GATE_PASSED = "passed, on these sources with this kit"
GATE_NOT_RUN = "the gate was not run"


@dataclass
class Release:
    """What the files of a release are named after: the version, with the commit where no tag says that it is released."""

    version: str
    commit: str
    time: int

    @classmethod
    def of_commit(cls):
        """The release of the commit that is checked out, if nothing in the working tree differs from it."""
        changed = run("git", "status", "--porcelain", "--untracked-files=all")
        if changed:
            stop(f"the working tree differs from its commit:\n{changed}")
        version, commit = program_version(), run("git", "rev-parse", "HEAD")
        time = int(run("git", "show", "--no-patch", "--format=%ct", "HEAD"))
        tags = [it for it in run("git", "tag", "--points-at", "HEAD").split() if re.match(r"v\d", it)]
        if tags not in ([], [f"v{version}"]):
            stop(f"this commit has the tag {' and '.join(tags)}, and the program says that it is {version}")
        if not tags:
            # By the order of Debian it comes before the release.
            version += f"~{datetime.fromtimestamp(time, timezone.utc):%Y%m%d}.{commit[:7]}"
        return cls(version, commit, time)

    def statement(self, verdicts):
        """What was proved, with the prover's last lines by the names of the objects."""
        sums = [f"  {sha256(OBJECTS / name)}  {name}" for name in verdicts]
        # The name of the release of a C library, as it writes it into itself.
        name = re.search(rb"GNU C Library \([^)]*\) [a-z]+ release version [\d.]+\d", libc().read_bytes())
        return filled(ROOT / "release/PROOF.in", VERSION=self.version, COMMIT=self.commit, KIT=run("rt", "version"),
                      GATE=gate(), VERDICTS="\n".join(f"  {name}: {line}" for name, line in verdicts.items()),
                      OBJECTS="\n".join(sums), CC=run("cc", "--version").splitlines()[0],
                      BINUTILS=run("objcopy", "--version").splitlines()[0],
                      LIBC=name[0].decode() if name else "of unknown name", LIBC_SUM=sha256(libc()))


def gate():
    """Whether `make test` passed on the tree that is checked out, by what it left in out/gate."""
    left = ROOT / "out/gate"
    passed = left.exists() and left.read_text().splitlines() == [run("git", "rev-parse", "HEAD^{tree}"), run("rt", "version")]
    return GATE_PASSED if passed else GATE_NOT_RUN


def copyright_text(release, common=None):
    """The licences of all that is in a release. One whose text is in the folder `common` is only named."""
    own = LICENCE.read_text().strip() if LICENCE.exists() else NO_LICENCE
    return filled(ROOT / "release/copyright.in", VERSION=release.version, LICENCE=own, OF_THE_KIT=licences(common))


def licences(common):
    """The licences of the kit's crates whose code is linked, and the names of those that have none of their own."""
    crates = {}
    names = linked_crates()
    for name in names:
        for file in sorted((KIT / "rattle" / name).glob("LICEN*")):
            text = file.read_text().strip()
            if common and "Apache License" in text:
                text = f"Apache License, Version 2.0: {common}/Apache-2.0"
            crates.setdefault(text, []).append(name)
    parts = [f"{', '.join(users)}:\n\n{text}\n" for text, users in sorted(crates.items(), key=lambda it: it[1])]
    without = [name for name in names if not any(name in users for users in crates.values())]
    parts.append(f"Of the toolchain, with no licence text there: {', '.join(without)}\n")
    return ("\n" + "-" * 80 + "\n\n").join(parts)


def linked_crates():
    """The kit's crates that the program or the library stands on, directly or not."""
    ours = crates_below()["b3sum"] | crates_below()["b3_c"]
    lines = (ROOT / "crates.txt").read_text().splitlines()
    rows = [line.partition(":") for line in lines if line[:1] not in ("", "#")]
    todo = {"std", *(it for left, _, right in rows if left.split()[0] in ours for it in right.split())}
    found = set()
    while todo - found:
        name = min(todo - found)
        found.add(name)
        stands_on = KIT / "rlibs" / f"{name}.rlib/format"
        if stands_on.exists():
            todo |= set(re.findall(r"^dep (\w+)$", stands_on.read_text(errors="replace"), re.MULTILINE))
    return sorted(found - ours)
