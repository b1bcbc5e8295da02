"""The tests of a release in an unpacked Debian, where the toolchain has never been: its archive and its packages are
installed there, used as README.md says, and removed."""

import re
import shutil
from pathlib import Path

from dist_checks import ABC, PACKAGES, run, text_of
from dist_common import ROOT, empty, program_version

README = (ROOT / "README.md").read_text()


class Debian:
    def __init__(self, root):
        self.root = root

    def shell(self, text, folder="/release"):
        """Runs a command in a folder of that root, with a /proc of its own."""
        words = ["unshare", "--mount", "--pid", "--fork", "--kill-child", "chroot", self.root, "sh", "-ec",
                 f"mount -t proc proc /proc; cd {folder}; {text}"]
        path = "/usr/local/sbin:/usr/local/bin:/usr/sbin:/usr/bin:/sbin:/bin"
        return run(*words, PATH=path, DEBIAN_FRONTEND="noninteractive")


def in_debian(checks, release, root):
    debian = Debian(root)
    status, said = debian.shell("! command -v rt && ! command -v b3sum", "/")
    checks.expect("Debian: it has neither the toolchain nor a b3sum", status == 0, said)
    if status:
        return
    for path in empty(root / "release"), *release.folder.iterdir():
        if path.is_file():
            shutil.copy(path, root / "release")
    # A program that was compiled where there is a compiler.
    shared = next(release.work.glob("*.shared"), None)
    if shared:
        shutil.copy(shared, root / "release/caller")
    for name, put_in, take_out in ways(release):
        status, said = debian.shell(put_in)
        checks.expect(f"Debian, {name}: installed", status == 0, said)
        said = debian.shell("b3sum --version")
        checks.expect(f"Debian, {name}: version", said == (0, f"b3sum {program_version()}\n"), said)
        examples(checks, f"Debian, {name}", debian)
        if shared:
            said = debian.shell("./caller")
            checks.expect(f"Debian, {name}: a C program runs", said == (0, f"{ABC}\n"), said)
        status, said = debian.shell(take_out)
        checks.expect(f"Debian, {name}: removed", status == 0, said)
        ours = "! -path '/release/*' ! -path '/var/*' ! -type d '(' -name '*b3sum*' -o -name 'libb3*' ')'"
        said = debian.shell(f"find / -xdev {ours}")
        checks.expect(f"Debian, {name}: no file is left", said == (0, ""), said)
    shutil.rmtree(root / "release")


def ways(release):
    """Each way in which a release is installed and removed, as README.md and the README of the archive say."""
    install = re.search(r"\n## Install\n(.*?)\n## ", README, re.DOTALL)[1]
    install = install.replace("sudo ", "").replace("VERSION", release.version)
    unpack = re.search(r"```sh\n(.*?)```", install, re.DOTALL)[1]
    remove = re.search(r"tar -tzf .*", text_of(release.prefix / "share/doc/b3sum/README"))[0].replace("sudo ", "")
    # The program as README.md says it, and then the library.
    program = re.search(r"`(apt install [^`]+)`", install)[1]
    files = " ".join(f"./{release.package(name).name}" for name in PACKAGES[1:])
    names = " ".join(PACKAGES)
    return (("the archive", unpack, remove),
            ("the packages", f"{program} -y; apt-get install -y {files}; dpkg --verify {names}", f"apt-get purge -y {names}"))


def examples(checks, name, debian):
    """The commands of README.md, after which those lines must stand that it shows."""
    block = re.search(r"```console\n(.*?)```", README, re.DOTALL)[1]
    rows = re.findall(r"^\$ (.+?)(?: {2,}#.*)?\n((?:[^$].*\n)*)", block, re.MULTILINE)
    folder = empty(debian.root / "release/examples")
    (folder / "photos").mkdir()
    for file in ("notes.tar", "release.tar", "gone.tar", "photos/one"):
        (folder / file).write_text(file)
    for number, (command, shown) in enumerate(rows):
        status, said = debian.shell(command, "/release/examples")
        # Each check finds what is changed below, also where README.md does not show what it says.
        is_check = "--check" in command
        is_right = sorted(said.splitlines()) == sorted(shown.splitlines()) or is_check and not shown and "FAILED" in said
        is_right = is_right and status == is_check
        checks.expect(f"{name}: {command}", is_right, (status, said))
        if number == 0:
            # Between the list and its check one file is changed, and one removed.
            (folder / "release.tar").write_text("changed")
            (folder / "gone.tar").unlink()
