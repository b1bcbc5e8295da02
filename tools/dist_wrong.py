"""Wrong releases, made of a right one, each with the test that is to find it out."""

import shutil
from contextlib import contextmanager

from dist_common import DEBIAN_LIB, put, run

# What picks a build, and wrong words in its place.
CHOICE = "is_v3 ? b3sum_x86_64_v3(count, words) : is_v2 ? b3sum_x86_64_v2(count, words) : b3sum_x86_64(count, words)"
ALWAYS, ALWAYS_V2, ALWAYS_V3 = (f"b3sum_x86_64{it}(count, words)" for it in ("", "_v2", "_v3"))
WRONG_WAY = f"is_v3 ? {ALWAYS_V2} : is_v2 ? {ALWAYS_V3} : {ALWAYS}"
BY_AVX2 = CHOICE.replace("is_v3", "CPU_FEATURE_ACTIVE(AVX2)")
BY_SSE4_2 = CHOICE.replace("is_v2", "CPU_FEATURE_ACTIVE(SSE4_2)")
OF_ALL, OF_V2, OF_V3 = "libb3.so.0", "glibc-hwcaps/x86-64-v2/libb3.so.0", "glibc-hwcaps/x86-64-v3/libb3.so.0"


class Copy:
    """A copy of a release, of which a part is made wrong. The sums are made anew, so that not they alone tell."""

    def __init__(self, right, folder):
        self.release, self.work = folder / "release", folder / "work"
        shutil.copytree(right, self.release)
        self.work.mkdir()
        run("tar", "-xzf", self.one("*-linux.tar.gz"), "--strip-components=2", "--wildcards", "-C", self.work, "*/bin/b3sum")

    def one(self, pattern):
        return next(self.release.glob(pattern))

    @contextmanager
    def archive(self, kind=""):
        """What is in the archive, or in that of a kind, to be changed: it is packed again."""
        path, root = self.one(f"*-linux{kind}.tar.gz"), self.work / f"archive{kind}"
        root.mkdir()
        run("tar", "-xzf", path, "-C", root)
        name = next(root.iterdir()).name
        yield root / name
        run("tar", "-czf", path, "-C", root, name)
        self.sum()

    @contextmanager
    def package(self, name):
        """What is in a package, to be changed: it is built again."""
        path, root = self.one(f"{name}_*.deb"), self.work / name
        run("dpkg-deb", "--raw-extract", path, root)
        yield root
        run("dpkg-deb", "--root-owner-group", "-Zgzip", "--build", root, path)
        self.sum()

    def sum(self):
        names = sorted(it.name for it in self.release.iterdir() if it.suffix in (".gz", ".deb"))
        for sums, command in (("SHA256SUMS", "sha256sum"), ("B3SUMS", self.work / "b3sum")):
            (self.release / sums).write_text(run(command, *names, cwd=self.release) + "\n")

    def linked(self, choice):
        """The objects, linked with another choice."""
        objects = self.work / "linked"
        objects.mkdir()
        run("tar", "-xzf", self.one("*-objects.tar.gz"), "--strip-components=1", "-C", objects)
        change(objects / "choose.c", CHOICE, choice)
        run("./link", cwd=objects)
        return objects


def change(path, old, new):
    text = path.read_text()
    if old not in text:
        raise ValueError(f"{path.name} has no {old}")
    path.write_text(text.replace(old, new))


def chosen(it, choice):
    with it.archive() as root:
        put(it.linked(choice) / "b3sum", root / "bin/b3sum", 0o755)


def chosen_in_package(it, choice):
    with it.package("b3sum-proved") as root:
        put(it.linked(choice) / "b3sum.dynamic", root / "usr/bin/b3sum", 0o755)


def dynamic(it):
    with it.package("b3sum-proved") as package, it.archive() as root:
        put(package / "usr/bin/b3sum", root / "bin/b3sum", 0o755)


def library(it, spoil):
    with it.archive() as root:
        spoil(root / "lib")


def library_in_package(it, spoil):
    with it.package("libb3-0") as root:
        spoil(root / "usr" / DEBIAN_LIB)


def of_v2_for_all(lib):
    put(lib / OF_V2, lib / OF_ALL)


def without_v2(lib):
    (lib / OF_V2).unlink()


def of_v3_for_v2(lib):
    put(lib / OF_V3, lib / OF_V2)


def without_v3(lib):
    (lib / OF_V3).unlink()


def changed(it, name, old, new):
    with it.archive() as root:
        change(root / name, old, new)


def changed_in_package(it, package, name, old, new):
    with it.package(package) as root:
        change(root / name, old, new)


def longer(path):
    with path.open("ab") as file:
        file.write(b"\0")


def another_object(it):
    with it.archive("-objects") as root:
        longer(root / "x86-64-v2/b3sum.o")


def another_program(it):
    with it.package("b3sum-proved") as root:
        longer(root / "usr/bin/b3sum")


def another_static_library(it):
    with it.package("libb3-dev") as root:
        longer(root / "usr" / DEBIAN_LIB / "libb3.a")


# A wrong release, the test that is to find it out, and what makes it.
WRONG = [
    ("the archive: always v3", "the archive's program: digest, hidden: AVX2", lambda it: chosen(it, ALWAYS_V3)),
    ("the archive: always v2", "the archive's program: digest, hidden: AVX2,SSE4_2", lambda it: chosen(it, ALWAYS_V2)),
    ("the archive: always the lowest level", "the archive's program: which build, hidden: nothing",
     lambda it: chosen(it, ALWAYS)),
    ("the archive: the wrong way round", "the archive's program: digest, hidden: AVX2",
     lambda it: chosen(it, WRONG_WAY)),
    ("the archive: by one part of v3 alone", "the archive's program: which build, hidden: MOVBE",
     lambda it: chosen(it, BY_AVX2)),
    ("the archive: by one part of v2 alone", "the archive's program: which build, hidden: AVX2,POPCNT",
     lambda it: chosen(it, BY_SSE4_2)),
    ("the package: always v3", "the package's program: digest, hidden: AVX2", lambda it: chosen_in_package(it, ALWAYS_V3)),
    ("the package: always the lowest level", "the package's program: which build, hidden: nothing",
     lambda it: chosen_in_package(it, ALWAYS)),
    ("a dynamic program in the archive", "it links nothing", dynamic),
    ("the archive: the library of v2 for all", "the archive: the library on x86-64", lambda it: library(it, of_v2_for_all)),
    ("the archive: no library of v2", "the archive: the library for x86-64-v2", lambda it: library(it, without_v2)),
    ("the archive: the library of v3 for v2", "the archive: the library on x86-64-v2",
     lambda it: library(it, of_v3_for_v2)),
    ("the archive: no library of v3", "the archive: the library for x86-64-v3", lambda it: library(it, without_v3)),
    ("the package: the library of v2 for all", "the packages: the library on x86-64",
     lambda it: library_in_package(it, of_v2_for_all)),
    ("the package: no library of v3", "the packages: the library for x86-64-v3",
     lambda it: library_in_package(it, without_v3)),
    ("a byte more in a package", "SHA256SUMS", lambda it: longer(it.one("libb3-dev_*.deb"))),
    ("a file that is not that of the package's sums", "the packages are as their sums say",
     lambda it: changed_in_package(it, "libb3-dev", "usr/include/b3/blake3.h", "BLAKE3", "BLAKE4")),
    ("a wrong b3.pc", "the archive: a C program is compiled, shared",
     lambda it: changed(it, "lib/pkgconfig/b3.pc", "include/b3", "include")),
    ("another version of the man page", "version of the man page",
     lambda it: changed(it, "share/man/man1/b3sum.1", '"b3sum ', '"b3sum 9.')),
    ("another version of b3.pc", "version of b3.pc",
     lambda it: changed(it, "lib/pkgconfig/b3.pc", "\nVersion: ", "\nVersion: 9.")),
    ("another version of a package", "version of libb3-0",
     lambda it: changed_in_package(it, "libb3-0", "DEBIAN/control", "\nVersion: ", "\nVersion: 9.")),
    ("a statement without the gate", "the statement speaks of the gate",
     lambda it: changed(it, "share/doc/b3sum/PROOF", "\ngate ", "\nnothing ")),
    ("another object", "sum of x86-64-v2/b3sum.o", another_object),
    ("another program in a package", "linked again: b3sum.dynamic of the packages", another_program),
    ("another static library in a package", "linked again: x86-64-v2/libb3.a of the packages", another_static_library),
]
