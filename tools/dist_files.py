"""The files of a release: the archive, the archive of objects and the Debian packages. Their bytes depend on nothing but what
is in them and the time of the commit."""

import hashlib
import re
import shutil
from datetime import datetime, timezone
from email.utils import format_datetime

from dist_build import DYNAMIC, LINKED, OBJECTS, STATIC
from dist_common import (DEBIAN_LIB, LEVELS, ROOT, STATIC_LEVEL, WORK, empty, files_of, filled, program_version, put, run,
                         write)
from dist_texts import copyright_text

# Who answers for the Debian packages.
MAINTAINER = "The makers of b3sum <b3sum@example.invalid>"
PROGRAM = """Section: utils
Depends: libc6 (>= {glibc})
Provides: b3sum
Conflicts: b3sum
Replaces: b3sum
Description: BLAKE3 checksums, by a program that is proved
 Writes BLAKE3 checksums of files, and checks them, as sha256sum does for
 SHA-256. Every step from the bytes that are read to the line that is printed
 is proved. It runs on every x86-64 processor, and uses SSE 4.2 and AVX2 where
 they are there.
"""
LIBRARY = """Section: libs
Multi-Arch: same
Depends: libc6 (>= {glibc})
Description: BLAKE3 hashes, by a C library whose code is proved
 The library hashes by the calls of the BLAKE3 project's blake3.h. It allocates
 no memory and starts no thread. It runs on every x86-64 processor, and uses
 SSE 4.2 and AVX2 where they are there.
"""
DEVELOPMENT = """Section: libdevel
Depends: libb3-0 (= {version})
Description: BLAKE3 hashes, by a C library whose code is proved - for programs
 The header, the static library and the pkg-config file for programs that call
 the library.
"""


def archive(release, proof, folder):
    """What is unpacked below /usr/local or anywhere else, of which each program and library is found by its place."""
    name = f"b3sum-{release.version}-x86_64-linux"
    root = empty(WORK / name)
    put(STATIC, root / "bin/b3sum", 0o755)
    texts(root, root / "share/zsh/site-functions")
    shared_library(root / "lib")
    development_files(root, "lib", "${pcfiledir}/../..")
    doc = root / "share/doc/b3sum"
    write(doc / "PROOF", proof)
    write(doc / "README", filled(ROOT / "release/README.in", VERSION=release.version, ARCHIVE=f"{name}.tar.gz",
                                 LIBRARY_GLIBC=glibc(library(LEVELS[0]))))
    write(doc / "copyright", copyright_text(release))
    put(ROOT / "docs/EMBEDDING.md", doc / "EMBEDDING.md")
    pack(root, release.time, folder)


def objects_archive(release, folder):
    """The objects, with which a release is compared, and the program linked again with another C library."""
    root = WORK / f"b3sum-{release.version}-x86_64-linux-objects"
    shutil.copytree(OBJECTS, root)
    write(root / "copyright", copyright_text(release))
    pack(root, release.time, folder)


def packages(release, proof, folder):
    package = Package(release, folder)
    root = package.root("b3sum-proved")
    put(DYNAMIC, root / "usr/bin/b3sum", 0o755)
    texts(root / "usr", root / "usr/share/zsh/vendor-completions")
    write(root / "usr/share/doc/b3sum-proved/PROOF", proof)
    package.build(root, PROGRAM.format(glibc=glibc(DYNAMIC)))

    root = package.root("libb3-0")
    shared_library(root / "usr" / DEBIAN_LIB)
    package.build(root, LIBRARY.format(glibc=glibc(library(LEVELS[0]))), triggers="activate-noawait ldconfig\n",
                  shlibs=f"libb3 0 libb3-0 (>= {release.version})\n")

    root = package.root("libb3-dev")
    development_files(root / "usr", DEBIAN_LIB, "/usr")
    put(ROOT / "docs/EMBEDDING.md", root / "usr/share/doc/libb3-dev/EMBEDDING.md")
    package.build(root, DEVELOPMENT.format(version=release.version))


def texts(prefix, zsh):
    """The manual page and the completions, as `make install` puts them. The Makefile takes no spaces in a path."""
    run("make", "--silent", "install-texts", f"PREFIX={prefix.relative_to(ROOT)}", f"ZSH={zsh.relative_to(ROOT)}")


def library(level):
    return LINKED / level / "libb3.so.0"


def shared_library(lib):
    """That of the lowest level, and below the folder of each other one that of it, which the loader finds by itself."""
    put(library(LEVELS[0]), lib / "libb3.so.0")
    for level in LEVELS[1:]:
        put(library(level), lib / "glibc-hwcaps" / level / "libb3.so.0")


def development_files(root, lib, prefix):
    put(OBJECTS / STATIC_LEVEL / "libb3.a", root / lib / "libb3.a")
    (root / lib / "libb3.so").symlink_to("libb3.so.0")
    put(ROOT / "include/blake3.h", root / "include/b3/blake3.h")
    write(root / lib / "pkgconfig/b3.pc", filled(ROOT / "b3.pc.in", PREFIX=prefix, LIBDIR="${prefix}/" + lib,
                                                 CPU=STATIC_LEVEL, VERSION=program_version()))


def glibc(path):
    """The least version of glibc that has all names which a program or library asks for."""
    found = re.findall(r"GLIBC_(\d+)\.([\d.]+)", run("objdump", "-T", path))
    return ".".join(max(found, key=lambda it: [int(it[0]), *map(int, it[1].split("."))]))


def pack(root, time, folder):
    """An archive. It has no folders, so that those which are there when it is unpacked keep their modes."""
    names = [it.relative_to(root.parent) for it in files_of(root)]
    path = folder / f"{root.name}.tar"
    run("tar", "--format=gnu", f"--mtime=@{time}", "--owner=0", "--group=0", "--numeric-owner", "--mode=a=rX,u+w",
        "-cf", path, "-C", root.parent, *names)
    run("gzip", "-9n", path)


class Package:
    """Makes Debian packages by dpkg-deb alone."""

    def __init__(self, release, folder):
        self.release, self.folder = release, folder
        self.copyright = copyright_text(release, "/usr/share/common-licenses")
        self.changelog = (f"b3sum-proved ({release.version}) unstable; urgency=medium\n\n"
                          "  * The history of the sources has the changes.\n\n"
                          f" -- {MAINTAINER}  {format_datetime(datetime.fromtimestamp(release.time, timezone.utc))}\n")

    def root(self, name):
        return empty(WORK / "packages" / name)

    def build(self, root, control, **more):
        """The package of the files below the root, which is named after it; `more` are files that dpkg reads."""
        name = root.name
        write(root / "usr/share/doc" / name / "copyright", self.copyright)
        write(root / "usr/share/doc" / name / "changelog", self.changelog)
        run("gzip", "-9n", root / "usr/share/doc" / name / "changelog", *root.rglob("share/man/*/*"))
        files = [it for it in files_of(root) if not it.is_symlink()]
        size = sum((it.stat().st_size + 1023) // 1024 for it in files)
        sums = "".join(f"{hashlib.md5(it.read_bytes()).hexdigest()}  {it.relative_to(root)}\n" for it in files)
        head = (f"Package: {name}\nSource: b3sum-proved\nVersion: {self.release.version}\nArchitecture: amd64\n"
                f"Maintainer: {MAINTAINER}\nInstalled-Size: {size}\nPriority: optional\n")
        for file, text in {"control": head + control, "md5sums": sums, **more}.items():
            write(root / "DEBIAN" / file, text)
        for path in [root, *root.rglob("*")]:
            if path.is_dir():
                path.chmod(0o755)
        path = self.folder / f"{name}_{self.release.version}_amd64.deb"
        run("dpkg-deb", "--root-owner-group", "-Zxz", "--build", root, path, SOURCE_DATE_EPOCH=str(self.release.time))
