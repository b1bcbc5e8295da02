"""The tests of a release, as a user gets it."""

import os
import re
import shutil
import subprocess
import tarfile
from dataclasses import dataclass
from pathlib import Path

from dist_build import level_of
from dist_common import DEBIAN_LIB, LEVELS, ROOT, STATIC_LEVEL, files_of, program_version, sha256
from dist_texts import GATE_NOT_RUN, GATE_PASSED

ABC = "6437b3ac38465133ffb63b75273a8db548c558465d79db03fd359c6cd5bd9d85"
# The C program of docs/EMBEDDING.md.
CALLER = re.search(r"```c\n(.*?)```", (ROOT / "docs/EMBEDDING.md").read_text(), re.DOTALL)[1]
HAS_AVX2 = " avx2 " in Path("/proc/cpuinfo").read_text()
# What glibc can hide of what each level has above the one before.
ABOVE = {"x86-64-v2": ["POPCNT", "SSE4_1", "SSE4_2"],
         "x86-64-v3": ["AVX", "AVX2", "BMI1", "BMI2", "FMA", "LZCNT", "MOVBE"]}
# As root of a name space of its own, where this is not root.
AS_ROOT = [] if os.geteuid() == 0 else ["unshare", "--map-root-user"]
PACKAGES = ["b3sum-proved", "libb3-0", "libb3-dev"]


class Checks:
    """What was tested and failed, and what could not be tested."""

    def __init__(self, is_quiet=False):
        self.passed, self.failed, self.untested, self.is_quiet = 0, [], set(), is_quiet

    def expect(self, what, is_so, said=""):
        self.passed += bool(is_so)
        if not is_so:
            self.failed.append(what)
            self.say(f"FAILED: {what}\n{said}")

    def has(self, tool):
        """Whether a program is installed; if not, that is told once."""
        if not shutil.which(tool):
            self.leave_out(f"{tool} is not installed")
        return shutil.which(tool)

    def leave_out(self, why):
        if why not in self.untested:
            self.say(f"not tested: {why}")
        self.untested.add(why)

    def say(self, text):
        if not self.is_quiet:
            print(text.rstrip(), flush=True)


@dataclass
class Unpacked:
    """A release and what a user makes of it: the archive unpacked, and the packages installed below an empty root."""

    folder: Path
    archive: Path
    prefix: Path
    installed: Path
    work: Path

    @property
    def version(self):
        return self.archive.name.removeprefix("b3sum-").removesuffix("-x86_64-linux.tar.gz")

    def package(self, name):
        return self.folder / f"{name}_{self.version}_amd64.deb"


def run(*words, text="", cwd=None, **environment):
    """The exit status of a command and what it wrote, with hardly any environment. One that hangs is killed."""
    words = ["timeout", "--kill-after=1", "300", *(str(it) for it in words)]
    # What dpkg calls is not in the path of every user.
    environment = {"PATH": os.environ["PATH"] + ":/usr/sbin:/sbin", "LC_ALL": "C", **environment}
    ran = subprocess.run(words, input=text, cwd=cwd, stdout=subprocess.PIPE, stderr=subprocess.STDOUT, text=True,
                         errors="replace", env=environment)
    return ran.returncode, ran.stdout


def text_of(path):
    return path.read_text() if path.exists() else ""


def check(checks, folder, work):
    """Tests the release in the folder, with files of its own below `work`."""
    archives = list(folder.glob("b3sum-*-x86_64-linux.tar.gz"))
    if len(archives) != 1:
        checks.expect("one archive", False, f"{folder} has no release: make dist makes it")
        return None
    release = Unpacked(folder, archives[0], work / "prefix", work / "installed", work)
    release.prefix.mkdir(parents=True)
    said = run("tar", "-xzf", release.archive, "--strip-components=1", "-C", release.prefix)
    checks.expect("the archive is unpacked", said == (0, ""), said)
    install(checks, release)
    programs = release.prefix / "bin/b3sum", release.installed / "usr/bin/b3sum"
    for test in (sums, versions, statement, objects, texts, imports):
        test(checks, release)
    for name, path in zip(("the archive's program", "the package's program"), programs):
        program(checks, name, path)
    alone(checks, programs[0])
    library(checks, "the archive", release.prefix, "lib", release.work, {})
    library(checks, "the packages", release.installed / "usr", DEBIAN_LIB, release.work,
            {"PKG_CONFIG_SYSROOT_DIR": str(release.installed)})
    return release


def install(checks, release):
    """Below a root that is empty: what the program needs of libc is that of this system."""
    for folder in ("updates", "info", "triggers"):
        (release.installed / "var/lib/dpkg" / folder).mkdir(parents=True)
    (release.installed / "var/lib/dpkg/status").touch()
    files = map(release.package, PACKAGES)
    status, said = run(*AS_ROOT, "dpkg", f"--root={release.installed}", "--force-depends", "--install", *files)
    checks.expect("the packages are installed", status == 0, said)
    said = run("dpkg", f"--root={release.installed}", "--verify")
    checks.expect("the packages are as their sums say", said == (0, ""), said)


def remove(checks, release):
    status, said = run(*AS_ROOT, "dpkg", f"--root={release.installed}", "--purge", *PACKAGES)
    checks.expect("the packages are removed", status == 0, said)
    left = files_of(release.installed / "usr") if (release.installed / "usr").exists() else []
    checks.expect("no file is left of the packages", not left, left)


def sums(checks, release):
    program = release.prefix / "bin/b3sum"
    for list_name, command in (("SHA256SUMS", ["sha256sum"]), ("B3SUMS", [program])):
        status, said = run(*command, "--strict", "--check", list_name, cwd=release.folder)
        checks.expect(list_name, status == 0, said)
        named = {line.split("  ")[1] for line in (release.folder / list_name).read_text().splitlines()}
        there = {path.name for path in release.folder.iterdir()} - {"SHA256SUMS", "B3SUMS"}
        checks.expect(f"{list_name} names all files", named == there, named ^ there)


def versions(checks, release):
    """All say the version of the sources; the files and packages perhaps the commit besides."""
    version = program_version()
    form = re.escape(version) + r"(~\d{8}\.[0-9a-f]{7})?"
    checks.expect("version of the files", re.fullmatch(form, release.version), release.version)
    for name in PACKAGES:
        said = run("dpkg-deb", "--field", release.package(name), "Version")
        checks.expect(f"version of {name}", said == (0, f"{release.version}\n"), said)
    for path in (release.prefix / "lib/pkgconfig/b3.pc", release.installed / "usr" / DEBIAN_LIB / "pkgconfig/b3.pc"):
        checks.expect("version of b3.pc", f"\nVersion: {version}\n" in text_of(path), text_of(path))
    page = text_of(release.prefix / "share/man/man1/b3sum.1")
    checks.expect("version of the man page", f'"b3sum {version}"' in page, page[:200])


def statement(checks, release):
    """The statement is whole, of the objects that are in the release, and the same in the archive and the package."""
    text = text_of(release.prefix / "share/doc/b3sum/PROOF")
    checks.expect("one statement", text_of(release.installed / "usr/share/doc/b3sum-proved/PROOF") == text)
    said = dict(re.findall(r"^(commit|kit|gate) {2,}(.+)$", text, re.MULTILINE))
    commit = said.get("commit", "")
    checks.expect("the statement names the commit", re.fullmatch(r"[0-9a-f]{40}", commit), text)
    checks.expect("the version names the commit", "~" not in release.version or release.version.endswith(f".{commit[:7]}"))
    checks.expect("the statement names the kit", "kit" in said, text)
    checks.expect("the statement speaks of the gate", said.get("gate") in (GATE_PASSED, GATE_NOT_RUN), text)
    checks.say(f"the statement is of commit {commit}, and says of the gate: {said.get('gate')}")
    for level in LEVELS:
        for product in ("b3sum.o", "libb3.a"):
            found = re.search(rf"^  {level}/{product}: (logic=proved .*)", text, re.MULTILINE)
            checks.expect(f"verdict of {level}/{product}", found and level_of(found[1]) == level, text)


def objects(checks, release):
    """The objects are those of the statement. They link to both programs and to the libraries, in both of which the static
    one is an object."""
    folder = release.work / "objects"
    with tarfile.open(release.archive.with_name(release.archive.name.replace(".tar.gz", "-objects.tar.gz"))) as archive:
        archive.extractall(release.work)
    (release.work / f"b3sum-{release.version}-x86_64-linux-objects").rename(folder)
    text = text_of(release.prefix / "share/doc/b3sum/PROOF")
    for name in (f"{level}/{product}" for level in LEVELS for product in ("b3sum.o", "libb3.a")):
        checks.expect(f"sum of {name}", f"  {sha256(folder / name)}  {name}\n" in text, text)
    if not checks.has("cc") or not checks.has("objcopy"):
        return
    said = run("./link", cwd=folder)
    checks.expect("the objects are linked again", said == (0, ""), said)
    archive, packages = release.prefix / "lib", release.installed / "usr" / DEBIAN_LIB
    rows = [("b3sum", release.prefix / "bin/b3sum"), ("b3sum.dynamic", release.installed / "usr/bin/b3sum")]
    for lib in archive, packages:
        rows += [(f"{STATIC_LEVEL}/libb3.a", lib / "libb3.a")]
        rows += [(f"{level}/libb3.so.0", lib / place_of(level) / "libb3.so.0") for level in LEVELS]
    for made, path in rows:
        is_same = path.exists() and sha256(folder / made) == sha256(path)
        what = f"linked again: {made} of the {'packages' if release.installed in path.parents else 'archive'}"
        checks.expect(what, is_same, "with another compiler, binutils or C library it may differ")


def stack(checks, release):
    """The program turns the main thread's stack: seen where the build for AVX2 is linked alone, with its names."""
    if not HAS_AVX2 or not all([checks.has("cc"), checks.has("gdb"), checks.has("objdump")]):
        return
    folder, build = release.work / "objects", "b3sum_x86_64_v3"
    others = [f"-Wl,--defsym,{build.replace('_v3', it)}={build}" for it in ("", "_v2")]
    parts = [folder / it for it in ("choose.o", f"{LEVELS[-1]}.o", "libos_c.a", "liblibc_c.a")]
    said = run("cc", "-static-pie", *others, *parts, "-o", folder / "named")
    checks.expect("the build for AVX2 is linked alone", said[0] == 0, said)
    said = run(ROOT / "tools/stack-places", "--main", folder / "named")
    checks.expect("where vectors lie on the stack", said[0] == 0, said[1])


def texts(checks, release):
    for root, zsh in ((release.prefix, "site-functions"), (release.installed / "usr", "vendor-completions")):
        path = root / "share/bash-completion/completions/b3sum"
        words = f"source '{path}'; COMP_WORDS=(b3sum --fil); COMP_CWORD=1; _b3sum; echo ${{COMPREPLY[@]}}"
        said = run("bash", "-c", words)
        checks.expect("completion in bash", said == (0, "--files0-from\n"), said)
        for shell, place in (("zsh", f"share/zsh/{zsh}/_b3sum"), ("fish", "share/fish/vendor_completions.d/b3sum.fish")):
            checks.expect(f"completions for {shell} are there", (root / place).exists())
            if checks.has(shell):
                said = run(shell, "-n", root / place)
                checks.expect(f"completions for {shell}", said == (0, ""), said)
        if checks.has("man"):
            page = next(root.glob("share/man/man1/b3sum.1*"), root / "share/man/man1/b3sum.1")
            said = run("man", "--warnings", "--local-file", page)
            is_right = said[0] == 0 and said[1].startswith("B3SUM(1)") and f"b3sum {program_version()}" in said[1]
            checks.expect("man page", is_right and "warning" not in said[1], said[1][:500])


def imports(checks, release):
    if checks.has("nm"):
        said = run(ROOT / "tools/imports", release.installed / "usr/bin/b3sum")
        checks.expect("the package's program imports what is listed", said[0] == 0, said[1])


def program(checks, name, path):
    """It runs on each level of processor that it is for, and says so on one that it is not for."""
    said = run(path, "--version")
    checks.expect(f"{name}: version", said == (0, f"b3sum {program_version()}\n"), said)
    right = (0, f"{ABC}  -\n")
    for hidden in ("", "AVX2", "AVX2,SSE4_2"):
        said = run(path, text="abc", **without(hidden))
        checks.expect(f"{name}: digest, hidden: {hidden or 'nothing'}", said == right, said)
    levels(checks, name, path)
    if checks.has("qemu-x86_64"):
        # Of each level one that stops at an instruction which it lacks.
        for processor in ("qemu64", "Nehalem", "Haswell", "max"):
            # It warns of what it cannot emulate.
            status, said = run("qemu-x86_64", "-cpu", processor, path, text="abc")
            checks.expect(f"{name}: digest on {processor}", (status, said[-len(right[1]):]) == right, said)


def levels(checks, name, path):
    """Which build is chosen where nothing is hidden of what the levels have, and where one feature is. SSSE3, at which the
    choice does not look, is hidden besides: so one that is chosen, and needs it, says which it is."""
    if not HAS_AVX2:
        checks.leave_out("this processor has no AVX2")
        return
    lowest, middle, highest = LEVELS
    chosen = [("", highest), *((it, middle) for it in ABOVE[highest]), *((f"AVX2,{it}", lowest) for it in ABOVE[middle])]
    for hidden, level in chosen:
        said = run(path, text="abc", **without(f"{hidden},SSSE3"))
        is_right = said == (0, f"{ABC}  -\n") if level == lowest else said[0] == 127 and f"lacks a feature of {level}," in said[1]
        checks.expect(f"{name}: which build, hidden: {hidden or 'nothing'}", is_right, said)


def without(hidden):
    """What hides features, whose names are between commas, from a program that asks glibc."""
    return {"GLIBC_TUNABLES": f"glibc.cpu.hwcaps={','.join(f'-{it}' for it in hidden.split(',') if it)}"}


def alone(checks, path):
    """The archive's program needs no other file, neither a library nor a loader, and runs in a root with nothing else."""
    if checks.has("readelf"):
        said = run("readelf", "--dynamic", "--program-headers", path)
        checks.expect("it links nothing", said[0] == 0 and not re.search(r"NEEDED|INTERP", said[1]), said[1])
    empty = path.parent.parent.parent / "empty"
    empty.mkdir()
    shutil.copy(path, empty / "b3sum")
    if run(*AS_ROOT, "chroot", "/", "true")[0]:
        checks.leave_out("a root with nothing but the program, which takes a name space of users")
        return
    said = run(*AS_ROOT, "chroot", empty, "/b3sum", text="abc")
    checks.expect("it runs in an empty root", said == (0, f"{ABC}  -\n"), said)


def library(checks, name, prefix, lib, work, environment):
    """A program that is compiled with the library, statically and not, and which level of it the loader picks."""
    if not checks.has("cc") or not checks.has("pkg-config") or not checks.has("readelf"):
        return
    caller, (shared, static) = work / "caller.c", (work / f"{name.split()[-1]}.{kind}" for kind in ("shared", "static"))
    caller.write_text(CALLER)
    environment = {"PKG_CONFIG_PATH": str(prefix / lib / "pkgconfig"), "PKG_CONFIG_ALLOW_SYSTEM_CFLAGS": "1",
                   "PKG_CONFIG_ALLOW_SYSTEM_LIBS": "1", **environment}
    flags = run("pkg-config", "--cflags", "--libs", "b3", **environment)[1].split()
    includes = [flag for flag in flags if flag.startswith("-I")]
    for made, more in ((shared, flags), (static, [*includes, prefix / lib / "libb3.a"])):
        said = run("cc", caller, *more, "-o", made)
        checks.expect(f"{name}: a C program is compiled, {made.suffix[1:]}", said == (0, ""), said)
    path = {"LD_LIBRARY_PATH": str(prefix / lib)}
    for made, more in ((shared, path), (static, {})):
        said = run(made, **more) if made.exists() else "it is not there"
        checks.expect(f"{name}: a C program runs, {made.suffix[1:]}", said == (0, f"{ABC}\n"), said)
    if shared.exists():
        levels_of_library(checks, name, prefix / lib, shared, path)


def place_of(level):
    """Where the loader looks for a library of a level, below the folder of libraries."""
    return "" if level == LEVELS[0] else f"glibc-hwcaps/{level}"


def levels_of_library(checks, name, lib, shared, path):
    if checks.has("qemu-x86_64"):
        for processor in ("qemu64", "Nehalem"):
            said = run("qemu-x86_64", "-cpu", processor, shared, **path)
            checks.expect(f"{name}: the library on {processor}", said == (0, f"{ABC}\n"), said)
    loader = re.search(r"Requesting program interpreter: ([^]]+)", run("readelf", "--program-headers", shared)[1])[1]
    for level in LEVELS:
        said = run("readelf", "--notes", lib / place_of(level) / "libb3.so.0")[1]
        needed = re.search(r"ISA needed: .*\b(x86-64-v\d)$", said, re.MULTILINE)
        checks.expect(f"{name}: the library on {level}", (needed[1] if needed else LEVELS[0]) == level, said)
        wanted = lib / (place_of(level) if HAS_AVX2 else "") / "libb3.so.0"
        said = run(loader, "--glibc-hwcaps-mask", level, "--list", shared, **path)[1]
        checks.expect(f"{name}: the library for {level}", f"=> {wanted} " in said, said)
        said = run(loader, "--glibc-hwcaps-mask", level, shared, **path)
        checks.expect(f"{name}: its digest for {level}", said == (0, f"{ABC}\n"), said)
