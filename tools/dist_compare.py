"""Compares two releases: their files, and what is in those that differ."""

import io
import subprocess
import tarfile


def differences(ours, theirs):
    """What differs in their folder from ours: a line for each file, and one for each thing in it."""
    for path in sorted(it for it in ours.iterdir() if it.is_file()):
        other = theirs / path.name
        if not other.is_file():
            yield f"{path.name}: is not there"
        elif other.read_bytes() != path.read_bytes():
            yield f"{path.name}: differs"
            try:
                yield from inside(path, other)
            except (tarfile.TarError, OSError, EOFError, subprocess.CalledProcessError) as error:
                yield f"    it cannot be read: {error}"


def inside(path, other):
    """What differs in an archive or a package, or in a list of sums."""
    if path.suffix not in (".gz", ".deb"):
        return lines_that_differ(path.read_bytes(), other.read_bytes())
    ours, theirs = members(path), members(other)
    found = []
    for name in sorted(ours.keys() | theirs.keys()):
        if ours.get(name) != theirs.get(name):
            found.append(f"    {name}")
            if name.endswith("/PROOF") and name in ours and name in theirs:
                found += lines_that_differ(ours[name][-1], theirs[name][-1])
    return found or ["    what is in it is the same"]


def lines_that_differ(ours, theirs):
    ours, theirs = (text.decode(errors="replace").splitlines() for text in (ours, theirs))
    return ([f"        ours:   {line}" for line in ours if line not in theirs]
            + [f"        theirs: {line}" for line in theirs if line not in ours])


def members(path):
    """What is in an archive or a package, by its name: mode, owner, time, target and content of each."""
    if path.suffix != ".deb":
        return tar_members(path.read_bytes())
    parts = [subprocess.run(["dpkg-deb", part, path], stdout=subprocess.PIPE, stderr=subprocess.PIPE, check=True).stdout
             for part in ("--ctrl-tarfile", "--fsys-tarfile")]
    return {f"control: {name}": it for name, it in tar_members(parts[0]).items()} | tar_members(parts[1])


def tar_members(content):
    with tarfile.open(fileobj=io.BytesIO(content)) as archive:
        return {it.name: (it.mode, it.uid, it.gid, it.mtime, it.linkname,
                          archive.extractfile(it).read() if it.isfile() else b"") for it in archive}
