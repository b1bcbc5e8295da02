"""The crates of the repository, from crates.txt."""

from pathlib import Path

ROOT = Path(__file__).resolve().parent.parent


def crate_lines():
    """The lines of crates.txt that list the crates of the repository, by their names."""
    lines = (ROOT / "crates.txt").read_text().splitlines()
    return {line.partition(":")[0].split()[0]: line for line in lines if line[:1] not in ("", "#")}


def crates_below():
    """The crates of the repository that a crate depends on, with itself, by its name."""
    direct = {name: line.partition(":")[2].split() for name, line in crate_lines().items()}

    def below(name):
        return {name}.union(*(below(other) for other in direct[name] if other in direct))

    return {name: below(name) for name in direct}


def files_of(name, *parts):
    """The files below these parts of a crate's folder."""
    folder = ROOT / "crates" / name
    return sorted(it for part in parts for it in (folder / part).rglob("*") if it.is_file())


def own_texts(name):
    """Everything that the proof of a crate is made from: its files, and what each holds."""
    return [(str(it.relative_to(ROOT)), it.read_text()) for it in files_of(name, "src", "specs", "proofs")]
