"""What has to be read for each law: its clauses, everything that they cite, and how much that is."""

import re
import shutil
from dataclasses import dataclass, field
from functools import cache
from pathlib import Path

from closure import NotFound, closure, source_file, without_unnamed
from laws import ASSUMED, CONTRACT, LAWS, LIBRARIES, OPAQUE, OWED, Clauses, Ghosts

SECONDS_A_LINE = 8

# The libraries that `std` re-exports.
PASSED_ON = ("core", "std_alloc", "std_heap", "std_io")


@dataclass
class Reading:
    """What a law depends on: the clauses that state it, all items, those that are new with it, and words of the kit."""
    roots: list = field(default_factory=list)
    items: list = field(default_factory=list)
    fresh: list = field(default_factory=list)
    kit: set = field(default_factory=set)
    faults: list = field(default_factory=list)

    def definitions(self):
        return [it for it in self.items if it.word.kind == "definition"]

    def lines(self):
        return sum(it.lines() for it in self.items)

    def files(self):
        return {it.file for it in self.roots + self.items}

    def new_lines(self):
        return sum(it.lines() for it in self.fresh)

    def minutes(self):
        """How many minutes it takes to read the clauses and what is new."""
        lines = self.new_lines() + sum(it.lines() for it in self.roots)
        return -(-lines * SECONDS_A_LINE // 60)


def root_items(root):
    """What has to be read of a root."""
    source = source_file(f"crates/{root.file}")
    if isinstance(root, Clauses):
        return [source.contract(root.function).item(root.names)]
    if isinstance(root, Ghosts):
        return [source.block(root.block, root.names)]
    return [call.item(is_owed=True) for call in source.public(root.kind)
            if any(kind == "ensures" for kind, _, _ in call.clauses)]


def reading_of(law, whole):
    """The reading of a law, of which nothing is new yet."""
    reading = Reading()
    for root in law.roots:
        try:
            reading.roots += root_items(root)
        except NotFound as fault:
            reading.faults.append(str(fault))
    reading.items, reading.kit = closure(reading.roots, whole, OPAQUE)
    reading.faults += [fault for chain in law.chains for fault in faults_of_chain(chain)]
    return reading


def readings(laws, whole):
    """Each law with its reading."""
    return [(law, reading_of(law, whole)) for law in laws]


def shortened(read):
    """The same readings; of types only what one of their texts names is left, but for the traits that are assumed."""
    every = {it.word: it for _, reading in read for it in [*reading.roots, *reading.items]}.values()
    short = {it.word: without_unnamed(it, every) for it in every
             if it.word.kind == "type" and it.word.name not in ASSUMED}
    for _, reading in read:
        reading.items = [short.get(it.word, it) for it in reading.items]
    return read


def in_order(read):
    """Readings one after the other: to each what is new with it, or of which more is needed than before."""
    seen = set()
    for _, reading in read:
        reading.fresh = [it for it in reading.items if (it.word, it.text) not in seen]
        seen |= {(it.word, it.text) for it in reading.items}
    return read


@cache
def of_program():
    """The readings of the laws, and after them that of the program's contract."""
    return in_order(shortened(readings(LAWS, ASSUMED)) + shortened(readings((CONTRACT,), ASSUMED)))


@cache
def of_libraries():
    return in_order(readings(LIBRARIES, OWED))


def faults_of_chain(chain):
    """Which functions of a chain are missing, or do not call the next; and whether the first requires something."""
    for place, ((file, function), following) in enumerate(zip(chain, [*chain[1:], None])):
        try:
            contract = source_file(f"crates/{file}").contract(function)
        except NotFound as fault:
            yield str(fault)
            continue
        if place == 0 and contract.requires():
            yield f"crates/{file}: `{function}` requires something"
        if following and not contract.calls(following[1]):
            yield f"crates/{file}: `{function}` does not call `{following[1]}`"


def together(read):
    """The readings of several laws as one."""
    every = Reading()
    for _, reading in read:
        every.items += reading.fresh
        every.fresh += reading.fresh
        every.roots += reading.roots
        every.kit |= reading.kit
    return every


def by_file(items):
    """The items of each file, files in the order in which they are first read."""
    found = {}
    for item in items:
        found.setdefault(item.file, []).append(item)
    return found


def many(count, name):
    return f"{count} {name}" + ("" if count == 1 else "s")


def kit_folder():
    """The folder of the kit's libraries, if the toolchain is installed."""
    command = shutil.which("rt")
    return Path(command).resolve().parents[1] / "rattle" if command else None


def page_file(path, folder):
    """The page of the kit for a path, if there is one."""
    first, *rest = path.split(".")
    if first == "Rattle" and len(rest) > 2:
        places = [Path(library, *rest[1:]) for library in (rest[0], *PASSED_ON)]
    else:
        below = {"lib": "logic/Lib", "mir": "logic/Mir", "mathlib": "antt/port/mathlib/src"}
        places = [Path(below[first], *rest)] if first in below else []
    found = [place.with_suffix(".antt") for place in places]
    return next((page for page in found if (folder / page).is_file()), None)


def type_of(path):
    """The module of a type of the kit, as code names it."""
    return re.sub(r"^Rattle\.(\w+)\.specs\.declared\.", r"\1.", path).removesuffix(".TheVariants").replace(".", "::")


@cache
def page_of(path, name):
    """The page of the kit that defines a word, given the path of its import; for a type its module."""
    folder = kit_folder()
    page = page_file(path, folder) if folder else None
    if page is None:
        return type_of(path) if ".declared." in path else path
    for further, names in re.findall(r"^pub use ([\w.]+)\.\{([^}]*)\}", (folder / page).read_text(), re.MULTILINE):
        if name in [it.strip() for it in names.split(",")]:
            return page_of(further, name)
    return str(page)
