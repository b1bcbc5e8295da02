"""What tools/bench measured, as the tables of docs/BENCH.md and README.md and the picture docs/bench.svg.

    python3 tools/bench_page.py

makes the picture anew, from the ratios that stand in docs/BENCH.md.
"""

import os
import re
from dataclasses import dataclass
from html import escape
from math import log2
from pathlib import Path

ROOT = Path(__file__).resolve().parent.parent

# The workloads in the table of README.md.
SHOWN = ("256 MiB by a pipe", "1 GiB, 4 threads", "10,000 files of 1 KiB", "200 files of 1 MiB",
         "a check of 10,000 lines")
# What is compared with: the installed program and the original C code, each as it is and with AVX-512 hidden from it.
INSTALLED, ON_AVX2 = "installed", "installed on AVX2"
ORIGINAL, ORIGINAL_ON_AVX2 = "original", "original on AVX2"
PEERS = (INSTALLED, ON_AVX2)
# The prefixes of the workloads that are in the table but not in the picture.
UNUSUAL = ("loaded: ", "cold: ")

# The picture, from left to right: the names of works, and for each peer a panel of bars and its ratios; from top to
# bottom: the head, and a line for each work. The words at the ends of a panel need room on both sides of their line.
NAMES, BARS, SIDE, RATIOS, GAP = 196, 250, 28, 46, 12
HEAD, STEP, BAR = 68, 22, 12
# What a ratio of times says, on a scale where twice and half as fast are equally far from the middle.
SCALE = {1 / 4: "4 times", 1 / 2: "twice", 1: "just", 2: "half", 4: "a quarter"}
PANELS = {INSTALLED: "Beside the installed b3sum", ON_AVX2: "Beside it on AVX2, as this one is"}
STYLE = """
text { font: 13px system-ui, sans-serif; fill: #57606a } .head { font-weight: 600 } .scale { font-size: 11px }
.faster { fill: #2f7bd9 } .slower { fill: #d9822b } .stripe { fill: #8b949e; fill-opacity: 0.09 }
.line { stroke: #57606a; stroke-width: 1.5 } .grid { stroke: #8b949e; stroke-opacity: 0.4 }
@media (prefers-color-scheme: dark) {
text { fill: #a4aeba } .faster { fill: #4a93ec } .slower { fill: #d98a3d } .line { stroke: #a4aeba }
}
"""


@dataclass
class Row:
    """A workload: our time, that of what it is compared with, and the greatest ratio that is wanted. The unit is a
    millisecond, and for the library a nanosecond."""
    name: str
    beside: str
    mine: float | None
    theirs: float | None
    wanted: float | None

    @property
    def ratio(self):
        return self.mine / self.theirs if self.mine and self.theirs else None

    @property
    def is_missed(self):
        """Whether the ratio is above what is wanted, or a run failed."""
        return self.ratio is None or self.wanted is not None and self.ratio > self.wanted


@dataclass
class Memory:
    """A run: the greatest resident memory in KiB of ./b3sum and of the installed program, and the most that is wanted
    of ./b3sum."""
    name: str
    mine: int | None
    theirs: int | None
    wanted: int | None

    @property
    def is_taken(self):
        return bool(self.mine and self.theirs)

    @property
    def is_missed(self):
        """Whether it took more memory than is wanted, or a run failed."""
        return not self.is_taken or self.wanted is not None and self.mine > self.wanted


def machine():
    """The model and number of the processors, and the memory."""
    model = re.search(r"^model name\s*: (.*)$", Path("/proc/cpuinfo").read_text(), re.MULTILINE)
    memory = int(re.search(r"^MemTotal:\s+(\d+) kB", Path("/proc/meminfo").read_text(), re.MULTILINE)[1])
    name = model[1] if model else "of no known name"
    return f"{os.cpu_count()} processors ({name}) with {memory / (1 << 20):.0f} GiB of memory"


def ratio_of(row):
    """The ratio of a row, and whether it is above what is wanted."""
    return f"**{row.ratio:.2f}, missed**" if row.is_missed else f"{row.ratio:.2f}"


def by_work(rows, peers):
    """The rows with these peers, grouped by workload."""
    works = {}
    for row in rows:
        if row.beside in peers:
            works.setdefault(row.name, []).append(row)
    return works


def peers_table(rows):
    """The table of workloads with the installed program, as it is and on AVX2."""
    peers = [peer for peer in PEERS if by_work(rows, [peer])]
    heads = "".join(f" {peer}, ms | ratio | wanted |" for peer in peers)
    lines = [f"| Work | ours, ms |{heads}", "|---|---|" + "---|---|---|" * len(peers)]
    for name, beside in by_work(rows, PEERS).items():
        cells = "".join(f" {row.theirs:,.1f} | {ratio_of(row)} | {row.wanted or ''} |" for row in beside)
        lines.append(f"| {name} | {beside[0].mine:,.1f} |{cells}")
    return "\n".join(lines)


def table(unit, digits, rows):
    """A table of rows that are compared with different things."""
    lines = [f"| Work | beside | ours, {unit} | that, {unit} | ratio | wanted |", "|---|---|---|---|---|---|"]
    for row in rows:
        times = f"{row.mine:,.{digits}f} | {row.theirs:,.{digits}f} | {ratio_of(row)}"
        lines.append(f"| {row.name} | {row.beside} | {times} | {row.wanted or ''} |")
    return "\n".join(lines)


def memory_table(peaks):
    """The table of the memory of runs in docs/BENCH.md."""
    lines = ["| Greatest memory of a run | ours, KiB | installed, KiB | wanted |", "|---|---|---|---|"]
    for peak in peaks:
        wanted = f"{peak.wanted:,}" if peak.wanted else ""
        missed = ", missed" if peak.is_missed else ""
        lines.append(f"| {peak.name} | {peak.mine:,}{missed} | {peak.theirs:,} | {wanted} |")
    return "\n".join(lines)


def short_table(rows):
    """The table of README.md."""
    lines = ["| Work | ours, ms | ratio to the installed | ratio to it on AVX2 |", "|---|---|---|---|"]
    for name, beside in by_work(rows, PEERS).items():
        if name in SHOWN:
            ratios = {row.beside: f"{row.ratio:.2f}" for row in beside}
            cells = " | ".join(ratios.get(peer, "not taken") for peer in PEERS)
            lines.append(f"| {name} | {beside[0].mine:,.1f} | {cells} |")
    return "\n".join(lines)


def text(x, y, words, anchor="middle", kind="name"):
    return f'<text class="{kind}" x="{x:.1f}" y="{y}" text-anchor="{anchor}">{escape(words)}</text>'


def line(kind, x, top, bottom):
    return f'<line class="{kind}" x1="{x:.1f}" x2="{x:.1f}" y1="{top}" y2="{bottom}"/>'


def block(kind, left, right, top, height):
    return f'<rect class="{kind}" x="{left:.1f}" y="{top}" width="{right - left:.1f}" height="{height}"/>'


def panel(left, title, ratios, low, high):
    """A panel: its head, its scale from a ratio to another, and of each work a bar from "just as fast" to its ratio,
    which stands beside the bars. None is a work that has no such row."""
    def place(ratio):
        return left + SIDE + (BARS - 2 * SIDE) * log2(ratio / low) / log2(high / low)

    end, bottom = left + BARS + RATIOS - 8, HEAD + STEP * len(ratios)
    parts = [text(left, 18, title, "start", "head"), text(end, 56, "ratio", "end", "scale")]
    for ratio, words in SCALE.items():
        if low <= ratio <= high:
            parts += [text(place(ratio), 42, words, kind="scale"), text(place(ratio), 56, "as fast", kind="scale"),
                      line("grid", place(ratio), HEAD - 6, bottom)]
    for number, ratio in enumerate(ratios):
        if ratio:
            top, sides = HEAD + STEP * number, sorted([place(1), place(ratio)])
            parts += [block("faster" if ratio <= 1 else "slower", *sides, top + (STEP - BAR) // 2, BAR),
                      text(end, top + 15, f"{ratio:.2f}", "end")]
    return parts + [line("line", place(1), HEAD - 6, bottom)]


def picture(rows):
    """A panel for each peer. Bars to the left are faster than it, and bars to the right slower."""
    works = {name: {row.beside: row.ratio for row in beside} for name, beside in by_work(rows, PEERS).items()
             if not name.startswith(UNUSUAL)}
    ratios = [ratio for beside in works.values() for ratio in beside.values()]
    low, high = min(1 / 2, *ratios), max(2, *ratios)
    peers = [peer for peer in PEERS if by_work(rows, [peer])]
    width, height = NAMES + (GAP + BARS + RATIOS) * len(peers), HEAD + STEP * len(works) + 8
    parts = [f'<svg xmlns="http://www.w3.org/2000/svg" viewBox="0 0 {width} {height}" width="{width}" role="img">',
             "<title>How fast b3sum is beside the installed program, as it is and on AVX2</title>",
             f"<style>{STYLE}</style>", text(NAMES, 56, "this b3sum is", "end", "scale")]
    for number, name in enumerate(works):
        top = HEAD + STEP * number
        parts += [] if number % 2 else [block("stripe", 0, width, top, STEP)]
        parts.append(text(NAMES, top + 15, name, "end"))
    for number, peer in enumerate(peers):
        left = NAMES + GAP + (GAP + BARS + RATIOS) * number
        parts += panel(left, PANELS[peer], [beside.get(peer) for beside in works.values()], low, high)
    return "\n".join([*parts, "</svg>"]) + "\n"


def rows_of_page():
    """The rows beside peers that docs/BENCH.md has. The picture asks for ratios alone: they stand for the times."""
    table = re.search(r"^\| Work \| ours, ms \|.*?\n\n", (ROOT / "docs/BENCH.md").read_text(), re.MULTILINE | re.DOTALL)
    head, _, *lines = [[cell.strip() for cell in line.strip("|").split("|")] for line in table[0].rstrip().splitlines()]
    for name, _, *cells in lines:
        for peer, ratio in zip(head[2::3], cells[1::3]):
            yield Row(name, peer.removesuffix(", ms"), float(re.search(r"[\d.]+", ratio)[0]), 1, None)


def put(page, text):
    """Replaces the text between the two marks of a page."""
    path = ROOT / page
    marks = re.compile(r"(<!-- bench -->\n).*?(<!-- /bench -->)", re.DOTALL)
    path.write_text(marks.sub(lambda found: f"{found[1]}{text}\n{found[2]}", path.read_text()))


def write(rows, library, load, peaks, version):
    """Writes the picture and the tables. docs/BENCH.md also gets the load of the machine in the minute before, and the
    version of the installed program."""
    (ROOT / "docs/bench.svg").write_text(picture(rows))
    head = f"Measured on {machine()}; {load:.1f} other runs wanted a processor in the minute before."
    last = f"The installed program is {version}. The files that it maps are counted as its memory."
    parts = [head, peers_table(rows), "![The ratios](bench.svg)"]
    parts.append(table("ms", 1, [row for row in rows if row.beside not in PEERS]))
    parts += [table("ns", 0, library)] if library else []
    put("docs/BENCH.md", "\n\n".join([*parts, memory_table(peaks), last]))
    put("README.md", f"{short_table(rows)}\n\n![The ratios beside the installed program](docs/bench.svg)")


if __name__ == "__main__":
    (ROOT / "docs/bench.svg").write_text(picture([*rows_of_page()]))
