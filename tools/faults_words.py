"""Rows of tools/faults: arguments, names and keys."""

import os
import re
import subprocess
from pathlib import Path

from blake3 import Tree
from faults_rows import KEY, KEYED_Z0, Z0, closing, opened_folder, shown, warning

CONTEXT = "BLAKE3 2019-12-27 16:29:52 test vectors context"
DERIVED_Z0 = "2cc39783c223154fea8dfb7c1b1660f2ac2dcbd1c1de8277b0b0dd39b7e50d7d"
NOT_THE_KEY = "b3sum: the key is not 32 bytes\n"
# The text of an error that clap finds is not checked, only that there is one.
WORDS_FAULT = re.compile(rb"error: .+", re.DOTALL)
LAST_PLACE = str((1 << 64) - 1)
ROOT = Path(__file__).resolve().parent.parent
MAN_PAGE = ROOT / "b3sum.1"
COMMAND = ROOT / "crates/b3_arguments/src/command.rt"
# An option of the help and of the completions of zsh and fish: its short form, its name, a mark of a value, its help.
HELP_OPTION = re.compile(r"^ +(?:-(\w), )?--([\w-]+)( <\w+>)? +(.+)$", re.MULTILINE)
ZSH_OPTION = re.compile(r"^ +'(?:\(.*?\)'\{-(\w)\+?,)?--([\w-]+)(=)?(?:\}')?(?:\[(.+)\])?", re.MULTILINE)
FISH_OPTION = re.compile(r"^complete -c b3sum(?: -s (\w))? -l ([\w-]+)( -[rx])?(?: -d '(.+)')?", re.MULTILINE)
# The options that cannot be used with --check, in the order in which they are refused, with their values.
EXCLUDED = {"--keyed": [], "--derive-key": ["c"], "--length": ["32"], "--seek": ["0"], "--raw": [], "--no-names": [],
            "--tag": []}


def words_of_sums(faults):
    faults.row("no words", [], f"{Z0}  -\n")
    faults.row("no output bytes", ["--length", "0"], "  -\n")
    faults.row("one output byte", ["-l", "1"], "af  -\n")
    faults.row("one output byte, by the long word", ["--length", "1"], "af  -\n")
    faults.row("four raw bytes", ["--raw", "-l", "4"], bytes.fromhex(Z0[:8]))
    faults.row("raw without names is raw", ["--raw", "--no-names"], bytes.fromhex(Z0))
    faults.row("the most output bytes", ["-l", "1048576", "--no-names"], re.compile(rb"af1349[0-9a-f]{2097146}\n"))
    of_none = Tree(b"")
    for seek, length in ((0, 31), (0, 33), (0, 64), (1, 31), (63, 2), (1, 65)):
        line = f"{of_none.output(0, seek, length).hex()}  -\n"
        faults.row(f"{length} output bytes from {seek} on", ["--seek", str(seek), "-l", str(length)], line)
    faults.row("a derived key", ["--derive-key", CONTEXT], f"{DERIVED_Z0}  -\n")
    faults.row("a tagged line", ["--tag"], f"BLAKE3 (-) = {Z0}\n")
    faults.row("all output bytes but the first", ["--seek", "1", "--length", "31"], f"{Z0[2:]}  -\n")
    faults.row("a tagged line of two bytes", ["--tag", "--seek", "30", "-l", "2"], f"BLAKE3 (-) = {Z0[60:]}\n")
    faults.row("two raw bytes from a place on", ["--raw", "--seek", "2", "-l", "2"], bytes.fromhex(Z0[4:8]))
    faults.row("no bytes at the end of the output", ["--seek", LAST_PLACE, "--length", "0"], "  -\n")
    faults.row("the last byte of the output", ["--seek", str(int(LAST_PLACE) - 1), "-l", "1"],
               re.compile(rb"[0-9a-f]{2}  -\n"))
    faults.row("words that change nothing", ["--no-mmap", "--progress", "--num-threads", "65535", "e"], f"{Z0}  e\n")
    faults.row("words that change nothing, and input", ["--num-threads=65535", "--no-mmap", "-"], f"{Z0}  -\n")
    faults.row("no threads means the usual number", ["--num-threads", "0", "e"], f"{Z0}  e\n")


def refused_words(faults):
    """Options that cannot be combined, of which the first refusal is written."""
    for number, (option, value) in enumerate(EXCLUDED.items()):
        others = [word for later in list(EXCLUDED)[number + 1 :] for word in (later, *EXCLUDED[later])]
        faults.row(f"--check and {option}", ["e", *others, option, *value, "--check"],
                   err=f"b3sum: --check cannot be used with {option}\n", status=2)
    for given, text in ((["--keyed", "--derive-key", "c"], "--keyed cannot be used with --derive-key"),
                        (["--quiet"], "--quiet needs --check"), (["--raw", "e", "e"], "--raw takes one input"),
                        (["--keyed"], "--keyed needs files"), (["--keyed", "e", "-"], "--keyed needs files"),
                        (["--keyed", "--derive-key", "c", "--quiet", "--raw", "e", "-"],
                         "--keyed cannot be used with --derive-key"),
                        (["--quiet", "--raw", "e", "e"], "--quiet needs --check"),
                        (["--keyed", "--quiet", "--raw", "e", "-"], "--quiet needs --check"),
                        (["--keyed", "--raw", "e", "-"], "--raw takes one input"),
                        (["--keyed", "--tag", "--raw"], "--keyed needs files"),
                        (["--tag", "--raw", "--no-names"], "--tag cannot be used with --raw"),
                        (["--tag", "--no-names", "--seek", LAST_PLACE], "--tag cannot be used with --no-names"),
                        (["--seek", LAST_PLACE, "-l", "1"], "--seek and --length pass the end of the output"),
                        (["--seek", LAST_PLACE, "e"], "--seek and --length pass the end of the output"),
                        (["-w", "--strict", "--status", "--ignore-missing"], "--ignore-missing needs --check"),
                        (["-w", "--strict", "--status"], "--status needs --check"),
                        (["-w", "--strict", "e"], "--strict needs --check"), (["-w"], "--warn needs --check"),
                        (["--ignore-missing", "--quiet"], "--quiet needs --check"),
                        (["--strict", "--seek", LAST_PLACE], "--seek and --length pass the end of the output"),
                        (["--status", "--seek", LAST_PLACE], "--seek and --length pass the end of the output"),
                        (["--files0-from", "e", "--seek", LAST_PLACE, "e"],
                         "--seek and --length pass the end of the output"),
                        (["--files0-from", "e", "--raw", "e", "e"], "--raw takes one input"),
                        (["--files0-from", "e", "--check", ""], "--files0-from takes no FILE"),
                        (["--files0-from", "e", "e"], "--files0-from takes no FILE"),
                        (["--files0-from", "e", "-w", "e"], "--warn needs --check"),
                        (["--files0-from", "-", "--keyed"], "--keyed needs files")):
        faults.row(" ".join(given), given, err=f"b3sum: {text}\n", status=2)


def invalid_words(faults):
    """What is not known is named, and nothing is guessed from its letters; a value that is not taken is told."""
    for given in (["-x"], ["--length", "-1"], ["--length", ""], ["--seek"], ["--tag=1"], ["--num-threads"], ["--raw=1"]):
        faults.row(" ".join(given), given, err=WORDS_FAULT, status=2)
    above = str(int(LAST_PLACE) + 1)
    for given, part in ((["--length", "1048577"], "1048577 is not in 0..=1048576"),
                        (["--num-threads", "65536"], "65536 is not in 0..=65535"),
                        (["--seek", above], f"invalid value '{above}' for '--seek <N>'"),
                        (["--length", "x"], "invalid value 'x' for '--length <N>'"),
                        (["--length"], "a value is required for '--length <N>'"),
                        (["--derive-key"], "a value is required for '--derive-key <CONTEXT>'")):
        said = re.compile(f"error: .*{re.escape(part)}.*".encode(), re.DOTALL)
        faults.row(" ".join(given), given, err=said, status=2)
    for given, word in ((["--bogus"], "--bogus"), (["--zero", "e"], "--zero"), (["--seek", "-1"], "-1")):
        said = f"error: unexpected argument '{word}' found\n\nFor more information, try '--help'.\n"
        faults.row(" ".join(given), given, err=said, status=2)


def arguments(faults):
    """Arguments of any length, thousands of them, and to the character: each is told as a name that is missing."""
    for length in (1, 255, 256, 257, 512, 513, 131_071):
        name = "q" * length
        faults.row(f"an argument of {length} bytes", [name], err=f"b3sum: {name}: cannot read\n", status=1)
    faults.row("2,000 arguments", ["e"] * 2_000, f"{Z0}  e\n" * 2_000)
    names = ("q", " q", "q ", " ", "\tq\n", "q\r", "q/", "q//", "./q", "--", "-b", "\u00e9", "Q")
    said = "".join(f"b3sum: {shown(name)}: cannot read\n" for name in names)
    faults.row("arguments to the character", ["--", *names, "", "-"], f"{Z0}  -\n", said + "b3sum: : bad name\n", 1)


def help_and_version(faults):
    """The texts of help and version; the limits in the help are those of the manual page."""
    told = (r"Usage: b3sum \[OPTIONS\] \[FILE\]\.\.\.", "Examples:", "status", "-c", *EXCLUDED, "-l", "--quiet",
            "--ignore-missing", "--status", "--strict", "-w, --warn", "--files0-from", "--num-threads", "--progress",
            "--no-mmap", "--help", "--version", "FILE")
    help_text = re.compile("".join(f"(?=.*{word})" for word in told).encode() + rb".+\n", re.DOTALL)
    version = re.search(r'\.version\("(\d+\.\d+\.\d+)"\)', COMMAND.read_text())[1]
    said = f"b3sum {version}\n"
    for word, out in (("--help", help_text), ("-h", help_text), ("--version", said), ("-V", said)):
        faults.row(word, [word], out)
    help_said = subprocess.run([faults.program, "--help"], stdout=subprocess.PIPE, text=True).stdout
    page = MAN_PAGE.read_text().replace("\n", " ")
    limits = (("output bytes", r"0 to (\d+)", r"of output, 0 to (\d+)", r"at most (\d+) bytes,"),
              ("threads", r"at most (\d+);", r"above (\d+) means \1", r"names and (\d+) threads"))
    for name, in_help, *in_page in limits:
        told = re.findall(in_help, help_said) or ["a number"]
        for pattern in in_page:
            told_in_page = re.findall(pattern, page)
            faults.compare(f"the most {name}, in help and man page", (None, None, told_in_page), ("", "", told))


def completions(faults):
    """The completions have the options of the help, and no other; bash shows no help."""
    help_said = subprocess.run([faults.program, "--help"], stdout=subprocess.PIPE, text=True).stdout
    told, files = options_of(HELP_OPTION, help_said), re.findall(r"--([\w-]+) <FILE>", help_said)
    no_file = [option for option in told if option[2] and option[1] not in files]
    names = ("b3sum.bash", "_b3sum", "b3sum.fish")
    in_bash, in_zsh, in_fish = ((ROOT / "completions" / name).read_text() for name in names)
    words = re.search(r"options=\((.*?)\)", in_bash, re.DOTALL)[1].split()
    with_value = re.search(r"^ +(-.*)\) compopt", in_bash, re.MULTILINE)[1].split(" | ")
    for name, found, expected in (("bash", words, forms(told)),
                                  ("bash, with a value that is no file", with_value, forms(no_file)),
                                  ("zsh", options_of(ZSH_OPTION, in_zsh), told),
                                  ("fish", options_of(FISH_OPTION, in_fish), told)):
        differing = [it for it in expected + found if it not in expected or it not in found]
        faults.compare(f"options of the help, and those completed in {name}", (None, None, differing), ("", "", []))


def options_of(pattern, text):
    """The options in a text, each with whether it takes a value."""
    return [(short, name, bool(value), help_text) for short, name, value, help_text in pattern.findall(text)]


def forms(options):
    """The short and the long form of each."""
    return [form for short, name, *_ in options for form in (f"-{short}", f"--{name}") if form != "-"]


def odd_names(faults):
    shown = {"a\\b": "\\a\\\\b", "a\nb": "\\a\\nb", "a\rb": "\\a\\rb", "x\r": "\\x\\r", "\n": "\\\\n", "\\": "\\\\\\",
             "a\\b\nc\rd": "\\a\\\\b\\nc\\rd", "-l": "-l", "--raw": "--raw", " two  spaces ": " two  spaces ",
             "é ü 漢 🦀": "é ü 漢 🦀", "tab\t\x1b[1m": "tab\t\x1b[1m", "n" * 255: "n" * 255,
             f"{Z0}  e": f"{Z0}  e", "a) = b": "a) = b", f"a) = {Z0}": f"a) = {Z0}", ")": ")",
             f"BLAKE3 (e) = {Z0}": f"BLAKE3 (e) = {Z0}"}
    for name, text in shown.items():
        mark, rest = ("\\", text[1:]) if text != name else ("", text)
        line = f"{mark}{Z0}  {rest}\n"
        tagged = f"{mark}BLAKE3 ({rest}) = {Z0}\n"
        faults.row(f"missing {name!r}", ["--", name], err=f"b3sum: {text}: cannot read\n", status=1)
        line = line.encode()
        unread = f"{text}: FAILED (cannot read)\n"
        faults.row(f"missing {name!r} in a list", ["-c"], unread, warning(1), 1, input=line)
        Path(name).touch()
        faults.row(f"the name {name!r}", ["--", name], line)
        faults.row(f"the name {name!r} in a list", ["-c"], f"{text}: OK\n", input=line)
        faults.row(f"the name {name!r} in a list with CR LF", ["-c"], f"{text}: OK\n", input=line[:-1] + b"\r\n")
        faults.row(f"the name {name!r}, tagged", ["--tag", "--", name], tagged)
        for end in ("", "\n", "\r", "\r\n"):
            given = (tagged[:-1] + end).encode()
            faults.row(f"the name {name!r} in a tagged line, end {end!r}", ["-c"], f"{text}: OK\n", input=given)
    for name in ("\ufffd", "a\ufffdb"):
        Path(name).touch()
        faults.row(f"the name {name!r}", ["e", name], f"{Z0}  e\n", f"b3sum: {name}: bad name\n", 1)
        faults.row(f"the name {name!r}, tagged", ["--tag", name], "", f"b3sum: {name}: bad name\n", 1)
        faults.row(f"the name {name!r}, not shown", ["--no-names", name], f"{Z0}\n")
        faults.row(f"the name {name!r}, raw", ["--raw", name], bytes.fromhex(Z0))
        said = "b3sum: line 1: bad character\n" + warning(1)
        faults.row(f"the name {name!r} in a list", ["-c"], "", said, 1, input=f"{Z0}  {name}\n".encode())
    faults.row("the escaped bad name", ["a\n\ufffd"], err="b3sum: \\a\\n\ufffd: bad name\n", status=1)
    faults.row("the empty name", [""], err="b3sum: : bad name\n", status=1)
    faults.row("the empty name, tagged", ["--tag", ""], err="b3sum: : bad name\n", status=1)
    faults.row("the empty name, not shown", ["--no-names", ""], err="b3sum: : cannot read\n", status=1)
    faults.row("the empty name, raw", ["--raw", ""], err="b3sum: : cannot read\n", status=1)
    for given in ([b"\xff"], ["e", b"a\xc3"], [b"\xed\xa0\x80"], ["--bogus", b"\xff"], ["--help", b"\xff"],
                  ["--derive-key", b"\xff"]):
        faults.row(f"not text: {given}", given, err="b3sum: an argument is not text\n", status=2)


def keys(faults):
    for length in (0, 1, 31, 33, 64, 100000):
        faults.row(f"a key of {length} bytes", ["--keyed", "e"], err=NOT_THE_KEY, status=1, input=(KEY * 3125)[:length])
    faults.row("a key of 32 bytes", ["--keyed", "e"], f"{KEYED_Z0}  e\n", input=KEY)
    faults.row("a key, and no names", ["--keyed", "--no-names", "e", "e"], f"{KEYED_Z0}\n" * 2, input=KEY)
    faults.row("a key, raw", ["--keyed", "--raw", "e"], bytes.fromhex(KEYED_Z0), input=KEY)
    unread = "b3sum: missing: cannot read\n"
    faults.row("a key, and a missing file", ["--keyed", "missing", "e"], f"{KEYED_Z0}  e\n", unread, 1, input=KEY)
    faults.row("a key is asked before the names", ["--keyed", "missing"], err=NOT_THE_KEY, status=1, input=KEY[:31])
    with open("/dev/zero", "rb") as zeros:
        faults.row("a key that does not end", ["--keyed", "e"], err=NOT_THE_KEY, status=1, stdin=zeros)
    said = "b3sum: cannot read the key\n"
    faults.row("a key from a closed input", ["--keyed", "e"], "", said, 1, preexec_fn=closing(0))
    with opened_folder() as folder:
        faults.row("a key from a folder", ["--keyed", "e"], "", said, 1, stdin=folder)
    reader, writer = os.pipe()
    os.write(writer, KEY * 3)
    os.close(writer)
    faults.row("a key of too many bytes", ["--keyed", "e"], err=NOT_THE_KEY, status=1, stdin=reader)
    left = len(os.read(reader, 96))
    faults.compare("no more than 33 bytes are read for a key", (b"", b"", left), ("", "", 63))
    os.close(reader)
