"""What the program writes and how it ends, told plainly: line after line and name after name, with the hash of
blake3.py. It shares nothing with the program, and knows no error of a device but that standard input breaks off."""

import argparse
import os
import re
from pathlib import Path

from blake3 import Tree, derived, keyed

ESCAPES = {"\\": "\\\\", "\n": "\\n", "\r": "\\r"}
SPELLED = {b"\\\\": b"\\", b"\\n": b"\n", b"\\r": b"\r"}
IS_SPELLED = re.compile(rb"(?:[^\\]|\\[\\nr])*", re.DOTALL)
DIGITS = re.compile(rb"[0-9a-fA-F]{64}")
TAG = b"BLAKE3 ("
FLAGS = ("--quiet", "--ignore-missing", "--status", "--strict", "--keyed", "--raw", "--no-names", "--tag", "--no-mmap",
         "--progress")


def shown(name):
    """The name as texts show it: with a backslash in front if something in it is escaped."""
    escaped = "".join(ESCAPES.get(letter, letter) for letter in name)
    return escaped if escaped == name else "\\" + escaped


def line_of(name, digits, is_tagged=False):
    text = shown(name)
    mark, text = ("", text) if text == name else ("\\", text[1:])
    return f"{mark}BLAKE3 ({text}) = {digits}\n" if is_tagged else f"{mark}{digits}  {text}\n"


def read_line(line):
    """The digits, the name and the name as it stands in a line without its line feed; or why it is no check line."""
    line = line.removesuffix(b"\r")
    if not line:
        return "empty line"
    try:
        line.decode()
    except UnicodeDecodeError:
        return "not text"
    mark = b"\\" if line.startswith(b"\\") else b""
    rest = line[len(mark) :]
    if rest.startswith(TAG):
        rest, due = rest[len(TAG) :], b") = "
        name, between, digits = rest[:-68], rest[-68:-64], rest[-64:]
    else:
        digits, between, name, due = rest[:64], rest[64:66], rest[66:], b"  "
    spelled = re.sub(rb"\\.", lambda two: SPELLED.get(two[0]), name) if mark and IS_SPELLED.fullmatch(name) else name
    for is_wrong, why in ((len(rest) < 64 + len(due), "short line"), (not DIGITS.fullmatch(digits), "bad digits"),
                          (between != due, "missing spaces"), (not name, "no name"),
                          (mark and not IS_SPELLED.fullmatch(name), "bad escape"),
                          (b"\0" in spelled or "\ufffd".encode() in spelled, "bad character")):
        if is_wrong:
            return why
    return digits.decode().lower(), spelled.decode(), (mark + name).decode()


def parsed(words):
    """The options and the names."""
    parser = argparse.ArgumentParser(add_help=False, allow_abbrev=False)
    for flag in FLAGS:
        parser.add_argument(flag, action="store_true")
    parser.add_argument("-c", "--check", action="store_true")
    parser.add_argument("-w", "--warn", action="store_true")
    parser.add_argument("-l", "--length", type=int, default=32)
    parser.add_argument("--seek", type=int, default=0)
    for option in ("--derive-key", "--files0-from", "--num-threads"):
        parser.add_argument(option)
    parser.add_argument("names", nargs="*")
    end = words.index("--") if "--" in words else len(words)
    options = parser.parse_args(words[:end])
    options.names += words[end + 1 :]
    return options


class Hashes:
    """Outputs by content, which are kept. A long content that begins that of a tree has its output from there."""

    def __init__(self, long=Tree(b"")):
        self.long, self.trees, self.known = long, {}, {}

    def output(self, content, mode, seek, length):
        if (content, mode) in self.known:
            return self.known[content, mode][seek : seek + length]
        if mode == () and len(content) > 1 << 16 and self.long.data.startswith(content):
            return self.long.output(len(content), seek, length)
        if (content, mode) not in self.trees:
            kind = {"keyed": keyed, "derived": derived}.get(mode[0]) if mode else Tree
            self.trees[content, mode] = kind(*mode[1:], content)
        return self.trees[content, mode].output(len(content), seek, length)


class Run:
    """What a run in a folder writes, and its status. Its input may break off after what is given."""

    def __init__(self, hashes, words, given=b"", folder=os.curdir, breaks=False):
        self.hashes, self.options, self.given, self.folder = hashes, parsed(words), given, folder
        self.breaks = breaks
        self.out, self.err, self.status = b"", b"", 0
        self.is_missing, self.failed = False, 0
        names = self.options.names or ["-"]
        if self.options.files0_from:
            names = self.names(self.options.files0_from)
        if self.options.check:
            self.check(names)
        else:
            self.sum(names)

    def complain(self, text):
        self.err += f"b3sum: {text}\n".encode()
        self.status = 1

    def read(self, name):
        """The content of a name, or None if it cannot be read."""
        self.is_missing = False
        if name == "-":
            given, self.given = self.given, None
            return None if self.breaks else given
        try:
            return Path(self.folder, name).read_bytes() if name else None
        except OSError as fault:
            self.is_missing = isinstance(fault, (FileNotFoundError, NotADirectoryError))
            return None

    def names(self, listed):
        content = self.read(listed)
        if content is None:
            self.complain(f"{shown(listed)}: cannot read")
            return []
        return content.removesuffix(b"\0").decode().split("\0") if content else []

    def mode(self):
        """What the hash is keyed by, or None if the key cannot be used."""
        if self.options.derive_key is not None:
            return "derived", self.options.derive_key.encode()
        if not self.options.keyed:
            return ()
        # No more than 33 bytes are read.
        is_long = len(self.given) > 32
        key = self.read("-")
        if key is not None and len(key) == 32:
            return "keyed", key
        self.complain("the key is not 32 bytes" if is_long or key is not None else "cannot read the key")
        return None

    def sum(self, names):
        mode, options = self.mode(), self.options
        for name in names if mode is not None else ():
            if not options.raw and not options.no_names and (not name or "\ufffd" in name):
                self.complain(f"{shown(name)}: bad name")
                continue
            content = self.read(name)
            if content is None:
                self.complain(f"{shown(name)}: cannot read")
                continue
            output = self.hashes.output(content, mode, options.seek, options.length)
            line = f"{output.hex()}\n" if options.no_names else line_of(name, output.hex(), options.tag)
            self.out += output if options.raw else line.encode()

    def check(self, lists):
        for listed in lists:
            text = self.read(listed)
            if text is None:
                self.complain(f"{shown(listed)}: cannot read")
            else:
                self.check_list(shown(listed), text.removesuffix(b"\n").split(b"\n") if text else [])
        if self.failed:
            self.complain(f"WARNING: {self.failed} computed checksum{'s' * (self.failed > 1)} did NOT match")
        if self.options.status:
            self.out = self.err = b""

    def check_list(self, listed, lines):
        verified, has_line = False, False
        for number, line in enumerate(lines, 1):
            entry = read_line(line)
            if isinstance(entry, str):
                self.failed += 1
                self.complain(f"{f'{listed}: ' if self.options.warn else ''}line {number}: {entry}")
            else:
                verified |= self.check_entry(*entry)
                has_line = True
        if self.options.ignore_missing and not verified:
            self.complain(f"{listed}: no file was verified")
        if self.options.strict and not has_line:
            self.complain(f"{listed}: no check line found")

    def check_entry(self, digits, name, as_shown):
        """Says what is due of an entry, and answers whether its file was read."""
        content = self.read(name)
        if content is None and self.is_missing and self.options.ignore_missing:
            return False
        is_right = content is not None and self.hashes.output(content, (), 0, 32).hex() == digits
        self.failed += not is_right
        if not is_right or not self.options.quiet:
            said = "FAILED (cannot read)" if content is None else "OK" if is_right else "FAILED"
            self.out += f"{as_shown}: {said}\n".encode()
        return content is not None
