"""What a clause depends on: definitions of specs/, types and traits of src/, words of the kit, and what these cite.

A word is followed if an import or a declaration in its file defines it. Names that an item binds itself (parameters,
fields, patterns, `let`) are not citations.
"""

import re
from dataclasses import dataclass, field, replace
from functools import cache

from crates import ROOT, crates_below

CRATES = set(crates_below())
SPEC_USE = re.compile(r"^(?:pub )?use ([\w.]+)(?:\.\{([^}]*)\}| as (\w+))?$", re.MULTILINE)
GHOST_USE = re.compile(r"^ *ghost use ([\w.]+)(?:\.\{([^}]*)\}| as (\w+))?;$", re.MULTILINE)
CODE_USE = re.compile(r"^ *use (crate|\w+)(?:::(\w+))?::(?:\{([^}]*)\}|(\w+));$", re.MULTILINE)
HEAD = re.compile(r"^(?:(?:abbrev|unfoldable) )?(?:pub )?(?:(record|data) )?(\S+?)(?=[\s:])")
TOKEN = re.compile(r"[^\s(){}\[\],;.λ⟦⟧<>]+(?:\.[^\s(){}\[\],;.λ⟦⟧<>]+)*")
# The names in a pattern that are not variables.
CONSTRUCTORS = {"true", "false", "zero", "suc", "pos", "negsuc", "tt"}
FUNCTION = r' *(?:pub(?:\([^)]*\))? )?(?:(?:const|unsafe|extern "C") )*fn {}\b'
DECLARED = r"^(?:pub(?:\([^)]*\))? )?(struct|enum|trait) {}\b"


class NotFound(Exception):
    """A root that does not exist."""


@dataclass(frozen=True, order=True)
class Word:
    """What a name stands for: a definition or a type of a crate, or a word of the kit."""
    kind: str
    place: str
    name: str


@dataclass
class Item:
    """What is printed of a word, and the words that it cites in the order in which it names them."""
    word: Word
    file: str
    text: str
    cites: list = field(default_factory=list)
    # what stands above the clauses of a call
    head: str = ""

    def lines(self):
        """The number of lines, without comments."""
        return sum(1 for line in without_comments(self.text).splitlines() if line.strip())


def split_names(text):
    """The names of an import with their local names: `A, B as C`."""
    for part in (text or "").split(","):
        name, _, alias = part.strip().partition(" as ")
        if name:
            yield name, alias or name


def word_at(path, name):
    """What an imported name stands for, by the path that it is imported from."""
    parts = path.split(".")
    if len(parts) < 3 or parts[1] not in CRATES or parts[2] != "specs":
        return Word("kit", path, name)
    crate, inside = parts[1], parts[3:]
    if inside[0] == "contracts":
        return Word("type", crate, inside[1])
    if inside[0] != "declared":
        # A constructor stands in its data type.
        return Word("definition", f"{crate}/{inside[0]}", inside[1] if len(inside) > 1 else name)
    if inside[-1] == "TheConstants":
        return Word("constant", f"{crate}/{inside[1]}", name)
    return Word("type", crate, inside[2] if len(inside) > 2 else name)


def imports(text, pattern):
    """What each imported name of a file stands for."""
    found = {}
    for path, names, alias in pattern.findall(text):
        if alias:
            found[alias] = word_at(path, alias)
        for name, called in split_names(names):
            found[called] = word_at(path, name)
    return found


def holed(name):
    """The pieces of a name with places for arguments, such as `if◌then◌else◌`."""
    return [piece for piece in name.split("◌") if piece]


def cited(text, known, bound=frozenset()):
    """What the words of a text stand for, in order, given the names of the file."""
    text = re.sub(r"(?<=[{;])\s*\S+ = ", " ", re.sub(r'"[^"\n]*"', " ", text))
    heads = [token.split(".")[0] for token in TOKEN.findall(text)]
    first = {}
    for place, head in enumerate(heads):
        first.setdefault(head, place)
    found = []
    for name, word in known.items():
        pieces = holed(name) if "◌" in name else [name]
        if name == "[]":
            places = [len(heads)] if "[]" in text else []
        else:
            places = [first[piece] for piece in pieces if piece in first]
        if len(places) == len(pieces) and name not in bound:
            found.append((places[0], word))
    return [word for _, word in sorted(found, key=lambda pair: pair[0])]


def without_comments(text):
    return "\n".join(line for line in text.splitlines() if not re.match(r"\s*(--|//)", line))


class SpecFile:
    """A file of definitions: what it imports, and its items by name."""

    def __init__(self, place):
        crate, stem = place.split("/")
        self.place, self.path = place, f"crates/{crate}/specs/{stem}.antt"
        if not (ROOT / self.path).is_file():
            raise NotFound(f"{self.path} is not there")
        text = (ROOT / self.path).read_text()
        self.imports = imports(text, SPEC_USE)
        self.texts = {}
        for paragraph in re.split(r"\n\s*\n", text):
            code = without_comments(paragraph).strip("\n")
            head = HEAD.match(code)
            if head and not re.match(r"(pub )?(use|mod) ", code):
                self.texts[head[2]] = paragraph.strip("\n")
        if len(self.texts) != len(re.findall(r"^(?:abbrev|unfoldable|pub (?:record|data)) ", text, re.MULTILINE)):
            raise NotFound(f"{self.path}: two definitions without an empty line between them")
        self.constructors = {name: owner for owner, text in self.texts.items() for name in constructors_of(text)}

    def known(self):
        """What each word stands for in this file."""
        own = {name: Word("definition", self.place, name) for name in self.texts}
        made = {name: Word("definition", self.place, owner) for name, owner in self.constructors.items()}
        return {**self.imports, **made, **own}

    def item(self, name):
        name = self.constructors.get(name, name) if name not in self.texts else name
        if name not in self.texts:
            raise NotFound(f"{self.path} defines no `{name}`")
        text, word = self.texts[name], Word("definition", self.place, name)
        code = without_comments(text)
        words = cited(code, self.known(), self.bound(name, code))
        return Item(word, self.path, text, [it for it in words if it != word])

    def bound(self, name, code):
        """The names that a definition binds itself."""
        bound = set(re.findall(r"^ +(?:pub )?(\S+) : ", code, re.MULTILINE))
        bound |= {it for group in re.findall(r"[({]([^(){}:]+?) : ", code) for it in group.split()}
        bound |= {it for group in re.findall(r"λ ([^.:]*?)\.", code) for it in re.findall(r"[^\s(),]+", group)}
        bound |= set(re.findall(r"\blet (\S+)", code))
        for line in code.splitlines():
            if line.startswith(name + " "):
                pattern = line.removeprefix(name).split(" =")[0]
                bound |= {it for it in TOKEN.findall(pattern) if self.is_variable(it, code)}
        return bound

    def is_variable(self, token, code):
        """Whether a word of a pattern is not a constructor. One of this file counts if its type is named too."""
        if token in self.constructors:
            return self.constructors[token] not in TOKEN.findall(code)
        word = self.known().get(token)
        is_imported = word is not None and word.kind == "definition" and word.name != token
        return token[0].islower() and token not in CONSTRUCTORS and not is_imported


def constructors_of(text):
    """The constructors of a data type."""
    code = without_comments(text)
    return re.findall(r"^  (\S+) : ", code, re.MULTILINE) if re.match(r"(pub )?data ", code) else []


class SourceFile:
    """A file of code: what it imports, its types, and its calls."""

    def __init__(self, path):
        self.path, self.crate = path, path.split("/")[1]
        if not (ROOT / path).is_file():
            raise NotFound(f"{path} is not there")
        self.text = (ROOT / path).read_text()
        self.lines = self.text.splitlines()
        self.known = {**self.types(), **imports(self.text, GHOST_USE)}

    def types(self):
        """The types that its code may name: its own, and those that it takes from crates of the repository."""
        own = re.findall(r"^(?:pub(?:\([^)]*\))? )?(?:struct|enum|trait) (\w+)", self.text, re.MULTILINE)
        found = {name: Word("type", self.crate, name) for name in own}
        for crate, module, names, lone in CODE_USE.findall(self.text):
            crate = self.crate if crate == "crate" else crate
            for name, called in split_names(names or lone):
                if crate in CRATES and name[0].isupper() and find_type(crate, name):
                    found[called] = Word("type", crate, name)
                elif crate not in CRATES and name[0].isupper():
                    found[called] = Word("kit", "::".join(filter(None, (crate, module))), name)
        return found

    def above(self, line):
        """The documentation and comments above a line, from their first line on."""
        start = line
        while start and re.match(r"\s*(//[^!]|//$|#\[)", self.lines[start - 1]):
            start -= 1
        return [it for it in self.lines[start:line] if not it.strip().startswith("#[")]

    def block_end(self, line):
        """The last line of what begins here: that of the `}` with its indentation, or the same line."""
        if re.search(r"[;}]$", self.lines[line]):
            return line
        indent = re.match(r" *", self.lines[line])[0]
        return next(it for it in range(line + 1, len(self.lines)) if re.match(rf"{indent}[}}\]]", self.lines[it]))

    def function(self, name):
        """The line of a call, which may be named with its type, as `Board::root`."""
        kind, _, call = name.rpartition("::")
        inside = range(len(self.lines))
        if kind:
            inside = [it for begin in self.impls(kind) for it in range(begin, self.block_end(begin))]
        for line in inside:
            if re.match(FUNCTION.format(call), self.lines[line]):
                return line
        raise NotFound(f"{self.path} has no function `{name}`")

    def impls(self, kind):
        """The lines at which an `impl` of a type or a trait (`Trait for Type`) begins."""
        head = re.compile(rf"(pub )?trait {kind}\b|impl\b[^\n]*\b{kind}\b")
        if " for " in kind:
            head = re.compile(rf"impl\b[^\n]*\b{kind.split(' for ')[0]}(<[^\n]*>)? for {kind.split(' for ')[1]}\b")
        return [line for line, text in enumerate(self.lines) if head.match(text)]

    def contract(self, name):
        return Contract(self, name, self.function(name))

    def public(self, kind):
        """The contracts of the public calls of a type, or of the file where none is named."""
        begins = self.impls(kind) if kind else [0]
        for begin in begins:
            end = self.block_end(begin) if kind else len(self.lines)
            for line in range(begin, end):
                call = re.match(FUNCTION.format(r"(\w+)"), self.lines[line])
                if call and self.lines[line].lstrip().startswith("pub "):
                    yield Contract(self, f"{kind}::{call[1]}" if kind else call[1], line)

    def item(self, word, is_whole):
        """The declaration of a type, or the value as which contracts see it; of a trait the ghost members and, if asked
        for, the contracts of its calls."""
        found = re.search(DECLARED.format(word.name), self.text, re.MULTILINE)
        line = self.text[:found.start()].count("\n")
        body = self.lines[line:self.block_end(line) + 1]
        if found[1] == "trait":
            body = without_bodies(body) if is_whole else ghosts_alone(body)
        for begin in self.impls(f"Model for {word.name}"):
            seen_as = ghosts_alone(self.lines[begin:self.block_end(begin) + 1], ("Value",))
            body = [body[0].removesuffix("{") + "{ .. }", *seen_as]
        text = "\n".join(self.above(line) + body)
        variants = set(re.findall(r"^    ([A-Z]\w*)", text, re.MULTILINE))
        return Item(word, self.path, text, [it for it in cited_by_code(text, self, variants) if it != word])

    def block(self, name, members):
        """These ghost members of an `impl`, which is named as `Trait for Type`."""
        begins = self.impls(name)
        if not begins:
            raise NotFound(f"{self.path} has no `impl {name}`")
        lines = ghosts_alone(self.lines[begins[0]:self.block_end(begins[0]) + 1], members)
        missing = [it for it in members if not any(f"ghost {it} =" in line for line in lines)]
        if missing:
            raise NotFound(f"{self.path}, impl {name}: no ghost member `{', '.join(missing)}`")
        text = "\n".join(lines)
        return Item(Word("clause", self.path, name), self.path, text, cited_by_code(text, self))


def without_bodies(lines):
    """A trait without the bodies of its calls."""
    kept, is_inside = [], False
    for line in lines:
        if is_inside:
            is_inside = line != "    }"
        elif re.match(r"    \S?.*\{$", line) and not line.startswith("     ") and "ghost" not in line:
            kept.append(line[:-1] + "{ .. }")
            is_inside = True
        else:
            kept.append(line)
    return kept


def ghosts_alone(lines, members=()):
    """A trait or an `impl`: its head, and its associated types and ghost members or these members alone."""
    kept, pending, is_open = [lines[0]], [], False
    wanted = re.compile(rf"    ghost ({'|'.join(members)}) " if members else r"    (ghost (?!use )|type )")
    for line in lines[1:-1]:
        if re.match(r"    //", line):
            pending.append(line)
        elif is_open or wanted.match(line):
            kept += pending + [line]
            pending, is_open = [], not line.endswith(";")
        else:
            pending = []
    return kept + [lines[-1]]


def members(lines):
    """The members of a declaration, each with the comments above it."""
    found = []
    for line in lines:
        if found and (re.match(r" {4}//", found[-1][-1]) or not re.match(r" {4}\S", line)):
            found[-1].append(line)
        else:
            found.append([line])
    return found


def is_named(member, text):
    """Whether a text names a field or a ghost member, as in `x.name` or `record { name = .. }`."""
    name = re.match(r" *(?:pub(?:\([^)]*\))? )?(?:ghost |type )?(\w+)", without_comments("\n".join(member)))[1]
    return re.search(rf"\.{name}\b|\b{name} = ", text) is not None


def names_variant(item, word):
    """Whether an item names a variant of an enum."""
    known = spec_file(item.word.place).known() if item.word.kind == "definition" else source_file(item.file).known
    tokens = TOKEN.findall(without_comments(item.text))
    return any(it != word.name and known.get(it.split(".")[0]) == word for it in tokens)


def without_unnamed(item, items):
    """A type without the fields and ghost members that none of the items names, or an enum of which none names a
    variant. `..` stands for what is left out."""
    lines = item.text.splitlines()
    start = next(it for it, line in enumerate(lines) if re.match(DECLARED.format(item.word.name), line))
    if not lines[start].endswith("{"):
        return item
    have, text = members(lines[start + 1:-1]), "\n".join(without_comments(it.text) for it in items)
    if " enum " in f" {lines[start]}":
        kept = have if any(item.word in it.cites and names_variant(it, item.word) for it in items) else []
    else:
        kept = [it for it in have if is_named(it, text)]
    if len(kept) == len(have):
        return item
    body = [line for member in kept for line in member]
    short = [f"{lines[start]} ..", *body, "}"] if kept else [f"{lines[start]} .. }}"]
    return replace(item, text="\n".join(lines[:start] + short))


def cited_by_code(text, source, bound=frozenset()):
    """What a declaration cites: types in its code, and words in its ghost members and clauses."""
    return cited(re.sub(r"::", ".", without_comments(text)).replace("<", " ").replace(">", " "), source.known, bound)


class Contract:
    """What stands above the body of a call: documentation, signature and clauses."""

    def __init__(self, source, name, line):
        self.source, self.name = source, name
        self.docs = source.above(line)
        indent = re.match(r" *", source.lines[line])[0]
        self.signature, self.clauses, comments, end = [], [], [], line
        for end in range(line, len(source.lines)):
            text = source.lines[end]
            if text == indent + "{":
                break
            start = re.match(r" *(requires|ensures)\*? (?:(\w+) )?\{", text)
            if start:
                self.clauses.append((start[1], start[2] or "", comments + [text]))
                comments = []
            elif re.match(r" *//", text):
                comments.append(text)
            elif self.clauses and text.strip() and not comments:
                self.clauses[-1][2].append(text)
            elif text.strip():
                self.signature.append(text)
            if text.endswith(";") or (not self.clauses and text.endswith(" {")):
                break
        self.body = source.lines[end:source.block_end(line if end == line else end) + 1]

    def types_of(self):
        """The words that the types of parameters, of the result and of type parameters are made of, by their names."""
        text = re.sub(r"\s+", " ", " ".join(self.signature)).replace("::", ".")
        found = {}
        for name, kind in re.findall(r"(\w+): ((?:[^,<>(){}]|<[^<>]*>)+)", text):
            found.setdefault(name, []).extend(re.findall(r"[A-Z]\w*", kind))
        returned = re.search(r"-> (.*?)(?: where\b| \{|;|$)", text)
        found["result"] = re.findall(r"[A-Z]\w*", returned[1]) if returned else []
        kind = self.name.rpartition("::")[0]
        found["self"] = [kind.split(" for ")[-1]] if kind else []
        return found

    def requires(self):
        return [it for it in self.clauses if it[0] == "requires"]

    def chosen(self, names):
        """The clauses of these names; all that is ensured where no name is given."""
        ensured = [it for it in self.clauses if it[0] == "ensures"]
        have = {name for _, name, _ in ensured}
        missing = [name for name in names if name not in have]
        if missing or not have:
            raise NotFound(f"{self.source.path}, {self.name}: no clause `{', '.join(missing) or 'ensures'}`")
        return [it for it in ensured if not names or it[1] in names]

    def item(self, names=(), is_owed=False):
        """The clauses of these names. What is required belongs to them where the reader owes it."""
        clauses = (self.requires() if is_owed else []) + self.chosen(names)
        code = without_comments("\n".join(line for _, _, lines in clauses for line in lines))
        required, ensured = ([line for it, _, lines in clauses for line in lines if it == kind]
                             for kind in ("requires", "ensures"))
        head = "\n".join(self.docs + self.signature + required)
        types = self.types_of()
        tokens = [it.split(".")[0] for it in TOKEN.findall(code)]
        named = [kind for token in tokens for kind in reached(token, types)]
        bound = {it for group in re.findall(r"λ ([^.]*?)\.", code) for it in group.split()}
        bound |= set(types) - {"self"}
        words = cited(code, self.source.known, bound)
        words += [self.source.known[it] for it in named if it in self.source.known and it not in bound]
        word = Word("clause", self.source.path, self.name)
        return Item(word, self.source.path, "\n".join(ensured), list(dict.fromkeys(words)), head)

    def calls(self, name):
        """Whether the body has a call of this name: of a method by its type, or of a value."""
        kind, _, call = name.rpartition("::")
        before = rf"(?:\b{kind}::|\.)" if kind else r"(?<![\w.])"
        return re.search(rf"{before}{call}(?:::<[^>]*>)?\(", without_comments("\n".join(self.body))) is not None


def reached(name, types, seen=()):
    """The types that a parameter is of, through the bounds of type parameters."""
    for kind in types.get(name, []):
        yield kind
        if kind in types and kind not in seen:
            yield from reached(kind, types, (*seen, kind))


@cache
def spec_file(place):
    return SpecFile(place)


@cache
def source_file(path):
    return SourceFile(path)


@cache
def find_type(crate, name):
    """The file of code in which a crate declares a type or a trait."""
    for path in sorted((ROOT / "crates" / crate / "src").glob("*.rt")):
        if re.search(DECLARED.format(name), path.read_text(), re.MULTILINE):
            return str(path.relative_to(ROOT))
    return None


def constant(word):
    """The declaration of a constant."""
    crate, module = word.place.split("/")
    source = source_file(f"crates/{crate}/src/{module}.rt")
    line = next(it for it, text in enumerate(source.lines) if re.match(rf" *(pub )?const {word.name}\b", text))
    return Item(word, source.path, "\n".join([*source.above(line), source.lines[line]]))


@cache
def item_of(word, whole):
    """What a word stands for; None of a word of the kit. `whole` has the traits whose calls' contracts are wanted."""
    if word.kind == "kit":
        return None
    if word.kind == "definition":
        return spec_file(word.place).item(word.name)
    if word.kind == "constant":
        return constant(word)
    path = find_type(word.place, word.name)
    if path is None:
        raise NotFound(f"{word.place} declares no `{word.name}`")
    return source_file(path).item(word, word.name in whole)


def found_from(words, whole, opaque):
    """The items that words lead to, each after the first that cites it, and the words of the kit on the way."""
    items, kit, waiting = {}, set(), list(reversed(words))
    while waiting:
        word = waiting.pop()
        if word.kind == "kit":
            kit.add(word)
        elif word.name not in opaque:
            item = item_of(word, whole)
            if item.word not in items:
                items[item.word] = item
                waiting += reversed(item.cites)
    return items, kit


def reading_order(items):
    """Items, each below all that cite it, unless they cite one another; those of a file together as far as may be."""
    cites = {word: {item_of(it, ()).word for it in item.cites if it.kind != "kit"} & set(items) - {word}
             for word, item in items.items()}
    order, left = [], list(items)
    while left:
        held = {it for word in left for it in cites[word]}
        free = [word for word in left if word not in held] or left[:1]
        same = [word for word in free if order and items[word].file == order[-1].file]
        following = (same or free)[0]
        order.append(items[following])
        left.remove(following)
    return order


def closure(roots, whole=(), opaque=()):
    """What these items stand on, in reading order, and words of the kit. Opaque types are passed over."""
    items, kit = found_from([word for root in roots for word in root.cites], whole, opaque)
    return reading_order(items), kit
