"""Reads the definitions of this repository: what stands in each file of `specs/`, what it imports, and the Rattle types that it names."""
import re
from functools import lru_cache
from itertools import takewhile
from pathlib import Path

TOP = Path(__file__).resolve().parent.parent
WORDS = r"(?:(?:pub|abbrev|unfoldable|opaque) )*"
ITEM = re.compile(rf"{WORDS}(?:record |data )?([^\s:(){{}},]+)(?=\s|:|$)")


def is_comment(line):
    return line.lstrip().startswith("--")


class Item:
    """A definition: the comment above it, its lines, and the header of the `module _` block in which it stands, if any."""

    def __init__(self, name, comment, header):
        self.name, self.comment, self.header, self.lines = name, comment, header, []

    def text(self):
        return "\n".join(self.lines + self.header)

    def has_part(self, name):
        """Whether this is the name of a field of it, or of a case."""
        return re.search(rf"^\s+(pub )?([^\s:]+ )*{re.escape(name)}( [^\s:]+)* :", "\n".join(self.lines), re.M) is not None

    def shown(self):
        return self.comment + self.lines


def blocks_of(lines, indent):
    """The blocks of lines at an indentation: each is a comment, or a line with those below it that stand deeper. An empty one stands
    for an empty line."""
    blocks = []
    for line in lines:
        goes_on = blocks and blocks[-1]
        if not line.strip():
            blocks.append([])
        elif goes_on and is_comment(line) and is_comment(blocks[-1][0]):
            blocks[-1].append(line)
        elif goes_on and len(line) - len(line.lstrip()) > indent and not is_comment(blocks[-1][0]):
            blocks[-1].append(line)
        else:
            blocks.append([line])
    return blocks


class Module:
    """A file of definitions: its first line, the names that it imports, and its items by name."""

    def __init__(self, lines=()):
        self.about = " ".join(line.removeprefix("-- ") for line in takewhile(is_comment, lines))
        self.names, self.aliases, self.whole, self.items = {}, {}, [], {}
        self.take(list(lines), 0, [])

    def take(self, lines, indent, header):
        comment, item = [], None
        for block in blocks_of(lines, indent):
            first = block[0].strip() if block else ""
            if block and is_comment(first):
                comment = block
                continue
            if first.startswith(("use ", "pub use ")):
                self.take_import(" ".join(line.strip() for line in block))
            elif first.startswith("module _"):
                ends = next(at for at, line in enumerate(block) if line.rstrip().endswith("where"))
                self.take(block[ends + 1:], indent + 2, header + block[:ends + 1])
            elif block and not first.startswith(("pub mod ", "mod ")):
                item = self.item_at(first, comment, header) or item
                item.lines += block
            comment = []

    def item_at(self, first, comment, header):
        """The item whose line this is; None where the line closes the one before."""
        name = ITEM.match(first)
        return self.items.setdefault(name[1], Item(name[1], comment, header)) if name else None

    def take_import(self, text):
        text = re.sub(r"^(pub )?use ", "", text)
        listed = re.fullmatch(r"([\w.-]+)\.\{(.*)\}", text)
        path, _, other = text.partition(" as ")
        if listed:
            for one in re.split(r",\s*", listed[2]):
                name, _, other = one.partition(" as ")
                self.names[(other or name).strip()] = (listed[1], name.strip())
        else:
            self.aliases[other or path.split(".")[-1]] = path
            self.whole += [] if other else [path]


@lru_cache(maxsize=None)
def module_at(path):
    """The module under a path of names such as `Rattle.bureau.specs.Joint`, or None where this repository has none."""
    root, *parts = path.split(".")
    file = (TOP / "crates").joinpath(*parts).with_suffix(".antt")
    return Module(file.read_text().splitlines()) if root == "Rattle" and file.is_file() else None


class Declared:
    """A type that the code declares, as definitions name it."""

    def __init__(self, crate, file, name):
        self.crate, self.file, self.name = crate, file, name

    def shown(self):
        lines = (TOP / "crates" / self.crate / self.file).read_text().splitlines()
        start = next(at for at, line in enumerate(lines) if declares(line, self.name))
        end = start
        while not re.fullmatch(r"\}|.*;|.*\{\}", lines[end]):
            end += 1
        while lines[start - 1].startswith(("///", "#[")):
            start -= 1
        return [line for line in lines[start:end + 1] if not line.strip().startswith("#[")]


def declares(text, name):
    return re.search(rf"^pub(\([a-z]+\))? (struct|enum|trait|type) {name}\b", text, re.M)


@lru_cache(maxsize=None)
def declared_at(path, name):
    """The type of the code that stands under a path such as `Rattle.bureau_store.specs.declared.caller.CallerRow`, or None."""
    root, crate, *parts = path.split(".")
    folder = TOP / "crates" / crate
    if root != "Rattle" or parts[:2] != ["specs", "declared"] or not folder.is_dir():
        return None
    inside = [part for part in parts[2:] if part != "TheVariants"] + [name]
    for cut in range(len(inside), -1, -1):
        file = Path("src", *inside[:cut]).with_suffix(".rt") if cut else Path("src/lib.rt")
        for one in inside[cut:]:
            if (folder / file).is_file() and declares((folder / file).read_text(), one):
                return Declared(crate, str(file), one)
    return None


def words_in(text):
    """The words of a text that may be names, each with the word before its dot, if any."""
    text = re.sub(r'--.*|"[^"]*"', " ", text)
    for word in re.findall(r"[^\s(){},;:=→λ×⊎]+", text):
        parts = word.strip(".").split(".")
        yield from zip(parts, [None] + parts)
