"""The statements of HOLDDATA and SMPPTFIN, as the files come: each to its period, in columns 1 to 72."""
import itertools
import re
from dataclasses import dataclass

from .run import say

HEADERS = (b"FUNCTION", b"PTF", b"APAR", b"USERMOD")
KEPT = HEADERS + (b"VER", b"IF", b"HOLD", b"RELEASE")
VERB = re.compile(rb"\+\+[ \t]*([A-Za-z0-9@#$]*)")
MARK = re.compile(rb"/\*|[().]|[A-Za-z0-9@#$]+")  # what may begin or end something in a statement
LOST = re.compile(rb"\+\+[ \t]*(HOLD|RELEASE|PTF|APAR|USERMOD|FUNCTION|VER|IF)[ \t]*[( \t]", re.I)
COMMENT = re.compile(rb"/\*.*?(\*/|$)")
ID = re.compile(rb"[A-Z0-9@#$]+")
FRONT = 64000  # bytes that tell what a file is: a whole number of 80-byte records


@dataclass(eq=False)
class Statement:
    """One statement: where it stands, and its lines, cut at column 72 and after its period."""

    place: str
    verb: bytes
    lines: list
    is_open: bool  # no period ends it
    fault: int = 0
    header: "Statement" = None

    def is_header(self):
        return self.verb in HEADERS

    def bytes(self):
        return b"\n".join(self.lines) + b"\n"


def opened(path):
    return open(0, "rb", closefd=False) if path == "-" else open(path, "rb")


def lines_of(path):
    """The lines of a file, without their ends; a file without line ends has records of 80 bytes. It is read
    from front to end, so that it may be a pipe."""
    with opened(path) as source:
        front = source.read(FRONT)
        if b"++" not in front and front.count(b"\x4e\x4e") > 0:
            say("%s seems to be EBCDIC: convert it with iconv -f IBM-1047 -t UTF-8" % path)
        if front.startswith(b"\xef\xbb\xbf"):
            say("%s begins with a UTF-8 mark, which is left out" % path)
            front = front[3:] + source.read(3)
        if b"\n" not in front and len(front) >= 160:
            say("%s has no line ends: it is cut into records of 80 bytes" % path)
            rest = iter(lambda: source.read(80), b"")
            for record in itertools.chain((front[at : at + 80] for at in range(0, len(front), 80)), rest):
                yield record.rstrip(b"\r\n")
        else:
            *whole, last = front.split(b"\n")
            for line in itertools.chain(whole, [last + source.readline()], source):
                yield line.rstrip(b"\n").removesuffix(b"\r")


def marks_of(text):
    """The marks and words of a statement after its verb, each with where it begins and ends, and with the number of lists that are open
    after it. None is in a comment. The text of COMMENT has no comments."""
    at, depth, word = VERB.match(text).end(), 0, b""
    while found := MARK.search(text, at):
        mark, at = found[0], found.end()
        if mark == b"/*":
            if not (depth and word == b"COMMENT"):
                if (at := text.find(b"*/", at) + 2) == 1:
                    return
            continue
        depth += (mark == b"(") - (mark == b")")
        yield mark, found.start(), at, depth
        if depth == 0 and mark != b"(":
            word = mark.upper()


def end_of(text):
    """Where the statement's period ends, or None."""
    for mark, _, end, depth in marks_of(text):
        if depth < 0:
            return None
        if depth == 0 and mark == b".":
            return end
    return None


def statement_of(path, first, verb, lines, lost):
    """A statement with its lines to the period; where no period is found, all lines to the next statement. What
    looks like a statement after the period goes to `lost`."""
    text = b"\n".join(lines)
    end = end_of(text)
    if end is not None:
        lines = text[:end].split(b"\n")
        for number, line in enumerate(text[end:].split(b"\n"), first + len(lines) - 1):
            name_lost(path, number, line, lost)
    return Statement(f"{path}, line {first}", verb, [line.rstrip() for line in lines], end is None)


def name_lost(path, number, text, lost):
    """Names what looks like a statement, and is none, since it does not begin in column 1. Without `lost` nothing is named."""
    if lost is None:
        return
    if found := LOST.search(COMMENT.sub(b"", text)):
        lost.append((path, number))
        text = COMMENT.sub(b"", text)[found.start() :]
        say("%s, line %d: left out, since its ++ is not in column 1: %s" % (path, number, shown(text)))


def shown(line):
    return line[:72].decode("ascii", "backslashreplace")


def statements_of(path, lost):
    """The statements of a file that a desk reads. `lost` gets what is no statement and looks like one, and the
    file where it has no statement at all."""
    return statements_in(path, lines_of(path), lost)


def statements_in(path, all_lines, lost):
    first, verb, lines, found = 0, None, [], 0
    for number, line in enumerate(all_lines, 1):
        line = line[:72]
        if line.startswith(b"++"):
            found += 1
            if verb in KEPT:
                yield statement_of(path, first, verb, lines, lost)
            first, verb, lines = number, VERB.match(line)[1].upper(), [line]
        elif verb in KEPT:
            lines.append(line)
        else:
            name_lost(path, number, line, lost)
    if verb in KEPT:
        yield statement_of(path, first, verb, lines, lost)
    if not found and lost is not None:
        say("%s has no statement" % path)
        lost.append((path, 0))


def operands_of(one):
    """The operands of a statement without a fault: each name in capitals, with the text in its list. The list right
    after the verb has no name."""
    text = b" ".join(one.lines)
    begin, word, found = 0, b"", []
    for mark, start, end, depth in marks_of(text):
        if mark == b"(" and depth == 1:
            begin = end
        elif mark == b")" and depth == 0:
            found.append((word, text[begin:start]))
            word = b""
        elif depth == 0:
            word = mark.upper()
    return found


def has_word(one, word):
    """Whether a statement has a word outside of its lists, such as ERROR."""
    return any(depth == 0 and mark.upper() == word for mark, _, _, depth in marks_of(b" ".join(one.lines)))


def plain(text):
    """A text without its comments."""
    return COMMENT.sub(b" ", text)


def ids_in(operands, *names):
    texts = [text for name, text in operands if name in names]
    return frozenset(each for text in texts for each in ID.findall(plain(text)))
