#!/usr/bin/env python3
"""Writes HOLDDATA of about a given size to standard output.

    make_holddata.py MIB [SHAPE]

SHAPE is `holds` (the default: statements as a vendor sends them, each on two to four cards with
sequence numbers in columns 73 to 80), or one that is hard on a reader:

    spaces    one line of blanks
    lines     line ends alone
    verbs     lines of `++` without a verb
    list      one list over as many lines as fit
    nested    a list in a list, one parenthesis a line, all closed at the end
    onekey    one hold, put again and again
    sorted    small holds with keys of their own, in the order of the keys
    random    the same in another order
    operands  one statement of operands of one letter, without lists
    comment   a list of COMMENT, one parenthesis a line, all closed at the end
    slashes   one comment over lines of `/*`
    empty     comments without text, one after the other
"""
import random
import sys

KINDS = ("ERROR", "ERROR", "ERROR", "SYSTEM", "USER", "FIXCAT")
CLASSES = ("PE", "HIPER", "", "YR2038")


def card(text, number):
    return "%-72s%08d\n" % (text, number * 10 % 100_000_000)


def statement(i):
    """The lines of statement i, without sequence numbers."""
    spread = i * 2654435761 % 4294967296
    sysmod = "U%c%05d" % (65 + spread % 26, spread // 26 % 100000)
    kind, of_class = KINDS[spread % 6], CLASSES[i % 4]
    reason = "A%c%05d" % (65 + i % 26, i // 3 % 100000)
    rest = " CLASS(%s)" % of_class if of_class else ""
    date = " DATE(%02d%03d)" % (10 + i % 16, 1 + spread % 365)
    fmid = "H%s%02dE%d" % (("BB", "DZ", "CS", "JE")[i % 4], i % 97, i % 8)
    form = i % 3
    if form == 0:
        return ["++HOLD(%s) %s FMID(%s)" % (sysmod, kind, fmid), " REASON(%s)%s%s." % (reason, rest, date)]
    if form == 1:
        return ["++HOLD(%s) REASON(%s)" % (sysmod, reason), " %s%s%s" % (kind, date, rest),
                " COMMENT(SYMPTOMS (MSG%d) AND HOW TO GO ROUND THEM)" % (i % 1000), " FMID(%s)." % fmid]
    return ["++HOLD(%s)" % sysmod, "  FMID(%s) %s REASON(" % (fmid, kind), "  %s ) %s%s ." % (reason, rest, date)]


def holds(size, out):
    written = number = i = 0
    while True:
        cards = "".join(card(line, number + k) for k, line in enumerate(statement(i)))
        if written + len(cards) > size:
            return
        out.write(cards)
        written, number, i = written + len(cards), number + cards.count("\n"), i + 1


def repeated(piece, size, out, before="", after=""):
    count = (size - len(before) - len(after)) // len(piece)
    out.write(before)
    while count > 0:
        some = min(count, 65536)
        out.write(piece * some)
        count -= some
    out.write(after)


def nested(size, out, operand="OTHER"):
    depth = (size - 100) // 4
    out.write("++HOLD(UA10001) ERROR REASON(AA10001) %s(\n" % operand)
    repeated("(\n", 2 * depth, out)
    repeated(")\n", 2 * depth, out)
    out.write(").\n")


def comment(size, out):
    nested(size, out, "COMMENT")


def letters_first(number):
    """A number's place among the keys: a digit's code is below that of a letter."""
    return tuple((number // 36**place + 10) % 36 for place in (4, 3, 2, 1, 0))


def small(size, out, order):
    characters = "ABCDEFGHIJKLMNOPQRSTUVWXYZ0123456789"
    line = "++HOLD(UA%s%s%s%s%s)ERR REASON(A).\n"
    count = size // len(line % (0, 0, 0, 0, 0))
    for number in order(random.Random(1).sample(range(36**5), count)):
        out.write(line % tuple(characters[number // 36**place % 36] for place in (4, 3, 2, 1, 0)))


HELD = "++HOLD(UA10001) ERROR REASON(AA10001)\n"

SHAPES = {
    "holds": holds,
    "spaces": lambda size, out: repeated(" ", size, out),
    "lines": lambda size, out: repeated("\n", size, out),
    "verbs": lambda size, out: repeated("++\n", size, out),
    "list": lambda size, out: repeated(" AA10001,AA10002,AA10003,AA10004,\n", size, out,
                                       "++HOLD(UA10001) ERROR REASON(AA10001) OTHER(\n", ").\n"),
    "nested": nested,
    "sorted": lambda size, out: small(size, out, lambda numbers: sorted(numbers, key=letters_first)),
    "random": lambda size, out: small(size, out, list),
    "operands": lambda size, out: repeated(" A" * 35 + "\n", size, out, HELD, ".\n"),
    "comment": comment,
    "slashes": lambda size, out: repeated("/*\n", size, out, HELD, "*/ .\n"),
    "empty": lambda size, out: repeated("/**/" * 18 + "\n", size, out, HELD, ".\n"),
    "onekey": lambda size, out: repeated("++HOLD(UA10001) ERROR REASON(AA10001) CLASS(PE).\n", size, out),
}


def main():
    if not 2 <= len(sys.argv) <= 3 or sys.argv[2:] and sys.argv[2] not in SHAPES:
        sys.exit(__doc__)
    SHAPES[sys.argv[2] if sys.argv[2:] else "holds"](int(float(sys.argv[1]) * 1024 * 1024), sys.stdout)


main()
