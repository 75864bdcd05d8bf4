"""What HOLDDATA says, without a desk: the hold book that it leaves, and the fix categories that it publishes."""
import functools
import os
import re
import shutil
import subprocess

from . import faults, run
from .run import Stop, say
from .statements import has_word, ids_in, lines_of, operands_of, plain, statements_in, statements_of


def holds(path):
    """The hold book of a file, by the program `bureau`. The file is looked at as `publication` does: it may have records without line
    ends, and what looks like a statement and is none is named. A refusal comes with its meaning, and with the line that has it."""
    run.need_file(path)
    program = run.program() or shutil.which("bureau")
    if not program:
        raise Stop(2, "the program bureau is not there: set BUREAU_PROGRAM")
    lines, lost = list(lines_of(path)), []
    for _ in statements_in(path, lines, lost):
        pass
    if (path, 0) in lost:
        return 1
    made = subprocess.run([program, "holds", "-"], input=b"\n".join(lines), stderr=subprocess.PIPE)
    run.put(2, made.stderr)
    if found := re.search(r"^FAULT (\d+)(?: (\d+))?", os.fsdecode(made.stderr), re.M):
        say(f"FAULT {found[1]}: {faults.meaning(found[1])}")
        if found[2]:
            say(f"{path}, line {found[2]}: {os.fsdecode(lines[int(found[2]) - 1][:100])}")
    return made.returncode or (1 if lost else 0)


# --- Fix categories -----------------------------------------------------------------------------------------------------


@functools.lru_cache(None)
def categories_in(path):
    """The categories of the FIXCAT holds that a file leaves. Of the holds of a SYSMOD for a reason the last one counts."""
    book = {}
    for one in statements_of(path, []):
        if one.verb not in (b"HOLD", b"RELEASE") or one.is_open or not has_word(one, b"FIXCAT"):
            continue
        operands = operands_of(one)
        texts = [plain(text) for name, text in operands if one.verb == b"HOLD" and name == b"CATEGORY"]
        book[ids_in(operands[:1], b""), ids_in(operands, b"REASON")] = re.findall(rb"[^\s,]+", b" ".join(texts))
    return {each.decode("ascii", "backslashreplace") for found in book.values() for each in found}


def published_categories(published):
    """Prints what is in a file, as a list that a zone may have: whoever wants less takes lines out."""
    found = categories_in(published)
    if not found:
        raise Stop(1, f"{published} has no FIXCAT hold with a category")
    run.out("\n".join(["CATEGORY", *sorted(found)]) + "\n")


def name_unmatched(patterns, name, published):
    """Names each pattern of a list that matches none of the categories in a file."""
    found = categories_in(published)
    for pattern in patterns:
        stem = pattern.removesuffix("*")
        if not any(each == pattern or stem != pattern and each.startswith(stem) for each in found):
            say(f"{name}: {pattern} matches no category of {published}")
