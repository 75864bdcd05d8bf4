"""Makes a publication from HOLDDATA and SMPPTFIN as they come. publication.txt says how."""
import datetime
import itertools
import os
import pkgutil
import re
import subprocess
import tempfile
from collections import Counter

from . import faults, run
from .run import Stop, csv_line, say
from .statements import HEADERS, KEPT, has_word, ids_in, operands_of, plain, shown, statements_in, statements_of
from .symptoms import COLUMNS as SYMPTOMS

SMRTDATA = re.compile(rb"SMRTDATA\s*\(((?:[^()]|\([^()]*\))*)\)", re.I)
PART = re.compile(rb"([A-Z0-9]+)\s*\(([^()]*)\)", re.I)  # of SMRTDATA
ONE_ID = re.compile(rb"\s*[A-Z0-9@#$]{1,7}\s*")
BLOCK = 2000  # statements that are judged in one run
LIMIT = 67108864  # bytes that a desk takes at once


class Judge:
    """Asks the real program what a desk would answer."""

    def __init__(self, folder):
        self.program = run.program()
        if not self.program:
            raise Stop(2, "there is no program to judge by: set BUREAU_PROGRAM, or say --unchecked")
        self.callers, self.connection = os.path.join(folder, "callers"), os.path.join(folder, "connection")
        with open(self.callers, "wb") as out:
            out.write(b"NAME,TOKEN\nPUBLISH,publisher-token\n")

    def answer(self, body):
        """The three counts if it is accepted, else the number and the line of its first fault."""
        head = b"POST /publish HTTP/1.1\r\nbureau-token: publisher-token\r\nbureau-number: 1\r\ncontent-length: %d\r\n\r\n"
        with open(self.connection, "wb") as out:
            out.write(head % len(body) + body)
        made = subprocess.run([self.program, "replay", self.callers, self.connection], stdout=subprocess.PIPE)
        reply = made.stdout.split(b"\r\n\r\n", 1)[-1]
        counts = re.match(rb"ACCEPTED SYSMODS (\d+) HOLDS (\d+) RELEASES (\d+)\n", reply)
        fault = re.match(rb"FAULT (\d+) (\d+)\n", reply)
        if made.returncode != 0 or not (counts or fault):
            raise Stop(2, f"{self.program} gives no answer (status {made.returncode}): {made.stdout[:200]!r}")
        return tuple(map(int, (counts or fault).groups()))

    def judge(self, block, is_inside):
        """Marks the faults of a block of statements. If a SYSMOD came before it, a ++VER or a ++IF may begin it.

        One without a period is judged alone: in a block it could take in the statements after it."""
        for one in block:
            if one.is_open:
                one.fault = self.answer(one.bytes())[0]
        left = [one for one in block if not one.is_open]
        while True:
            body, owner = [b"++PTF(A)."] if is_inside else [], {}
            for one in left:
                owner[len(body) + 1] = one
                body += one.lines
            fault, line, *is_accepted = answer = self.answer(b"\n".join(body) + b"\n")
            if is_accepted:
                break
            owner[line].fault = fault
            left.remove(owner[line])
        verbs = [one.verb for one in left]
        counts = (is_inside + sum(map(verbs.count, HEADERS)), verbs.count(b"HOLD"), verbs.count(b"RELEASE"))
        if answer != counts:
            raise Stop(2, f"a desk counts SYSMODS, HOLDS, RELEASES {answer}, and here they are {counts}: please report it")


def judge_all(statements):
    with tempfile.TemporaryDirectory(prefix="publication-") as folder:
        judge, is_inside = Judge(folder), False
        for at in range(0, len(statements), BLOCK):
            block = statements[at : at + BLOCK]
            judge.judge(block, is_inside)
            is_inside = is_inside or any(one.is_header() for one in block)


def kept(statements):
    """What is left: a SYSMOD goes with its ++VER and ++IF."""
    header = None
    for one in statements:
        header = one if one.is_header() else header
        one.header = header if one.verb in (b"VER", b"IF") or one.is_header() else None
    bad = {one.header for one in statements if one.fault and one.header}
    return [one for one in statements if not one.fault and one.header not in bad]


def which(one):
    """The operands that FAULT 14 is about, with their values, as far as they are told apart."""
    if one.fault != 14:
        return []
    operands = [(name, text) for name, text in operands_of(one) if name in (b"REASON", b"FMID", b"CLASS", b"RESOLVER")]
    names = [name for name, _ in operands]
    bad = [b"%s(%s)" % (name, text.strip()) for name, text in operands if names.count(name) > 1 or not ONE_ID.fullmatch(plain(text))]
    return [shown(b" ".join(bad))] if bad else []


def report(statements, left, lost):
    """Names each statement with a fault, and the SYSMODs that go with one. Tells how many have a fault."""
    is_left, faulty = set(left), [one for one in statements if one.fault]
    for one in statements:
        if one.fault:
            told = ": ".join([faults.brief(one.fault), *which(one), shown(one.lines[0])])
            say(f"{one.place}: FAULT {one.fault}: {told}")
        elif one not in is_left and one.is_header():
            say(f"{one.place}: left out, since a statement of it has a fault: {shown(one.lines[0])}")
    count = Counter(one.verb for one in left)
    told = ", ".join(f"{count[verb]} ++{verb.decode()}" for verb in KEPT[len(HEADERS) :])
    told = f"{sum(count[verb] for verb in HEADERS)} SYSMODs, {told}; {len(faulty)} statements with a fault"
    say(told + (f", {lost} not in column 1" if lost else ""))
    return len(faulty)


# --- What a desk does not read ------------------------------------------------------------------------------------------


def has_operand(one, name):
    # most statements don't even mention it
    return any(name in line.upper() for line in one.lines) and any(name == each for each, _ in operands_of(one))


def subject_of(one):
    return b"".join(ids_in(operands_of(one)[:1], b"")).decode()


def requisites_of(statements):
    """What one ++VER requires, with the ++IFs after it."""
    found = set()
    for one in statements:
        operands = operands_of(one)
        fmid = ids_in(operands, b"FMID") if one.verb == b"IF" else None
        found |= {(fmid, need) for need in ids_in(operands, b"PRE", b"REQ")}
    return frozenset(found)


def vers_of(left):
    """Each SYSMOD with its ++VERs, each with the ++IFs after it."""
    found = {}
    for one in left:
        if one.is_header():
            found[id(one)] = one, []
        elif one.header and one.verb == b"VER":
            found[id(one.header)][1].append([one])
        elif one.header and one.verb == b"IF" and found[id(one.header)][1]:
            found[id(one.header)][1][-1].append(one)
    return found.values()


def name_all(ids, what):
    """Says how many SYSMODs there are, and names each, in lines that can be read."""
    if ids:
        say(f"{len(ids)} SYSMOD{'' if len(ids) == 1 else 's'} {what}")
        for at in range(0, len(ids), 10):
            say("    " + " ".join(ids[at : at + 10]))


def name_differences(left):
    """Names the SYSMODs of which a desk knows less than SMP/E (docs/DIFFERENCES.md)."""
    differ, with_npre = [], []
    for header, vers in vers_of(left):
        if len(vers) > 1 and len(set(map(requisites_of, vers))) > 1:
            differ.append(subject_of(header))
        if any(has_operand(ver[0], b"NPRE") for ver in vers):
            with_npre.append(subject_of(header))
    name_all(differ, "with ++VERs that differ in PRE, REQ or ++IF. A desk joins them, so it may tell HELD where SMP/E does not:")
    name_all(with_npre, "with NPRE. A desk does not read it, so it may tell GOOD where SMP/E does not:")


def symptoms_of(left):
    """A record for each SMRTDATA of a ++HOLD, with what it says."""
    for one in left:
        operands = operands_of(one) if one.verb == b"HOLD" else []
        texts = {name.decode("latin-1"): b" ".join(text.split()) for name, text in operands}
        for data in SMRTDATA.finditer(texts.get("COMMENT", b"")):
            said = {name.upper().decode(): b" ".join(re.split(rb"[\s,]+", text.strip(b" ,"))) for name, text in PART.findall(data[1])}
            record = [texts.get("", b""), *map(texts.get, SYMPTOMS[1:3]), *map(said.get, SYMPTOMS[3:])]
            yield [(each or b"").decode("ascii", "backslashreplace").strip() for each in record]


def take_symptoms(symptoms, body):
    """Takes in what a publication says of ERROR holds. One of which it says nothing has no symptoms any more, nor has one that it releases.
    Gives the newest DATE of all its holds, as a day, or an empty text."""
    lines, newest = [line.removesuffix(b"\r") for line in body.split(b"\n")], ""
    for one in statements_in("", lines, None):
        operands = operands_of(one) if one.verb in (b"HOLD", b"RELEASE") else []
        if one.verb == b"HOLD":
            newest = max(newest, *(day_of(text) for name, text in operands if name == b"DATE"), "")
        if operands and has_word(one, b"ERROR"):
            key = tuple(b"".join(ids).decode() for ids in (ids_in(operands[:1], b""), ids_in(operands, b"REASON")))
            symptoms.known.pop(key, None)
            for record in symptoms_of([one]):
                symptoms.put([*key, *record[2:]])
    return newest


def day_of(date):
    """DATE of a hold, yyddd, as a day of the calendar. The years are 1970 to 2069."""
    if not re.fullmatch(rb"\s*\d{5}\s*", date):
        return ""
    number = int(date)
    begin = datetime.date(number // 1000 + (1900 if number >= 70000 else 2000), 1, 1)
    return (begin + datetime.timedelta(number % 1000 - 1)).isoformat()


def write_symptoms(path, left):
    records = list(symptoms_of(left))
    with open(path, "w", encoding="utf-8", newline="\n") as out:
        out.writelines(map(csv_line, [SYMPTOMS, *records]))
    say(f"{path} has the symptoms of {len(records)} holds")


# --- What is printed ----------------------------------------------------------------------------------------------------


def parts_of(left):
    """The statements in parts that a desk takes. A SYSMOD stays together with its ++VER and ++IF."""
    part, size = [], 0
    for _, group in itertools.groupby(left, lambda one: id(one.header or one)):
        text = b"".join(one.bytes() for one in group)
        if part and size + len(text) > LIMIT:
            yield part
            part, size = [], 0
        part.append(text)
        size += len(text)
    yield part


def write_parts(name, left):
    """Whether each part is one that a desk takes."""
    sizes = []
    for number, part in enumerate(parts_of(left), 1):
        path = f"{name}-{number:03}.txt"
        with open(path, "wb") as out:
            sizes.append(sum(map(out.write, part)))
        say(f"{path} has {sizes[-1]} bytes" + ("" if sizes[-1] <= LIMIT else ", which no desk takes"))
    return max(sizes) <= LIMIT


def print_all(left):
    """Whether it is printed: a desk would refuse what is too large."""
    size = sum(len(one.bytes()) for one in left)
    if size > LIMIT:
        say(f"the publication has {size} bytes, and a desk takes 67,108,864: use --parts NAME")
        return False
    for at in range(0, len(left), BLOCK):
        run.out(b"".join(one.bytes() for one in left[at : at + BLOCK]))
    return True


def main(words):
    given = {"--unchecked": None, "--parts": None, "--symptoms": None}
    while words and words[0] in given:
        option, *words = words
        if option == "--unchecked":
            given[option] = True
        elif words:
            given[option], *words = words
    if not words or any(word.startswith("-") and word != "-" for word in words):
        run.put(2, pkgutil.get_data(__package__, "publication.txt"))
        return 2
    lost = []
    statements = [one for path in words for one in statements_of(path, lost)]
    if not given["--unchecked"]:
        judge_all(statements)
    left = kept(statements)
    count_of_faults = report(statements, left, sum(1 for _, line in lost if line))
    run.worst = 1 if count_of_faults or lost else 0
    name_differences(left)
    if given["--symptoms"]:
        write_symptoms(given["--symptoms"], left)
    is_done = write_parts(given["--parts"], left) if given["--parts"] else print_all(left)
    return run.worst if is_done else 1
