"""A second way to read what the desk reads, in plain Python: statements, holds, publications, zone lists and requests.

It was written from the rules alone, beside the program, and serves the tests of mangled input. It is slow, and it knows no more
of heads than these inputs need.
"""
import re

from limits import LIMITS

BLANKS = b" \t"
NAME = frozenset(b"ABCDEFGHIJKLMNOPQRSTUVWXYZabcdefghijklmnopqrstuvwxyz0123456789@#$")
VERBS = (b"HOLD", b"RELEASE", b"FUNCTION", b"PTF", b"APAR", b"USERMOD", b"VER", b"IF")
LISTS = (b"FMID", b"PRE", b"REQ", b"SUP")
HEADERS = (b"FUNCTION", b"PTF", b"APAR", b"USERMOD")
KINDS = {b"ERROR": 0, b"ERR": 0, b"SYSTEM": 1, b"SYS": 1, b"USER": 2, b"FIXCAT": 3}
TOKEN = frozenset(b"!#$%&'*+-.^_`|~0123456789abcdefghijklmnopqrstuvwxyzABCDEFGHIJKLMNOPQRSTUVWXYZ")


class Fault(Exception):
    def __init__(self, number, place=None):
        self.line = "FAULT %d" % number + ("" if place is None else " %d" % place)


def is_id(text):
    return re.fullmatch(rb"[A-Z0-9@#$]{1,7}", text) is not None


# ---- statements


def lines_of(source):
    return [(line[:-1] if line.endswith(b"\r") else line)[:72] for line in source.split(b"\n")]


def verb_of(line):
    rest = line[2:].lstrip(BLANKS)
    count = next((i for i, byte in enumerate(rest) if byte not in NAME), len(rest))
    return rest[:count].upper(), len(line) - len(rest) + count


def statements(source):
    """(verb, subject, operands, line) of each statement; operands are pairs of a name and its values."""
    if len(source) > LIMITS.source_bytes:
        raise Fault(5)
    lines, found, at = lines_of(source), [], 0
    while at < len(lines):
        if not lines[at].startswith(b"++") or verb_of(lines[at])[0] not in VERBS:
            at += 1
            continue
        verb, column = verb_of(lines[at])
        statement, at = one_statement(lines, at, verb, column)
        found.append(statement)
    return found


def one_statement(lines, first, verb, column):
    """Reads the statement that begins on a line, and tells the line behind it."""
    begins = [0]  # where each line begins among the lines joined by blanks
    for line in lines[first:]:
        begins.append(begins[-1] + len(line) + 1)
    text, place = b" ".join(lines[first:]), first + 1
    stops = {begin for begin, line in zip(begins[1:], lines[first + 1 :]) if line.startswith(b"++")}
    at, before, subject, operands = column, "verb", None, []
    while True:
        if at in stops or at >= len(text):
            raise Fault(1, place)
        byte = text[at : at + 1]
        if byte in (b" ", b"\t", b","):
            at += 1
        elif text.startswith(b"/*", at):
            at = comment_end(text, at, place)
        elif byte[0] in NAME:
            end = next(i for i in range(at, len(text) + 1) if i == len(text) or text[i] not in NAME)
            operands.append((text[at:end], []))
            at, before = end, "name"
        elif byte == b"(" and before != "list":
            is_text = before == "name" and operands[-1][0].upper() == b"COMMENT"
            at, values = list_end(text, at + 1, is_text, place)
            if before == "verb":
                subject = values
            else:
                operands[-1][1].extend(values)
            before = "list"
        elif byte == b".":
            break
        else:
            raise Fault(3 if byte == b")" else 4, place)
    if not is_subject(verb, subject):
        raise Fault(2, place)
    behind = first + next(i for i, begin in enumerate(begins) if begin > at)
    return (verb, subject[0] if verb not in (b"VER", b"IF") else None, operands, place), behind


def is_subject(verb, values):
    """Whether a verb may have this list after it; None is no list."""
    if verb == b"IF":
        return values is None
    return values is not None and (verb == b"VER" or (len(values) == 1 and is_id(values[0])))


def comment_end(text, at, place):
    end = text.find(b"*/", at + 2)
    if end < 0:
        raise Fault(3, place)
    return end + 2


def list_end(text, at, is_text, place):
    """Where a list ends, and its values. In the list of a COMMENT only parentheses count, and it has no values."""
    depth, values, begin = 1, [], None

    def cut():
        return values + [text[begin:at]] if begin is not None and not is_text else values

    while at < len(text):
        byte = text[at : at + 1]
        is_comment = not is_text and text.startswith(b"/*", at)
        if byte in b"() \t," or is_comment:
            values, begin = cut(), None
            depth += {b"(": 1, b")": -1}.get(byte, 0)
            if depth == 0:
                return at + 1, values
        elif begin is None:
            begin = at
        at = comment_end(text, at, place) if is_comment else at + 1
    raise Fault(3, place)


# ---- what statements say


def operands_of(statement):
    joined = {}
    for name, values in statement[2]:
        joined.setdefault(name.upper(), []).extend(values)
    return joined


def hold_of(statement):
    """The key of a HOLD or a RELEASE, and the hold; None for a RELEASE."""
    verb, sysmod, _, place = statement
    operands = operands_of(statement)
    kinds = {KINDS[name] for name in operands if name in KINDS}
    values = {name: found for name, found in operands.items() if found}
    if not kinds:
        raise Fault(11, place)
    if len(kinds) > 1:
        raise Fault(12, place)
    if b"REASON" not in values:
        raise Fault(13, place)
    for name in (b"REASON", b"FMID") if verb == b"RELEASE" else (b"REASON", b"FMID", b"CLASS", b"RESOLVER"):
        found = values.get(name)
        if found and (len(found) > 1 or not is_id(found[0])):
            raise Fault(14, place)
    key = (sysmod, kinds.pop(), values[b"REASON"][0])
    if verb == b"RELEASE":
        return key, None
    date = values.get(b"DATE", [b"00001"])
    if len(date) > 1 or not re.fullmatch(rb"\d{5}", date[0]) or not 1 <= int(date[0][2:]) <= 366:
        raise Fault(15, place)
    if any(len(each) > LIMITS.category_bytes or not re.fullmatch(rb"[!-&*+\--~]+", each) for each in values.get(b"CATEGORY", [])):
        raise Fault(16, place)
    hold = {name: values[name][0] for name in (b"FMID", b"CLASS", b"DATE", b"RESOLVER") if name in values}
    hold[b"CATEGORY"] = sorted(set(values.get(b"CATEGORY", [])))
    return key, hold


def padded(key):
    """What keys are ordered by: ids padded with blanks, and the kind."""
    return key[0].ljust(7), key[1], key[2].ljust(7)


def hold_book(source):
    book = {}
    for statement in statements(source):
        if statement[0] in (b"HOLD", b"RELEASE"):
            key, hold = hold_of(statement)
            book.pop(key, None)
            if hold:
                book[key] = hold
    text = "%-9s%-8s%-9s%-9s%-9s%-7s%-9s%s\n"
    lines = [text % ("SYSMOD", "KIND", "REASON", "FMID", "CLASS", "DATE", "RESOLVER", "CATEGORY")]
    for key in sorted(book, key=padded):
        shown = [book[key].get(name, b"-").decode() for name in (b"FMID", b"CLASS", b"DATE", b"RESOLVER")]
        categories = b",".join(book[key][b"CATEGORY"]).decode() or "-"
        lines.append(text % (key[0].decode(), ("ERROR", "SYSTEM", "USER", "FIXCAT")[key[1]], key[2].decode(), *shown, categories))
    return "".join(lines) + "ROWS %d\n" % len(book)


def changes(source):
    """What a publication says: (id, lists) of a record, whose lists are sets by operand, with pairs of an FMID and a REQ of its
    IFs under IF; (key, hold) of a hold or a release."""
    found, record = [], None
    for statement in statements(source):
        verb, sysmod, _, place = statement
        if verb in (b"HOLD", b"RELEASE"):
            found.append(hold_of(statement))
        elif verb in HEADERS:
            record = {name: set() for name in LISTS + (b"IF",)}
            found.append((sysmod, record))
        elif verb == b"IF":
            if record is None:
                raise Fault(27, place)
            record[b"IF"].update(pairs_of(statement))
        elif record is None:
            raise Fault(21, place)
        else:
            operands = operands_of(statement)
            if any(not is_id(value) for name in LISTS for value in operands.get(name, [])):
                raise Fault(22, place)
            for name in LISTS:
                record[name].update(operands.get(name, []))
    return found


def pairs_of(statement):
    """What an IF requires: pairs of its function and of what its REQ names."""
    operands, place = operands_of(statement), statement[3]
    functions, needs = operands.get(b"FMID", []), operands.get(b"REQ", [])
    if len(functions) != 1:
        raise Fault(28, place)
    if any(not is_id(value) for value in functions + needs):
        raise Fault(22, place)
    return {(functions[0], need) for need in needs}


def publication(source):
    """What the publisher is told: the numbers of records, holds and releases."""
    kinds = ["S" if isinstance(key, bytes) else "H" if said else "R" for key, said in changes(source)]
    return "ACCEPTED SYSMODS %d HOLDS %d RELEASES %d\n" % tuple(kinds.count(each) for each in "SHR")


# ---- lists


def csv_records(text):
    """The records of RFC 4180 as `csv` reads them: each of CR, LF and CR LF ends one, an empty line is none, and a quotation mark
    counts only at a field's front and in what it quotes."""
    found, record, field, quoted, closed = [], [], b"", False, False
    for byte in (text[i : i + 1] for i in range(len(text))):
        if quoted and not closed:
            closed = byte == b'"'
            field += b"" if closed else byte
        elif closed and byte == b'"':
            field, closed = field + byte, False
        elif byte == b",":
            record, field, quoted, closed = record + [field], b"", False, False
        elif byte in b"\r\n":
            if record or field or quoted:
                found.append(record + [field])
            record, field, quoted, closed = [], b"", False, False
        elif byte == b'"' and not field and not quoted:
            quoted = True
        else:
            field, quoted, closed = field + byte, quoted and not closed, False
    return found + [record + [field]] if record or field or quoted else found


def records(text, header, most):
    """The records of a list after its header, each with its number."""
    text = text[3:] if text.startswith(b"\xef\xbb\xbf") else text
    fields = [[field.strip(BLANKS) for field in record] for record in csv_records(text)]
    if not fields or fields[0] != header:
        raise Fault(31)
    for place, record in enumerate(fields[1:], 1):
        if place > most:
            raise Fault(37)
        if len(record) != len(header):
            raise Fault(32, place)
        yield place, record


def zone_rows(text):
    rows = {}
    for place, (name, state) in records(text, [b"SYSMOD", b"STATE"], LIMITS.zone_records):
        if not is_id(name):
            raise Fault(33, place)
        if state not in (b"APPLIED", b"ACCEPTED", b"SUPERSEDED"):
            raise Fault(34, place)
        if rows.setdefault(name, state) != state:
            raise Fault(36, place)
    return rows


def received_ids(text):
    ids = set()
    for place, (name,) in records(text, [b"SYSMOD"], LIMITS.received_records):
        if not is_id(name):
            raise Fault(33, place)
        ids.add(name)
    return ids


def patterns(text):
    found = set()
    for place, (pattern,) in records(text, [b"CATEGORY"], LIMITS.patterns):
        if len(pattern) > LIMITS.category_bytes or not re.fullmatch(rb"(?:[!-&+\--~]+\*?|\*)", pattern):
            raise Fault(35, place)
        found.add(pattern)
    return found


# ---- requests


def head_of(text):
    """The first head of a connection and what follows it; (b"", b"") where the connection ended cleanly before one."""
    begin = re.match(rb"(?:\r?\n)*", text).end()
    end = re.compile(rb"\n\r?\n").search(text, begin)
    if begin == len(text):
        return b"", b""
    return (None, b"") if end is None else (text[begin : end.end()], text[end.end() :])


def fields_of(head):
    """The method, the target and the headers of a head by the grammar of RFC 9112, or None."""
    first, *lines = re.split(rb"\r?\n", head)[:-2]
    words = re.fullmatch(rb"([^ ]+) ([!-~\x80-\xff]+) HTTP/1\.([01])", first)
    if not words or not set(words[1]) <= TOKEN or b"\r" in b"".join(lines):
        return None
    headers = []
    for line in lines:
        field = re.fullmatch(rb"([^:]+):([\t -~\x80-\xff]*)", line)
        if not field or not set(field[1]) <= TOKEN:
            return None
        headers.append((field[1].lower(), field[2].strip(BLANKS)))
    return words[1], words[2], words[3] == b"0", headers


def refusal(text):
    """Why the bytes of one connection's first request are refused before anyone looks at its token, as (status, body); else its
    fields and its body, or None where it never stands whole."""
    head, rest = head_of(text[: LIMITS.head_bytes])
    if not head and len(text) >= LIMITS.head_bytes:
        return 431, "HEAD TOO LARGE\n"
    if not head:
        return None
    rest += text[LIMITS.head_bytes :]
    if head.count(b"\n") - 2 > LIMITS.head_lines:  # without the request line and the empty one
        return 431, "HEAD TOO LARGE\n"
    fields = fields_of(head)
    if fields is None or not fields[1].startswith(b"/") or max(fields[1]) > 0x7F:
        return 400, "BAD REQUEST\n"
    method, _, _, headers = fields
    lengths = [value for name, value in headers if name == b"content-length"]
    if any(name == b"transfer-encoding" for name, _ in headers):
        return 411, "LENGTH REQUIRED\n"
    if len(lengths) > 1 or any(not value.isdigit() for value in lengths):
        return 400, "BAD REQUEST\n"
    if not lengths and method in (b"POST", b"PUT"):
        return 411, "LENGTH REQUIRED\n"
    length = int(lengths[0]) if lengths else 0
    if length > LIMITS.body_bytes:
        return 413, "TOO LARGE\n"
    if len(rest) < length:
        return None
    return fields, rest[:length], rest[length:]
