"""zone-csv: makes the lists that a desk reads from what SMP/E and z/OSMF say of a zone. docs/SITES.md is its page.

FILE is the text that LIST SYSMODS prints (SMPLIST), or the JSON of z/OSMF's query of a CSI; - is standard input. In a zone's list

    SUPERSEDED   is a SYSMOD with SUPBY, whether it was installed or not
    APPLIED      is one with STATUS APP; in JSON one with INSTALLDATE
    ACCEPTED     is one with STATUS ACC and not APP

Others are left out, and named on standard error. The exit status is 1 if the zone is not in FILE, or its list has no row or over
40,000, or FILE is EBCDIC, or no answer of z/OSMF yet. Only with 0 is anything printed: a list with its header alone would empty the
zone at the desk. (A received list may have no row.)
"""
import io
import json
import os
import pkgutil
import re
from collections import Counter

from . import run
from .run import Stop

HEADING = re.compile(r"[01+-]? *[A-Z@#$][A-Z0-9@#$]* +[A-Z/ ]+ENTRIES *")
PAGE = re.compile(r"1? *PAGE +[0-9]+ ")
NAME = re.compile("[A-Z0-9@#$]+")
ENTRY = re.compile(" ?([^ ]+)")
ENTRIES = b"\xc5\xd5\xe3\xd9\xc9\xc5\xe2"  # in EBCDIC

# The state of a SYSMOD in a zone's list: that of the first row of which a field has such a word. If the row has none, the SYSMOD is left
# out for what stands in its place.
STATES = (
    ({"DELBY": ".+", "TYPE": "DELETED"}, None, "deleted by a function"),
    ({"SUPBY": ".+", "LASTSUP": ".+", "TYPE": "SUPERSEDED"}, "SUPERSEDED", None),
    ({"ERROR": "YES", "STATUS": "ERR.*"}, None, "in error"),
    ({"RESTORE": "YES", "STATUS": "RES"}, None, "whose RESTORE did not end"),
    ({"STATUS": "APP"}, "APPLIED", None),
    ({"STATUS": "ACC"}, "ACCEPTED", None),
)
RECEIVED = (({"STATUS": "REC"}, "RECEIVED", None),)
SAYING = {field for row in STATES for field in row[0]}
# The fields of an entry as LIST writes them, and the words of STATUS: others are named, so that none is lost in silence.
FIELDS = """TYPE STATUS FMID DATE/TIME REC INS APP ACC SREL DELETE DELBY SUPBY SUPING LASTSUP PRE REQ IFREQ CIFREQ NPRE VERSION FEATURE MOD MAC SRC
  MACUPD SRCUPD SZAP XZAP MODDEL JCLIN REWORK RESDATE ERROR RESTORE LASTUPD ASSEM EMOVE RENLMOD DELLMOD RMAC RSRC RLMOD RMACUPD RSRCUPD
  RSZAP RXZAP HOLDERROR HOLDSYSTEM HOLDUSER HOLDFIXCAT HOLDCLASS BYPASS REGEN ACCEPT APPLY SOURCEID DESCRIPTION UCLDATE HFS JAR PROGRAM
  PROGRAMS RECDATE INSTALLDATE SMODTYPE RFMID FILE DATA ELEMENT XREF CATEGORY RESOLVER LEPARM SHELLSCR SYMLINK""".split()
STATUS = re.compile("REC|APP|ACC|RES|DEL|SUP|NOT|IDR|BYP|CRQ|REGEN|JCLIN|RESTORE|ERR.*")


def tell(text):
    """Says what has names of a file, which may be no text at all."""
    run.put(2, f"zone-csv: {text}\n".encode("latin-1", "surrogateescape"))


def some(names):
    """How many names there are, and the first of them."""
    return f"({' '.join(list(names)[:20])}{' ..' if len(names) > 20 else ''})"


# --- SMPLIST ------------------------------------------------------------------------------------------------------------


def without_control(line):
    return " " + line[1:] if line[:1] in tuple("01+-") else line


def lines_of(source, zone):
    """The lines on the SYSMODs of a zone. SMPLIST is a print file: its first column may have a control character. The heading tells, since
    no zone begins with one. It says of which zone and of which entries the next lines are, and stands on each page again: None is such
    a heading of others."""
    has_control = is_ours = False
    for line in source:
        line = line.decode("latin-1").removesuffix("\n").removesuffix("\r")
        if "ENTRIES" in line and HEADING.fullmatch(line):
            has_control = line[0] in " 01+-"
            is_ours = without_control(line).split()[:2] == [zone, "SYSMOD"]
            if not is_ours:
                yield None
        elif is_ours:
            line = without_control(line) if has_control else line
            bare = line.strip(" ")
            if bare and not ("PAGE" in line and PAGE.match(line)) and bare != "NAME":
                yield line


def entry_of(line):
    """The name that begins an entry, or None where none begins, and what is said of it. It begins in the first columns, and what is said of
    it stands further right. A name may have a character that none has, such as one of another code page."""
    found = ENTRY.match(line) if line[:2] != "  " else None
    if not found:
        return None, line
    name, text = found[1], line[found.end() :]
    if re.match(" +[A-Z]", text) and (NAME.fullmatch(name) or "=" in text):
        return name, text
    tell("no entry begins with this line, and it is passed over: " + line)
    return None, None


def from_text(source, zone):
    """The fields of each SYSMOD of a zone, as far as they say its state, with their words."""
    found, name, field, unknown = {}, None, "", {"fields": Counter(), "words of STATUS": Counter()}
    for line in lines_of(source, zone):
        begun, text = entry_of(line) if line is not None else (None, None)
        if begun or text is None:
            name, field = begun, ""
        if name is None:
            continue
        fields = found.setdefault(name, {})
        if "=" in text:
            field, text = text.split("=", 1)
            field = field.strip(" ").partition(" ")[0].partition("(")[0]  # such as SUPBY of `SUPBY  (IMM)`
            if field not in FIELDS:
                unknown["fields"][field] += 1
        if field in SAYING:
            words = re.findall("[^ \t]+", text)
            fields.setdefault(field, []).extend(words)
            unknown["words of STATUS"].update(word for word in words if field == "STATUS" and not STATUS.fullmatch(word))
    for kind, count in unknown.items():
        if count:
            tell(f"passed over, unknown {kind}: {sum(count.values())} {some(count)}")
    return found


# --- JSON ---------------------------------------------------------------------------------------------------------------


def large(thing):
    """An object with the names of its fields in capitals."""
    return {str(key).upper(): value for key, value in thing.items()} if isinstance(thing, dict) else {}


def texts(value):
    if isinstance(value, list):
        return [text for one in value for text in texts(one)]
    text = "" if value is None else str(value).strip()
    return [text.upper()] if text else []


def fields_of(entry, installed):
    """The fields of an entry with their words, as a listing has them. In JSON it is an object, or a list of objects, with the dates in place
    of STATUS. INSTALLED is APP or ACC."""
    parts, fields = entry.get("SUBENTRIES", entry), {}
    for part in map(large, parts if isinstance(parts, list) else [parts]):
        if "NAME" in part or "SUBENTRY" in part:
            part = {str(part.get("NAME", part.get("SUBENTRY"))).upper(): part.get("VALUES", part.get("VALUE", part.get("DATA")))}
        for name, value in part.items():
            fields.setdefault(name, []).extend(texts(value))
    said = {name: words for name, words in fields.items() if name in SAYING - {"TYPE", "STATUS"}}
    return {**said, "STATUS": [installed] * bool(fields.get("INSTALLDATE")) + ["REC"] * bool(fields.get("RECDATE"))}


def from_json(data, zone, installed):
    """The fields of each SYSMOD of a zone, as far as they say its state."""
    try:
        answer = json.loads(data.decode("utf-8", "surrogateescape"))
    except (ValueError, RecursionError) as fault:
        raise Stop(3, f"the file is no JSON: {fault}") from None
    whole = large(answer)
    if "ENTRIES" not in whole and "STATUSURL" in whole:
        text = "z/OSMF is still at work: it answered 202, and an address to ask again. Ask there until it answers 200 with entries, and"
        raise Stop(1, f"{text} take that answer: curl --user USER --header X-CSRF-ZOSMF-HEADER:bureau {whole['STATUSURL']}")
    entries, found = whole.get("ENTRIES", answer), {}
    for entry in map(large, entries if isinstance(entries, list) else []):
        if str(entry.get("ENTRYTYPE", "SYSMOD")).upper() == "SYSMOD" and str(entry.get("ZONENAME", zone)).upper() == zone:
            name = str(entry.get("ENTRYNAME", "")).strip().encode("utf-8", "replace").decode("latin-1")
            for field, words in fields_of(entry, installed).items():
                found.setdefault(name, {}).setdefault(field, []).extend(words)
    return found


# --- The list -----------------------------------------------------------------------------------------------------------

NO_NAME = "without a name that is 1 to 7 of A-Z 0-9 @ # $"
# The order in which they are told.
TOLD = ("ACCEPTED", "SUPERSEDED", "APPLIED", "RECEIVED")
TOLD_LEFT_OUT = ("in error", "not received", NO_NAME, "deleted by a function", "not installed", "whose RESTORE did not end")


def state_of(fields, what):
    """The state of a SYSMOD in a list, or None, and why it is left out."""
    for row, state, why in RECEIVED if what == "received" else STATES:
        if any(re.fullmatch(pattern, word, re.S) for field, pattern in row.items() for word in fields.get(field, ())):
            return state, why
    return None, "not received" if what == "received" else "not installed"


def as_list(found, zone, what):
    """The rows of a list. On standard error stands what it has, and what it leaves out."""
    listed, left_out = {}, {}
    for name, fields in sorted(found.items()):
        state, why = state_of(fields, what) if run.ID.fullmatch(name) else (None, NO_NAME)
        if state is None:
            left_out.setdefault(why, []).append(name)
        else:
            listed[name] = state
    count = Counter(listed.values())
    tell(f"{zone}:" + ("".join(f" {count[state]} {state}" for state in TOLD if count[state]) or " no rows"))
    for why in filter(left_out.get, TOLD_LEFT_OUT):
        tell(f"left out, {why}: {len(left_out[why])} {some(left_out[why])}")
    if not found:
        raise Stop(1, f"FILE says nothing of SYSMODs of the zone {zone}")
    if len(listed) > 40000:
        raise Stop(1, "the list has over 40,000 rows, which no desk takes")
    if not listed and what != "received":
        raise Stop(1, f"nothing is installed in the zone {zone}, as FILE has it")
    return listed


def bytes_of(path):
    if path == "-":
        with open(0, "rb", closefd=False) as given:
            return given.read()
    if not os.path.isfile(path):
        raise Stop(3, f"the file '{path}' can't be read")
    return run.bytes_of(path)


def main(words):
    installed = "APP"
    if words[:1] == ["--accepted"]:
        installed, words = "ACC", words[1:]
    what, *named = words or [""]
    if {"zone": 2, "received": 1}.get(what) != len(named):
        run.put(2, pkgutil.get_data(__package__, "zone-csv.txt"))
        return 2
    zone, path = ["GLOBAL", *named][-2:]
    data = bytes_of(path)
    if b"ENTRIES" not in data and (ENTRIES in data or data.startswith(b"\xc0")):  # a brace in EBCDIC
        raise Stop(1, f"{path} is EBCDIC. Transfer it as text, or convert it: iconv -f IBM-1047 -t UTF-8 <FILE >NEW")
    is_json = data.lstrip(b" \t\r\n").startswith((b"{", b"["))
    found = from_json(data, zone, installed) if is_json else from_text(io.BytesIO(data), zone)
    rows = as_list(found, zone, what)
    lines = ["SYSMOD", *rows] if what == "received" else ["SYSMOD,STATE", *map(",".join, rows.items())]
    run.out("\n".join(lines) + "\n")
    return 0
