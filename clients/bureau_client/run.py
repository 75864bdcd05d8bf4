"""What a run says, what it prints and writes, and how it ends."""
import os
import re
import subprocess
from contextlib import contextmanager, suppress
from pathlib import Path

ID = re.compile("[A-Z0-9@#$]{1,7}")
CONTROLS = re.compile("[\x00-\x1f\x7f-\x9f\udc80-\udcff]")  # the last are bytes that are no UTF-8: a terminal may obey them too

name = "bureau-client"
worst = 0  # the status of a run that goes on to its end
code = ""  # the code of this machine's files, as iconv names it; empty is that of the desk


class Stop(Exception):
    """The run ends here with a status, and says why."""

    def __init__(self, status, text=""):
        super().__init__(status, text)
        self.status, self.text = status, text


class Closed(Stop):
    """Whoever reads what is printed has gone, as `head` does. A question ends there without a word."""


class NoAnswer(Stop):
    """What came is no answer of a desk."""

    def __init__(self):
        super().__init__(3, "what came is no answer of a desk")


@contextmanager
def or_stop(text):
    """If the system refuses what is done inside, the run stops and says this."""
    try:
        yield
    except OSError:
        raise Stop(3, text) from None


def put(number, data):
    while data:
        data = data[os.write(number, data) :]


def visible(text):
    """A text in which each control character stands as what it is, such as \\x1b. What another machine sends could else paint over the
    terminal of whoever reads it."""
    return CONTROLS.sub(lambda found: "\\x%02x" % (ord(found[0]) & 0xFF), text)


def visible_lines(data):
    """Bytes of UTF-8 whose lines are visible. A CR at the end of a line is left out."""
    lines = data.decode("utf-8", "surrogateescape").split("\n")
    return "\n".join(visible(line.removesuffix("\r")) for line in lines).encode()


def say(text):
    """Tells the user something, on standard error, in one line."""
    with suppress(OSError):  # nobody listens
        put(2, os.fsencode("%s: %s\n" % (name, visible(text))))


def ends_with(status):
    """The run ends with this status, unless it has a worse one already."""
    global worst
    worst = worst or status


def refused(text):
    """The run has to be called refused, but goes on."""
    say(text)
    ends_with(1)


def out(data):
    """Prints bytes of UTF-8, or a text, in the code of this machine."""
    data = data.encode("utf-8", "surrogateescape") if isinstance(data, str) else data
    try:
        put(1, memoryview(converted(data, "UTF-8", code) if code else data))
    except OSError as fault:
        kind = Closed if isinstance(fault, BrokenPipeError) else Stop
        raise kind(3, "the answer can't be written") from None


def converted(data, before, after):
    made = subprocess.run(["iconv", "-f", before, "-t", after], input=data, stdout=subprocess.PIPE)
    if made.returncode:
        raise OSError("iconv ended with %d" % made.returncode)
    return made.stdout


def bytes_in(path):
    with open(path, "rb") as file:
        return file.read()


def bytes_of(path, text=None):
    """The bytes of a user's file as a desk reads them. TEXT is said where that fails."""
    with or_stop(text or "'%s' can't be read" % path):
        data = bytes_in(path)
        return converted(data, code, "UTF-8") if code else data


def write(path, data, mode=None):
    """Writes a file, perhaps with a mode of its own. It is whole at each moment."""
    with or_stop("%s can't be written" % path):
        with open(path + ".new", "wb") as file:
            file.write(data)
        if mode is not None:
            os.chmod(path + ".new", mode)
        os.replace(path + ".new", path)


def remove(*paths):
    for path in paths:
        with suppress(FileNotFoundError):
            os.remove(path)


def make_folder(path, text=None):
    with or_stop(text or "%s can't be made" % path):
        os.makedirs(path, exist_ok=True)


def need_file(path):
    if not os.path.isfile(path) or not os.access(path, os.R_OK):
        raise Stop(2, f"the file '{path}' is not there, or may not be read")


def csv_line(fields):
    """A line of CSV. A text that a spreadsheet would take for a formula gets an apostrophe in front."""
    safe = ["'" + text if text.startswith(tuple("=+-@")) else text for text in fields]
    return ",".join('"%s"' % text.replace('"', '""') if '"' in text or "," in text else text for text in safe) + "\n"


def program():
    """The program `bureau`, or None: BUREAU_PROGRAM names it, or it stands in the folder above the clients."""
    path = os.environ.get("BUREAU_PROGRAM") or str(Path(__file__).resolve().parents[2] / "bureau")
    return path if os.access(path, os.X_OK) and not os.path.isdir(path) else None
