"""What a program asked of two files, read from strace, and what a loss of power may leave of them. For losses.py."""
import os
import re
import subprocess
from collections import namedtuple

# `what` is one of: made (the file), named (the folder was synced), write, cut, sync, told. `file` is one of FILES.
Call = namedtuple("Call", "what file at data", defaults=(None, 0, b""))
FILES = ("store", "store-wal")
SECTOR = 512
CALLS = "openat,close,pwrite64,pwritev,ftruncate,fsync,fdatasync,unlink,unlinkat,rename,renameat2,write,writev,sendto,sendmsg"
LINE = re.compile(r"^\d+ +(\w+)\((.*)\) += (-?\d+)")
TEXT = re.compile(r'"((?:\\x[0-9a-f]{2})*)"')
HALF = bytes(255 * (each >> 7) for each in range(256))  # makes drawn bytes a mask of bytes that are all or nothing


def strace(trace, *words):
    """The words of a run whose calls go to the file `trace`, each with all of its bytes."""
    return ["strace", "-f", "-xx", "-s", str(1 << 26), "-e", "trace=" + CALLS, "-e", "signal=none", "-o", trace, *words]


def can_trace():
    try:
        return subprocess.run(["strace", "-o", os.devnull, "true"], capture_output=True).returncode == 0
    except OSError:
        return False


def calls_of(trace, store, tells):
    """The calls by which a run changed the files of `store`, and those that told its user something: `tells` says which do."""
    folder, open_files, found = os.path.dirname(store), {}, []
    with open(trace) as lines:
        for line in lines:
            part = LINE.match(line)
            if part and int(part[3]) >= 0:
                found += call_of(part[1], part[2], int(part[3]), folder, open_files, tells)
    return found


def call_of(name, words, result, folder, open_files, tells):
    if name.startswith(("unlink", "rename")) or name in ("pwritev", "writev", "sendmsg"):
        raise ValueError("a call that is not understood: " + name)
    if name == "openat":
        path = os.path.normpath(os.path.join(folder, text_of(words).decode()))
        open_files[result] = "folder" if path == folder else os.path.basename(path) if os.path.dirname(path) == folder else None
        return [Call("made", open_files[result])] if open_files[result] in FILES and "O_CREAT" in words else []
    file = open_files.get(int(words.split(",")[0]))
    if name == "close":
        open_files.pop(int(words.split(",")[0]), None)
    elif name in ("write", "sendto") and tells(text_of(words)):
        return [Call("told")]
    elif name == "fsync" and file == "folder":
        return [Call("named")]
    elif file in FILES:
        return changes(name, words, result, file)
    return []


def changes(name, words, result, file):
    if name in ("fsync", "fdatasync"):
        return [Call("sync", file)]
    if name == "ftruncate":
        return [Call("cut", file, int(words.split(",")[1]))]
    return [Call("write", file, int(words.rsplit(",", 1)[1]), text_of(words)[:result])]


def text_of(words):
    return bytes.fromhex(TEXT.search(words)[1].replace("\\x", ""))


class Disk:
    """Two files while calls come, up to a loss of power. `kept` is what is there in any case: None for a file that may be missing."""

    def __init__(self, found):
        self.kept = {name: found.get(name) for name in FILES}
        self.there = {name: found.get(name) is not None for name in FILES}
        self.pending = {name: [] for name in FILES}
        self.told = 0

    def take(self, call):
        if call.what == "told":
            self.told += 1
        elif call.what == "made":
            self.there[call.file] = True
        elif call.what == "named":
            for name in FILES:
                if self.there[name] and self.kept[name] is None:
                    self.kept[name] = b""
        elif call.what == "sync":
            bare = self.kept[call.file] is None
            whole = bytes(made(self.kept[call.file] or b"", self.pending[call.file]))
            # without its name nothing of a file is sure
            self.pending[call.file] = [Call("write", call.file, 0, whole)] if bare and whole else []
            self.kept[call.file] = None if bare else whole
        else:
            self.pending[call.file].append(call)

    def image(self, way, draw):
        """What a loss leaves now, in a way of WAYS: the bytes of each file that is there."""
        left = {}
        for name in FILES:
            if self.kept[name] is not None or (self.there[name] and draw.random() < 0.5):
                left[name] = WAYS[way](self.kept[name] or b"", self.pending[name], draw)
        return left


class Lying(Disk):
    """A disk that does nothing at a sync of the log."""

    def take(self, call):
        if call != Call("sync", "store-wal"):
            super().take(call)


def made(old, calls):
    """The bytes of a file after these calls."""
    after = bytearray(old)
    for call in calls:
        put(after, call, call.data)
    return after


def put(after, call, data):
    """Makes a call, with these bytes in place of its own."""
    if call.what == "cut":
        del after[call.at :]
        after.extend(bytes(call.at - len(after)))
    elif data:
        after.extend(bytes(max(0, call.at + len(data) - len(after))))
        after[call.at : call.at + len(data)] = data


# ---- the ways of a loss: what is left of a file with these bytes on the disk, and these calls behind the last sync


def none(old, calls, draw):
    return bytes(old)


def each(old, calls, draw):
    return bytes(made(old, calls))


def some(old, calls, draw):
    """Each call or not."""
    return bytes(made(old, [call for call in calls if draw.random() < 0.5]))


def front(old, calls, draw):
    """The calls up to one, and a front part of that one."""
    many = draw.randrange(len(calls) + 1)
    after = made(old, calls[:many])
    if many < len(calls) and calls[many].what == "write":
        put(after, calls[many], calls[many].data[: draw.randrange(len(calls[many].data))])
    return bytes(after)


def torn(old, calls, draw, tear):
    """Each call torn, in whichever order: of each write what `tear` leaves, which gets the bytes that were there."""
    after = bytearray(old)
    for call in calls:
        if call.what == "cut":
            if draw.random() < 0.5:
                put(after, call, b"")
        else:
            was = bytes(after[call.at : call.at + len(call.data)])
            put(after, call, tear(call.at, was + bytes(len(call.data) - len(was)), call.data, draw))
    return after


def blend(old, new, mask):
    """The bytes of `new` where the mask has ones, and those of `old` elsewhere."""
    first, second, chosen = (int.from_bytes(part, "little") for part in (old, new, mask))
    return (first & ~chosen | second & chosen).to_bytes(len(old), "little")


def sectors_of(at, length):
    """The sectors of a write, each from its first byte within the write to behind its last."""
    edges = [at, *range((at // SECTOR + 1) * SECTOR, at + length, SECTOR), at + length]
    return [(low - at, high - at) for low, high in zip(edges, edges[1:])]


def by_sectors(at, old, new, draw):
    return b"".join((new if draw.random() < 0.5 else old)[low:high] for low, high in sectors_of(at, len(new)))


def by_bytes(at, old, new, draw):
    return blend(old, new, draw.randbytes(len(new)).translate(HALF))


def by_garbage(at, old, new, draw):
    return b"".join(draw.choice((old[low:high], new[low:high], garbage(high - low, draw))) for low, high in sectors_of(at, len(new)))


def garbage(length, draw):
    return draw.choice((bytes(length), b"\xff" * length, draw.randbytes(length)))


def sectors(old, calls, draw):
    return bytes(torn(old, calls, draw, by_sectors))


def single(old, calls, draw):
    return bytes(torn(old, calls, draw, by_bytes))


def lengths(old, calls, draw):
    """Each call torn, and of the lengths that the file had since its last sync any; what lies behind the shortest is anything."""
    had, now = [len(old)], bytearray(old)
    for call in calls:
        put(now, call, call.data)
        had.append(len(now))
    after = torn(old, calls, draw, by_sectors)
    length = draw.randint(min(had), max(had))
    put(after, Call("cut", at=length), b"")
    if draw.random() < 0.5:
        sure = min(had)
        after[sure:] = by_garbage(sure, bytes(after[sure:]), bytes(after[sure:]), draw)
    return bytes(after)


def within(old, calls, draw):
    """Anything stands where a write was to go."""
    return bytes(torn(old, calls, draw, by_garbage))


def around(old, calls, draw):
    """Anything stands in the whole sectors at the ends of a write."""
    after = torn(old, calls, draw, by_sectors)
    for call in calls:
        if call.what == "write" and draw.random() < 0.5:
            for place in {call.at, call.at + len(call.data) - 1}:
                low, high = place // SECTOR * SECTOR, min(len(after), (place // SECTOR + 1) * SECTOR)
                after[low:high] = garbage(max(0, high - low), draw)
    return bytes(after)


# What a desk supposes of a disk lets these happen, but for the last one: there bytes change that were not written.
WAYS = {
    "none": none, "all": each, "some": some, "front": front, "sectors": sectors,
    "bytes": single, "lengths": lengths, "within": within, "around": around,
}
SUPPOSED = [way for way in WAYS if way != "around"]
