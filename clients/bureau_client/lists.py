"""The lists of a client, each alone or a folder of them."""
import os

from . import holddata, run
from .changes import Changes
from .desk import escaped
from .run import ID, Stop, refused, say


def names_in(data):
    """The SYSMODs or patterns of a list, each once."""
    lines = (line.removesuffix(b"\r") for line in data.removeprefix(b"\xef\xbb\xbf").split(b"\n"))
    records = [line for line in lines if line][1:]
    return list(dict.fromkeys(os.fsdecode(record.split(b",", 1)[0].replace(b'"', b"").strip(b" \t")) for record in records))


def rows(data):
    """How many rows a desk keeps of a list."""
    return len(names_in(data))


class Lists:
    """Sends lists by the changes of a client: a method for each command."""

    def __init__(self, desks):
        self.changes = Changes(desks[0])
        self.changes.open()

    def put(self, path, name, expected, sent):
        body = run.bytes_of(name, f"'{name}' can't be copied into {self.changes.folder}")
        self.changes.change("PUT", path, name, body, f"{expected} {rows(body)}", sent)

    def zone(self, zone, name):
        self.put("/zones/" + escaped(zone), name, f"ZONE {zone} ROWS", "zones/" + zone)

    def categories(self, zone, name, published=""):
        self.name_unmatched(name, published)
        self.put(f"/zones/{escaped(zone)}/categories", name, f"ZONE {zone} PATTERNS", "categories/" + zone)

    def name_unmatched(self, name, published):
        """Names the patterns of a list that match no category of HOLDDATA, where that is given."""
        if published:
            holddata.name_unmatched(names_in(run.bytes_of(name)), name, published)

    def received(self, name):
        self.put("/received", name, "RECEIVED ROWS", "received")

    def drop_zone(self, zone):
        self.changes.change("DELETE", "/zones/" + escaped(zone), "", None, f"ZONE {zone} DROPPED", "zones/" + zone)

    def is_sent(self, name, sent):
        """The desk has accepted this very list."""
        copy = self.changes.copy(sent)
        return copy is not None and copy == run.bytes_of(name)

    def sync(self, folder, all=False, published=""):
        """Sends what changed of a folder, or all of it."""
        if not os.path.isdir(folder):
            raise Stop(2, f"the folder '{folder}' is not there")
        received, desk = folder + "/received.csv", self.changes.desk
        if not os.path.isdir(folder + "/zones") and not os.path.isfile(received):
            raise Stop(2, f"the folder '{folder}' has neither zones/ nor received.csv")
        if all:
            self.changes.forget_sent()
        self.changes.number_next()
        for send, kind, zone, name in self.in_folder(folder):
            if kind == "categories":
                self.name_unmatched(name, published)
            if not ID.fullmatch(zone):
                refused(f"{name} is passed over: '{zone}' is no name of a zone")
            elif not self.is_sent(name, f"{kind}/{zone}"):
                send(zone, name)
        if os.path.isfile(received) and not self.is_sent(received, "received"):
            self.received(received)
        if self.changes.is_idle and not run.worst:
            say(f"nothing to do: {desk.url} has accepted each list of {folder}")
        # Nothing is dropped because a file is missing. But it is said.
        for zone, _ in desk.zones():
            if not os.path.isfile(f"{folder}/zones/{zone}.csv"):
                drops = f"'bureau-client drop-zone {zone}' drops it"
                say(f"{desk.url} also has the zone {zone}, which has no file in {folder}/zones; {drops}")
        from . import accepted, history  # they stand on this module

        accepted.keep(self.changes, folder)
        history.keep(self.changes, not self.changes.is_idle)

    def in_folder(self, folder):
        """The lists of zones and then those of categories, each with what sends it, its kind and its zone."""
        for kind, send in (("zones", self.zone), ("categories", self.categories)):
            place = f"{folder}/{kind}"
            for name in sorted(os.listdir(place), key=os.fsencode) if os.path.isdir(place) else ():
                if name.endswith(".csv") and not name.startswith(".") and os.path.isfile(f"{place}/{name}"):
                    yield send, kind, name[: -len(".csv")], f"{place}/{name}"
