"""The command line of bureau-client."""
import os
import pkgutil
import re
from importlib import import_module

from . import run
from .run import Stop

# Each command with what it wants, the module that does it, and its options. The function has the command's name, takes a desk and
# the words, and the options by their names.
QUESTIONS = {
    "zones": ("", "reports", "csv"),
    "errsysmods": ("ZONE", "reports", "csv all alert symptoms"),
    "missingfix": ("ZONE", "reports", "csv"),
    "chain": ("ZONE SYSMOD", "jobs", ""),
    "plan": ("ZONE", "jobs", "fixes symptoms"),
    "published": ("", "reports", ""),
    "last": ("", "reports", ""),
    "overview": ("", "reports", "csv symptoms"),
    "news": ("ZONE, or nothing for all zones", "reports", "since"),
    "history": ("ZONE, or nothing for all zones", "history", "csv"),
    "compare": ("ZONE ZONE", "across", "csv"),
    "installed": ("SYSMOD", "across", "csv"),
    "job": ("ZONE, or ZONE SYSMOD..", "jobs", "fixes zones all jcl order holdclass retry apply"),
    "report": ("ZONE.., or nothing for all zones", "handout", "html csv mail xlsx symptoms"),
    "last-publication": ("", "reports", ""),
}
# A change is a method of a class, which is called while this run has the lock.
CHANGES = {
    "zone": ("ZONE FILE", "lists.Lists", ""),
    "drop-zone": ("ZONE", "lists.Lists", ""),
    "received": ("FILE", "lists.Lists", ""),
    "categories": ("ZONE FILE", "lists.Lists", "published"),
    "sync": ("FOLDER", "lists.Lists", "all published"),
    "publish": ("FILE", "publisher.Publisher", ""),
    "catch-up": ("URL", "publisher.Publisher", ""),
}
# These need no desk. The last is `categories --published FILE` without more words.
LOCAL = {
    "fault": ("NUMBER", "faults", ""),
    "holds": ("FILE", "holddata", ""),
    "completion": ("", "completion", ""),
    "published categories": ("", "holddata", "published"),
}
COMMANDS = {**QUESTIONS, **CHANGES, **LOCAL}
# The options in the order in which they are refused, with whether a word comes after each.
OF_A_JOB = {"jcl": True, "order": False, "holdclass": True, "retry": False, "apply": False}
OF_A_REPORT = {"html": False, "mail": True, "xlsx": True}
OPTIONS = {
    **OF_A_JOB, **OF_A_REPORT, "zones": True, "csv": False,
    "all": False, "fixes": False, "alert": True, "since": True, "symptoms": True, "published": True, "to": True,
}


class Words:
    """The words of a command line. Options may stand before and after the other words."""

    def __init__(self, words):
        self.command, *left = words
        self.named, self.desks, self.options = [], [], {}
        while left:
            word = left.pop(0)
            option = word[2:] if word.startswith("--") else ""
            if word == "--":  # what follows are no options
                self.named += left
                break
            if not word.startswith("-") or word == "-":
                self.named.append(word)
            elif option not in OPTIONS:
                raise usage(f"there is no option {word}")
            elif not OPTIONS[option]:
                self.options[option] = True
            elif not left:
                raise usage(f"{word} wants a word after it")
            elif option == "to":
                self.desks.append(left.pop(0).removesuffix("/"))
            elif option == "alert":
                self.options.setdefault(option, []).extend(left.pop(0).split())
            else:
                self.options[option] = left.pop(0)
        if self.command == "categories" and not self.named and self.options.get("published"):
            self.command = "published categories"

    def check(self):
        """Refuses words that the command does not have."""
        if self.command not in COMMANDS:
            raise usage(f"there is no command '{self.command}'")
        wants, named = COMMANDS[self.command][0], self.named
        if self.command == "catch-up":
            self.desks, self.named = self.desks + [word.removesuffix("/") for word in named[:1]], []
            is_good = self.desks
        else:
            is_all = self.command in ("errsysmods", "job") and (self.options.get("all") or self.options.get("zones"))
            is_good = not named if is_all else takes(wants, len(named))
        if not is_good:
            raise usage(f"{self.command} wants: {wants or 'no more words'}")

    def check_names(self):
        """Refuses names that are none, and files that aren't there."""
        kinds, named = re.findall("[A-Z]+", COMMANDS[self.command][0]), self.named
        for word in named[: kinds.count("ZONE")]:
            need_id("name of a zone", word)
        for word in named if "SYSMOD" in kinds else ():
            need_id("SYSMOD", word)
        for word in self.options.get("alert", ()):
            need_id("class", word)
        for word in self.options["zones"].split(",") if "zones" in self.options else ():
            need_id("name of a zone", word)
        if "FILE" in kinds:
            run.need_file(named[-1])

    def check_options(self):
        """Refuses an option that the command does not have. One whose word is empty is none."""
        given = self.options = {option: self.options[option] for option in OPTIONS if self.options.get(option) not in (None, "")}
        for option in given:
            if option not in COMMANDS[self.command][2].split():
                raise usage(f"{self.command} has no --{option}")
            if option == "since" and not self.named:
                raise usage("--since wants a zone: a report is of one zone")
            if option == "fixes" and len(self.named) > 1:
                raise usage("--fixes wants the zone alone: a job of SYSMODs is for no report")
        for path in (given[option] for option in ("since", "symptoms", "published") if option in given):
            run.need_file(path)

    def function(self, subject=None):
        """What does the command: a function, or a method of a new object that has SUBJECT."""
        module, *kind = COMMANDS[self.command][1].split(".")
        place = import_module("." + module, __package__)
        return getattr(getattr(place, kind[0])(subject) if kind else place, re.sub("[- ]", "_", self.command))


def takes(wants, count):
    """Whether a command that wants this takes so many words."""
    if ".." in wants:
        return count > 0 or "nothing" in wants
    return count < 2 if "nothing" in wants else count == len(wants.split())


def usage(text):
    return Stop(2, text + ". 'bureau-client help' shows what there is")


def need_id(what, word):
    if not run.ID.fullmatch(word):
        raise usage(f"'{word}' is no {what}: 1 to 7 characters of A-Z 0-9 @ # $")


def main(given):
    if not given:
        raise usage("no command")
    words = Words(given)
    if words.command in ("help", "--help", "-h"):
        return run.out(pkgutil.get_data(__package__, "bureau-client.txt"))
    words.check()
    words.check_options()
    if words.command in LOCAL:
        return words.function()(*words.named, **words.options)
    words.check_names()
    from .desk import Desk
    from .settings import Settings

    os.umask(0o077)
    settings = Settings()
    desks = [Desk(url, settings) for url in settings.desks(words.desks)]
    run.code = settings.code
    if words.command in QUESTIONS:
        words.function()(desks[0], *words.named, **words.options)
        return run.worst
    from .changes import Lock

    try:
        with Lock(settings):
            words.function(desks)(*words.named, **words.options)
    except run.Closed as end:  # what is left to be sent is not sent, and that is told
        raise Stop(end.status, end.text) from None
    return run.worst
