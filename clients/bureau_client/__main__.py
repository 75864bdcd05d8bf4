"""Where a run begins: one command for each name, and one file that has them all."""
import functools
import importlib
import os
import signal
import sys

from . import run

COMMANDS = {"bureau-client": "words", "publication": "publication", "zone-csv": "zone_csv"}  # each with its module


def begin(name):
    """Runs a command with the words of the command line, and ends with its status."""
    run.name = name
    if sys.version_info < (3, 9):
        run.say("it needs Python 3.9 or later, and this is %d.%d" % sys.version_info[:2])
        sys.exit(2)
    for number in (getattr(signal, each, None) for each in ("SIGHUP", "SIGINT", "SIGTERM")):
        if number and signal.getsignal(number) != signal.SIG_IGN:  # nohup has it ignored
            signal.signal(number, lambda *_: sys.exit(3))
    try:
        sys.exit(importlib.import_module("." + COMMANDS[name], __package__).main(sys.argv[1:]))
    except run.Closed:
        sys.exit(run.worst)
    except run.Stop as end:
        if end.text:
            run.say(end.text)
        sys.exit(end.status)
    except OSError as fault:
        run.say(str(fault))
        sys.exit(3)


bureau_client, publication, zone_csv = (functools.partial(begin, name) for name in COMMANDS)


def main():
    """One file for all: its name says which command it is, or else its first word does."""
    name = os.path.basename(sys.argv[0])
    if name not in ("zone-csv", "publication") and sys.argv[1:2] and sys.argv[1] in COMMANDS:
        name = sys.argv.pop(1)
    begin(name if name in COMMANDS else "bureau-client")


if __name__ == "__main__":
    main()
