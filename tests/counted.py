"""Runs commands whose last line counts what passed, and adds up the counts: strictly, so that nothing passes by not being tried."""
import re
import subprocess
import sys

LAST_LINE = re.compile(r"(\d+) passed, (\d+) failed\b")


class Counts:
    """How much passed and failed."""

    def __init__(self):
        self.passed = self.failed = 0

    def add(self, name, lines, status):
        """Adds what a run says in its last line. A run that tries nothing, that says no count, or that ends badly and counts no failure has
        failed."""
        said = LAST_LINE.search(lines[-1]) if lines else None
        passed, failed = map(int, said.groups()) if said else (0, 0)
        why = None
        if not said:
            why = f"it ended with status {status} and counts nothing"
        elif not passed and not failed:
            why = "it tried nothing"
        elif status and not failed:
            why = f"it ended with status {status} and counts no failure"
        if why:
            failed += 1
            print(f"{name} ... FAILED: {why}", flush=True)
        self.passed += passed
        self.failed += failed

    def run(self, name, command, seen=print, **how):
        """Runs a command to its end, gives each line to `seen`, and adds its count."""
        lines = []
        with subprocess.Popen(command, stdout=subprocess.PIPE, stderr=subprocess.STDOUT, text=True, errors="replace", **how) as run:
            for line in run.stdout:
                lines.append(line.rstrip("\n"))
                seen(lines[-1])
                sys.stdout.flush()
        self.add(name, lines, run.returncode)
        return run.returncode

    def tell(self):
        """Prints the last line, and gives the status to end with."""
        print(f"{self.passed} passed, {self.failed} failed", flush=True)
        return int(self.failed > 0 or self.passed == 0)
