"""The folder of a store, on a small disk of its own where this user may mount one. It can be filled, and emptied again."""
import os
import shutil
import subprocess
import tempfile
from contextlib import suppress

MEMORY = "/dev/shm" if os.access("/dev/shm", os.W_OK) else None
SIZE = 16 << 20


class Disk:
    def __init__(self):
        self.path = tempfile.mkdtemp(prefix="bureau-simulation-", dir=MEMORY)
        command = ["mount", "-t", "tmpfs", "-o", "size=%d,mode=700" % SIZE, "tmpfs", self.path]
        try:
            self.is_mounted = os.geteuid() == 0 and subprocess.run(command, capture_output=True).returncode == 0
        except OSError:
            self.is_mounted = False
        self.filler = os.path.join(self.path, "filler")

    def fill(self, left):
        """Fills it but for about so many bytes."""
        room = os.statvfs(self.path)
        count = room.f_bavail * room.f_frsize - left
        with open(self.filler, "wb") as file, suppress(OSError):  # the desk may take some in between
            os.posix_fallocate(file.fileno(), 0, max(count, 1))

    def empty(self):
        if os.path.exists(self.filler):
            os.remove(self.filler)

    def remove(self):
        if self.is_mounted:
            subprocess.run(["umount", "-l", self.path], capture_output=True)
        shutil.rmtree(self.path, ignore_errors=True)
