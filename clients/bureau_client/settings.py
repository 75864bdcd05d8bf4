"""What a caller sets: the desk, the token, and where the client keeps its own files."""
import os
import re
import stat

from .run import Stop

NAMES = {"URL": "BUREAU_URL", "TOKEN": "BUREAU_TOKEN", "CACERT": "BUREAU_CACERT", "CODE": "BUREAU_CODE", "PAGE": "BUREAU_PAGE"}


def number_of(name, default):
    """A setting that is a number."""
    try:
        return float(os.environ.get(name) or default)
    except ValueError:
        raise Stop(2, f"{name} is no number") from None


class Settings:
    """The settings of the environment, and below them those of the file `config` in the client's folder."""

    def __init__(self):
        self.home = os.environ.get("BUREAU_HOME") or (os.environ.get("HOME") or ".") + "/.bureau"
        self.config = self.home + "/config"
        values = self.read() if os.path.exists(self.config) else {}
        values = {name: os.environ.get(variable) or values.get(name, "") for name, variable in NAMES.items()}
        if not values["TOKEN"]:
            raise Stop(2, f"there is no token: set BUREAU_TOKEN, or write TOKEN=.. into {self.config}")
        if "\r" in "".join(values.values()):
            raise Stop(2, "a setting has a CR (as at the end of a line of Windows): take it out")
        if not re.fullmatch("[A-Za-z0-9._~-]+", values["TOKEN"]):
            raise Stop(2, "the token has a character that no token has")
        self.url, self.token, self.authority, self.code, self.page = values["URL"].removesuffix("/"), *list(values.values())[1:]
        self.seconds = number_of("BUREAU_SECONDS", 300)  # for one request
        self.tries = number_of("BUREAU_TRIES", 6)  # of one request
        self.pause = number_of("BUREAU_PAUSE", 2)  # seconds before the second try; the pauses double, up to 60
        self.turns = number_of("BUREAU_LOCK", 120)  # to wait for the lock

    def read(self):
        """The values of the file: of each name the first that is not empty."""
        if stat.filemode(os.stat(self.config).st_mode) not in ("-rw-------", "-r--------"):
            raise Stop(2, f"others may read {self.config}: say chmod 600 '{self.config}'")
        try:
            with open(self.config, "rb") as file:
                lines = os.fsdecode(file.read()).split("\n")
        except OSError as fault:
            raise Stop(2, str(fault)) from None
        values = {}
        for line in lines:
            name, is_set, value = line.removesuffix("\r").partition("=")  # an editor of Windows ends a line with CR LF
            if is_set and name in NAMES:
                values[name] = values.get(name) or value
            elif name and not name.startswith("#"):
                raise Stop(2, f"{self.config} has a line that is none of URL=.., TOKEN=.., CACERT=.., CODE=.., PAGE=..")
        return values

    def desks(self, named):
        """The desks that are spoken to: those that are named, or that of the settings."""
        desks = re.split("[ \t\n]+", " ".join(named).strip() or self.url)
        if not desks[0]:
            raise Stop(2, f"there is no desk: set BUREAU_URL, or write URL=.. into {self.config}")
        for url in desks:
            if not re.match("https?://.", url, re.S):
                raise Stop(2, f"'{url}' is no URL of a desk: it begins with http:// or https://")
            if re.search(r'["\\ ]', url):
                raise Stop(2, f"the URL '{url}' has a quotation mark, a backslash or a blank")
        return desks
