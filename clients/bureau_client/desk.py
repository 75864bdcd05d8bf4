"""One desk over HTTP: a request, again until an answer comes, and what a refusal means."""
import itertools
import json
import os
import re
import select
import ssl
import time
from base64 import b64encode
from http.client import HTTPConnection, HTTPException, HTTPSConnection, InvalidURL
from urllib.parse import unquote, urlsplit

from . import faults
from .run import ID, Stop, refused, say, visible, visible_lines

GREATEST = 9223372036854775807
PIECE = 1 << 16
HEAD = 1 << 20  # bytes, which no head has
ZONES = {"zones": [{"zone": str, "sysmods": int}]}

# What a status says. Each other is told with the answer.
SAID = {
    401: "{url} does not know the token",
    403: "{url} refuses: only the publisher publishes, and the publisher has no zones ({answer})",
    404: "{url} has no such zone of yours, or no such path ({answer})",
    413: "the file is too large: a request takes 67,108,864 bytes, and a front perhaps fewer",
}


class Cut(OSError):
    """No whole reply came."""


class Unanswered(Stop):
    """No answer came, however often the desk was asked."""


def escaped(name):
    """An id as it stands in a path."""
    return name.replace("#", "%23")


def fits(value, form):
    """Whether JSON has a form: an object with these keys and perhaps more, a list of one form, an id, a value of a type, or this value."""
    if isinstance(form, dict):
        return isinstance(value, dict) and all(key in value and fits(value[key], each) for key, each in form.items())
    if isinstance(form, list):
        return isinstance(value, list) and all(fits(each, form[0]) for each in value)
    if form is ID:
        return isinstance(value, str) and bool(ID.fullmatch(value))
    return isinstance(value, form) if isinstance(form, (type, tuple)) else value == form


def visible_in(value):
    """A value of JSON whose texts are visible."""
    if isinstance(value, dict):
        return {key: visible_in(each) for key, each in value.items()}
    if isinstance(value, list):
        return [visible_in(each) for each in value]
    return visible(value) if isinstance(value, str) else value


def in_form(data, form, fault):
    """What JSON has, which has to be of a form. Its texts are visible."""
    try:
        value = json.loads(data)
        value = visible_in(value) if b"\\" in data else value  # no control character stands in JSON without a backslash
    except (ValueError, RecursionError):
        raise fault() from None
    if not fits(value, form):
        raise fault()
    return value


def zones_in(whole):
    return [(row["zone"], row["sysmods"]) for row in whole["zones"]]


def why(fault):
    return getattr(fault, "strerror", None) or str(fault) or type(fault).__name__


def proxy_of(parts):
    """The proxy of the environment that stands before a URL, if there is one."""
    if not any(name.lower().endswith("_proxy") for name in os.environ):
        return None
    from urllib.request import getproxies_environment, proxy_bypass_environment  # it takes long to import

    proxies = getproxies_environment()
    proxy = None if proxy_bypass_environment(parts.hostname) else proxies.get(parts.scheme) or proxies.get("all")
    return urlsplit(proxy if "://" in proxy else "http://" + proxy) if proxy else None


def login(header, parts):
    """The header for the user and the password of a URL, if it has them."""
    if parts.username is None:
        return {}
    return {header: "Basic " + b64encode(unquote(f"{parts.username}:{parts.password or ''}").encode()).decode()}


class Desk:
    """A desk as this run speaks to it. `status` and `reply` are those of the last answer, and the status is 0 if none came whole.
    The lines of `reply` are visible."""

    def __init__(self, url, settings):
        self.url, self.settings = url, settings
        self.status, self.reply, self.fault, self.tls = 0, b"", "", None

    # --- One request

    def connection(self, headers):
        """A connection that is open, and what stands in front of the path in its requests."""
        here = urlsplit(self.url)
        proxy, target = proxy_of(here), here.path
        host, port = (proxy.hostname, proxy.port or 80) if proxy else (here.hostname, here.port)
        headers.update(login("authorization", here))
        seconds = min(20, self.settings.seconds)
        if here.scheme == "https":
            connection = HTTPSConnection(host, port, timeout=seconds, context=self.context())
            if proxy:
                connection.set_tunnel(here.hostname, here.port, login("proxy-authorization", proxy))
        else:
            connection = HTTPConnection(host, port, timeout=seconds)
            if proxy:
                headers.update(login("proxy-authorization", proxy), host=here.netloc.rpartition("@")[2])
                target = "http://" + headers["host"] + target
        connection.connect()
        return connection, target

    def context(self):
        try:
            self.tls = self.tls or ssl.create_default_context(cafile=self.settings.authority or None)
        except OSError as fault:
            raise Stop(3, f"no answer from {self.url}: {self.settings.authority}: {why(fault)}") from None
        return self.tls

    def exchange(self, method, path, number, body):
        """The status and the body of the reply to one request. It has to be whole by the end of the seconds for one request."""
        end = time.monotonic() + self.settings.seconds
        headers = {"bureau-token": self.settings.token, "content-type": "text/plain", "connection": "close"}
        if number:
            headers["bureau-number"] = str(number)
        if body is not None:
            headers["content-length"] = str(len(body))
        connection, target = self.connection(headers)
        try:
            connection.sock.settimeout(self.settings.seconds)
            connection.putrequest(method, target + path, skip_host="host" in headers, skip_accept_encoding=True)
            for header in headers.items():
                connection.putheader(*header)
            connection.endheaders()
            received, fault = send_body(connection.sock, body or b"", end)
            try:
                return read_reply(connection.sock, received, end)
            except OSError as later:
                raise fault or later
        finally:
            connection.close()

    def send(self, method, path, number="", body=None, more=""):
        """Sends a request until an answer comes. A 5xx is none: the desk has no room now, or the front found no desk. MORE is said if
        none comes."""
        pause = self.settings.pause
        for tried in itertools.count(1):
            try:
                self.status, reply = self.exchange(method, path, number, body)
                self.reply = visible_lines(reply)
            except (ssl.SSLCertVerificationError, InvalidURL, ValueError) as fault:  # another try won't help
                raise Stop(3, f"no answer from {self.url}: {why(fault)}") from None
            except (OSError, HTTPException) as fault:
                self.status, self.reply, self.fault = 0, b"", why(fault)
            if self.status not in (0, 408, 429) and self.status < 500:
                return
            told = f"status {self.status} {self.first_line()}" if self.status else self.fault
            if tried >= self.settings.tries:
                raise Unanswered(3, f"no answer from {self.url} after {int(self.settings.tries)} tries: {told}{more}")
            if tried == 1 and os.isatty(2):  # whoever looks on is told why it takes so long; a job at night is not
                say(f"no answer from {self.url} yet: {told}. It is asked again, {int(self.settings.tries)} times in all")
            time.sleep(pause)
            pause = min(60, pause * 2)

    # --- What an answer says

    def first_line(self):
        return os.fsdecode(self.reply.split(b"\n", 1)[0])

    def no_report(self):
        return Stop(3, f"what came from {self.url} is no answer of a desk: {self.first_line()[:100]}")

    def need_200(self):
        if self.status != 200:
            self.explain()
            raise Stop(1)
        return self.reply

    def ask(self, path):
        """The answer to a question, as the desk gives it."""
        self.send("GET", path)
        return self.need_200()

    def ask_json(self, path, form):
        return in_form(self.ask(path), form, self.no_report)

    def zones(self):
        """The client's zones, each with the number of its SYSMODs."""
        return zones_in(self.ask_json("/zones.json", ZONES))

    def ask_last(self, caller, more=""):
        """The number of the last change. A change with the greatest number changes nothing: the desk answers with the last number."""
        request = ("POST", "/publish", GREATEST, b"") if caller == "publisher" else ("DELETE", "/zones/A", GREATEST, None)
        self.send(*request, more)
        if self.status in (401, 403):
            self.need_200()
        last = self.gap()
        if last is None:
            told = "" if self.status == 409 and self.first_line().startswith("GAP LAST ") else f"status {self.status:03} "
            raise Stop(3, f"{self.url} does not answer as a desk does: {told}{self.first_line()}")
        return last

    def gap(self):
        """The last number that a refusal tells, or None."""
        last = self.first_line().removeprefix("GAP LAST ")
        is_told = self.status == 409 and self.first_line() != last and last.isascii() and last.isdigit()
        return int(last) if is_told else None

    def explain(self, name="", body=None, path=""):
        """Says what the reply's status means. NAME is that of the file as the user knows it, and BODY what was sent of it."""
        answer, url, words = self.first_line(), self.url, self.first_line().split()
        if self.status == 404 and (zone := re.fullmatch("/zones/(.*)/categories", path, re.S)):
            text = f"{url} has no zone {zone[1].replace('%23', '#')} of yours, so '{name}' was not accepted:"
            refused(text + " send the zone's list first, with 'bureau-client zone'")
        elif self.status == 422:
            refused(f"{url} refuses {name or 'it'} whole: {answer}: {faults.meaning(''.join(words[1:2]))}")
            if body is not None and (at := faults.place_of(words, body)):
                say(f"{name}, line {at}: {faults.shown(body, at)}")
        else:
            refused(SAID.get(self.status, "{url} refuses: status {status:03} {answer}").format(url=url, answer=answer, status=self.status))


def send_body(line, body, end):
    """Sends a body, and stops where a reply comes before its end. Gives what came of that, and the fault where sending failed."""
    left = memoryview(body)
    try:
        while left:
            if select.select([line], [], [], 0)[0]:
                line.settimeout(0)
                try:
                    return line.recv(PIECE), None
                except (BlockingIOError, ssl.SSLWantReadError):
                    pass  # nothing of the reply, but of TLS
            line.settimeout(max(0.001, end - time.monotonic()))
            line.sendall(left[:PIECE])
            left = left[PIECE:]
    except OSError as fault:
        return b"", fault
    return b"", None


def read_reply(line, received, end):
    """The status and the body of a reply. Its head ends with an empty line, and its body has the length that the head tells."""
    data, at, status, length = bytearray(received), -1, 0, None
    while True:
        if at < 0 and (found := re.search(rb"\r?\n\r?\n", data)):
            status = re.match(rb"HTTP/1\.[01] (\d{3})", data)
            if not status:
                raise Cut("the reply is not one of HTTP/1.1")
            if status[1].startswith(b"1"):  # more comes after it
                del data[: found.end()]
                continue
            length = re.search(rb"\ncontent-length:[ \t]*(\d+)", data[: found.end()], re.I)
            at, length = found.end(), int(length[1]) if length else None
        if at >= 0 and length is not None and len(data) >= at + length:
            return int(status[1]), bytes(data[at : at + length])
        line.settimeout(max(0.001, end - time.monotonic()))
        piece = line.recv(PIECE)
        if not piece or at < 0 and len(data) > HEAD:
            raise Cut("the reply was cut off")
        data += piece
