#!/usr/bin/env python3
"""Gives a desk the largest that it may be given, and sees that memory is never told as wanting: load.py PROGRAM [SHAPE..]

    --settings one,small,large,file,file-small,each     the runs of each shape (all); the last three are `serve` over a file
    --lists DESKS      and three runs over lists: lists-whole, lists-one, lists-small. DESKS is the program that desks.sh makes

Each shape knows its own replies: the counts, the texts and the plans follow from how it was made, and each byte that the program
writes is compared with them, in each setting. So a body that gives up at a long list, a large body, a report of many rows or the
17th client is seen, which no contract can refuse: a contract cannot demand a cause for want of memory.
It prints the seconds and the peak of each run. In `each` the requests are sent one by one, and a table at the end has for each route
the slowest request and the one with the greatest peak of memory. Python 3.9.
"""
import argparse
import os
import re
import resource
import shutil
import socket
import subprocess
import sys
import tempfile
import threading
import time

from load_shapes import SHAPES, list_of_callers

SETTINGS = {
    "one": ("replay", "--cache", "1"),
    "small": ("replay", "--cache", "16"),
    "large": ("replay", "--cache", "1024"),
    "file": ("serve", "--cache", "1024"),
    "file-small": ("serve", "--cache", "1"),
    "each": ("serve", "--cache", "1024"),
}
OVER_LISTS = {"lists-whole": ("whole",), "lists-one": ("1",), "lists-small": ("16",)}  # the words of `desks`
slowest, largest = {}, {}  # by route: seconds or MB, with the shape and the bytes of request and reply


def arguments():
    reader = argparse.ArgumentParser(description=__doc__, formatter_class=argparse.RawDescriptionHelpFormatter)
    reader.add_argument("program")
    reader.add_argument("shapes", nargs="*", metavar="SHAPE", help=", ".join(SHAPES))
    reader.add_argument("--settings")
    reader.add_argument("--lists")
    words = reader.parse_args()
    words.settings = words.settings.split(",") if words.settings else [*SETTINGS, *(OVER_LISTS if words.lists else ())]
    if not words.lists and any(setting in OVER_LISTS for setting in words.settings):
        reader.error("runs over lists need --lists")
    return words


def write(path, text):
    with open(path, "wb") as out:
        out.write(text)
    return path


def peak_of(process):
    """Waits for the end of a process: its status, and the peak of its memory in MB."""
    _, status, usage = os.wait4(process.pid, 0)
    process.returncode = os.waitstatus_to_exitcode(status)
    return process.returncode, usage.ru_maxrss / 1024


def replayed(program, options, room, shape):
    callers = write(os.path.join(room, "callers"), list_of_callers(shape.tokens))
    files = [write(os.path.join(room, "connection%d" % place), sent) for place, sent in enumerate(shape.sent())]
    output = os.path.join(room, "output")
    with open(output, "wb") as out:
        process = subprocess.Popen([program, *options, callers, *files], stdout=out, stderr=subprocess.PIPE)
        status, peak = peak_of(process)
        errors = process.stderr.read()
    with open(output, "rb") as file:
        return file.read(), (status, errors), peak


def served(program, options, room, shape, name, is_each):
    callers, store = write(os.path.join(room, "callers"), list_of_callers(shape.tokens)), os.path.join(room, "store")
    subprocess.run([program, "init", store, callers], check=True, stdout=subprocess.DEVNULL)
    with socket.socket() as probe:
        probe.bind(("127.0.0.1", 0))
        port = probe.getsockname()[1]
    words = [program, *options, "--port", str(port), "--connections", str(len(shape.connections)), store]
    process = subprocess.Popen(words, stdout=subprocess.PIPE, stderr=subprocess.PIPE)
    process.stdout.readline()
    if is_each:
        written = b"".join(one_by_one(port, process.pid, exchanges, name) for exchanges in shape.connections)
    else:
        written = b"".join(exchange(port, sent) for sent in shape.sent())
    status, peak = peak_of(process)
    return written, (status, process.stderr.read()), peak


def one_by_one(port, pid, exchanges, name):
    """Sends each request after the reply to the one before, and keeps what the worst of each route took."""
    parts = []
    with socket.create_connection(("127.0.0.1", port), timeout=1200) as connection:
        connection.setsockopt(socket.IPPROTO_TCP, socket.TCP_NODELAY, 1)
        for sent, wanted in exchanges:
            if len(exchanges) < 1000:
                write("/proc/%d/clear_refs" % pid, b"5")  # the peak counts from here
            began = time.monotonic()
            sender = threading.Thread(target=send, args=(connection, sent))
            sender.start()
            left = len(wanted)
            while left > 0 and (part := received(connection, min(left, 1 << 20))):
                parts.append(part)
                left -= len(part)
            took = time.monotonic() - began
            sender.join()
            keep_worst(name, sent, wanted, took, peak_now(pid) if len(exchanges) < 1000 else 0)
        connection.shutdown(socket.SHUT_WR) if wanted and b"connection: close" not in wanted else None
        while part := received(connection, 1 << 20):
            parts.append(part)
    return b"".join(parts)


def peak_now(pid):
    with open("/proc/%d/status" % pid) as status:
        return next(int(line.split()[1]) for line in status if line.startswith("VmHWM")) / 1024


def keep_worst(name, sent, wanted, took, peak):
    first = sent[: sent.index(b" HTTP/")].decode()
    route = re.sub(r"/chains/.*", "/chains/SYSMOD", re.sub(r"/zones/[^/]+", "/zones/ZONE", first))
    shown = (name, len(sent), len(wanted))
    if route not in slowest or slowest[route][0] < took:
        slowest[route] = (took, *shown)
    if route not in largest or largest[route][0] < peak:
        largest[route] = (peak, *shown)


def send(connection, sent):
    try:
        connection.sendall(sent)
    except OSError:
        pass  # the desk may have ended the connection


def received(connection, most):
    try:
        return connection.recv(most)
    except OSError:
        return b""  # what came before it has to be the whole reply


def exchange(port, sent):
    """Sends all requests of a connection at once."""
    with socket.create_connection(("127.0.0.1", port), timeout=1200) as connection:
        sender = threading.Thread(target=send_all, args=(connection, sent))
        sender.start()
        parts = []
        while part := received(connection, 1 << 20):
            parts.append(part)
        sender.join()
        return b"".join(parts)


def send_all(connection, sent):
    send(connection, sent)
    try:
        connection.shutdown(socket.SHUT_WR)
    except OSError:
        pass


def difference(got, wanted):
    if got == wanted:
        return None
    place = next((i for i, pair in enumerate(zip(got, wanted)) if pair[0] != pair[1]), min(len(got), len(wanted)))
    begin = max(0, place - 100)
    return "at byte %d of %d\n   got: %r\nwanted: %r" % (place, len(wanted), got[begin : place + 150], wanted[begin : place + 150])


def run(name, setting, words, shape):
    room = tempfile.mkdtemp(prefix="bureau-load-")
    try:
        began = time.monotonic()
        if setting in OVER_LISTS:
            got, ended, peak = replayed(os.path.abspath(words.lists), OVER_LISTS[setting], room, shape)
        elif SETTINGS[setting][0] == "replay":
            got, ended, peak = replayed(os.path.abspath(words.program), SETTINGS[setting], room, shape)
        else:
            got, ended, peak = served(os.path.abspath(words.program), SETTINGS[setting], room, shape, name, setting == "each")
        took = time.monotonic() - began
    finally:
        shutil.rmtree(room, ignore_errors=True)
    wrong = difference(got, shape.wanted()) or (None if ended == (0, b"") else "it ended with %r" % (ended,))
    print("%-14s %-11s %8.2f s %8.0f MB  %s" % (name, setting, took, peak, "FAILED " + wrong if wrong else "ok"), flush=True)
    return not wrong


def main():
    words, passed, failed = arguments(), 0, 0
    resource.setrlimit(resource.RLIMIT_CORE, (0, 0))
    for name in words.shapes or SHAPES:
        shape = SHAPES[name]()
        for setting in words.settings:
            if setting in shape.left_out:
                continue
            if run(name, setting, words, shape):
                passed += 1
            else:
                failed += 1
    for route in slowest:
        took, peak = slowest[route], largest[route]
        print("%-36s %8.2f s (%s, %d bytes, %d back) %6.0f MB (%s, %d bytes, %d back)" % (route, *took, *peak))
    print("load: %d passed, %d failed" % (passed, failed))
    sys.exit(1 if failed else 0)


if __name__ == "__main__":
    main()
