#!/usr/bin/env python3
"""Makes the pictures of the page that README.md and docs/SCALING.md show: of drawn zones, in a headless Chromium behind nginx.

    tools/pictures.py [FOLDER]     writes overview.png, errors.png, plan.png and new.png into FOLDER, or into docs/pictures

Whoever changes how the page looks runs it, and looks at what it made.
"""
import os
import struct
import sys
import time
import zlib
from collections import Counter
from pathlib import Path

TOP = Path(__file__).resolve().parent.parent
FOLDER = Path(sys.argv.pop(1)) if len(sys.argv) > 1 else TOP / "docs" / "pictures"
sys.path.insert(0, str(TOP / "tests"))
from chromium import Browser
from drawn_desk import DrawnDesk, Zone
from front import Front
from page import NORTH, click, enter, go
from stand_in import StandIn

NAMES = {"MVSPROD": (110, 12, 4), "TGT1": (60, 28, 1), "TGT2": (25, 4, 2), "DB2PROD": (8, 0, 9), "CLEAN": (0, 0, 3)}
MORE = {"MVSPROD": (120, 12, 4), "TGT2": (22, 4, 2)}  # a day later
WIDTH, HEIGHT = 1240, 700

# What the browser has kept becomes a day older, with counts of the days before.
A_DAY_AGO = """new Promise(done => { const opening = indexedDB.open('bureau', 1); opening.onsuccess = () => {
    const store = opening.result.transaction('zones', 'readwrite').objectStore('zones'), keys = store.getAllKeys();
    const day = (n) => new Date(Date.now() - n * 86400000).toLocaleString('sv-SE').slice(0, 10);
    keys.onsuccess = () => keys.result.forEach((key, at) => { const got = store.get(key); got.onsuccess = () => {
        const kept = got.result, [, counts] = kept.counts[0], rest = (n) => (n * 7 + at) % 5;
        kept.day = day(1);
        kept.counts = [9, 8, 7, 6, 5, 4, 3, 2, 1].map(n => [day(n), Object.fromEntries(Object.entries(counts).map(
            ([name, count]) => [name, count && Math.max(0, count - rest(n) + n % 3)]))]);
        store.put(kept, key).onsuccess = () => done(1); }; }); }; })"""


def chunks_of(data):
    at = 8
    while at < len(data):
        size, kind = struct.unpack(">I4s", data[at : at + 8])
        yield kind, data[at + 8 : at + 8 + size]
        at += 12 + size


def lines_of(data):
    """The lines of a PNG of 8 bits a colour, three colours a point, as Chromium writes it."""
    parts = list(chunks_of(data))
    width, height, depth, kind = struct.unpack(">IIBB", parts[0][1][:10])
    assert (depth, kind) == (8, 2)
    raw = zlib.decompress(b"".join(part for name, part in parts if name == b"IDAT"))
    size, before = width * 3, bytearray(width * 3)
    for at in range(0, height * (size + 1), size + 1):
        how, line = raw[at], bytearray(raw[at + 1 : at + 1 + size])
        for n in range(size if how else 0):
            left, up, corner = line[n - 3] if n > 2 else 0, before[n], before[n - 3] if n > 2 else 0
            nearest = min((left, up, corner), key=lambda each: abs(left + up - corner - each))
            line[n] = line[n] + (0, left, up, (left + up) // 2, nearest)[how] & 255
        yield line
        before = line


def small(data):
    """The same picture with a palette of 200 colours: a text needs no more."""
    lines = [[bytes(line[n : n + 3]) for n in range(0, len(line), 3)] for line in lines_of(data)]
    palette = [colour for colour, _ in Counter(point for line in lines for point in line).most_common(200)]
    near = {}

    def index(point):
        if point not in near:
            near[point] = min(range(len(palette)), key=lambda at: sum((one - other) ** 2 for one, other in zip(palette[at], point)))
        return near[point]

    rows = b"".join(b"\0" + bytes(map(index, line)) for line in lines)
    head = struct.pack(">IIBBBBB", len(lines[0]), len(lines), 8, 3, 0, 0, 0)
    parts = [(b"IHDR", head), (b"PLTE", b"".join(palette)), (b"IDAT", zlib.compress(rows, 9)), (b"IEND", b"")]
    return data[:8] + b"".join(struct.pack(">I", len(part)) + kind + part + struct.pack(">I", zlib.crc32(kind + part)) for kind, part in parts)


def main():
    desk = StandIn()
    desk.reply = DrawnDesk([Zone(name, *numbers) for name, numbers in NAMES.items()])
    front = Front([desk.port, desk.port], {NORTH: 1}, plain=True)
    browser = Browser()
    browser.open(front.url + "/page/", WIDTH, HEIGHT)
    enter(browser, NORTH)
    browser.until("document.querySelectorAll('.figures').length === %d" % len(NAMES))
    time.sleep(0.5)
    browser.run(A_DAY_AGO)
    desk.reply = DrawnDesk([Zone(name, *MORE.get(name, numbers)) for name, numbers in NAMES.items()])
    click(browser, "#again")
    browser.until("document.querySelector('.tile.since:not([hidden])')")
    browser.run("document.activeElement.blur()")
    FOLDER.mkdir(parents=True, exist_ok=True)
    for name, address in (("overview", "#"), ("errors", "#MVSPROD/errors"), ("plan", "#MVSPROD/plan"), ("new", "#*/new")):
        go(browser, address)
        browser.until("document.querySelector('tbody tr.first, .figures')")
        if name == "errors":
            browser.run("[0, 1, 3].forEach(at => document.querySelectorAll('td.of-box input')[at].click())")
            click(browser, ".choice-bar .main")
            browser.until("document.querySelector('.together .box')")
            browser.run("document.activeElement.blur()")
        time.sleep(0.5)
        path = FOLDER / (name + ".png")
        browser.picture(str(path))
        path.write_bytes(small(path.read_bytes()))
        print("made", os.path.relpath(path), path.stat().st_size, "bytes")
        if name == "errors":
            click(browser, ".choice-bar .plain")
    browser.end()
    front.end()


if __name__ == "__main__":
    main()
