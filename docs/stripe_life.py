#!/usr/bin/env python3
"""Draws what befell the stripes of a printed run: a column for the book and for each target, a row for each entry.

  docs/stripe_life.py < examples/reset-in-update.run > docs/stripe-life.svg

An arrow goes from an entry to each one that it names.
"""
import re
import sys
from xml.sax.saxutils import escape

WIDTH, HEIGHT, LEFT, TOP = 210, 56, 40, 60
NAME = re.compile(r"\d+\.\d+")
COLOURS = {"diff": "#dbe9ff", "fold": "#dff3df", "put": "#dff3df", "gone": "#ffd9d9", "wiped": "#ffd9d9", "spoil": "#ffe7b8"}
TELLS = {
    "open": lambda f: f"{f[3]} of stripe {f[4]} begins",
    "close": lambda f: "done" if f[1] == "1" else "ended without effect",
    "spoil": lambda f: "delta lost: stripe listed dirty",
    "diff": lambda f: "new block written, delta " + ("sent" if f[5] == "1" else "handed back" if f[7] == "1" else "held"),
    "take": lambda f: "delta handed out",
    "fold": lambda f: "delta folded into parity",
    "hold": lambda f: "exclusive-or held",
    "fetch": lambda f: "blocks read",
    "put": lambda f: "blocks written",
    "shut": lambda f: "takes no more of it",
    "gone": lambda f: "disk lost",
    "wiped": lambda f: "reset: held blocks gone" if f[0] == "buffers" else "next request will be dropped",
    "fresh": lambda f: "new disk of zeros",
    "note": lambda f: f"loss of slot {f[0]} known",
    "swap": lambda f: f"new disk for slot {f[0]}",
    "refuse": lambda f: f"piece refused: {f[2]}",
}


def read(text):
    """The number of targets, and each entry as stamp, lock, event and fields."""
    targets = int(re.search(r"^targets (\d+)$", text, re.M)[1])
    behind = text.split("\noutput\n", 1)[1]
    rows = [line.split() for line in behind.splitlines()]
    return targets, [(row[0], row[1], row[2], row[3:]) for row in rows if len(row) > 2 and row[2] in TELLS]


def middle(place, lock):
    return LEFT + WIDTH * int(lock) + WIDTH // 2, TOP + HEIGHT * place + HEIGHT // 2


def box(place, entry):
    stamp, lock, event, fields = entry
    x, y = middle(place, lock)
    yield (f'<rect x="{x - 98}" y="{y - 20}" width="196" height="40" rx="6" fill="{COLOURS.get(event, "#f2f2f2")}" stroke="#666"/>')
    yield f'<text x="{x}" y="{y - 4}" text-anchor="middle" font-weight="bold">{stamp}.{lock} {event}</text>'
    yield f'<text x="{x}" y="{y + 12}" text-anchor="middle">{escape(TELLS[event](fields))}</text>'


def arrows(places, place, entry):
    _, lock, _, fields = entry
    for name in dict.fromkeys(found for field in fields for found in NAME.findall(field)):
        if name in places:
            (x, y), (to_x, to_y) = middle(place, lock), middle(places[name], name.split(".")[1])
            yield f'<line x1="{x}" y1="{y - 20}" x2="{to_x}" y2="{to_y + 20}" stroke="#999" marker-end="url(#tip)"/>'


def draw(targets, entries):
    width, height = 2 * LEFT + WIDTH * (targets + 1), TOP + HEIGHT * len(entries) + 20
    yield f'<svg xmlns="http://www.w3.org/2000/svg" width="{width}" height="{height}" font-family="sans-serif" font-size="12">'
    yield '<defs><marker id="tip" markerWidth="8" markerHeight="8" refX="6" refY="3" orient="auto"><path d="M0,0 L6,3 L0,6 z" fill="#999"/></marker></defs>'
    yield f'<rect width="{width}" height="{height}" fill="#fff"/>'
    for lock in range(targets + 1):
        x = middle(0, lock)[0]
        yield f'<text x="{x}" y="30" text-anchor="middle" font-size="14">{"book" if lock == 0 else f"target {lock - 1}"}</text>'
        yield f'<line x1="{x}" y1="40" x2="{x}" y2="{height - 10}" stroke="#eee"/>'
    places = {f"{stamp}.{lock}": place for place, (stamp, lock, _, _) in enumerate(entries)}
    for place, entry in enumerate(entries):
        yield from arrows(places, place, entry)
    for place, entry in enumerate(entries):
        yield from box(place, entry)
    yield "</svg>"


print("\n".join(draw(*read(sys.stdin.read()))))
