#!/usr/bin/env python3
"""Checks the longest printed runs with `xorcheck`, and prints what that costs.

  bench/largest_checks.py

Most runs are what `xorarray step --trace` prints of a script with as many calls as a script may have, and of one with half of
them: writes of one block again and again, writes to one block after another, and writes with reads behind them. What the
controller of today doesn't run is printed here, by the places of the blocks: one read of as many pieces as a call may have, and
as many losses as a script may have calls, each noted and its disk replaced. The script, the line `output` and what was printed
are checked several times, of which the least processor time counts. The check of twice as much is held against a bar for the
ratio of the times. It ends with 1 where a check fails or a ratio is above the bar.
"""
import os
import subprocess
import sys
import tempfile

from largest_scripts import MEGABYTE, PROGRAM, Runs, header, run_in_turns, small_writes, small_writes_and_reads
from programs import build, path_of

CHECKER = path_of("xorcheck")
BAR = 2.4
CALLS = 10_000


def writes_of_one_block(calls):
    """Commands that would all conflict, were they open together."""
    yield header(8, 1, 4096)
    for call in range(calls):
        yield f"A write 0 {call:016x}\n"


SCRIPTS = [
    ("writes of one block", writes_of_one_block),
    ("small writes", small_writes),
    ("small writes and reads", small_writes_and_reads),
]


def printed(script):
    """A script with what `step --trace` prints of it."""
    text = "".join(script).encode("ascii")
    run = subprocess.run([PROGRAM, "step", "--trace"], input=text, stdout=subprocess.PIPE, check=True)
    return (text + b"output\n" + run.stdout).decode("ascii")


TARGETS, UNIT, STRIPES = 16, 2, 4096


def read_of_pieces(pieces):
    """A printed run: one read of blocks that hold zeros, one of them in each piece."""
    yield (f"xorscript 1\ntargets {TARGETS}\nblock 1\nunit {UNIT}\nstripes {STRIPES}\nbuffer {UNIT}\nmaxima 1 0 0\n"
           f"mode supervised\nseed 1\nhosts 1\nA read 0 {pieces}\noutput\n")
    yield f"1 A good {'00' * pieces}\nentries {3 * pieces}\nstripes {STRIPES} zero {STRIPES} listed 0 absent 0\n"
    for piece in range(pieces):
        stripe, unit = divmod(piece // UNIT, TARGETS - 1)
        parity = TARGETS - 1 - stripe % TARGETS
        target = unit if unit < parity else unit + 1
        row = stripe * UNIT + piece % UNIT
        stamp = 3 * piece + 1
        yield (f"{stamp} 0 open {piece} 1 {piece} read {stripe} {target} {parity} {row} 1 -\n"
               f"{stamp + 1} {target + 1} fetch {piece} {stamp}.0 2800{row:08x}00000100 {row} 00\n"
               f"{stamp + 2} 0 close {piece} 1 {stamp + 1}.{target + 1} - -\n")


def losses(calls):
    """A printed run: a disk is lost and replaced again and again."""
    yield ("xorscript 1\ntargets 3\nblock 1\nunit 1\nstripes 1\nbuffer 1\nmaxima 0 0 0\nmode supervised\nseed 1\nhosts 1\n")
    yield "A lose 0\nA replace 0\n" * (calls // 2) + "output\n"
    for call in range(1, calls + 1):
        yield f"{call} A done\n"
    yield f"entries {2 * calls}\nstripes 1 zero 0 listed 0 absent 1\nabsent 0 units 1\n"
    for life in range(calls // 2):
        stamp = 4 * life + 1
        yield (f"{stamp} 1 gone {life} {2 * life + 1} -\n{stamp + 1} 0 note 0 {stamp}.1\n"
               f"{stamp + 2} 0 swap 0 {2 * life + 2}\n{stamp + 3} 1 fresh {2 * life + 2} {stamp + 2}.0\n")


PRINTED = [
    ("read of many pieces", "pieces", read_of_pieces, 65_535),
    ("losses and replacements", "calls", losses, CALLS),
]


def accepted(runs):
    """How many entries were accepted in the last check; none where it failed."""
    with open(runs.written, "rb") as file:
        words = file.read().split()
    return int(words[2]) if runs.status == 0 and words[:2] == [b"accepted", b"entries"] else 0


def measure(name, what, make, most, folder):
    """Whether both runs are accepted, and the time of twice as much is within the bar."""
    both = [Runs(["check"], count, make(count), os.path.join(folder, str(count)), CHECKER) for count in (most // 2, most)]
    run_in_turns(both)
    good = True
    for runs in both:
        entries = accepted(runs)
        good = good and entries > 0
        size = os.path.getsize(runs.path) / MEGABYTE
        print(f"{name:24} {runs.calls:6} {what} {entries:6} entries {size:5.1f} MB {runs.least():7.3f} s")
    ratio = both[1].least() / both[0].least()
    print(f"{name:24} ratio {ratio:.2f}")
    return good and ratio <= BAR


def main():
    build("xorarray", "xorcheck")
    with tempfile.TemporaryDirectory() as folder:
        results = [measure(name, "calls", lambda calls: [printed(make(calls))], CALLS, folder) for name, make in SCRIPTS]
        results += [measure(name, what, make, most, folder) for name, what, make, most in PRINTED]
    return 0 if all(results) else 1


if __name__ == "__main__":
    sys.exit(main())
