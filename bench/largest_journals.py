#!/usr/bin/env python3
"""Judges the longest journals with `journal_judge`, and prints what that costs.

  bench/largest_journals.py

Each journal is of updates of one block again and again, in one mode: as many as a script may have calls, and half of them.
`xorarray` runs the calls of one mode alone, so the journals of the others are spelt here. Each is judged several times, of
which the least processor time counts. The longer one is held against a bar for its time, and against one for the ratio of
both times. It ends with 1 where a journal isn't judged a run, or a bar is passed.
"""
import os
import random
import sys
import tempfile

from largest_scripts import MEGABYTE, Runs, run_in_turns
from programs import build, path_of

JUDGE = path_of("journal_judge")
RATIO_BAR = 2.4
SECONDS_BAR = 0.3
CALLS = 10_000


def supervised(stamp, command, new, delta):
    """An update whose delta is held, taken and folded."""
    yield f"{stamp + 1} 1 diff {command} {stamp}.0 50000000000000000100 0 {new} 0 0 0"
    yield f"{stamp + 2} 1 take {command} {stamp}.0 52000000000000000100 0 {delta}"
    yield f"{stamp + 3} 3 fold {command} {stamp}.0 51000000000000000100 0 {delta} {stamp + 2}.1"
    yield f"{stamp + 4} 0 close {command} 1 {stamp + 1}.1,{stamp + 2}.1,{stamp + 3}.3 - -"


def third_party(stamp, command, new, delta):
    """An update whose delta goes from target to target."""
    yield f"{stamp + 1} 1 diff {command} {stamp}.0 80000000000000000000000000010200 0 {new} 1 0 0"
    yield f"{stamp + 2} 3 fold {command} {stamp}.0 51000000000000000100 0 {delta} {stamp + 1}.1"
    yield f"{stamp + 3} 0 close {command} 1 {stamp + 1}.1,{stamp + 2}.3 - -"


def readback(stamp, command, new, delta):
    """An update whose delta is handed back."""
    yield f"{stamp + 1} 1 diff {command} {stamp}.0 53000000000000000100 0 {new} 0 0 1"
    yield f"{stamp + 2} 3 fold {command} {stamp}.0 51000000000000000100 0 {delta} {stamp + 1}.1"
    yield f"{stamp + 3} 0 close {command} 1 {stamp + 1}.1,{stamp + 2}.3 - -"


MODES = [("supervised", supervised), ("thirdparty", third_party), ("readback", readback)]


def journal(mode, update, calls):
    """Updates of the first block, each with new bytes."""
    yield f"journal {mode}\nxorscript 1\ntargets 3\nblock 8\nunit 1\nstripes 4096\nbuffer 4\nmaxima 0 0 0\nmode {mode}\nseed 1\nhosts 1\ntrace\n"
    chosen = random.Random(1)
    stamp, old = 1, 0
    for command in range(calls):
        new = chosen.getrandbits(64)
        yield f"{stamp} 0 open {command} {command + 1} 0 update 0 0 2 0 1 {new:016x}\n"
        for entry in update(stamp, command, f"{new:016x}", f"{old ^ new:016x}"):
            yield entry + "\n"
            stamp += 1
        stamp, old = stamp + 1, new


def is_run(runs, mode):
    """Whether the journal was judged a run the last time."""
    with open(runs.written, "rb") as file:
        return runs.status == 0 and file.read() == f"{mode} run\n".encode("ascii")


def measure(mode, update, folder):
    """Whether both journals are judged runs, within the bars."""
    both = [Runs([], calls, journal(mode, update, calls), os.path.join(folder, f"{mode}{calls}"), JUDGE)
            for calls in (CALLS // 2, CALLS)]
    run_in_turns(both)
    for runs in both:
        size = os.path.getsize(runs.path) / MEGABYTE
        print(f"{mode:12} {runs.calls:6} updates {size:5.1f} MB {runs.least():7.3f} s {runs.memory:5.0f} MiB")
    ratio = both[1].least() / both[0].least()
    print(f"{mode:12} ratio {ratio:.2f}")
    return all(is_run(runs, mode) for runs in both) and ratio <= RATIO_BAR and both[1].least() <= SECONDS_BAR


def main():
    build("journal_judge")
    with tempfile.TemporaryDirectory() as folder:
        results = [measure(mode, update, folder) for mode, update in MODES]
    return 0 if all(results) else 1


if __name__ == "__main__":
    sys.exit(main())
