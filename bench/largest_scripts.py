#!/usr/bin/env python3
"""Runs the largest scripts that `xorarray step` takes, and prints what they cost.

  bench/largest_scripts.py

Each script is of one host and of reads and writes of one piece, as far as the limits allow: 10,000 calls; 100,000 blocks;
16,777,216 bytes moved, and as many on the media; 50,331,648 bytes of input. Each is run without its trace and with it, in
turns and several times, of which the least processor time counts. For each it prints these seconds, the entries of the
journal a second, the megabytes of text written a second, and the most memory that the process had (what this process has,
some 15 MiB, is the least that can be seen). Two scripts of which one has twice the calls of the other are held against a bar
for the ratio of their times. At the end a script of the greatest length is parsed, beside a plain copy of its bytes.

It ends with 1 where a run fails or a ratio is above the bar.
"""
import os
import shutil
import subprocess
import sys
import tempfile
import time

from programs import build, path_of

PROGRAM = path_of("xorarray")
INPUT_LIMIT = 50_331_648
MEGABYTE = 1_000_000
BAR = 2.2
# Each script is run at least so often, and so long in all, but no more often than this.
LEAST_RUNS = 7
SECONDS = 2.0
MOST_RUNS = 40


def header(block, unit, stripes):
    lines = ["xorscript 1", "targets 3", f"block {block}", f"unit {unit}", f"stripes {stripes}", f"buffer {unit}",
             "maxima 0 0 0", "mode supervised", "seed 1", "hosts 1"]
    return "".join(line + "\n" for line in lines)


def small_writes(calls):
    """Writes of one small block: the most entries."""
    yield header(8, 1, 4096)
    for call in range(calls):
        yield f"A write {call % 8192} 0123456789abcdef\n"


def small_writes_and_reads(calls):
    """A read behind each write of one small block."""
    yield header(8, 1, 4096)
    for pair in range(calls // 2):
        yield f"A write {pair % 8192} 00112233445566{pair % 100:02d}\nA read {pair % 8192} 1\n"


def large_writes(calls):
    """Writes of one large block: the most bytes."""
    block = "5a" * 4096
    yield header(4096, 1, 1365)
    for call in range(calls):
        yield f"A write {call % 2730} {block}\n"


def large_reads(calls):
    """Reads of a whole unit: the most bytes in the report."""
    yield header(4096, 16, 85)
    for call in range(calls):
        yield f"A read {16 * (call % 170)} 16\n"


def longest():
    """As many bytes as an input may have, nearly all of them in one call that waits for later."""
    start = header(4096, 1, 1365) + "A cdb 00 "
    yield start
    digits = (INPUT_LIMIT - len(start) - 1) // 2 * 2
    piece = "5a" * 32768
    for _ in range(digits // len(piece)):
        yield piece
    yield piece[:digits % len(piece)] + "\n"


SCRIPTS = [
    ("small writes", small_writes, 5_000, 10_000),
    ("small writes and reads", small_writes_and_reads, 5_000, 10_000),
    ("large writes", large_writes, 2_048, 4_096),
    ("large reads", large_reads, 128, 256),
]


class Runs:
    """The runs of one script."""

    def __init__(self, words, calls, script, path, program=PROGRAM):
        self.program = program
        self.words = words
        self.calls = calls
        self.path = path
        self.written = path + ".written"
        self.seconds = []
        self.memory = 0.0
        self.status = 0
        self.notes = b""
        # The script is never held whole: what a process had before it began its program counts as its memory.
        with open(path, "wb") as file:
            file.writelines(part if isinstance(part, bytes) else part.encode("ascii") for part in script)

    def run(self):
        """Runs the program once."""
        with open(self.path, "rb") as stdin, open(self.written, "wb") as stdout:
            process = subprocess.Popen([self.program, *self.words], stdin=stdin, stdout=stdout, stderr=subprocess.PIPE)
            self.notes = process.stderr.read()
            _, status, usage = os.wait4(process.pid, 0)
        self.status = os.waitstatus_to_exitcode(status)
        self.seconds.append(usage.ru_utime + usage.ru_stime)
        self.memory = max(self.memory, usage.ru_maxrss / 1024)

    def is_enough(self):
        """Whether it was run often and long enough."""
        count = len(self.seconds)
        return count >= MOST_RUNS or (count >= LEAST_RUNS and sum(self.seconds) >= SECONDS)

    def least(self):
        """The least processor time of a run."""
        return max(min(self.seconds), 1e-6)


def run_in_turns(runs):
    """Runs scripts in turns, until each was run enough."""
    while not all(each.is_enough() for each in runs):
        for each in runs:
            each.run()


def entries_of(written):
    """The number of entries that a report tells."""
    with open(written, "rb") as file:
        for line in file:
            if line.startswith(b"entries "):
                return int(line.split()[1])
    return 0


def show(name, runs):
    """Prints what the runs of a script cost."""
    seconds = runs.least()
    entries = entries_of(runs.written)
    text = os.path.getsize(runs.written) / MEGABYTE
    print(f"{name:24} {' '.join(runs.words):13} {runs.calls:6} calls {seconds:7.3f} s {entries:6} entries {entries / seconds:10.0f} entries/s"
          f" {text:7.1f} MB {text / seconds:7.1f} MB/s {runs.memory:7.0f} MiB")


def measure_doubling(name, make, half, whole, words, folder):
    """Whether the time of twice the calls is within the bar."""
    both = [Runs(words, calls, make(calls), os.path.join(folder, str(calls))) for calls in (half, whole)]
    run_in_turns(both)
    for runs in both:
        if runs.status != 0:
            print(f"{name}: status {runs.status} {runs.notes!r}")
            return False
        show(name, runs)
    ratio = both[1].least() / both[0].least()
    print(f"{name:24} {' '.join(words):13} ratio {ratio:.2f}")
    return ratio <= BAR


def copy_seconds(path):
    """The least processor time of a plain copy of a file."""
    copies = []
    for _ in range(LEAST_RUNS):
        begin = time.process_time()
        shutil.copyfile(path, path + ".copy")
        copies.append(time.process_time() - begin)
    return min(copies)


def measure_parser(folder):
    """Parses a script of the greatest length, which waits for later, beside a copy of its bytes."""
    runs = Runs(["step"], 1, longest(), os.path.join(folder, "longest"))
    run_in_turns([runs])
    seconds = runs.least()
    size = os.path.getsize(runs.path) / MEGABYTE
    print(f"parsed {size:.1f} MB in {seconds:.3f} s, {size / seconds:.1f} MB/s, {runs.memory:.0f} MiB;"
          f" copied in {copy_seconds(runs.path):.3f} s")
    return runs.status == 2 and runs.notes == b"refused line 11 later\n"


def main():
    build("xorarray")
    good = True
    with tempfile.TemporaryDirectory() as folder:
        for name, make, half, whole in SCRIPTS:
            for words in (["step"], ["step", "--trace"]):
                good = measure_doubling(name, make, half, whole, words, folder) and good
        good = measure_parser(folder) and good
    return 0 if good else 1


if __name__ == "__main__":
    sys.exit(main())
