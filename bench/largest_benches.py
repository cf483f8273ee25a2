#!/usr/bin/env python3
"""Runs the largest benches that `xorarray target` takes, and prints what they cost.

  bench/largest_benches.py

Each bench has 10,000 lines, or moves 67,108,864 bytes, over media of 16,777,216 bytes. It is run as often as the scripts of
`largest_scripts.py`, beside one of half as many lines; the least processor time counts. For each it prints these seconds, the
lines a second, the megabytes of text written a second, and the most memory that the process had.

It ends with 1 where a run fails, or takes a second or more, or where twice the lines take more than 2.2 times as long.
"""
import os
import sys
import tempfile

from largest_scripts import BAR, MEGABYTE, Runs, run_in_turns
from programs import build

SECONDS = 1.0


def header(targets, block, rows, buffer):
    return f"xorbench 1\ntargets {targets}\nblock {block}\nrows {rows}\nbuffer {buffer}\n"


def cdb(code, lba, count):
    return f"{code:02x}00{lba:08x}00{count:04x}00"


def gathers(code, lba, sources):
    """A REBUILD (81h) or REGENERATE (82h) of a block, from this row of other targets."""
    descriptors = "".join(f"{0:014x}{target:02x}{lba:016x}" for target in sources)
    data = f"{len(sources):02x}00{16 * len(sources):04x}{descriptors}"
    return f"{code:02x}00{lba:08x}{1:08x}{len(data) // 2:08x}0000 {data}"


def reads(lines):
    """Each line reads a block of 4,096 bytes."""
    yield header(16, 4096, 256, 0)
    for line in range(lines):
        yield f"{line % 16} cdb {cdb(0x28, line % 256, 1)} -\n"


def long_reads(lines):
    """Each line reads 64 blocks of 4,096 bytes."""
    yield header(16, 4096, 256, 0)
    for line in range(lines):
        yield f"{line % 16} cdb {cdb(0x28, 64 * (line % 4), 64)} -\n"


def small_writes(lines):
    """Each line writes a block of 16 bytes."""
    yield header(16, 16, 65536, 0)
    for line in range(lines):
        yield f"{line % 16} cdb {cdb(0x2A, line, 1)} 00112233445566778899aabbccddeeff\n"


def deltas(lines):
    """A delta is held and taken at once."""
    yield header(16, 16, 65536, 4)
    for line in range(lines // 2):
        yield f"{line % 16} cdb {cdb(0x50, line, 1)} 00112233445566778899aabbccddeeff\n{line % 16} cdb {cdb(0x52, line, 1)} -\n"


def many_deltas(lines):
    """All deltas are held at one target before the first is taken."""
    yield header(1, 16, 65536, 65536)
    for line in range(lines // 2):
        yield f"0 cdb {cdb(0x50, line, 1)} 00112233445566778899aabbccddeeff\n"
    for line in range(lines // 2):
        yield f"0 cdb {cdb(0x52, line, 1)} -\n"


def losses(lines):
    """Disks are lost and come again."""
    yield header(16, 16, 16, 4)
    for line in range(lines):
        yield f"{line // 2 % 16} {'fresh' if line % 2 else 'lose'}\n"


def rebuilds(lines):
    """Each line makes a block anew from those of the 15 other targets."""
    yield header(16, 16, 65536, 0)
    for line in range(lines):
        yield f"{line % 16} cdb {gathers(0x81, line, [target for target in range(16) if target != line % 16])}\n"


def regenerates(lines):
    """A block is gathered from two others, and taken at once."""
    yield header(16, 16, 65536, 4)
    for line in range(lines // 2):
        target = line % 16
        yield f"{target} cdb {gathers(0x82, line, [(target + 1) % 16, (target + 2) % 16])}\n{target} cdb {cdb(0x52, line, 1)} -\n"


BENCHES = [
    ("reads of a block", reads, 5_000, 10_000),
    ("reads of 64 blocks", long_reads, 128, 256),
    ("writes of a small block", small_writes, 5_000, 10_000),
    ("deltas held and taken", deltas, 5_000, 10_000),
    ("many deltas at one target", many_deltas, 5_000, 10_000),
    ("blocks of 15 sources", rebuilds, 5_000, 10_000),
    ("blocks gathered and taken", regenerates, 5_000, 10_000),
    ("losses and fresh disks", losses, 5_000, 10_000),
]


def show(name, runs):
    """Prints what the runs of a bench cost."""
    seconds = runs.least()
    text = os.path.getsize(runs.written) / MEGABYTE
    print(f"{name:26} {runs.calls:6} lines {seconds:7.3f} s {runs.calls / seconds:10.0f} lines/s {text:7.1f} MB {text / seconds:7.1f} MB/s"
          f" {runs.memory:7.0f} MiB")


def measure(name, make, half, whole, folder):
    """Whether a bench is quick enough, and the time of twice the lines within the bar."""
    both = [Runs(["target"], lines, make(lines), os.path.join(folder, str(lines))) for lines in (half, whole)]
    run_in_turns(both)
    for runs in both:
        if runs.status != 0:
            print(f"{name}: status {runs.status} {runs.notes!r}")
            return False
        show(name, runs)
    ratio = both[1].least() / both[0].least()
    print(f"{name:26} ratio {ratio:.2f}")
    return ratio <= BAR and both[1].least() < SECONDS


def main():
    build("xorarray")
    good = True
    with tempfile.TemporaryDirectory() as folder:
        for name, make, half, whole in BENCHES:
            good = measure(name, make, half, whole, folder) and good
    return 0 if good else 1


if __name__ == "__main__":
    sys.exit(main())
