#!/usr/bin/env python3
"""Serves the largest streams that `xortarget serve` takes, and prints what they cost.

  bench/largest_streams.py

Each stream moves 67,108,864 bytes over media of 16,777,216, or has 1,000,000 frames. It is run as often as the scripts of
`largest_scripts.py`, beside one of half as many frames; the least processor time counts. For each it prints these seconds, the frames
a second, the megabytes of replies a second, and the most memory that the process had.

It ends with 1 where a run fails, or takes two seconds or more, or where twice the frames take more than 2.2 times as long.
"""
import os
import sys
import tempfile

from largest_scripts import BAR, MEGABYTE, Runs, run_in_turns
from programs import build, path_of

PROGRAM = path_of("xortarget")
SECONDS = 2.0


def opening(targets, block, rows, buffer):
    numbers = (block.to_bytes(2, "big"), buffer.to_bytes(2, "big"), rows.to_bytes(4, "big"))
    return b"XORT" + bytes([1, targets, 0, 0]) + b"".join(numbers)


def frame(kind, target, cdb=b"", data=b""):
    return bytes([kind, target, len(cdb), 0]) + len(data).to_bytes(4, "big") + cdb + data


def cdb(code, lba, count):
    return bytes([code, 0]) + lba.to_bytes(4, "big") + b"\0" + count.to_bytes(2, "big") + b"\0"


def reads(frames):
    """Each frame reads 64 blocks of 4,096 bytes."""
    yield opening(16, 4096, 256, 0)
    for number in range(frames):
        yield frame(1, number % 16, cdb(0x28, 64 * (number % 4), 64))


def writes(frames):
    """Each frame writes 64 blocks of 4,096 bytes."""
    data = bytes(range(256)) * 1024
    yield opening(16, 4096, 256, 0)
    for number in range(frames):
        yield frame(1, number % 16, cdb(0x2A, 64 * (number % 4), 64), data)


def small_reads(frames):
    """Each frame reads a block of 16 bytes."""
    yield opening(16, 16, 65536, 0)
    for number in range(frames):
        yield frame(1, number % 16, cdb(0x28, number % 65536, 1))


def one_write(frames):
    """All of a medium is written by one frame, several times."""
    data = bytes(256) * 65535
    yield opening(1, 256, 65536, 0)
    for _ in range(frames):
        yield frame(1, 0, cdb(0x2A, 0, 65535), data)


def resets(frames):
    yield opening(16, 16, 16, 4)
    for number in range(frames):
        yield frame(3, number % 16)


STREAMS = [
    ("reads of 64 blocks", reads, 128, 256),
    ("writes of 64 blocks", writes, 128, 256),
    ("reads of a small block", small_reads, 500_000, 1_000_000),
    ("writes of a whole medium", one_write, 2, 4),
    ("resets", resets, 500_000, 1_000_000),
]


def show(name, runs):
    """Prints what the runs of a stream cost."""
    seconds = runs.least()
    replies = os.path.getsize(runs.written) / MEGABYTE
    print(f"{name:26} {runs.calls:8} frames {seconds:7.3f} s {runs.calls / seconds:10.0f} frames/s {replies / seconds:7.1f} MB/s"
          f" {runs.memory:7.0f} MiB")


def measure(name, make, half, whole, folder):
    """Whether a stream is quick enough, and the time of twice the frames within the bar."""
    both = [Runs(["serve"], frames, make(frames), os.path.join(folder, str(frames)), PROGRAM) for frames in (half, whole)]
    run_in_turns(both)
    for runs in both:
        if runs.status != 0:
            print(f"{name}: status {runs.status} {runs.notes!r}")
            return False
        show(name, runs)
    ratio = both[1].least() / both[0].least()
    print(f"{name:26} ratio {ratio:.2f}")
    return ratio <= BAR and both[1].least() < SECONDS


def main():
    build("xortarget")
    good = True
    with tempfile.TemporaryDirectory() as folder:
        for name, make, half, whole in STREAMS:
            good = measure(name, make, half, whole, folder) and good
    return 0 if good else 1


if __name__ == "__main__":
    sys.exit(main())
