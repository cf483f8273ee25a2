#!/usr/bin/env python3
"""Times `blocks_core::xor_into` beside the plain loop of Rust that `rustc -O` builds.

  bench/exclusive_or.py

Both programs fold one run of bytes into another, many times, for runs of several lengths. They run in turns, and of each
length the least time of a call counts. For each length it prints both times in nanoseconds and how many times as fast the
first is as the second.

It ends with 1 where a program can't be built, or where at 512 or 4,096 bytes the first is less than 0.9 times as fast.
"""
import os
import shutil
import subprocess
import sys
import tempfile

TOP = os.path.dirname(os.path.dirname(os.path.abspath(__file__)))
BAR = 0.9
BARRED = (512, 4096)
# Length and number of calls of one measurement.
LENGTHS = [(33, 8_000_000), (512, 4_000_000), (520, 4_000_000), (4096, 1_000_000)]
# Each program is run so often, and measures each length so often in a run.
RUNS = 9
ROUNDS = 3

OURS = """//! Times exclusive-ors.
#![tactic(auto)]
ghost use Rattle.std.specs.Prelude.{◌≡◌, length};

use blocks_core::xor_into;
use std::io;
use std::time::Instant;

fn many(into: &mut [u8], from: &[u8], times: u32)
    requires { length into.old ≡ length from.now }
{
    for _ in 0..times {
        xor_into(into, from);
    }
}

fn time(rt: &HostRuntime, size: usize, times: u32) -> io::Result<()> {
    let mut into = vec![in rt.alloc(); 3u8; size]?;
    let from = vec![in rt.alloc(); 5u8; size]?;
    let into = into.as_mut_slice();
    let from = from.as_slice();
    if into.len() != from.len() {
        return Ok(());
    }
    for _ in 0..ROUNDS {
        let start = Instant::now(rt)?;
        many(into, from, times);
        let took = start.elapsed(rt)?.as_nanos();
        println!(rt; "{size} {took}")?;
    }
    Ok(())
}

fn main(rt: HostRuntime) -> io::Result<()> {
    CALLS
    Ok(())
}
"""

PLAIN = """use std::hint::black_box;
use std::time::Instant;

#[inline(never)]
fn xor_into(into: &mut [u8], from: &[u8]) {
    for (a, b) in into.iter_mut().zip(from) {
        *a ^= *b;
    }
}

fn time(size: usize, times: u32) {
    let mut into = vec![3u8; size];
    let from = vec![5u8; size];
    for _ in 0..ROUNDS {
        let start = Instant::now();
        for _ in 0..times {
            xor_into(black_box(&mut into), black_box(&from));
        }
        println!("{size} {}", start.elapsed().as_nanos());
    }
}

fn main() {
    CALLS
}
"""


def text_of(template, call):
    """A program's text, with a call for each length."""
    calls = "\n    ".join(call.format(size, times) for size, times in LENGTHS)
    return template.replace("ROUNDS", str(ROUNDS)).replace("CALLS", calls)


def build_ours(folder):
    """Proves and builds the program over `blocks_core`, and says where it lies."""
    crate = os.path.join(folder, "crates", "timed")
    os.makedirs(os.path.join(crate, "src"))
    shutil.copytree(os.path.join(TOP, "crates", "blocks_core"), os.path.join(folder, "crates", "blocks_core"))
    with open(os.path.join(folder, "crates.txt"), "w", encoding="utf-8") as file:
        file.write("blocks_core:\ntimed: blocks_core\n")
    with open(os.path.join(crate, "src", "main.rt"), "w", encoding="utf-8") as file:
        file.write(text_of(OURS, "time(&rt, {}, {})?;"))
    subprocess.run(["rt", "run"], cwd=crate, stdout=subprocess.DEVNULL, stderr=subprocess.DEVNULL, check=True)
    return os.path.join(crate, "out", "timed")


def build_plain(folder):
    """Builds the plain program."""
    source = os.path.join(folder, "plain.rs")
    with open(source, "w", encoding="utf-8") as file:
        file.write(text_of(PLAIN, "time({}, {});"))
    subprocess.run(["rustc", "-O", source, "-o", os.path.join(folder, "plain")], check=True)
    return os.path.join(folder, "plain")


def least_times(programs):
    """For each program and length the least nanoseconds of a measurement."""
    least = [{} for _ in programs]
    for _ in range(RUNS):
        for program, times in zip(programs, least):
            for line in subprocess.run([program], stdout=subprocess.PIPE, check=True, text=True).stdout.splitlines():
                size, took = map(int, line.split())
                times[size] = min(took, times.get(size, took))
    return least


def main():
    with tempfile.TemporaryDirectory() as folder:
        ours, plain = least_times([build_ours(folder), build_plain(folder)])
    good = True
    for size, times in LENGTHS:
        ratio = plain[size] / ours[size]
        print(f"{size:5} bytes {ours[size] / times:7.2f} ns, plain {plain[size] / times:7.2f} ns, {ratio:.2f} times as fast")
        good = good and (size not in BARRED or ratio >= BAR)
    return 0 if good else 1


if __name__ == "__main__":
    sys.exit(main())
