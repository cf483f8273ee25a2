#!/usr/bin/env python3
"""Times `xor_buffers::Held`, which holds many blocks one by one and gives them back in reverse.

  bench/held_blocks.py

65,536 blocks of 512 bytes are held, each in a run of its own, and then taken, the newest first. Their rows rise, fall, or
are scrambled. For each order it prints the processor seconds of a program that only holds them, and of one that takes them
too: the least of several runs.

It ends with 1 where the program can't be built or a block isn't held or isn't taken, or where holding and taking them costs
a second or more with rising or with falling rows.
"""
import os
import resource
import shutil
import subprocess
import sys
import tempfile

TOP = os.path.dirname(os.path.dirname(os.path.abspath(__file__)))
BLOCKS = 65_536
BAR = 1.0
# The orders of rows by the letters that the program reads, how often each is run, and whether the bar is for it.
ORDERS = [("rising", "a", 7, True), ("falling", "d", 7, True), ("scrambled", "s", 3, False)]

PROGRAM = """//! Holds many blocks one by one, and takes them in reverse.
#![tactic(auto)]

ghost use Rattle.std.specs.Prelude.{◌≡◌, ◌≤◌, ◌<◌, length, OnOk};
ghost use Rattle.xor_buffers.specs.Holding.{spare_of};

use blocks_core::Memory;
use std::alloc::Global;
use std::io;
use std::io::Read;
use xor_buffers::Held;

fn row_of(order: u8, number: u32) -> u32
    requires { number < 65536 }
{
    if order == b'a' {
        number
    } else if order == b'd' {
        65535 - number
    } else {
        (number * 40503) % 65536
    }
}

fn hold_one(held: &mut Held, row: u32, bytes: &[u8]) -> bool
    requires block { held.old.block ≡ 512 }
    requires size { length bytes.now ≡ 512 }
    requires spare { 1 ≤ spare_of held.old }
    ensures { held.new.block ≡ 512 }
{
    held.hold(row, row, bytes).is_ok()
}

fn take_one(held: &mut Held, row: u32, into: &mut [u8]) -> bool
    requires block { held.old.block ≡ 512 }
    requires size { length into.old ≡ 512 }
    ensures { held.new.block ≡ 512 }
{
    held.take(row, into).is_ok()
}

fn hold_all(held: &mut Held, order: u8, bytes: &[u8]) -> Result<u32, Memory>
    requires block { held.old.block ≡ 512 }
    requires size { length bytes.now ≡ 512 }
    ensures { OnOk result (held.new.block ≡ 512) }
{
    let mut good = 0u32;
    for i in 0..65536u32 {
        held.reserve(1)?;
        if hold_one(held, row_of(order, i), bytes) {
            good = good.wrapping_add(1);
        }
    }
    Ok(good)
}

fn take_all(held: &mut Held, order: u8, into: &mut [u8]) -> u32
    requires block { held.old.block ≡ 512 }
    requires size { length into.old ≡ 512 }
{
    let mut good = 0u32;
    for i in 0..65536u32 {
        if take_one(held, row_of(order, 65535 - i), into) {
            good = good.wrapping_add(1);
        }
    }
    good
}

fn run(alloc: Global, order: u8, takes: bool) -> Result<u32, Memory> {
    let mut held = Held::new(alloc, 512, 65536)?;
    let bytes = [7u8; 512];
    let mut into = [0u8; 512];
    let good = hold_all(&mut held, order, &bytes)?;
    if takes {
        return Ok(take_all(&mut held, order, &mut into));
    }
    Ok(good)
}

fn main(rt: HostRuntime) -> io::Result<()> {
    let mut input = Vec::new(rt.alloc());
    rt.stdin().read_to_end(&mut input)?;
    if input.len() < 2 {
        return Ok(());
    }
    match run(rt.alloc(), input[0], input[1] == b't') {
        Ok(good) => println!(rt; "{good}")?,
        Err(_) => println!(rt; "memory")?,
    }
    Ok(())
}
"""

# The block size stays, so that each hold and take meets what it requires.
INVARIANT = """use Rattle.std.proofs.Common.{◌≡◌}
use Rattle.timed.proofs.NAME.Given as goal

abbrev pub invariant-loop-i : goal.invariant-loop-i
invariant-loop-i l = l.held.block ≡ 512
"""


def write(path, text):
    """Writes a file, with the folders above it."""
    os.makedirs(os.path.dirname(path), exist_ok=True)
    with open(path, "w", encoding="utf-8") as file:
        file.write(text)


def build(folder):
    """Proves and builds the program over `xor_buffers`, and says where it lies."""
    for name in ("blocks_core", "xor_buffers"):
        shutil.copytree(os.path.join(TOP, "crates", name), os.path.join(folder, "crates", name))
    write(os.path.join(folder, "crates.txt"), "blocks_core:\nxor_buffers: blocks_core\ntimed: blocks_core xor_buffers\n")
    crate = os.path.join(folder, "crates", "timed")
    write(os.path.join(crate, "src", "main.rt"), PROGRAM)
    for name in ("hold_all", "take_all"):
        write(os.path.join(crate, "proofs", name, "Invariants.antt"), INVARIANT.replace("NAME", name))
    subprocess.run(["rt", "run"], cwd=crate, stdin=subprocess.DEVNULL, stdout=subprocess.DEVNULL,
                   stderr=subprocess.DEVNULL, check=True)
    return os.path.join(crate, "out", "timed")


def spent():
    """The processor seconds of all programs that have ended."""
    usage = resource.getrusage(resource.RUSAGE_CHILDREN)
    return usage.ru_utime + usage.ru_stime


def seconds_of(program, word):
    """The processor seconds of one run, of which each block has to be held, and taken."""
    start = spent()
    done = subprocess.run([program], input=word, stdout=subprocess.PIPE, check=True, text=True)
    took = spent() - start
    if done.stdout != f"{BLOCKS}\n":
        sys.exit(f"{word}: {done.stdout.strip()} of {BLOCKS} blocks")
    return took


def main():
    good = True
    with tempfile.TemporaryDirectory() as folder:
        program = build(folder)
        for name, letter, runs, barred in ORDERS:
            holds = min(seconds_of(program, letter + "h") for _ in range(runs))
            both = min(seconds_of(program, letter + "t") for _ in range(runs))
            print(f"{name:9} rows: held {holds:6.3f} s, held and taken {both:6.3f} s")
            good = good and (not barred or both < BAR)
    return 0 if good else 1


if __name__ == "__main__":
    sys.exit(main())
