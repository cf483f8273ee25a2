#!/usr/bin/env python3
"""Times `array_book::Book` on many pieces.

  bench/book_pieces.py

100,000 pieces of one block each, every other one a write, are begun over 4,096 stripes with 26 commands open at a time, and each is
closed as done. Prints the processor seconds of the program: the least of seven runs. The book it proves and builds for this rests on
eight crates, so the first run takes some minutes where none of them was proved on this machine.

It ends with 1 where the program can't be built, where a piece isn't opened, or where a run takes a second or more.
"""
import os
import resource
import shutil
import subprocess
import sys
import tempfile

TOP = os.path.dirname(os.path.dirname(os.path.abspath(__file__)))
PIECES = 100_000
OPEN = 26
BAR = 1.0
CRATES = ("blocks_core", "stripe_layout", "cdb_fields", "sbc_cdbs", "sense_data", "xor_buffers", "dirty_list", "array_journal", "array_book")

PROGRAM = """//! Begins pieces of one block each, every other a write, with some commands open at a time, and ends each as done.
#![tactic(auto)]

ghost use Rattle.std.specs.Prelude.{◌≡◌, IfOk};
ghost use Rattle.array_book.specs.Asks.{IsWant};
ghost use Rattle.timed.specs.Shapes.{IsShape};

use array_book::{Ask, Begun, Book, End, Want};
use array_journal::{Names, Setting};
use blocks_core::{Bytes, Memory};
use std::alloc::Global;
use std::collections::VecDeque;
use std::io;
use stripe_layout::{Area, Areas, Geometry, Mode, Piece};

const PIECES: u32 = 100_000;
const OPEN: usize = 26;

/// Five targets with 4,096 stripes of four blocks a unit, and room for 64 blocks in each buffer.
fn setting() -> Setting
    ensures { IsShape result }
{
    Setting {
        geometry: Geometry {
            targets: 5,
            block: 8,
            areas: Areas::new(Area {
                unit: 4,
                stripes: 4096,
            }),
        },
        buffer: 64,
        mode: Mode::Supervised,
    }
}

/// A piece of one block, which few others are about.
fn ask(alloc: Global, setting: &Setting, number: u32) -> Result<Ask, Memory>
    requires { IsShape setting.now }
    ensures { IfOk result (λ ask. IsWant setting.now ask.want) }
{
    let lba = number.wrapping_mul(40_503) % 65_536;
    let room = setting.geometry.room_in_unit(lba);
    let piece = Piece {
        place: setting.geometry.place(lba),
        first: lba,
        count: room.min(1),
    };
    let want = if number % 2 == 0 {
        Want::Read { piece }
    } else {
        Want::Write {
            piece,
            bytes: Bytes::from_slice(alloc, &[7u8; 8])?,
        }
    };
    Ok(Ask {
        call: 1,
        piece: number,
        want,
    })
}

fn end(alloc: Global) -> End {
    End {
        done: true,
        names: Names::new(alloc),
        cause: None,
        bytes: Bytes::new(alloc),
    }
}

/// Ends the oldest open command, where there are enough.
fn make_way(alloc: Global, book: &mut Book, open: &mut VecDeque<u32>) -> Result<(), Memory>
    ensures { book.new.setting ≡ book.old.setting }
{
    if open.len() < OPEN {
        return Ok(());
    }
    if let Some(command) = open.pop_front() {
        book.close(command, end(alloc), 0)?;
    }
    Ok(())
}

/// Begins one piece. Whether it was opened.
fn begin(book: &mut Book, asked: &Ask, open: &mut VecDeque<u32>) -> Result<bool, Memory>
    requires { IsWant book.old.setting asked.now.want }
    ensures { book.new.setting ≡ book.old.setting }
{
    match book.begin(asked, 0) {
        Begun::Opened { command, .. } => {
            open.push_back(command)?;
            Ok(true)
        }
        _ => Ok(false),
    }
}

fn book_of(alloc: Global, setting: &Setting) -> Result<Book, Memory>
    requires { IsShape setting.now }
    ensures { IfOk result (λ book. book.setting ≡ setting.now) }
{
    Book::new(alloc, setting.geometry, setting.mode, setting.buffer)
}

fn run(alloc: Global) -> Result<(u32, usize), Memory> {
    let set = setting();
    let mut book = book_of(alloc, &set)?;
    let mut open = VecDeque::new(alloc);
    let mut opened = 0u32;
    for number in 0..PIECES {
        make_way(alloc, &mut book, &mut open)?;
        let asked = ask(alloc, &set, number)?;
        if begin(&mut book, &asked, &mut open)? {
            opened = opened.wrapping_add(1);
        }
    }
    Ok((opened, book.entries().len()))
}

fn main(rt: HostRuntime) -> io::Result<()> {
    match run(rt.alloc()) {
        Ok((opened, entries)) => println!(rt; "{opened} opened, {entries} entries")?,
        Err(_) => println!(rt; "memory")?,
    }
    Ok(())
}
"""

# What the array of the program is.
SHAPES = """-- The array of the bench.
use Rattle.std.specs.Prelude.{◌≡◌}
use Rattle.stripe_layout.specs.Layout.{capacity_of}
use Rattle.array_journal.specs.declared.setting.Setting.{Setting}
use Rattle.array_journal.specs.Run.{IsSetting}

pub record IsShape (s : Setting) : Type 0 where
  pub setting : IsSetting s
  pub block : s.geometry.block ≡ 8
  pub capacity : capacity_of s.geometry ≡ 65536
  pub buffer : s.buffer ≡ 64
"""

# The setting of the book stays, so that each piece is one of its array.
PROOFS = {"run/Invariants.antt": """use Rattle.std.proofs.Common.{◌≡◌}
use Rattle.timed.proofs.run.Given as goal

abbrev pub invariant-loop-number : goal.invariant-loop-number
invariant-loop-number l = l.book.setting ≡ l.set
"""}


def write(path, text):
    """Writes a file, with the folders above it."""
    os.makedirs(os.path.dirname(path), exist_ok=True)
    with open(path, "w", encoding="utf-8") as file:
        file.write(text)


def crate_lines():
    """The lines of crates.txt for the crates that the program stands on, and its own."""
    with open(os.path.join(TOP, "crates.txt"), encoding="utf-8") as file:
        kept = [line for line in file if line.split(":")[0] in CRATES]
    return "".join(kept) + "timed: blocks_core stripe_layout array_journal array_book\n"


def build(folder):
    """Proves and builds the program over `array_book`, and says where it lies."""
    for name in CRATES:
        shutil.copytree(os.path.join(TOP, "crates", name), os.path.join(folder, "crates", name), ignore=shutil.ignore_patterns("out", "must-fail"))
    write(os.path.join(folder, "crates.txt"), crate_lines())
    crate = os.path.join(folder, "crates", "timed")
    write(os.path.join(crate, "src", "main.rt"), PROGRAM)
    write(os.path.join(crate, "specs", "Lib.antt"), "pub mod Shapes\n")
    write(os.path.join(crate, "specs", "Shapes.antt"), SHAPES)
    for name, text in PROOFS.items():
        write(os.path.join(crate, "proofs", name), text)
    subprocess.run(["rt", "run"], cwd=crate, stdin=subprocess.DEVNULL, stdout=subprocess.DEVNULL, stderr=subprocess.DEVNULL, check=True)
    return os.path.join(crate, "out", "timed")


def spent():
    """The processor seconds of all programs that have ended."""
    usage = resource.getrusage(resource.RUSAGE_CHILDREN)
    return usage.ru_utime + usage.ru_stime


def seconds_of(program):
    """The processor seconds of one run, in which each piece has to be opened."""
    start = spent()
    done = subprocess.run([program], stdin=subprocess.DEVNULL, stdout=subprocess.PIPE, check=True, text=True)
    took = spent() - start
    if done.stdout != f"{PIECES} opened, {2 * PIECES - OPEN} entries\n":
        sys.exit(f"the program answered {done.stdout.strip()}")
    return took


def main():
    with tempfile.TemporaryDirectory() as folder:
        program = build(folder)
        took = min(seconds_of(program) for _ in range(7))
    print(f"{PIECES} pieces with {OPEN} commands open: {took:.3f} s")
    return 0 if took < BAR else 1


if __name__ == "__main__":
    sys.exit(main())
