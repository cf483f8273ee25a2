#!/usr/bin/env python3
"""The files of definitions that a promise rests on: those that the contracts of a source file cite, and all that these cite.

    trusted_definitions.py crates/xor_cli/src/top.rt crates/trace_check/src/checking/top.rt

Prints them by crate, as docs/TRUST.md lists them. With `--against docs/TRUST.md` it compares the two, and ends with 1
where a file is missing there or named without need: a reader who believes the list must not miss a definition."""
import argparse
import pathlib
import re
import sys

TOP = pathlib.Path(__file__).resolve().parent.parent
USE = re.compile(r"^\s*(?:pub )?(?:ghost )?use Rattle\.(\w+)\.specs\.([\w.]+?)(?:\.\{| as )", re.M)


def cited(file):
    """the spec files of this repository that a file imports"""
    for crate, module in USE.findall(file.read_text()):
        path = TOP / "crates" / crate / "specs" / (module.replace(".", "/") + ".antt")
        if path.exists():
            yield path


def closure(starts):
    found, todo = set(), [path for start in starts for path in cited(TOP / start)]
    while todo:
        path = todo.pop()
        if path not in found:
            found.add(path)
            todo.extend(cited(path))
    return found


def by_crate(paths):
    table = {}
    for path in sorted(paths):
        below = path.relative_to(TOP / "crates").with_suffix("")
        table.setdefault(below.parts[0], []).append("/".join(below.parts[2:]))
    return table


def listed(document):
    """the rows `| crate | File, File |` of a document"""
    rows = re.findall(r"^\| `(\w+)` \| ((?:`[\w/]+`(?:, )?)+) \|$", document.read_text(), re.M)
    return {crate: re.findall(r"`([\w/]+)`", files) for crate, files in rows}


def main():
    parser = argparse.ArgumentParser()
    parser.add_argument("starts", nargs="+")
    parser.add_argument("--against", type=pathlib.Path)
    asked = parser.parse_args()
    table = by_crate(closure(asked.starts))
    if asked.against is None:
        for crate, files in table.items():
            print(f"| `{crate}` | {', '.join(f'`{file}`' for file in files)} |")
        return 0
    there = listed(asked.against)
    for crate in sorted(set(table) | set(there)):
        if sorted(table.get(crate, [])) != sorted(there.get(crate, [])):
            print(f"{crate}: cited {table.get(crate, [])}, listed {there.get(crate, [])}")
    return int(any(sorted(table.get(c, [])) != sorted(there.get(c, [])) for c in set(table) | set(there)))


if __name__ == "__main__":
    sys.exit(main())
