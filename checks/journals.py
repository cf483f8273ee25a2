#!/usr/bin/env python3
"""Worked journals for `journal_judge`: which of them are runs, and which entry of the others may not follow.

    journals.py FOLDER            writes the journals as its input
    journals.py FOLDER answers    writes what it has to answer

FOLDER has NAME.script and NAME.trace for each journal that is a run; changed.txt, journals that differ in
one place; one-rule.txt, journals that one rule alone refuses at their last entry. A setting is a line of targets,
block, areas (unit.stripes, joined by commas), buffer and mode; one of several areas becomes a script of
version 2. Beside this script further.txt has more journals of these kinds, and lines.txt lines of traces: the
answers to these are written there by hand."""
import json
import pathlib
import re
import sys


def header_of(script):
    """The words of the lines up to that of the hosts: each line's first word, and the rest."""
    for line in script.splitlines():
        yield line.split(" ", 1)
        if line.startswith("hosts "):
            return


def setting_of(script):
    lines = [*header_of(script)]
    words = dict(lines)
    # A script of version 2 has a line for each area.
    areas = [said.replace(" ", ".") for word, said in lines if word == "area"]
    areas = areas or [f"{words['unit']}.{words['stripes']}"]
    return " ".join([words["targets"], words["block"], ",".join(areas), words["buffer"], words["mode"]])


def script_of(setting):
    targets, block, areas, buffer, mode = setting.split(" ")
    areas = [area.split(".") for area in areas.split(",")]
    if len(areas) == 1:
        first, shape = "xorscript 1", [f"unit {areas[0][0]}", f"stripes {areas[0][1]}"]
    else:
        first, shape = "xorscript 2", [f"areas {len(areas)}", *(f"area {unit} {stripes}" for unit, stripes in areas)]
    lines = [first, f"targets {targets}", f"block {block}", *shape, f"buffer {buffer}", "maxima 0 0 0", f"mode {mode}",
             "seed 1", "hosts 1"]
    return "".join(line + "\n" for line in lines)


def change(lines, what):
    lines = list(lines)
    if m := re.fullmatch(r"without entry (\d+)", what):
        del lines[int(m[1]) - 1]
    elif m := re.fullmatch(r"entry (\d+) with word (\d+) (\S+) for (\S+)", what):
        words = lines[int(m[1]) - 1].split(" ")
        assert words[int(m[2]) - 1] == m[4], what
        words[int(m[2]) - 1] = m[3]
        lines[int(m[1]) - 1] = " ".join(words)
    elif m := re.fullmatch(r"entry (\d+) without the last name of word (\d+)", what):
        words = lines[int(m[1]) - 1].split(" ")
        words[int(m[2]) - 1] = ",".join(words[int(m[2]) - 1].split(",")[:-1]) or "-"
        lines[int(m[1]) - 1] = " ".join(words)
    elif m := re.fullmatch(r"entry (\d+) with (\S+) for (\S+)", what):
        assert m[3] in lines[int(m[1]) - 1], what
        lines[int(m[1]) - 1] = lines[int(m[1]) - 1].replace(m[3], m[2])
    else:
        raise SystemExit(f"not a change: {what}")
    return lines


def worked(folder):
    for path in sorted(folder.glob("*.script")):
        yield path.stem, setting_of(path.read_text()), path.with_suffix(".trace").read_text().splitlines()


def ruled(text):
    for block in text.split("\n\n"):
        lines = [l for l in block.splitlines() if l and not l.startswith("#")]
        if lines:
            name = lines[0].split(" ", 1)[1].split(" (")[0]
            yield name, lines[1].split(" ", 1)[1], int(lines[2].split(" ")[1]), lines[3:]


def journals(folder):
    """name, setting, lines of entries, the number of the first entry that may not follow or 0"""
    runs = {}
    for name, setting, trace in worked(folder):
        runs[name] = (setting, trace)
        yield f"run:{name}", setting, trace, 0
    for n, line in enumerate((folder / "changed.txt").read_text().splitlines()):
        name, what, found, rule = [w.strip() for w in line.split("|")]
        setting, trace = runs[name]
        number = int(re.match(r"entry (\d+)", found)[1])
        yield f"changed:{n + 1}:{name}:{rule.replace(' ', '_')}", setting, change(trace, what), number
    for name, setting, number, lines in ruled((folder / "one-rule.txt").read_text()):
        yield f"rule:{name}", setting, lines, number
        yield f"rule-without-last:{name}", setting, lines[:number - 1], 0
    further = pathlib.Path(__file__).with_name("further.txt")
    for name, setting, number, lines in ruled(further.read_text() if further.exists() else ""):
        yield f"further:{name}", setting, lines, number
        if number:
            yield f"further-before:{name}", setting, lines[:number - 1], 0


def read_lines(text):
    """name, the text of a trace, and its answer"""
    good, kinds, answer = "0 0 swap 0 1\n0 1 fresh 1 0.0\n", "", ""
    rows = [row for row in text.splitlines() if row and not row.startswith("#")]
    for n, row in enumerate(rows):
        kind, said = row.split(" ", 1)
        line = json.loads(said)
        if kind == "line":
            kinds += line
        elif kind == "lines-then":
            yield "lines:one-of-each-kind", kinds, line
        elif kind == "rising":
            number, trace = line.split(" ", 1)
            yield f"lines:{n + 1}:rising", trace, f"no trace, line {number}"
        else:
            if line.endswith("\n"):
                yield f"lines:{n + 1}:first", line, "no trace, line 1"
            yield f"lines:{n + 1}:third", good + line, "no trace, line 3"


def cases(folder):
    """name, script, trace, answer"""
    for name, setting, lines, number in journals(folder):
        trace = "".join(line + "\n" for line in lines)
        yield name, script_of(setting), trace, f"entry {number}" if number else "run"
    for name, trace, answer in read_lines(pathlib.Path(__file__).with_name("lines.txt").read_text()):
        yield name, script_of("3 1 1.1 2 supervised"), trace, answer


def main():
    # A trace without a line end stands last.
    ordered = sorted(cases(pathlib.Path(sys.argv[1])), key=lambda case: not case[2].endswith("\n"))
    for name, script, trace, answer in ordered:
        if sys.argv[2:] == ["answers"]:
            print(name, answer)
        else:
            print(f"journal {name}\n{script}trace\n{trace}", end="")


if __name__ == "__main__":
    main()
