#!/usr/bin/env python3
"""What `worked_cases` has to answer to its list, from the list's own lines that begin with `=`.

    worked_answers.py < crates/worked_cases/stdin > crates/worked_cases/stdout

    = STATUS                   the status; what is written follows in lines
    = out | LINE               .. a line of out; `notes` of notes; `+` where the line has no end
    = STATUS TEXT              the status and one line with its end: of out where the status is 0, else of notes
    = N: STATUS ..             of the run with this number, behind a line `from`
    = FIRST to LAST: STATUS .. the same of runs in a row

Lines behind `each VALUE` are of the run with that value. The program skips all of these lines."""
import re
import sys


def answer(status, text):
    lines = [f"  status {status}"]
    if text is not None:
        lines.append(f"  {'out' if status == '0' else 'notes'} | {text}")
    return lines


def answers(listed):
    """a heading and the lines of an answer, for each run"""
    told, last, case, value = [], [], None, None
    for number, line in enumerate(listed.split("\n"), 1):
        if line.startswith("case "):
            case, value = line[5:], None
        elif line.startswith("each "):
            value = line[5:]
        elif line.startswith("from "):
            value = None
        elif m := re.fullmatch(r"= (out|notes) ([|+]|hex)(| .*)", line):
            for lines in last:
                lines.append(f"  {m[1]} {m[2]}{m[3] or ' '}")
        elif m := re.fullmatch(r"= (?:(\d+)(?: to (\d+))?: )?(\d+)(?: (.*))?", line):
            runs = range(int(m[1]), int(m[2] or m[1]) + 1) if m[1] else [value]
            last = []
            for run in runs:
                lines = answer(m[3], m[4])
                told.append((case if run is None else f"{case}: {run}", lines))
                last.append(lines)
        elif line.startswith("="):
            sys.exit(f"line {number}: no answer")
    return told


def main():
    for heading, lines in answers(sys.stdin.read()):
        print(heading)
        for line in lines:
            print(line)


if __name__ == "__main__":
    main()
