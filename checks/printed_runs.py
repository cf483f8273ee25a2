#!/usr/bin/env python3
"""Feeds printed runs to a built xorcheck, and compares what it says with what must be said.

    printed_runs.py FOLDER [PROGRAM]

FOLDER has NAME.script, NAME.report and NAME.trace for each run; each must be accepted. changed.txt has
journals that differ in one place: each must be rejected at its entry, or at its line where the change is
no line of a trace. A report that lacks its first line, or has it twice, must be rejected at that line.
Where there is no such folder, nothing is fed."""
import pathlib
import re
import subprocess
import sys

from journals import change


def say(program, script, report, trace):
    text = script + "output\n" + report + "".join(line + "\n" for line in trace)
    done = subprocess.run([program, "check"], input=text.encode(), capture_output=True, timeout=60)
    return done.returncode, done.stdout.decode(), done.stderr.decode()


def cases(folder):
    runs = {}
    for path in sorted(folder.glob("*.script")):
        script, report = path.read_text(), path.with_suffix(".report").read_text()
        trace = path.with_suffix(".trace").read_text().splitlines()
        runs[path.stem] = (script, report, trace)
        lines = report.splitlines(keepends=True)
        yield path.stem, (script, report, trace), (0, f"accepted entries {len(trace)}\n", "")
        yield f"{path.stem}:first line twice", (script, lines[0] + report, trace), (1, "", "rejected report line 2\n")
        yield f"{path.stem}:no first line", (script, "".join(lines[1:]), trace), (1, "", "rejected report line 1\n")
    for row in (folder / "changed.txt").read_text().splitlines():
        name, what, found, rule = (word.strip() for word in row.split("|"))
        script, report, trace = runs[name]
        number = int(re.match(r"entry (\d+)", found)[1])
        changed = change(trace, what)
        yield f"{name}:{what}", (script, report, changed), (1, "", f"rejected run entry {number}\n")


def main():
    folder = pathlib.Path(sys.argv[1])
    if not folder.is_dir():
        print(f"no folder {folder}: skipped")
        return
    program = sys.argv[2] if len(sys.argv) > 2 else "crates/xorcheck/out/xorcheck"
    count = wrong = 0
    for name, given, wanted in cases(folder):
        count += 1
        said = say(program, *given)
        if said != wanted:
            wrong += 1
            print(name, "wanted", wanted, "said", said)
    print(f"{count} printed runs, {wrong} answered otherwise")
    sys.exit(1 if wrong else 0)


if __name__ == "__main__":
    main()
