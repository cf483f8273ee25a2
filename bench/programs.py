"""The programs that the measuring scripts run, proved and built before they are measured."""
import os
import subprocess

TOP = os.path.dirname(os.path.dirname(os.path.abspath(__file__)))


def path_of(name):
    """Where a program of this repository is built."""
    return os.path.join(TOP, "crates", name, "out", name)


def build(*names):
    """Builds the programs where they aren't built of the sources that stand here: what is measured mustn't be an older one.
    The kit builds a program on the way to running it, so it is given no words and no input."""
    for name in names:
        subprocess.run(["rt", "run"], cwd=os.path.join(TOP, "crates", name), stdin=subprocess.DEVNULL, capture_output=True, check=False)
        if not os.access(path_of(name), os.X_OK):
            raise SystemExit(f"{name} isn't built: run `rt run` in crates/{name} to see why")
