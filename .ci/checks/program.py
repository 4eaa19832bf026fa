"""The program that the gate built, and what it answers. `AGXX` names another program to look at."""

import os
import pathlib
import re
import shutil
import subprocess
import sys

PROGRAM = pathlib.Path(os.environ.get("AGXX", "crates/agxx_main/out/agxx_main")).resolve()
WORKERS = os.cpu_count()
STATUSES = {"ended": 0, "stopped": 3, "running": 4, "halted": 5}
COUNTS = re.compile(r"turns (\d+) source (\d+) inserted (\d+) blocked (\d+) idle (\d+) flips 0")
ADMISSIBLE = "verdict admissible"


def run_words(words, folder="."):
    """The status, the output and the lines on standard error for these words in a folder."""
    run = subprocess.run([PROGRAM, *words], cwd=folder, capture_output=True, timeout=300)
    return run.returncode, run.stdout, run.stderr.decode().splitlines()


def run_file(name, folder="."):
    """The same for `exec` on the file of this name."""
    return run_words(["exec", name], folder)


def summary_fault(status, lines):
    """What is wrong with the summary of a run by `exec` without a flip, whatever it ran."""
    if len(lines) != 3 or STATUSES.get(lines[0].split(" ")[0]) != status or lines[2] != ADMISSIBLE:
        return f"status {status} with {lines}"
    counts = COUNTS.fullmatch(lines[1])
    if counts is None or int(counts[1]) != sum(int(counts[i]) for i in range(2, 6)):
        return f"counts {lines[1]}"
    return None


def skip_without(check, *tools, built=PROGRAM):
    """Ends the check where the program or a tool is missing."""
    missing = [tool for tool in tools if shutil.which(tool) is None]
    if not built.exists():
        missing.append(str(built))
    if missing:
        print(f"{check}: skipped, no {missing[0]}", file=sys.stderr)
        sys.exit(0)


def end(check, faults, count, said):
    """Prints the faults and how many cases had none, and ends with status 1 where there is a fault."""
    for fault in faults:
        print(f"{check}: {fault}")
    print(f"{check}: {count - len(faults)} of {count} {said}, {len(faults)} failed")
    sys.exit(1 if faults else 0)
