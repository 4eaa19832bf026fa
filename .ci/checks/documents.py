"""Runs each command of a `console` block of the documents and of an example block of the man page, with the program that
the gate built or `AGXX` names, and compares standard output, then standard error, then the status, with what is shown."""

import pathlib
import re
import shlex
import subprocess
import sys

from program import PROGRAM


def answer(words):
    if words[0] == "cat":
        return pathlib.Path(words[1]).read_text()
    assert words[0] == "agxx", words
    run = subprocess.run([str(PROGRAM)] + words[1:], capture_output=True, timeout=60)
    shown = run.stdout.decode() + run.stderr.decode()
    return shown + (f"[status {run.returncode}]\n" if run.returncode else "")


def check(name, block):
    faults = 0
    for part in re.split(r"^\$ ", block, flags=re.M)[1:]:
        command, _, wanted = part.partition("\n")
        got = answer(shlex.split(command))
        if got != wanted:
            print(f"{name}: $ {command}\n--- shown\n{wanted}--- came\n{got}")
            faults += 1
    return faults


def blocks(path):
    text = path.read_text()
    if path.suffix == ".1":
        return [b.replace("\\\\", "\\").replace("\\-", "-") for b in re.findall(r"^\.EX\n(.*?)^\.EE", text, flags=re.M | re.S)]
    return re.findall(r"^```console\n(.*?)^```", text, flags=re.M | re.S)


def main():
    if not PROGRAM.exists():
        print(f"documents: no program at {PROGRAM}")
        return 1
    paths = [pathlib.Path("README.md"), *sorted(pathlib.Path("docs").glob("*.md")), *sorted(pathlib.Path("docs").glob("*.1"))]
    count = faults = 0
    for path in paths:
        for block in blocks(path):
            count += block.count("$ ")
            faults += check(path, block)
    print(f"documents: {count} commands, {faults} differ")
    return 1 if faults else 0


sys.exit(main())
