"""Compares what `agxx exec` prints of each program of a folder, and what its `main` answers, with the same as compiled by g++.

    python3 compiled.py CHECK FOLDER
"""

import concurrent.futures
import pathlib
import subprocess
import sys
import tempfile

import program

COMPILER = ["g++", "-std=c++20", "-fsanitize=undefined", "-pthread", "-w", "-include", "iostream"]


def compiled(path, folder):
    """The status and the output of a program as g++ compiles it, or what went wrong."""
    target = pathlib.Path(folder) / path.stem
    made = subprocess.run([*COMPILER, "-o", target, path], capture_output=True, text=True)
    if made.returncode:
        return f"g++ refuses it: {made.stderr}"
    run = subprocess.run([target], capture_output=True, timeout=60)
    if run.stderr:
        return f"not defined: {run.stderr.decode()}"
    return run.returncode, run.stdout


def fault(path, folder):
    """How a program differs, or nothing."""
    wanted = compiled(path, folder)
    if isinstance(wanted, str):
        return f"{path}: {wanted}"
    status, output, lines = program.run_file(path)
    wrong = program.summary_fault(status, lines)
    if wrong or status:
        return f"{path}: {wrong or lines}"
    if output != wanted[1]:
        return f"{path}: prints {output!r}, g++ {wanted[1]!r}"
    word, result = lines[0].split(" ")
    if int(result) % 256 != wanted[0]:
        return f"{path}: {lines[0]}, g++ {wanted[0]}"
    return None


def main():
    check, place = sys.argv[1:]
    program.skip_without(check, "g++")
    paths = sorted(pathlib.Path(place).glob("*.cc"))
    with tempfile.TemporaryDirectory() as folder, concurrent.futures.ThreadPoolExecutor(program.WORKERS) as pool:
        faults = [found for found in pool.map(lambda path: fault(path, folder), paths) if found]
    program.end(check, faults, len(paths), "agree with g++")


main()
