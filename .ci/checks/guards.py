"""Runs `agxx weave`, `run` and `source` with the aspect files and programs of cases/guard_files.txt and cases/protection.txt: all three refuse
alike, or none does. The woven text of an accepted program is the one that `.ci/checks/weaver.py` makes, and the classes with parts are those
that are told. `run` and `source` are given the shortest plan."""

import concurrent.futures
import pathlib
import re
import subprocess
import tempfile

import program
import weaver
from tables import INDENT, unescaped

CASES = ("cases/guard_files.txt", "cases/protection.txt")
AH_LINE = re.compile(r"(\w+\.ah)([-:]) ?(.*)")
MEMBERS = re.compile(r"\{members (\d+)\}\n")
TEXTS = {
    "L1": "unexpected byte",
    "L4": "reserved name",
    "G1": "unexpected token",
    "N1": "unknown name",
    "N3": "types disagree",
    "N6": "not accessible",
    "N9": "no function int main()",
    "P1": "member of a protected part not reached through this",
    "P2": "bool member in a protected class",
    "P3": "too many members in a part",
    "P4": "class guarded twice",
    "P5": "delete this in a protected class",
    "U1": "form not built",
}
PLAN = b"limit 0\n"


def written_out(text):
    """A program with its lists of members written out."""
    return MEMBERS.sub(lambda found: "".join(f"uint32_t m{number};\n" for number in range(1, int(found[1]) + 1)), text)


def cases():
    """What is told of each case, its aspect files by name in order, and its program."""
    for path in CASES:
        text, files = "", {}
        for block in re.split(r"\n\n(?=[#A-Za-z])", pathlib.Path(path).read_text()):
            lines = [line for line in block.splitlines() if not line.startswith("#")]
            if not lines:
                continue
            found = [AH_LINE.fullmatch(line) for line in lines]
            own = [line.removeprefix(INDENT) for line in lines[1:] if line.startswith(INDENT) or not line]
            text = written_out("".join(f"{line}\n" for line in own)) if own else text
            if any(found):
                files = {}
                for name, ending, line in (it.groups() for it in found if it):
                    files[name] = files.get(name, b"") + unescaped(line) + b"\n" * (ending == ":")
            yield lines[0], dict(files), text


def accepted_fault(told, files, text, came):
    """How the woven text of an accepted program is another than it is to be, or nothing."""
    status, output, lines = came
    if status or lines:
        return f"weave ends with {status} and {lines}"
    parts = re.findall(rb"^    uint32_t __gop_n_(\w+);$", output, re.M)
    if sorted(parts) != sorted(name.encode() for name in told.split()[1:]):
        return f"parts of {parts}"
    wanted = weaver.woven(text, weaver.guarded_by(*(data.decode("latin-1") for data in files.values())))
    return None if output == wanted.encode() else f"its text differs: {output.decode()[:1500]}"


def fault(case):
    """How the three commands answer otherwise than is told, or nothing."""
    told, files, text = case
    with tempfile.TemporaryDirectory() as folder:
        for name, data in {"a.cc": text.encode(), "x.plan": PLAN, **files}.items():
            (pathlib.Path(folder) / name).write_bytes(data)
        woven, *runs = (
            program.run_words([*words, "a.cc", *files], folder) for words in (["weave"], ["run", "x.plan"], ["source", "x.plan"])
        )
    if told.startswith("accepted"):
        wrong = accepted_fault(told, files, text, woven)
        counts = "turns 0 source 0 inserted 0 blocked 0 idle 0 flips 0"
        for came, more in zip(runs, ([program.ADMISSIBLE], [])):
            wrong = wrong or (f"runs as {came}" if came != (4, b"", ["running", counts, *more]) else None)
    else:
        rule, place = told.split(" ")
        wanted = (1, b"", [f"{place}: {rule}: {TEXTS[rule]}"])
        wrong = next((f"{came}" for came in (woven, *runs) if came != wanted), None)
    return wrong and f"{wrong}; wanted {told}: {files} {text[:400]!r}"


def main():
    program.skip_without("guards")
    table = list(cases())
    with concurrent.futures.ThreadPoolExecutor(program.WORKERS) as pool:
        faults = [found for found in pool.map(fault, table) if found]
    program.end("guards", faults, len(table), "as wanted")


main()
