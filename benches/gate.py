#!/usr/bin/env python3
"""Processor seconds of each crate in the gate:   python3 benches/gate.py [WORD..]

Runs `rt ci WORD..` at the top of the repository, passes on what it prints, and then prints a table: for each crate the processor
seconds of its proof, of the proof of its tests, and of its must-fail edits (the proof that they begin with among them), and the sums
in processor minutes. What an earlier run on this machine passed is not proved again and so costs nothing here: for the whole
table begin on a machine that has kept nothing, or say `--anew`.

The prover's processes are looked at twice a second, so what lives for less than that is missed; what the run needs
beside the prover (compilers, tests, programs) is told as one sum."""
import os
import resource
import subprocess
import sys
import time

TOP = os.path.join(os.path.dirname(os.path.abspath(__file__)), "..")
TICKS = os.sysconf("SC_CLK_TCK")
KINDS = ("proof", "tests", "edits")


def stat_of(pid):
    """The session and the processor seconds of a process, and when it began."""
    with open(f"/proc/{pid}/stat") as it:
        fields = it.read().rsplit(")", 1)[1].split()
    return int(fields[3]), (int(fields[11]) + int(fields[12])) / TICKS, fields[19]


def task_of(pid):
    """The crate and the kind of a process of the prover, or None."""
    with open(f"/proc/{pid}/cmdline", "rb") as it:
        words = it.read().decode(errors="replace").split("\0")
    if not words[0].endswith("/rattle") or "--crate-name" not in words:
        return None
    name = words[words.index("--crate-name") + 1]
    if "rt-edit-" in os.readlink(f"/proc/{pid}/cwd"):
        return name, "edits"
    return name, "tests" if "--test" in words else "proof"


def look(session, seen):
    for pid in filter(str.isdigit, os.listdir("/proc")):
        try:
            own, seconds, begun = stat_of(pid)
            if own == session:
                known = seen.get((pid, begun))
                task = known[0] if known and known[0] else task_of(pid)
                seen[pid, begun] = task, seconds
        except (OSError, ValueError, IndexError):
            pass


def table(seen, order):
    sums = {}
    for task, seconds in seen.values():
        if task:
            sums[task] = sums.get(task, 0) + seconds
    names = [it for it in order if any((it, kind) in sums for kind in KINDS)]
    names += sorted({name for name, _ in sums} - set(names))
    cell = lambda name, kind: f"{sums[name, kind]:.0f}" if sums.get((name, kind), 0) >= 0.5 else "-"
    rows = [f"| `{name}` | " + " | ".join(cell(name, kind) for kind in KINDS) + " |" for name in names]
    total = {kind: sum(s for (_, k), s in sums.items() if k == kind) for kind in KINDS}
    rows.append("| all, in minutes | " + " | ".join(f"{total[kind] / 60:.0f}" for kind in KINDS) + " |")
    return ["| crate | proof | tests | edits |", "|---|---|---|---|", *rows], sum(total.values())


def main():
    with open(f"{TOP}/crates.txt") as it:
        order = [line.split(":")[0].split()[0] for line in it if line.strip() and not line.startswith("#")]
    began, seen = time.time(), {}
    run = subprocess.Popen(["rt", "ci", *sys.argv[1:]], cwd=TOP, start_new_session=True)
    while run.poll() is None:
        look(run.pid, seen)
        time.sleep(0.5)
    rows, proved = table(seen, order)
    used = resource.getrusage(resource.RUSAGE_CHILDREN)
    whole = max(used.ru_utime + used.ru_stime, proved)
    print("\n".join(["", *rows, ""]))
    print(f"{whole / 60:.0f} processor minutes in all, {(whole - proved) / 60:.0f} of them beside the prover; {(time.time() - began) / 60:.0f} minutes by the clock")
    return run.returncode


if __name__ == "__main__":
    sys.exit(main())
