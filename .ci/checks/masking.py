"""Looks that flips between stays change nothing that a woven program of cases/weaving prints, under its own code and under the other one. In
programs with one guarded object each word of its part is flipped, one bit in a run, before chosen turns, and at the first moments from them on
at which nobody is inside. All programs run by each of the plans in plans.txt with many lines that wait for such moments. Where a verdict is
inadmissible nothing is promised."""

import concurrent.futures
import pathlib
import random
import re
import tempfile

import program
import reading
import weaver

FOLDER = pathlib.Path("cases/weaving")
# Programs with one thread and one guarded object, and its number.
SINGLE = {"one_member": 0, "checksum": 0, "private_at_the_end": 0, "early_returns": 0, "booleans": 1}
LIMIT = 3000000
# How many turns are chosen for a word and a bit, and how many lines wait in a run.
TURNS = 8
LINES = 300
FLIPS = re.compile(r" flips \d+$")


def guard_files(folder):
    """Programs with a guard file of their own and one in which each code stands for the other."""
    for path in sorted(FOLDER.glob("*.cc")):
        own = path.with_suffix(".ah").read_text()
        for number, aspects in enumerate(dict.fromkeys((own, weaver.exchanged(own)))):
            guards = pathlib.Path(folder, f"{path.stem}_{number}.ah")
            guards.write_text(aspects)
            yield path.stem, guards


def run(name, guards, plan, folder):
    """What a woven program answers by a plan."""
    with tempfile.NamedTemporaryFile(suffix=".plan", dir=folder) as file:
        file.write(plan.encode())
        file.flush()
        return program.run_words(["run", file.name, (FOLDER / f"{name}.cc").resolve(), guards], folder)


def counts(line):
    """The counts of a summary without that of flips."""
    return FLIPS.sub("", line)


def fault(case):
    """What a run with flips answers otherwise than the one without, or nothing; and whether its verdict is admissible."""
    name, guards, plan, lines, plain, folder, falls = case
    came = run(name, guards, plan + lines, folder)
    if came[2][-1].startswith("verdict inadmissible") and not falls:
        return None, False
    same = came[:2] == plain[:2] and came[2][0] == plain[2][0] and counts(came[2][1]) == counts(plain[2][1])
    if same and came[2][2] == program.ADMISSIBLE:
        return None, True
    return f"{guards.stem}: {came[0]}, {came[1][:80]!r}, {came[2]}; without flips {plain[2]}: {lines[:80]!r}", True


def words(name, guards):
    """The widths of the words of the only part of a program."""
    guarded = weaver.guarded_by(guards.read_text())
    classes = [it for it in reading.read((FOLDER / f"{name}.cc").read_text()) if isinstance(it, reading.Class)]
    part = next(it for it in classes if it.name in guarded)
    added = weaver.CODES[guarded[part.name]](part.name, part.members())
    return [weaver.width(kind) for kind, _ in part.members() + added.members]


def single(folder):
    """Runs with one flip: of a word and a bit at a turn, or from a turn on."""
    plan = f"limit {LIMIT}\ncycle 0\n"
    for name, guards in guard_files(folder):
        if name not in SINGLE:
            continue
        plain = run(name, guards, plan, folder)
        taken = int(plain[2][1].split(" ")[1])
        for word, width in enumerate(words(name, guards)):
            for bit in (0, width // 2, width - 1):
                for turn in range(0, taken, taken // TURNS):
                    for kind in ("flip", "free"):
                        line = f"{kind} {turn + 7 * word + bit} {SINGLE[name]} {word} {bit}\n"
                        yield name, guards, plan, line, plain, folder, kind == "free"


def many(folder):
    """Runs with many lines that wait."""
    drawn = random.Random(1)
    plans = [line for line in (FOLDER / "plans.txt").read_text().splitlines() if line and not line.startswith("#")]
    for name, guards in guard_files(folder):
        for line in plans:
            plan = line.replace("; ", "\n") + "\n"
            lines = [f"free 0 {drawn.randrange(4)} {drawn.randrange(12)} {drawn.randrange(16)}\n" for _ in range(LINES)]
            yield name, guards, plan, "".join(lines), run(name, guards, plan, folder), folder, True


def main():
    program.skip_without("masking")
    with tempfile.TemporaryDirectory() as folder, concurrent.futures.ThreadPoolExecutor(program.WORKERS) as pool:
        runs = list(pool.map(fault, [*single(folder), *many(folder)]))
    faults = [found for found, _ in runs if found]
    admissible = sum(judged for _, judged in runs)
    if admissible < len(runs) // 2:
        faults.append(f"{admissible} of {len(runs)} runs are admissible, which are too few")
    program.end("masking", faults, len(runs), f"mask their flips or promise nothing, {admissible} are admissible")


main()
