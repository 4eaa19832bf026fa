"""What lines with `free` cost: an endless loop that calls a function of a protected object, by a plan with 100,000 lines with `free` on it and by one
with as many with `flip`, and both with half as many lines and half as many turns. Ratios in one run."""

import pathlib
import resource
import subprocess
import tempfile


def processor_seconds():
    """The processor time of all programs that were run and have ended."""
    used = resource.getrusage(resource.RUSAGE_CHILDREN)
    return used.ru_utime + used.ru_stime


PROGRAM = pathlib.Path("crates/agxx_main/out/agxx_main").resolve()
# A class with two copies of its member, and a call of `put` in each pass of the loop.
CLASS = pathlib.Path("examples/plans/cell.cc").read_text().partition("int main() {")[0]
TEXT = CLASS + "int main() { uint32_t n = 0u; while (true) { n += 1u; c.put(n); } }\n"
LINES = 100_000
# A `free` line falls between each two calls, so with so many turns to a line nearly all of them fall.
TURNS_OF_A_LINE = 110
KINDS = {
    "flip": lambda number: f"flip {number * TURNS_OF_A_LINE} 0 {number % 3} {number % 32}",
    "free": lambda number: f"free 0 0 {number % 3} {number % 32}",
}


def run(kind, count):
    """The seconds of a run by a plan with so many lines, and how many of them changed a bit."""
    plan = [f"limit {count * TURNS_OF_A_LINE}", "cycle 0", *(KINDS[kind](number) for number in range(count))]
    with tempfile.TemporaryDirectory() as folder:
        text, steps = pathlib.Path(folder) / "a.cc", pathlib.Path(folder) / "a.plan"
        text.write_text(TEXT)
        steps.write_text("\n".join(plan) + "\n")
        before = processor_seconds()
        ran = subprocess.run([str(PROGRAM), "exec", str(text), str(steps)], capture_output=True)
        seconds = processor_seconds() - before
    assert ran.returncode == 4, ran
    return seconds, int(ran.stderr.decode().splitlines()[1].split(" ")[-1])


def main():
    whole, half = ({kind: run(kind, count) for kind in KINDS} for count in (LINES, LINES // 2))
    for kind in KINDS:
        (seconds, fell), (less, _) = whole[kind], half[kind]
        print(f"{kind}: {fell} of {LINES} lines fell, {seconds:.1f} s, {seconds / less:.2f} of the time with half as many lines and turns")
    for count, times in ((LINES, whole), (LINES // 2, half)):
        print(f"{count} lines with free: {times['free'][0] / times['flip'][0]:.2f} of the time with as many with flip")


if __name__ == "__main__":
    main()
