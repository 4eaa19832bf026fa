"""What plans cost: turns in a second of an endless loop without a plan's flips, with 100,000 flips in the order of their turns, and with
as many in the opposite order; of turns of threads that are not there; and of turns that are written one by one. Ratios in one run."""

import pathlib
import resource
import subprocess
import tempfile


def processor_seconds():
    """The processor time of all programs that were run and have ended."""
    used = resource.getrusage(resource.RUSAGE_CHILDREN)
    return used.ru_utime + used.ru_stime


PROGRAM = pathlib.Path("crates/agxx_main/out/agxx_main").resolve()
TEXT = """#include <cstdint>
class Cell { uint32_t v; };
Cell c;
int main() { uint32_t n = 0u; while (true) { n += 1u; } }
"""
TURNS = 20_000_000
FLIPS = [f"flip {turn} 0 0 {turn % 32}" for turn in range(0, TURNS, TURNS // 100_000)]
BASE = [f"limit {TURNS}", "cycle 0"]

PLANS = {
    "no flips": BASE,
    "100,000 flips, in order": BASE + FLIPS,
    "100,000 flips, in the opposite order": BASE + FLIPS[::-1],
    "turns of no thread": [f"limit {TURNS}", "cycle 5"],
    "1,000,000 items in the cycle": [f"limit {TURNS}", "cycle " + " ".join(["0"] * 1_000_000)],
}


def run(plan):
    """The seconds of a run of the program by a plan."""
    with tempfile.TemporaryDirectory() as folder:
        text, steps = pathlib.Path(folder) / "a.cc", pathlib.Path(folder) / "a.plan"
        text.write_text(TEXT)
        steps.write_text("\n".join(plan) + "\n")
        before = processor_seconds()
        ran = subprocess.run([str(PROGRAM), "exec", str(text), str(steps)], capture_output=True)
        seconds = processor_seconds() - before
    assert ran.returncode == 4, ran
    return seconds


def main():
    first = None
    for name, plan in PLANS.items():
        seconds = run(plan)
        first = first or seconds
        print(f"{name}: {TURNS / seconds / 1e6:.1f} million turns in a second, {seconds / first:.2f} of the time without flips")


if __name__ == "__main__":
    main()
