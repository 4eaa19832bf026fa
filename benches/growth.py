"""How the time of `agxx exec` grows with a text that it refuses: texts of 1, 2, 4, 8 and 15 MiB. A ratio near that of the
sizes is linear time."""

import pathlib
import subprocess
import sys
import tempfile
import time

PROGRAM = pathlib.Path(__file__).parent.parent / "crates/agxx_main/out/agxx_main"
SIZES = (1, 2, 4, 8, 15)


def seconds(text):
    """The best time of three, and the rule by which the text is refused."""
    with tempfile.TemporaryDirectory() as folder:
        path = pathlib.Path(folder) / "a.cc"
        path.write_bytes(text)
        times = []
        for _ in range(3):
            start = time.perf_counter()
            run = subprocess.run([str(PROGRAM), "exec", str(path)], capture_output=True)
            times.append(time.perf_counter() - start)
        assert run.returncode == 1, run
        return min(times), run.stderr.split(b": ")[1].decode()


def measure(kinds):
    """For each kind its name, and what stands before, again and again, and behind."""
    if not PROGRAM.exists():
        sys.exit("no program: run rt ci first")
    for name, (front, unit, back) in kinds.items():
        runs = [seconds(front + unit * ((size << 20) // len(unit)) + back) for size in SIZES]
        ratios = " ".join(f"{after[0] / before[0]:.2f}" for before, after in zip(runs, runs[1:]))
        print(f"{name:12} {runs[0][1]} 1 MiB {runs[0][0]:.3f} s, ratios to the size before (2 2 2 1.88): {ratios}")
