"""How long it takes to print a program's canonical text, against reading the program alone: texts of 0.4, 1.6 and 6.4 MB. Ratios in one run;
a ratio near that of the sizes is linear time. `AGXX_TEXT` names another program to measure."""

import os
import pathlib
import resource
import subprocess
import sys

PROGRAM = pathlib.Path(os.environ.get("AGXX_TEXT", "crates/agxx_text/out/agxx_text")).resolve()
SIZES = (400_000, 1_600_000, 6_400_000)

# What stands before, again and again, and behind.
KINDS = {
    "functions": (b"", b"int f(int a, C* b) { a += b->c(a, 1) * 2; return a; }\n", b""),
    "classes": (b"", b"class C { int a; public: C() : a(1) { } ~C() { } int g() { return a; } };\n", b""),
    "statements": (b"int main() {", b' if (a) { ++b; } else { std::cout << a << "b"; }\n', b"}"),
    "expressions": (b"int main() {", b" a = (a + 2u) * a - (a < 7) + (- -a / 0x80000000);\n", b"}"),
}


def seconds(word, text):
    """The least processor time of three runs, and how many bytes are printed."""
    times = []
    for _ in range(3):
        before = resource.getrusage(resource.RUSAGE_CHILDREN)
        run = subprocess.run([PROGRAM, word], input=text, capture_output=True)
        after = resource.getrusage(resource.RUSAGE_CHILDREN)
        assert run.returncode == 0, run.stderr
        times.append(after.ru_utime + after.ru_stime - before.ru_utime - before.ru_stime)
    return min(times), len(run.stdout)


def main():
    if not PROGRAM.exists():
        sys.exit("no program: run rt ci first")
    for name, (front, unit, back) in KINDS.items():
        last = None
        for size in SIZES:
            text = front + unit * (size // len(unit)) + back
            (read, _), (printed, count), (normal, _) = (seconds(word, text) for word in ("read", "parsed", "normal"))
            growth = "" if last is None else f", to the size before (4): read {read / last[0]:.2f}, printed {printed / last[1]:.2f}"
            ratios = f"printed {printed / read:.2f}, in normal form {normal / read:.2f} of reading alone"
            print(f"{name:12} {len(text) / 1e6:.1f} MB, {count / len(text):.2f} of it printed: {ratios}{growth}")
            last = read, printed


main()
