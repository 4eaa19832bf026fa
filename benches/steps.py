"""How long a turn takes: steps in a second of loops that count, call members and make objects; how much longer a pass of these loops takes
than compiled by `g++ -O0`; and how a step's time grows with the depth of frames, the number of objects and the length of the output. Ratios in one run."""

import pathlib
import resource
import shutil
import subprocess
import tempfile


def processor_seconds():
    """The processor time of all programs that were run and have ended."""
    used = resource.getrusage(resource.RUSAGE_CHILDREN)
    return used.ru_utime + used.ru_stime


PROGRAM = pathlib.Path("crates/agxx_main/out/agxx_main").resolve()
HEAD = "#include <cstdint>\n#include <iostream>\n"
CELL = "class Cell { uint32_t v; public: void add(uint32_t x) { v += x; } };\nCell c;\n"

BODIES = {
    "counting": "n += 1u;",
    "member calls": "c.add(1u);",
    "new and delete": "Cell* p = new Cell(); delete p;",
}


def looping(body, condition="true"):
    """A loop with this body."""
    return HEAD + CELL + f"int main() {{ uint32_t n = 0u; uint32_t i = 0u; while ({condition}) {{ {body} i += 1u; }} return 0; }}\n"


def deep(depth):
    """A loop below so many frames."""
    return HEAD + f"void f(uint32_t d) {{ if (d == 0u) {{ while (true) {{ d += 0u; }} }} f(d - 1u); }}\nint main() {{ f({depth}u); }}\n"


def crowded(objects):
    """A loop of member calls among so many global objects."""
    return HEAD + CELL + "".join(f"Cell c{i};\n" for i in range(objects)) + "int main() { while (true) { c.add(1u); } }\n"


def printing(length):
    """A loop that prints so many bytes at once."""
    return HEAD + f'int main() {{ while (true) {{ std::cout << "{"x" * length}"; }} }}\n'


GROWTH = {
    "frames 1, 50, 190": [deep(1), deep(50), deep(190)],
    "objects 1, 100, 1000": [crowded(1), crowded(100), crowded(1000)],
    "bytes of a print 1, 10, 100": [printing(1), printing(10), printing(100)],
}


def run(text, limit=1_000_000):
    """The steps and the seconds of a run in which thread 0 takes all turns."""
    with tempfile.TemporaryDirectory() as folder:
        path, plan = pathlib.Path(folder) / "a.cc", pathlib.Path(folder) / "a.plan"
        path.write_text(text)
        plan.write_text(f"limit {limit}\ncycle 0\n")
        before = processor_seconds()
        ran = subprocess.run([str(PROGRAM), "exec", str(path), str(plan)], capture_output=True)
        seconds = processor_seconds() - before
    return int(ran.stderr.decode().splitlines()[1].split()[3]), seconds


def run_compiled(text):
    """The seconds of the same text compiled without optimisation."""
    with tempfile.TemporaryDirectory() as folder:
        path = pathlib.Path(folder) / "a.cc"
        path.write_text(text)
        subprocess.run(["g++", "-std=c++20", "-O0", "-o", f"{folder}/a", str(path)], check=True)
        before = processor_seconds()
        subprocess.run([f"{folder}/a"], check=True, capture_output=True)
        return processor_seconds() - before


def passes(body, count):
    return looping(body, f"i < {count}u")


def main():
    for name, body in BODIES.items():
        steps, seconds = run(looping(body))
        told = f"{name:16} {steps} steps {seconds:.3f} s {steps / seconds:,.0f} steps a second"
        if shutil.which("g++"):
            own = run(passes(body, 100_000), 100_000_000)[1] / 100_000
            compiled = run_compiled(passes(body, 50_000_000)) / 50_000_000
            told += f", a pass takes {own / compiled:,.0f} times as long as compiled"
        print(told)
    for name, texts in GROWTH.items():
        times = [run(text)[1] for text in texts]
        print(f"{name:30} " + " ".join(f"{seconds / times[0]:.2f}" for seconds in times))


main()
