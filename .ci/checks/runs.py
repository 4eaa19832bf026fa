"""Runs `agxx exec` on each program of cases/runs.txt, cases/stops.txt and cases/inserted.txt, and on programs that come to the limits of objects and of output."""

import concurrent.futures
import pathlib
import tempfile

import program
from tables import INDENT, in_file

CASES = ("cases/runs.txt", "cases/stops.txt", "cases/inserted.txt")

LONG = '"' + "a" * 4096 + '"'
SHORTER = '"' + "a" * 4090 + '"'
FILLED = f"for (int i = 0; i < 4096; ++i) {{ std::cout << {LONG}; }}"
NEARLY_FILLED = f"for (int i = 0; i < 4095; ++i) {{ std::cout << {LONG}; }} std::cout << {SHORTER} << 12345;"
NEARLY_FULL = "a" * (4096 * 4096 - 6) + "12345"
FULL = "a" * (4096 * 4096)

# Each of 8 threads makes objects without end, in the function `work`.
WORKERS = "int main() {{ {} work(); {} return 0; }}".format(
    " ".join(f"std::thread t{i}(work);" for i in range(7)), " ".join(f"t{i}.join();" for i in range(7))
)

# A program, how its run ends, and what it prints.
LARGE = [
    (f"int main() {{ {FILLED} }}", "ended 0", FULL),
    (f"int main() {{ while (true) {{ std::cout <<\n{LONG}; }} }}", "stopped Output 2:1", FULL),
    (f'int main() {{ {FILLED} std::cout << "" <<\nstd::endl; }}', "stopped Output 2:1", FULL),
    (f"int main() {{ {NEARLY_FILLED} std::cout << 8; }}", "ended 0", NEARLY_FULL + "8"),
    (f"int main() {{ {NEARLY_FILLED} std::cout <<\n67; }}", "stopped Output 2:1", NEARLY_FULL),
    (f"int main() {{ {NEARLY_FILLED} std::cout <<\n(1 + 2) * 4; }}", "stopped Output 2:1", NEARLY_FULL),
    (f"bool less; int main() {{ {NEARLY_FILLED} std::cout << less <<\nless; }}", "stopped Output 2:1", NEARLY_FULL + "0"),
    (f"struct A {{ }}; void work() {{ while (true) {{ A* p =\nnew A; }} }} {WORKERS}", "stopped Objects 2:1", ""),
    # Those that are destroyed count too,
    (f"struct A {{ }}; void work() {{ while (true) {{ delete\nnew A; }} }} {WORKERS}", "stopped Objects 2:1", ""),
    # and so do global objects.
    (f"struct A {{ int n; A(int m) {{ }} }}; A a(1); void work() {{ for (;;) {{ delete\nnew A(2); }} }} {WORKERS}", "stopped Objects 2:1", ""),
]


def case_of(block):
    """The first line, the second line where it is told, the output and the program of a case."""
    lines = block.splitlines()
    told = [line for line in lines if not line.startswith((INDENT, "#"))]
    text = "\n".join(line.removeprefix(INDENT) for line in lines if line.startswith(INDENT))
    output = "".join(line.removeprefix("prints ").encode().decode("unicode_escape") for line in told if line.startswith("prints "))
    counts = [line for line in told if line.startswith("turns ")]
    return told[0], counts[0] if counts else None, output, text


def cases():
    for table in CASES:
        for block in pathlib.Path(table).read_text().split("\n\n"):
            if any(line.startswith(INDENT) for line in block.splitlines()):
                yield case_of(block)
    for text, first, output in LARGE:
        yield first, None, output, text


def fault(case):
    """How a run differs from its case, or nothing."""
    first, counts, output, text = case
    with tempfile.TemporaryDirectory() as folder:
        (pathlib.Path(folder) / "a.cc").write_text(text)
        status, came, lines = program.run_file("a.cc", folder)
    wrong = program.summary_fault(status, lines)
    if wrong is None and lines[0] != in_file(first):
        wrong = lines[0]
    if wrong is None and counts not in (None, lines[1]):
        wrong = lines[1]
    if wrong is None and came != output.encode():
        wrong = f"prints {came[:80]!r}, {len(came)} bytes"
    return wrong and f"{wrong}; wanted {first}, {counts}, {output[:80]!r}: {text[:300]!r}"


def main():
    program.skip_without("runs")
    table = list(cases())
    with concurrent.futures.ThreadPoolExecutor(program.WORKERS) as pool:
        faults = [found for found in pool.map(fault, table) if found]
    program.end("runs", faults, len(table), "as wanted")


main()
