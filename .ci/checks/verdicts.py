"""Runs `agxx` with the plans of cases/verdicts.txt, and with plans that have as many lines with `flip` and `free` as a plan may have."""

import concurrent.futures

import program
import tables

CASES = "cases/verdicts.txt"
MOST = 100000

# An object with a part, which is the word 0 of 32 bits; the word 1 is the counter.
CELL = "class Cell { uint32_t v; uint32_t __gop_n_Cell; public: void put(uint32_t x) { v = x; } };\n"


def puts(count):
    """A program with so many stays in the part of object 0, beside constructor and destructor, and how many turns it takes: a stay, a look at
    the condition and a step in each round, and what stands around them."""
    return f"{CELL}Cell c; int main() {{ for (uint32_t i = 0u; i < {count}u; ++i) {{ c.put(i); }} return 0; }}", 20 + 19 * count


def cells(count):
    """A program with so many objects and no stays in them but constructor and destructor, and how many turns it takes."""
    return CELL + "".join(f"Cell c{i};\n" for i in range(count)) + "int main() { return 0; }", 6 + 4 * count


def lines_of(*kinds):
    """The lines of a plan, by pairs of a line and how often it stands."""
    return "".join(f"{line}\n" * count for line, count in kinds)


# A program with its turns, the lines of the plan, how many flips change a bit, and which is the first that is not admissible, if there is one.
# The lines with `free` on one part fall before the constructor, behind it, and behind each further stay but the destructor.
BUILT = [
    (puts(10), lines_of(("free 0 0 0 3", MOST)), 12, None),
    (puts(3000), lines_of(("free 0 0 0 3", 3000)), 3000, None),
    (puts(3000), lines_of(("free 0 0 0 3", 3003)), 3002, None),
    (puts(100), lines_of(("free 0 0 1 3", 50000), ("free 0 0 0 32", 40000), ("free 0 1 0 0", 9900), ("free 0 0 0 31", 100)), 100, None),
    (puts(100), lines_of(("free 99999999 0 0 3", MOST)), 0, None),
    # The last line of a plan, which alone comes; its last one behind those that wait; and the first of many.
    (puts(10), lines_of(("flip 99999999 0 0 3", MOST - 1), ("flip 0 0 0 32", 1)), 0, MOST),
    (puts(10), lines_of(("free 0 0 1 3", MOST - 1), ("flip 0 0 1 3", 1)), 1, MOST),
    (puts(10), lines_of(("free 2 0 0 3", MOST - 1), ("flip 2 0 0 3", 1)), 12, MOST),
    (puts(10), lines_of(("flip 0 0 0 3", MOST)), MOST, 2),
    # On many objects: each has two moments.
    (cells(1000), "".join(f"free 0 {i % 1000} 0 {i % 32}\n" for i in range(MOST)), 2000, None),
    (cells(1000), "".join(f"free 0 {999 - i} 0 0\n" for i in range(1000)), 1000, None),
    (cells(1000), "".join(f"flip 0 {i} 0 0\n" for i in range(1000)) + "flip 0 500 0 1\n", 1001, 1001),
]


def built():
    for (text, turns), lines, flips, first in BUILT:
        files = {"a.cc": text.encode(), "x.plan": f"limit 100000000\ncycle 0\n{lines}".encode()}
        counts = f"turns {turns} source {turns} inserted 0 blocked 0 idle 0 flips {flips}"
        verdict = f"verdict inadmissible flip {first}" if first else program.ADMISSIBLE
        yield tables.COMMANDS["exec"], files, 0, ["ended 0", counts, verdict], b""


def main():
    program.skip_without("verdicts")
    table = [*tables.cases(CASES), *built()]
    with concurrent.futures.ThreadPoolExecutor(program.WORKERS) as pool:
        faults = [found for found in pool.map(tables.fault, table) if found]
    program.end("verdicts", faults, len(table), "as wanted")


main()
