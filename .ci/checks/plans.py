"""Runs `agxx` with the plans of cases/plans.txt, cases/schedules.txt and cases/flips.txt, with plans, files and programs at their limits, with
files that are not there, with words that are no command, and where nothing can be written."""

import concurrent.futures
import pathlib
import resource
import signal
import subprocess
import tempfile

import program
import tables
from tables import COMMANDS

CASES = ("cases/plans.txt", "cases/schedules.txt", "cases/flips.txt")
# A device that takes no byte.
FULL = "/dev/full"
USAGE = "usage: agxx weave CC AH.. | exec CC [PLAN] | run PLAN CC AH.. | source PLAN CC AH.. | points CC AH.. | demo N"

# A program of 6 steps, and how it runs by its own turns alone and by those of 8 threads.
SMALL = b"int main() { return 7; }"
ALONE = ["ended 7", "turns 6 source 6 inserted 0 blocked 0 idle 0 flips 0"]
ROUND = ["ended 7", "turns 41 source 6 inserted 0 blocked 0 idle 35 flips 0"]
PLAN = b"limit 100\ncycle 0\n"
DEFAULT = b"limit 1000000\ncycle 0 1 2 3 4 5 6 7\n"

# A command, its plan, and the stream that takes nothing.
FULL_RUNS = [("exec", PLAN, "stdout"), ("source", PLAN, "stdout"), ("exec", PLAN, "stderr"), ("source", b"limit", "stderr")]

# A program of 10 steps that reads its only word in turn 4, its fifth.
WORD = b"struct Cell { uint32_t v; };\nCell c;\nint main() { return c.v; }"
FLIPPED = "turns 10 source 10 inserted 0 blocked 0 idle 0 flips"
# Nothing is protected, so none that falls is admissible.
FIRST = "verdict inadmissible flip 1"


def comment(front, size):
    """A text of so many bytes that ends in a comment."""
    return front + b"//" + b"x" * (size - len(front) - 2)


def noted(front, size):
    """A plan of so many bytes that ends in a comment."""
    return front + b"#" + b"x" * (size - len(front) - 1)


FREE = b"free 0 0 0 0\n"


def flips(count, line=b"flip 7 0 0 0\n"):
    return b"limit 100\ncycle 0\n" + line * count


def refused(place, rule):
    return [f"{place}: {rule}"]


LARGE = "S1: file too large"
F3 = "F3: number too large"
MANY = "N10: too many"
NO_PROGRAM = "N9: no function int main()"

# Words, the files, and the status and lines on standard error. `a.cc` and `x.plan` are SMALL and PLAN where nothing else is said.
BUILT = [
    # The most flips and one more, which is told at its line's first word, whatever else is wrong with it.
    ("exec", {"x.plan": flips(100000)}, 0, ALONE),
    ("source", {"x.plan": flips(100000)}, 0, ALONE),
    ("exec", {"x.plan": flips(100001)}, 1, refused("x.plan:100003:1", F3)),
    ("source", {"x.plan": flips(100001)}, 1, refused("x.plan:100003:1", F3)),
    ("exec", {"x.plan": flips(100000) + b"\n# flip\n \tflip 1 2 3 4\nturns x\n"}, 1, refused("x.plan:100005:3", F3)),
    ("exec", {"x.plan": flips(100000) + b"flip\n"}, 1, refused("x.plan:100003:1", F3)),
    ("exec", {"x.plan": flips(99999) + b"flip 0 0 0 64\nflip\n"}, 1, refused("x.plan:100002:12", F3)),
    ("exec", {"x.plan": b"limit 5 5\n" + flips(100001)}, 1, refused("x.plan:1:9", "F1: unknown or surplus word")),
    # Each of the most flips falls: of one bit at one moment an even number of times, and an odd one.
    ("exec", {"a.cc": WORD, "x.plan": flips(100000, b"flip 4 0 0 4\n")}, 0, ["ended 0", f"{FLIPPED} 100000", FIRST]),
    ("exec", {"a.cc": WORD, "x.plan": flips(99999, b"flip 4 0 0 4\n")}, 0, ["ended 16", f"{FLIPPED} 99999", FIRST]),
    ("source", {"a.cc": WORD, "x.plan": flips(99999, b"flip 4 0 0 4\n")}, 0, ["ended 0", f"{FLIPPED} 0"]),
    # Lines with `free` count with them. None falls, since nothing is protected.
    ("exec", {"x.plan": flips(50000) + FREE * 50000}, 0, ALONE),
    ("exec", {"a.cc": WORD, "x.plan": flips(0) + FREE * 100000}, 0, ["ended 0", f"{FLIPPED} 0"]),
    ("source", {"x.plan": flips(99999) + FREE}, 0, ALONE),
    ("exec", {"x.plan": flips(50000) + FREE * 50001}, 1, refused("x.plan:100003:1", F3)),
    ("exec", {"x.plan": flips(0) + FREE * 100000 + b"  free x\n"}, 1, refused("x.plan:100003:3", F3)),
    ("source", {"x.plan": flips(0) + FREE * 99999 + b"free 0 0 0 64\nflip\n"}, 1, refused("x.plan:100002:12", F3)),
    ("source", {"x.plan": flips(0) + (FREE + b"flip 0 0 0 0\n") * 50000 + b"\n# free\nflip 0 0 0 0\n"}, 1, refused("x.plan:100005:1", F3)),
    # The most turns, in as many items and in as many lines as there are.
    ("exec", {"x.plan": b"limit 100\nturns" + b" 1" * 94 + b" 0*99999906\n"}, 0, [ALONE[0], "turns 100 source 6 inserted 0 blocked 0 idle 94 flips 0"]),
    ("exec", {"x.plan": b"limit 100\n" + b"turns 1*1000000\n" * 99 + b"turns 0*999999\nturns 2\n"}, 4, ["running", "turns 100 source 0 inserted 0 blocked 0 idle 100 flips 0"]),
    ("exec", {"x.plan": b"limit 100\n" + b"turns 1*1000000\n" * 99 + b"turns 0*999999\nturns 2 2\n"}, 1, refused("x.plan:102:9", F3)),
    ("exec", {"x.plan": b"limit 1000000\nturns" + b" 0" * 500000 + b"\n"}, 0, ALONE),
    ("source", {"x.plan": b"turns 0\n" * 500000 + b"limit 1000000\n"}, 0, ALONE),
    # The longest cycle, item by item, and one more.
    ("exec", {"x.plan": b"limit 1000005\ncycle" + b" 1" * 999999 + b" 0\n"}, 4, ["running", "turns 1000005 source 1 inserted 0 blocked 0 idle 1000004 flips 0"]),
    ("exec", {"x.plan": b"limit 100\ncycle" + b" 0" * 1000000 + b"\n"}, 0, ALONE),
    ("source", {"x.plan": b"limit 100\ncycle" + b" 0" * 1000001 + b"\n"}, 1, refused("x.plan:2:2000007", F3)),
    # Turns before the cycle do not count for it.
    ("exec", {"x.plan": b"limit 2000000\nturns 1*1000000\ncycle 2*999999 0\n"}, 4, ["running", "turns 2000000 source 1 inserted 0 blocked 0 idle 1999999 flips 0"]),
    # Files of as many bytes as a file may have, and of one more.
    ("exec", {"x.plan": noted(PLAN, 16777216)}, 0, ALONE),
    ("exec", {"x.plan": noted(PLAN, 16777217)}, 1, refused("x.plan:1:1", LARGE)),
    ("source", {"x.plan": noted(PLAN, 16777216)}, 0, ALONE),
    ("source", {"x.plan": noted(PLAN, 16777217)}, 1, refused("x.plan:1:1", LARGE)),
    ("exec", {"a.cc": comment(SMALL, 16777216)}, 0, ALONE),
    ("exec", {"a.cc": comment(SMALL, 16777217)}, 1, refused("a.cc:1:1", LARGE)),
    ("source", {"a.cc": comment(SMALL, 4194304)}, 0, ALONE),
    ("source", {"a.cc": comment(SMALL, 4194305)}, 1, refused("a.cc:1:1", LARGE)),
    ("exec", {"a.cc": comment(SMALL, 4194305)}, 0, ALONE),
    # A file that is too large comes before each rule of plans and programs.
    ("exec", {"a.cc": comment(SMALL, 16777217), "x.plan": b"limit\n"}, 1, refused("a.cc:1:1", LARGE)),
    ("source", {"a.cc": comment(SMALL, 4194305), "x.plan": b"limit\n"}, 1, refused("a.cc:1:1", LARGE)),
    ("exec", {"a.cc": b"int main() {", "x.plan": noted(PLAN, 16777217)}, 1, refused("x.plan:1:1", LARGE)),
    # Files are read in the order of the words, and the first fault is told.
    ("exec", {"a.cc": comment(SMALL, 16777217), "x.plan": noted(PLAN, 16777217)}, 1, refused("a.cc:1:1", LARGE)),
    ("source", {"a.cc": comment(SMALL, 4194305), "x.plan": noted(PLAN, 16777217)}, 1, refused("x.plan:1:1", LARGE)),
    ("exec", {"a.cc": comment(SMALL, 16777217), "x.plan": None}, 1, refused("a.cc:1:1", LARGE)),
    ("source", {"a.cc": comment(SMALL, 4194305), "x.plan": None}, 6, ["agxx: cannot read x.plan"]),
    ("exec", {"a.cc": None, "x.plan": noted(PLAN, 16777217)}, 6, ["agxx: cannot read a.cc"]),
    ("source", {"a.cc": None, "x.plan": noted(PLAN, 16777217)}, 1, refused("x.plan:1:1", LARGE)),
    ("exec", {"a.cc": None}, 6, ["agxx: cannot read a.cc"]),
    ("exec", {"x.plan": None}, 6, ["agxx: cannot read x.plan"]),
    ("exec", {"a.cc": None, "x.plan": None}, 6, ["agxx: cannot read a.cc"]),
    ("source", {"a.cc": None}, 6, ["agxx: cannot read a.cc"]),
    ("source", {"x.plan": None}, 6, ["agxx: cannot read x.plan"]),
    ("source", {"a.cc": None, "x.plan": None}, 6, ["agxx: cannot read x.plan"]),
    ("exec", {"a.cc": None, "x.plan": b"limit\n"}, 6, ["agxx: cannot read a.cc"]),
    ("source", {"a.cc": None, "x.plan": b"limit\n"}, 6, ["agxx: cannot read a.cc"]),
    # Empty files.
    ("exec", {"a.cc": b""}, 1, refused("a.cc:1:1", NO_PROGRAM)),
    ("source", {"a.cc": b""}, 1, refused("a.cc:1:1", NO_PROGRAM)),
    ("exec", {"a.cc": b"", "x.plan": b""}, 1, refused("x.plan:1:1", "F5: no limit")),
    # Without a plan.
    (["exec", "a.cc"], {"x.plan": None}, 0, ROUND),
    # The words name the files, also in lines of refusals, and may have up to 255 bytes.
    (["exec", "b.cc", "y.plan"], {"b.cc": WORD, "y.plan": b"limit 100\ncycle 0\nflip 4 0 0 1"}, 0, ["ended 2", f"{FLIPPED} 1", FIRST]),
    (["exec", "./a.cc", "./x.plan"], {"x.plan": b"limit"}, 1, refused("./x.plan:1:6", "F2: number missing or malformed")),
    (["source", "..plan", "..cc"], {"..plan": PLAN, "..cc": b"int main() {"}, 1, refused("..cc:1:13", "G1: unexpected token")),
    (["exec", "a.plan.cc", "x.cc.plan"], {"a.plan.cc": SMALL, "x.cc.plan": PLAN}, 0, ALONE),
    (["exec", "a.cc", "n" * 250 + ".plan"], {"n" * 250 + ".plan": PLAN}, 0, ALONE),
    (["source", "n" * 250 + ".plan", "n" * 252 + ".cc"], {"n" * 250 + ".plan": PLAN, "n" * 252 + ".cc": SMALL}, 0, ALONE),
    (["exec", "\u00e4.cc", "\u00e4 b.plan"], {"\u00e4.cc": SMALL, "\u00e4 b.plan": PLAN}, 0, ALONE),
]


def numbered(line, count):
    """So many lines, `N` being the number of each, from 1."""
    return "".join(line.replace("N", str(number)) + "\n" for number in range(1, count + 1))


def many_names(globals_):
    """A program of 99,751 distinct names and so many globals, on 250 lines, one for each global, and the last one."""
    members = [f"int m{i}_N;" for i in range(239)]
    functions = [f"void f{i}_N() {{ }}" for i in range(159)]
    return numbered(f"class KN {{ {' '.join(members + functions)} }};", 250) + numbered("int gN;", globals_) + "int main() { }"


# Programs that `source` accepts with so many lines and refuses with one more, at a place in that line or in a later one, and that `exec`
# accepts with both.
WIDE = [
    (lambda n: numbered("class CN { };", n) + "int main() { }", 256, "257:7"),
    (lambda n: numbered("int gN;", n) + "int main() { }", 1000, "1001:5"),
    (lambda n: numbered("std::mutex gN;", n - 2) + "class C { };\nC c;\nint g;\nint main() { }", 1000, "1002:5"),
    (lambda n: numbered("void fN() { }", n) + "int main() { }", 999, "1001:5"),
    (lambda n: "class C {\n" + numbered("int mN;", n) + "};\nint main() { }", 240, "242:5"),
    (lambda n: "class C {\n" + numbered("void fN() { }", n) + "C() { }\n~C() { }\n};\nint main() { }", 200, "202:6"),
    (lambda n: "int main() {\n" + numbered("int vN;", n) + "}", 500, "502:5"),
    (lambda n: "int main() {\n" + numbered("{ int v; }", n) + "}", 500, "502:7"),
    (lambda n: "int main() {\n" + numbered("if (false) { return N; }", n) + "}", 199, "1:5"),
    (lambda n: "int f() {\n" + numbered("return N;", n) + "}\nint main() { }", 200, "202:1"),
    (many_names, 249, "501:5"),
]


def wide():
    for text, most, place in WIDE:
        for count in (most, most + 1):
            files = {"a.cc": text(count).encode(), "x.plan": b"limit 0"}
            cut = (4, ["running", "turns 0 source 0 inserted 0 blocked 0 idle 0 flips 0"])
            yield "exec", files, *cut
            yield "source", files, *(cut if count == most else (1, refused(f"a.cc:{place}", MANY)))


# Words that are no command. Files of these names are there.
FAULTY = [
    [],
    ["exec"],
    ["exec", "x.plan"],
    ["exec", "x.plan", "a.cc"],
    ["exec", "a.cc", "a.cc"],
    ["exec", "a.cc", "x.plan", "x.plan"],
    ["exec", "a.cc", "x.plan", ""],
    ["exec", "a.cc", ""],
    ["exec", "", "x.plan"],
    ["exec", "a.cc", ".plan"],
    ["exec", ".cc", "x.plan"],
    ["exec", "a.cc", "x.Plan"],
    ["exec", "a.CC", "x.plan"],
    ["exec", "a.cc", "x.plans"],
    ["exec", "a.cc", "xplan"],
    ["exec", "a.cc", "x.plan "],
    ["exec", "a.cc", "-x.plan"],
    ["exec", "-a.cc", "x.plan"],
    ["exec", "-", "a.cc", "x.plan"],
    ["exec", "--", "a.cc", "x.plan"],
    ["exec", "a.cc", "x.plan", "-v"],
    ["exec", "a.cc", "n" * 251 + ".plan"],
    ["exec", "n" * 253 + ".cc", "x.plan"],
    ["exec", "a.cc", b"\xff.plan"],
    ["exec", "missing.cc", "x.txt"],
    ["Exec", "a.cc", "x.plan"],
    ["a.cc", "x.plan"],
    ["source"],
    ["source", "a.cc"],
    ["source", "x.plan"],
    ["source", "a.cc", "x.plan"],
    ["source", "x.plan", "x.plan"],
    ["source", "x.plan", "a.cc", "a.cc"],
    ["source", "x.plan", "x.plan", "a.cc"],
    ["source", "x.plan", "a.cc", ""],
    ["source", ".plan", "a.cc"],
    ["source", "x.plan", ".cc"],
    ["source", "x.PLAN", "a.cc"],
    ["source", "x.plan", "a.c"],
    ["source", "-x.plan", "a.cc"],
    ["source", "x.plan", "-a.cc"],
    ["source", "-", "x.plan", "a.cc"],
    ["source", "--", "x.plan", "a.cc"],
    ["source", "n" * 251 + ".plan", "a.cc"],
    ["source", "x.plan", "n" * 253 + ".cc"],
    ["source", b"\xff.plan", "a.cc"],
    ["sources", "x.plan", "a.cc"],
    ["source exec", "x.plan", "a.cc"],
    ["exec", "-.cc"],
    ["exec", b"\xff.cc"],
    ["help"],
    ["help", "exec"],
    ["exec", "help"],
    ["x.plan", "exec", "a.cc"],
    # Commands that are not built yet, and aspect files.
    ["weave"],
    ["weave", "-x", "a.cc"],
    ["weave", "a.cc", "b.cc"],
    ["demo", "0"],
    ["demo", "07"],
]


def told(command, status, lines):
    """The lines of an answer, with a verdict where `exec` ran and none is written down."""
    lacks_verdict = command == "exec" and status in program.STATUSES.values() and len(lines) == 2
    return [*lines, program.ADMISSIBLE] if lacks_verdict else lines


def runs():
    yield from tables.cases(*CASES)
    for command, files, status, lines in [*BUILT, *wide()]:
        words = COMMANDS[command] if isinstance(command, str) else command
        yield words, {"a.cc": SMALL, "x.plan": PLAN} | files, status, told(words[0], status, lines), b""
    for words in FAULTY:
        yield words, {"a.cc": SMALL, "x.plan": PLAN, "g.ah": b""}, 2, [USAGE], b""


# A program with a name of more than 64 bytes, which `source` refuses where it stands.
LONG_NAMES = {"names.cc": (1, b"", ["a.cc:27:9: L5: name too long"])}


def differing(path):
    """How a program's runs without a plan, by the plan that this means, and of its source by this plan differ, or nothing."""
    with tempfile.TemporaryDirectory() as folder:
        (pathlib.Path(folder) / "a.cc").write_bytes(path.read_bytes())
        (pathlib.Path(folder) / "x.plan").write_bytes(DEFAULT)
        came = [program.run_words(words, folder) for words in (["exec", "a.cc"], *COMMANDS.values())]
    first, second, source = came
    # The summary of `source` has no verdict.
    agrees = first == second and source == LONG_NAMES.get(path.name, (*first[:2], first[2][:2]))
    return None if agrees else f"{path}: {came}"[:1000]


def full_fault(run):
    """How a run ends otherwise than with status 7 and nothing more, where a stream that it writes to has no room left, or nothing."""
    command, plan, stream = run
    with tempfile.TemporaryDirectory() as folder, open(FULL, "wb") as full:
        (pathlib.Path(folder) / "a.cc").write_bytes(b"int main() { std::cout << 7; }")
        (pathlib.Path(folder) / "x.plan").write_bytes(plan)
        streams = {"stdout": subprocess.PIPE, "stderr": subprocess.PIPE} | {stream: full}
        came = subprocess.run([program.PROGRAM, *COMMANDS[command]], cwd=folder, timeout=300, **streams)
    surplus = came.stderr if stream == "stdout" else came.stdout if plan != PLAN else None
    if came.returncode == 7 and not surplus:
        return None
    return f"no room on {stream}: status {came.returncode}, {came.stdout}, {came.stderr}; wanted 7: {COMMANDS[command]} {plan}"


# A stream takes so many bytes and then no more: what it got, and what came to the other one.
CUT_RUNS = [("stdout", 3, b"123", b""), ("stderr", 3, b"end", b"12345\n")]


def cut_fault(run):
    """How a run ends otherwise than with status 7 and a beginning of its answer, where a file takes so many bytes and no more, or nothing."""
    stream, size, wanted, other = run

    def limited():
        signal.signal(signal.SIGXFSZ, signal.SIG_IGN)
        resource.setrlimit(resource.RLIMIT_FSIZE, (size, size))

    with tempfile.TemporaryDirectory() as folder:
        (pathlib.Path(folder) / "a.cc").write_bytes(b"int main() { std::cout << 12345 << std::endl; }")
        with open(pathlib.Path(folder) / "stream", "wb") as cut:
            streams = {"stdout": subprocess.PIPE, "stderr": subprocess.PIPE} | {stream: cut}
            came = subprocess.run(
                [program.PROGRAM, "exec", "a.cc"], cwd=folder, timeout=300, restore_signals=False, preexec_fn=limited, **streams
            )
        got = (pathlib.Path(folder) / "stream").read_bytes()
    rest = came.stderr if stream == "stdout" else came.stdout
    if (came.returncode, got, rest) == (7, wanted, other):
        return None
    return f"{stream} of {size} bytes: status {came.returncode}, {got}, {rest}; wanted 7, {wanted}, {other}"


# Files that can be opened and not be read.
UNREAD = ["/", "/proc/self/mem"]


def unread_fault(path):
    """How a run ends otherwise than by telling that it can't read its file, which is a link to this one, or nothing."""
    with tempfile.TemporaryDirectory() as folder:
        (pathlib.Path(folder) / "a.cc").symlink_to(path)
        came = program.run_words(["exec", "a.cc"], folder)
    return None if came == (6, b"", ["agxx: cannot read a.cc"]) else f"{path} as a.cc: {came}"


def main():
    program.skip_without("plans")
    table = list(runs())
    with concurrent.futures.ThreadPoolExecutor(program.WORKERS) as pool:
        faults = [found for found in pool.map(tables.fault, table) if found]
        paths = sorted(pathlib.Path("cases/programs").glob("*.cc"))
        faults += [found for found in pool.map(differing, paths) if found]
        full = FULL_RUNS if pathlib.Path(FULL).exists() else []
        faults += [found for found in pool.map(full_fault, full) if found]
        unread = [path for path in UNREAD if pathlib.Path(path).exists()]
        faults += [found for found in pool.map(unread_fault, unread) if found]
    faults += [found for found in map(cut_fault, CUT_RUNS) if found]
    program.end("plans", faults, len(table) + len(paths) + len(full) + len(unread) + len(CUT_RUNS), "as wanted")


main()
