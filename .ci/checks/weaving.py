"""Looks at what `agxx` weaves of the programs of cases/weaving, with the aspect files beside them, and with the same files in which each of the two
codes stands for the other: the text that it writes is the one that `.ci/checks/weaver.py` makes; woven they print, by each of the plans in
plans.txt, what the source prints as compiled by g++; the text runs by `exec` as the program does by `run`; g++ accepts it without a warning, and it
prints the same, with races and undefined behaviour looked for."""

import concurrent.futures
import functools
import pathlib
import re
import shutil
import subprocess
import tempfile

import program
import weaver

FOLDER = pathlib.Path("cases/weaving")
# What `new` gives is zero at first, which constructors of guarded classes count on, also where memory is used again.
ZEROED = pathlib.Path("examples/protection/zeroed_new.cpp").read_text()
HEADERS = "".join(f"#include <{header}>\n" for header in ("cstdint", "cstdlib", "iostream", "mutex", "thread")) + ZEROED
COMMON = ["-std=c++20", "-pthread", "-fno-lifetime-dse"]
# The source is compiled without warnings, since it may begin without includes and compare what it likes.
SOURCE = [*COMMON, "-w"]
# All warnings of the two groups are errors but one, which weaving causes: a function that returns in each branch of its last `if` leaves its
# parts behind that `if` once more, and then g++ may think that it runs off its end.
STRICT = [*COMMON, "-Wall", "-Wextra", "-Werror", "-Wno-return-type"]
UNDEFINED = [*STRICT, "-fsanitize=undefined", "-fno-sanitize-recover=all"]
RACES = [*STRICT, "-fsanitize=thread"]
MOST = 16777216


def plans():
    """The plans of the table, as bytes."""
    lines = [line for line in (FOLDER / "plans.txt").read_text().splitlines() if line and not line.startswith("#")]
    return ["".join(f"{part}\n" for part in line.split("; ")).encode() for line in lines]


class Compiler:
    """g++ with a header that is compiled once for each list of options."""

    def __init__(self, folder):
        self.folder = pathlib.Path(folder)

    @functools.cache
    def works(self, *options):
        """Whether g++ makes a program with these options that runs."""
        headers = self.header(options)
        headers.parent.mkdir()
        headers.write_text(HEADERS)
        small = headers.parent / "small.cc"
        small.write_text("std::mutex m; int main() { m.lock(); m.unlock(); return 0; }\n")
        made = subprocess.run(["g++", *options, "-x", "c++-header", headers], capture_output=True)
        return made.returncode == 0 and self.run(small, options) == (0, b"")

    def header(self, options):
        return self.folder / str(abs(hash(options))) / "all.h"

    def run(self, path, options):
        """The status and the output of a program, or what went wrong."""
        target = self.folder / f"{path.stem}_{abs(hash(options))}"
        made = subprocess.run(["g++", *options, "-include", self.header(options), "-o", target, path], capture_output=True, text=True)
        if made.returncode:
            return f"g++ refuses it: {made.stderr[:600]}"
        ran = subprocess.run([target], capture_output=True, timeout=120)
        return f"says {ran.stderr.decode()[:600]}" if ran.stderr else (ran.returncode, ran.stdout)


def run_fault(name, folder, wanted, plan):
    """How the woven program's run by a plan differs from the compiled source, or from that of its text, or nothing."""
    pathlib.Path(folder, "x.plan").write_bytes(plan)
    status, output, lines = program.run_words(["run", "x.plan", f"{name}.cc", f"{name}.ah"], folder)
    wrong = program.summary_fault(status, lines)
    ended = re.fullmatch(r"ended (-?\d+)", lines[0])
    if wrong or not ended or int(ended[1]) % 256 != wanted[0]:
        return f"{wrong or lines[0]}, compiled {wanted[0]}, by {plan}"
    if output != wanted[1]:
        return f"prints {output!r}, compiled {wanted[1]!r}, by {plan}"
    if program.run_words(["exec", "woven.cc", "x.plan"], folder) != (status, output, lines):
        return f"its text runs otherwise by {plan}"
    source = program.run_words(["source", "x.plan", f"{name}.cc", f"{name}.ah"], folder)
    if source[:2] != (status, output) or source[2][0] != lines[0] or len(source[2]) != 2:
        return f"source runs otherwise by {plan}: {source}"
    return None


def text_fault(name, aspects, folder):
    """How the woven text, which is kept in the folder, differs from the second weaver's, or nothing."""
    source = (FOLDER / f"{name}.cc").read_text()
    for ending, text in (("cc", source), ("ah", aspects)):
        pathlib.Path(folder, f"{name}.{ending}").write_text(text)
    status, text, lines = program.run_words(["weave", f"{name}.cc", f"{name}.ah"], folder)
    pathlib.Path(folder, "woven.cc").write_bytes(text)
    if status or lines:
        return f"weave ends with {status} and {lines}"
    wanted = weaver.woven(source, weaver.guarded_by(aspects)).encode()
    if text == wanted:
        return None
    pairs = enumerate(zip(text.splitlines(), wanted.splitlines()), 1)
    at, came = next(((at, pair) for at, pair in pairs if pair[0] != pair[1]), ("the end", ""))
    return f"its text differs at {at}: {came}"


def compiled_faults(text, wanted, compiler):
    """How a woven text, as g++ compiles it, does otherwise than is wanted. A program without threads has no races."""
    has_threads = b"std::thread " in text.read_bytes()
    for options in (UNDEFINED if compiler.works(*UNDEFINED) else STRICT, RACES):
        if compiler.works(*options) and (options is not RACES or has_threads):
            came = compiler.run(text, tuple(options))
            if came != wanted:
                yield f"{options[-1]}: {came}, the source {wanted}"


def faults_of(case, compiler):
    """What is wrong with a program under an aspect file, which is told with what the source prints as it is compiled."""
    name, aspects, wanted = case
    with tempfile.TemporaryDirectory() as folder:
        found = text_fault(name, aspects, folder)
        if wanted is None or isinstance(wanted, str) or found and found.startswith("weave"):
            return [f"{name}: {said}" for said in (found, wanted) if said]
        faults = [found] if found else []
        faults += [found for found in (run_fault(name, folder, wanted, plan) for plan in plans()) if found]
        text = pathlib.Path(folder, "woven.cc").rename(pathlib.Path(folder, f"{name}_{abs(hash(aspects))}.cc"))
        faults += compiled_faults(text, wanted, compiler)
    return [f"{name}: {fault}" for fault in faults]


def cases(names, compiler, pool):
    """Each program with its own aspect file and with the other code, and what it prints."""
    wanted = [None] * len(names)
    if compiler is not None:
        wanted = pool.map(lambda name: compiler.run(FOLDER / f"{name}.cc", tuple(SOURCE)), names)
    for name, told in zip(names, wanted):
        own = (FOLDER / f"{name}.ah").read_text()
        yield from ((name, aspects, told) for aspects in dict.fromkeys((own, weaver.exchanged(own))))


def large_program(size):
    """A program with a guarded class whose woven text has so many bytes, and the guard file."""
    chain, name = 16, "C" * 60
    classes = [f"class {name}{i:02} {': public ' + name + f'{i - 1:02} ' if i else ''}{{ int m{i}; }};" for i in range(chain)]
    returns = "if (true) { return; } " * 199
    functions = " ".join(f"void f{i}() {{ {returns}}}" for i in range(54))
    front = "\n".join([*classes, f"class Last : public {name}{chain - 1:02} {{ public: {functions} }};", ""])
    guards = " || ".join(f'"{name}{i:02}"' for i in range(chain))
    prints = [f'std::cout << "{"a" * 4000}";'] * 5

    def text(fill):
        return front + "int main() { " + " ".join(prints + [f'std::cout << "{"a" * count}";' for count in fill]) + " return 0; }\n"

    aspects = f"aspect Guard : public GOP_Copies {{ pointcut guarded() = {guards}; }};\n"
    names = weaver.guarded_by(aspects)
    lacks = size - len(weaver.woven(text([0] * 300), names))
    full = [min(4096, max(0, lacks - 4096 * at)) for at in range(300)]
    return text(full), aspects, lacks


def large_fault(more):
    """How weaving a program whose text is as long as it may be, or this much longer, ends otherwise than it is to, or nothing."""
    source, aspects, lacks = large_program(MOST + more)
    if not 0 <= lacks <= 300 * 4096:
        return f"large: the program can't be built, it lacks {lacks} bytes"
    with tempfile.TemporaryDirectory() as folder:
        pathlib.Path(folder, "a.cc").write_text(source)
        pathlib.Path(folder, "g.ah").write_text(aspects)
        status, text, lines = program.run_words(["weave", "a.cc", "g.ah"], folder)
    wanted = (1, 0, ["a.cc:1:1: W1: woven text too large"]) if more else (0, MOST, [])
    return None if (status, len(text), lines) == wanted else f"large by {more}: {status}, {len(text)} bytes, {lines}"


def main():
    program.skip_without("weaving")
    names = sorted(path.stem for path in FOLDER.glob("*.cc"))
    with tempfile.TemporaryDirectory() as folder, concurrent.futures.ThreadPoolExecutor(program.WORKERS) as pool:
        compiler = Compiler(folder) if shutil.which("g++") else None
        if compiler is None:
            print("weaving: texts alone, no g++")
        else:
            for options in (SOURCE, STRICT, UNDEFINED, RACES):
                if not compiler.works(*options):
                    print(f"weaving: no program is compiled with {options[-1]}, which g++ lacks here")
        table = list(cases(names, compiler, pool))
        faults = [fault for found in pool.map(lambda case: faults_of(case, compiler), table) for fault in found]
        faults += [found for found in pool.map(large_fault, (0, 1)) if found]
    program.end("weaving", faults, len(table) + 2, "woven as wanted")


main()
