"""Looks at the check words of `GOP_Hamming`, for parts of 1 to 120 members of all number types. The woven texts are those of
`.ci/checks/weaver.py`, and as many steps are inserted as docs/protection.md says. Flips of each word between stays change nothing that a
program prints, and two at one bit place halt it. Compiled by g++, repair and renewal are what the definition of the code says, one bit
place after the other."""

import concurrent.futures
import functools
import itertools
import pathlib
import random
import re
import shutil
import subprocess
import tempfile

import program
import weaver

KINDS = ("int32_t", "uint8_t", "int64_t", "int16_t", "uint64_t", "int8_t", "unsigned", "uint16_t", "int", "uint32_t")
MOST = 120
# How many check words there are for at least so many members.
COUNTS = {1: 2, 2: 3, 5: 4, 12: 5, 27: 6, 58: 7}
# Sizes of parts in which words are flipped. Those with all positions up to a power of two, those with one more, and between.
SIZES = (1, 2, 3, 4, 11, MOST)
DOCUMENT = pathlib.Path("docs/protection.md")
COMPILED = (1, 2, 3, 4, 5, 7, 11, 12, 26, 27, 57, 58, 119, MOST)
ASPECT = "aspect G : public GOP_Hamming {{ pointcut guarded() = {}; }};\n"
CELL = ASPECT.format('"Cell"')
PAIRS = 40


def kinds(size):
    """The types of the members of a part."""
    return [KINDS[(number + size) % len(KINDS)] for number in range(size)]


def members(size, indent=""):
    return "".join(f"{indent}{kind} m{number};\n" for number, kind in enumerate(kinds(size), 1))


def words(size):
    """The widths of the words of a part: its members, its check words, and the parity word."""
    return [weaver.width(kind) for kind in kinds(size)] + [64] * (weaver.check_words(size) + 1)


class Steps:
    """How many steps entering, leaving and finding what can't be repaired take, as docs/protection.md has them. Of the members so many are below 64
    bits."""

    def __init__(self, size, narrow):
        checks = weaver.check_words(size)
        counted = sum(place.bit_count() for place in weaver.positions(size))
        self.enter = 47 + 22 * size + 19 * checks + 5 * size * checks + 5 * checks**2 + counted + 3 * narrow
        self.leave = 22 + 10 * size + 3 * checks + 3 * counted
        # What stands behind the call of `std::abort()`: three kinds of assignments, the end of repair, the counter, the lock, and the end.
        self.halt = self.enter - (6 * size + 6 * checks + 11) - 1 - 6 - 1 - 1 + 1

    @classmethod
    def of(cls, size):
        """Those of a part with members of all types."""
        return cls(size, sum(width < 64 for width in words(size)))

    def both(self):
        return self.enter + self.leave


# ---- Texts.


def part_counts():
    """How many check words the second weaver finds, beside the table above."""
    for size in range(1, MOST + 1):
        wanted = COUNTS[max(least for least in COUNTS if least <= size)]
        if (weaver.check_words(size), len(words(size))) != (wanted, size + wanted + 1):
            yield f"{size} members have {weaver.check_words(size)} check words"


def document_faults():
    """Rows of the table of costs that say otherwise."""
    rows = re.findall(r"^\| (\d+(?: \| \d+){6}) \|$", DOCUMENT.read_text(), re.M)
    for row in rows:
        size, *told = (int(number) for number in row.split(" | "))
        steps = Steps(size, size)
        wanted = [2 * size, 22 + 31 * size, 22 + 6 * size, weaver.check_words(size) + 1, steps.enter, steps.leave]
        if told != wanted:
            yield f"{DOCUMENT}: {row}; wanted {wanted}"
    if not rows:
        yield f"{DOCUMENT} has no table of costs"


def text_fault(first):
    """How the woven text of ten classes, one of each size from the first on, is another than it is to be, or nothing."""
    sizes = range(first, min(first + 10, MOST + 1))
    source = "".join(f"struct C{size} {{\n{members(size, '    ')}}};\n" for size in sizes) + "int main() { return 0; }\n"
    aspects = ASPECT.format(" || ".join(f'"C{size}"' for size in sizes))
    status, text, lines = answer(["weave", "a.cc", "g.ah"], {"a.cc": source, "g.ah": aspects})
    if status or lines:
        return f"{first}: weave ends with {status} and {lines}"
    wanted = weaver.woven(source, weaver.guarded_by(aspects)).encode()
    pairs = zip(text.splitlines(), wanted.splitlines())
    return None if text == wanted else f"{first}: its text differs: {next((pair for pair in pairs if pair[0] != pair[1]), 'its end')}"


def answer(command, files):
    """What a command answers for files."""
    with tempfile.TemporaryDirectory() as folder:
        for name, data in files.items():
            pathlib.Path(folder, name).write_text(data)
        return program.run_words(command, folder)


# ---- Runs with flips.


def first_values(size):
    """What the constructor gives to the members: numbers that aren't negative, whose inverses are where they have a sign."""
    drawn = random.Random(size)
    return [drawn.randrange(2 ** (weaver.width(kind) - 1)) for kind in kinds(size)]


def shown(value, kind, inverted):
    """A member as it is printed, as an `int64_t`."""
    if inverted:
        value = ~value if kind.startswith("int") else value ^ (2 ** weaver.width(kind) - 1)
    return str((value + 2**63) % 2**64 - 2**63)


def initial(number, value, kind):
    """An initialiser of a member."""
    return f"m{number}({value}{'u' * kind.startswith('u')}{'ll' * (value >= 2**31)})"


@functools.cache
def source(size, body):
    """A program with one object, which prints its members and inverts them."""
    values = ", ".join(initial(number, *it) for number, it in enumerate(zip(first_values(size), kinds(size)), 1))
    prints = ' << " " << '.join(f"int64_t(m{number})" for number in range(1, size + 1))
    inverts = " ".join(f"m{number} = ~m{number};" for number in range(1, size + 1))
    show = f'    void show() {{ std::cout << {prints} << "\\n"; {inverts} }}\n'
    return f"class Cell {{\n{members(size, '    ')}public:\n    Cell() : {values} {{}}\n{show}}};\nCell c;\nint main() {{ {body} return 0; }}\n"


def output(size, rounds):
    """What the program prints in so many rounds."""
    of = list(zip(first_values(size), kinds(size)))
    return "".join(" ".join(shown(*it, turn % 2 == 1) for it in of) + "\n" for turn in range(rounds)).encode()


def run(size, body, lines):
    """What the program answers by a plan with these lines."""
    plan = f"limit 100000000\ncycle 0\n{lines}"
    return answer(["run", "x.plan", "a.cc", "g.ah"], {"a.cc": source(size, body), "g.ah": CELL, "x.plan": plan})


def bits(width):
    """Five bits of a word."""
    return (0, 1, width // 2, width - 2, width - 1)


def source_steps(size, rounds):
    """How many steps of the program's own the run takes. Each round is three steps for the call, the statement that prints, for each member two for
    its name and cast, one for the conversion, two for what is printed, and five to invert it; the end; and the loop's step and condition."""
    each = 3 + 1 + 10 * size + 1 + 5 + 6
    # The constructor with three steps for each member, the start of `main`, that of the loop, all rounds, `return`, and the destructor.
    return (1 + 3 * size + 1) + 1 + (1 + 3 + 6) + rounds * each + 4 + 3


def single_fault(case):
    """How a run in which one bit of each word is flipped, each between two stays, differs from the one that is wanted, or nothing."""
    size, at = case
    rounds = len(words(size))
    body = f"for (uint32_t i = 0u; i < {rounds}u; ++i) {{ c.show(); }}"
    lines = "" if at is None else "".join(f"free 0 0 {word} {bits(width)[at]}\n" for word, width in enumerate(words(size)))
    came = run(size, body, lines)
    taken, inserted, flips = source_steps(size, rounds), (rounds + 2) * Steps.of(size).both(), 0 if at is None else rounds
    counts = f"turns {taken + inserted} source {taken} inserted {inserted} blocked 0 idle 0 flips {flips}"
    wanted = (0, output(size, rounds), ["ended 0", counts, program.ADMISSIBLE])
    return None if came == wanted else f"{size} members, bit {at}: {came[0]}, {came[1][:200]!r}, {came[2]}; wanted {wanted[2]}"


def pairs(size):
    """Pairs of words of a part: all of them, or some of many."""
    found = list(itertools.combinations(range(len(words(size))), 2))
    return found if size < MOST else random.Random(1).sample(found, PAIRS)


def doubles():
    """Two flips of one part, at one bit place or at two."""
    for size in SIZES:
        widths = words(size)
        for number, (one, other) in enumerate(pairs(size)):
            place = min(widths[one], widths[other]) - 1
            yield size, (one, other), (place, place), number % 2
            yield size, (other, one), (0, 0), number % 2
            yield size, (one, other), (place, place - 1), number % 2


def double_fault(case):
    """How a run with two flips differs from the one that is wanted, or nothing. They fall before the constructor or behind it."""
    size, at, places, is_late = case
    steps = Steps.of(size)
    turn = (2 + 3 * size + steps.both()) * is_late
    lines = "".join(f"flip {turn} 0 {word} {bit}\n" for word, bit in zip(at, places))
    came = run(size, "c.show();", lines)
    if places[0] != places[1]:
        came = (*came[:2], [came[2][0], came[2][-1]])
        wanted = (0, output(size, 1), ["ended 0", "verdict inadmissible flip 2"])
    else:
        # The source steps before the constructor's call of enter, or before that of `show`: its own, the start of `main`, and the call.
        taken = 1 + (3 * size + 1 + 1 + 3) * is_late
        inserted = steps.halt + steps.both() * is_late
        counts = f"turns {taken + inserted} source {taken} inserted {inserted} blocked 0 idle 0 flips 2"
        wanted = (5, b"", ["halted object 0 part Cell", counts, "verdict inadmissible flip 2"])
    return None if came == wanted else f"{size} members, words {at}, bits {places}, turn {turn}: {came}; wanted {wanted}"


# ---- The compiled repair.

HARNESS = pathlib.Path(__file__).with_name("check_words.cc")
OPTIONS = ["-std=c++20", "-pthread", "-O1", "-Wall", "-Wextra", "-Werror", "-fsanitize=undefined", "-fno-sanitize-recover=all"]


def tries(size):
    """The lines by which the driver knows a class: how to read and write each word of an object, and the width of each."""
    names = [f"m{number}" for number in range(1, size + 1)]
    names += [f"__gop_h_{digit}_C{size}" for digit in range(weaver.check_words(size))] + [f"__gop_p_C{size}"]
    widths = ", ".join(str(width) for width in words(size))
    reads = ", ".join(f"std::uint64_t(std::make_unsigned_t<decltype(c.{name})>(c.{name}))" for name in names)
    writes = " ".join(f"c.{name} = decltype(c.{name})(w[{number}]);" for number, name in enumerate(names))
    return (
        f"struct Of{size} {{ C{size} c; static constexpr int members = {size};\n"
        f"    std::vector<int> widths() {{ return {{{widths}}}; }}\n"
        f"    std::vector<std::uint64_t> words() {{ return {{{reads}}}; }}\n"
        f"    void set(const std::vector<std::uint64_t>& w) {{ {writes} }}\n"
        f"    void repair() {{ c.__gop_repair_C{size}(); }}\n    void renew() {{ c.__gop_renew_C{size}(); }} }};\n"
    )


def compiled_fault():
    """What the driver says of the repair and the renewal of classes of several sizes, as g++ compiles what is woven, or nothing."""
    text = "".join(f"struct C{size} {{\n{members(size)}}};\n" for size in COMPILED) + "int main() { return 0; }\n"
    aspects = ASPECT.format(" || ".join(f'"C{size}"' for size in COMPILED))
    status, woven, lines = answer(["weave", "a.cc", "g.ah"], {"a.cc": text, "g.ah": aspects})
    if status or lines:
        return f"weave ends with {status} and {lines}"
    with tempfile.TemporaryDirectory() as folder:
        pathlib.Path(folder, "woven.cc").write_bytes(woven)
        pathlib.Path(folder, "tries.h").write_text("".join(tries(size) for size in COMPILED))
        calls = " ".join(f"judge<Of{size}>();" for size in COMPILED)
        pathlib.Path(folder, "calls.h").write_text(calls + "\n")
        made = subprocess.run(["g++", *OPTIONS, "-I", folder, "-o", pathlib.Path(folder, "judge"), HARNESS], capture_output=True, text=True)
        if made.returncode:
            return f"g++ refuses it: {made.stderr[:1000]}"
        ran = subprocess.run([pathlib.Path(folder, "judge")], capture_output=True, text=True, timeout=120)
        return None if (ran.returncode, ran.stderr) == (0, "") else f"compiled: {ran.stdout[:600]} {ran.stderr[:600]}"


def main():
    program.skip_without("check words")
    with concurrent.futures.ThreadPoolExecutor(program.WORKERS) as pool:
        compiled = pool.submit(compiled_fault) if shutil.which("g++") else None
        if compiled is None:
            print("check words: nothing is compiled, no g++")
        groups = [
            (text_fault, range(1, MOST + 1, 10)),
            (single_fault, [(size, at) for size in reversed(SIZES) for at in (None, *range(5))]),
            (double_fault, list(doubles())),
        ]
        faults, count = [*part_counts(), *document_faults()], MOST
        for judge, cases in groups:
            faults += [found for found in pool.map(judge, cases) if found]
            count += len(cases)
        faults += [found for found in [compiled and compiled.result()] if found]
    program.end("check words", faults, count + 1, "as wanted")


main()
