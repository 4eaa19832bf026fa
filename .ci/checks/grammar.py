"""Runs `agxx exec` and `agxx source` on each text of cases/grammar.txt, on each keyword, and on texts at the limits of nesting and of operators
and one past them."""

import concurrent.futures
import pathlib
import tempfile

import program

CASES = pathlib.Path("cases/grammar.txt")
COMMANDS = {"exec": ["exec", "a.cc"], "source": ["source", "x.plan", "a.cc"]}
# The statuses of a program that is run: it ends, stops, goes on or is halted.
RUNS = (0, 3, 4, 5)
# How deep braces, parentheses and `else if` may nest, and how many operators an expression may have.
NESTING = {"exec": 100, "source": 99}
OPERATORS = 400

KEYWORDS = """
    class struct public private protected virtual void int unsigned true false nullptr this new delete return if else while for
    aspect advice pointcut slice tjp
    bool int8_t uint8_t int16_t uint16_t int32_t uint32_t int64_t uint64_t
    alignas alignof asm auto break case catch char char8_t char16_t char32_t concept const consteval constexpr constinit const_cast
    continue co_await co_return co_yield decltype default do double dynamic_cast enum explicit export extern float friend goto inline
    long mutable namespace noexcept operator register reinterpret_cast requires short signed sizeof static static_assert static_cast
    switch template thread_local throw try typedef typeid typename union using volatile wchar_t
    and and_eq bitand bitor compl not not_eq or or_eq xor xor_eq
""".split()
# Words that mean something at their place alone.
NAMES = "final override import module std execution construction destruction that args within result cout endl thread mutex abort".split()

FRONT = "int main() { "
# What opens a parenthesis within an expression.
OPENINGS = ["(", "f(", "int8_t(", "new C(", "o.m(1, "]


def cases():
    """Each command and text with what is said of it."""
    for line in CASES.read_text().splitlines():
        if line and not line.startswith("#"):
            text = line[20:].encode().decode("unicode_escape")
            for command in COMMANDS if line.startswith("both ") else [line[:8].strip()]:
                yield command, text, line[8:20].strip()
    for command, most in NESTING.items():
        yield command, "", "read"
        for word in KEYWORDS:
            yield command, f"int {word};", "1:5 G1"
        for word in NAMES:
            yield command, f"int {word};", "read"
        yield from nested(command, most)
        yield from counted(command)


def nested(command, most):
    """Braces, parentheses of every kind in the braces of a function, and branches, as deep as they may be and one deeper."""
    front = "int main() "
    yield command, front + "{" * most + "}" * most, "read"
    yield command, front + "{" * (most + 1) + "}" * (most + 1), f"1:{len(front) + most + 1} G2"
    front = FRONT + "b = "
    for opening in OPENINGS:
        fit = most - 1
        last = len(front) + fit * len(opening) + opening.index("(") + 1
        yield command, front + opening * fit + "a" + ")" * fit + "; }", "read"
        yield command, front + opening * (fit + 1) + "a" + ")" * (fit + 1) + "; }", f"1:{last} G2"
    # Within the last branch stands the parenthesis of its condition.
    front, part = FRONT + "if (a) { }", " else if (a) { }"
    fit = most - 2
    yield command, front + part * fit + " }", "read"
    yield command, front + part * (fit + 1) + " }", f"1:{len(front) + fit * len(part) + part.index('(') + 1} G2"


def counted(command):
    """Operators, as many as an expression may have and one more: those of arguments count together within an expression, and each argument of
    a call statement by itself, as each printed value does."""
    nots = "!" * OPERATORS
    front = FRONT + "b = "
    yield command, front + nots + "a; }", "read"
    yield command, front + nots + "!a; }", f"1:{len(front) + OPERATORS + 1} G2"
    front = FRONT + "b = f(!a, "
    yield command, front + nots[1:] + "a); }", "read"
    yield command, front + nots + "a); }", f"1:{len(front) + OPERATORS} G2"
    yield command, FRONT + "f(!a, " + nots + "a); }", "read"
    yield command, FRONT + "std::cout << !a << " + nots + "a; }", "read"
    front = FRONT + "a = 1"
    yield command, front + "+1" * OPERATORS + "; }", "read"
    yield command, front + "+1" * (OPERATORS + 1) + "; }", f"1:{len(front) + 2 * OPERATORS + 1} G2"


def said_of(command, text):
    with tempfile.TemporaryDirectory() as folder:
        (pathlib.Path(folder) / "a.cc").write_bytes(text.encode("latin-1"))
        (pathlib.Path(folder) / "x.plan").write_bytes(b"limit 1\ncycle 0\n")
        status, _, lines = program.run_words(COMMANDS[command], folder)
    if status in RUNS:
        return "read"
    place, rule = lines[0].split(": ")[:2]
    return "read" if rule.startswith("N") else f"{place.removeprefix('a.cc:')} {rule}"


def fault(case):
    command, text, wanted = case
    came = said_of(command, text)
    return None if came == wanted else f"{command}: {came}, wanted {wanted}: {text[:200]!r}"


def main():
    program.skip_without("grammar")
    table = list(cases())
    with concurrent.futures.ThreadPoolExecutor(program.WORKERS) as pool:
        faults = [said for said in pool.map(fault, table) if said]
    program.end("grammar", faults, len(table), "texts as wanted")


main()
