"""Looks at the canonical texts of programs, as `agxx_text parsed` and `agxx_text normal` print them: those of cases/spellings.txt, of every
operator at every place and of programs at their limits of nesting are what is written down; the texts of all programs of cases and examples
are read again as programs of the same text; and those of whole programs are compiled by g++ and run as the programs do, where g++ is there.
`AGXX_TEXT` names another program to look at."""

import concurrent.futures
import os
import pathlib
import shutil
import subprocess
import sys
import tempfile

import program

PROGRAM = pathlib.Path(os.environ.get("AGXX_TEXT", "crates/agxx_text/out/agxx_text")).resolve()
SPELLINGS = pathlib.Path("cases/spellings.txt")
# Tables whose programs stand four blanks further in, and those with a program a line, with the columns that it begins in.
BLOCKS = [f"cases/{name}.txt" for name in ("runs", "stops", "inserted", "plans", "schedules", "flips", "verdicts")]
ROWS = {"cases/refusals.txt": 12, "cases/grammar.txt": 20}
FOLDERS = {"cases/programs": "*.cc", "examples": "**/*.cc"}
COMPILER = ["g++", "-std=c++20", "-Wall", "-Wextra", "-pthread"]
INCLUDES = "".join(f"#include <{header}>\n" for header in ("cstdint", "cstdlib", "iostream", "mutex", "thread"))

BINARY = "|| && | ^ & == != < <= > >= << >> + - * / %".split()
UNARY = "- ! ~ &".split()
# Signs that would be read as one.
JOINED = ("--", "&&")
# How deep braces, parentheses and `else if` may nest, and how many operators an expression may have.
NESTING = 100
OPERATORS = 400
# Each place of an expression in a statement: what stands before it and behind it, first close together and then as it is printed.
PLACES = [
    ("x=", ";", "x = ", ";"),
    ("x+=", ";", "x += ", ";"),
    ("int y=", ";", "int y = ", ";"),
    ("return ", ";", "return ", ";"),
    ("delete ", ";", "delete ", ";"),
    ("f(", ");", "f(", ");"),
    ("f(a,", ",b);", "f(a, ", ", b);"),
    ("this->f(", ");", "this->f(", ");"),
    ("std::thread t(f,", ");", "std::thread t(f, ", ");"),
    ("std::cout<<(", ");", "std::cout << (", ");"),
    ("x=(", ");", "x = (", ");"),
    ("x=int8_t(", ");", "x = int8_t(", ");"),
    ("x=new C(a,", ");", "x = new C(a, ", ");"),
    ("x=!(", ")-1;", "x = !(", ") - 1;"),
    ("if(", "){}", "if (", ") {\n    }"),
    ("if(a){}else if(", "){}", "if (a) {\n    } else if (", ") {\n    }"),
    ("while(", "){}", "while (", ") {\n    }"),
    ("for(;", ";){}", "for (; ", "; ) {\n    }"),
    ("for(int i=", ";;i=1){}", "for (int i = ", "; ; i = 1) {\n    }"),
    ("for(;;i-=", "){}", "for (; ; i -= ", ") {\n    }"),
]


def run(word, text):
    """The status, the output and what stands on standard error for a word and a text."""
    ran = subprocess.run([PROGRAM, word], input=text, capture_output=True, timeout=300)
    return ran.returncode, ran.stdout, ran.stderr


# ---- Texts that are written down.


def spellings():
    """Each case of the table: a word, a program, and its text."""
    for block in SPELLINGS.read_text().split("\n\n"):
        lines = [line for line in block.splitlines() if not line.startswith("#")]
        if lines:
            source, text = ([line[2:] for line in lines[1:] if line.startswith(sign)] for sign in "<>")
            yield lines[0], "\n".join(source), "".join(f"{line}\n" for line in text)


def close(*parts):
    """Signs and operands close together, but for signs that would be read as one."""
    text = ""
    for part in parts:
        text += " " + part if text[-1:] + part[:1] in JOINED else part
    return text


def operators():
    """Every operator with every other at either side of it, and every one at every place."""
    for first in UNARY:
        yield close(first, "a"), f"{first}a"
        for second in UNARY:
            apart = " " if first + second in JOINED else ""
            yield close(first, second, "a"), f"{first}{apart}{second}a"
    for sign in BINARY:
        yield close("a", sign, "b"), f"a {sign} b"
        for other in UNARY:
            # `a&&&b` has the signs `&&` and `&`.
            right = "a&& &b" if (sign, other) == ("&&", "&") else close("a", sign, other, "b")
            yield right, f"a {sign} {other}b"
            yield close(other, "a", sign, "b"), f"{other}a {sign} b"
        for other in BINARY:
            yield close("a", sign, "b", other, "c"), f"a {sign} b {other} c"
            yield close("(", "a", sign, "b", ")", other, "c"), f"(a {sign} b) {other} c"
            yield close("a", sign, "(", "b", other, "c", ")"), f"a {sign} (b {other} c)"


def function(body, lines):
    """A function of these statements, and its text."""
    return "parsed", "void f(){" + body + "}", "void f() {\n" + lines + "}\n"


def placed():
    """Functions with expressions of every operator, and with every operator at every place."""
    table = list(operators())
    yield function("".join(f"x={source};\n" for source, _ in table), "".join(f"    x = {text};\n" for _, text in table))
    for source, text in table[: len(UNARY) * (len(UNARY) + 1)] + [(close("a", sign, "b"), f"a {sign} b") for sign in BINARY]:
        body = "".join(front + source + back for front, back, _, _ in PLACES)
        lines = "".join(f"    {front}{text}{back}\n" for _, _, front, back in PLACES)
        yield function(body, lines)
        inits = f"struct S:public B{{S():B({source}),m({source},a){{}}}};S o({source});"
        yield "parsed", inits, f"struct S : public B {{\n    S() : B({text}), m({text}, a) {{\n    }}\n}};\nS o({text});\n"


def braces(depth, level=0):
    """Blocks in each other, one for each level."""
    margin = "    " * level
    return f"{margin}{{\n{braces(depth - 1, level + 1)}{margin}}}\n" if depth else ""


def limits():
    """Programs at their limits of nesting and of operators."""
    deep = NESTING - 1
    yield function("{" * deep + "}" * deep, braces(deep, 1))
    yield function("x=" + "(" * deep + "a" + ")" * deep + ";", "    x = " + "(" * deep + "a" + ")" * deep + ";\n")
    yield function("x=" + "f(-" * deep + "a" + ")" * deep + ";", "    x = " + "f(-" * deep + "a" + ")" * deep + ";\n")
    branches = deep - 1
    yield function("if(a){}" + "else if(a){}" * branches, "    if (a) {\n    }" + " else if (a) {\n    }" * branches + "\n")
    yield function("x=" + "- " * OPERATORS + "a;", "    x = " + "- " * (OPERATORS - 1) + "-a;\n")
    yield function("x=a" + "-b" * OPERATORS + ";", "    x = a" + " - b" * OPERATORS + ";\n")
    loops = deep // 2
    for depth, front, shown in ((loops, "while(a)", "while (a)"), (loops, "for(;;)", "for (; ; )"), (loops, "if(a)", "if (a)")):
        opened = "".join("    " * (level + 1) + shown + " {\n" for level in range(depth))
        closed = "".join("    " * (level + 1) + "}\n" for level in reversed(range(depth)))
        yield function((front + "{") * depth + "}" * depth, opened + closed)
    yield "parsed", "int x;" * 3000, "int x;\n" * 3000
    yield function("f(" + "1," * 2000 + "1);", "    f(" + "1, " * 2000 + "1);\n")
    for size in (4095, 4096, 4097):
        yield function(f'std::cout<<"{"a" * size}";', f'    std::cout << "{"a" * size}";\n')


def written_fault(case):
    word, source, wanted = case
    status, came, told = run(word, source.encode())
    if status == 0 and came == wanted.encode():
        return None
    at = next((i for i, (a, b) in enumerate(zip(came.decode().splitlines(), wanted.splitlines()), 1) if a != b), "at the end")
    return f"{word}: {source[:200]!r}: {told.decode().strip() or f'differs in line {at}'}: {came.decode()[:400]!r}"


# ---- Texts that are read again.


def programs():
    """Each program of cases and examples by its place, and what is said of it where that is written down."""
    for folder, names in FOLDERS.items():
        for path in sorted(pathlib.Path(folder).glob(names)):
            yield str(path), path.read_bytes(), None if path.parent.name == "refused" else "read"
    for table in BLOCKS:
        for block in pathlib.Path(table).read_text().split("\n\n"):
            lines = [line[4:] for line in block.splitlines() if line.startswith("    ")]
            if lines:
                # Some programs of plans are refused, behind plans that are refused before.
                yield table, "\n".join(lines).encode(), None if table == "cases/plans.txt" else "read"
    for table, column in ROWS.items():
        for line in pathlib.Path(table).read_text().splitlines():
            if line and not line.startswith(("#", "source")):
                said = line[:column].split(maxsplit=1)[-1].strip()
                yield table, line[column:].encode().decode("unicode_escape").encode("latin-1"), said
    for word, source, text in spellings():
        yield str(SPELLINGS), source.encode(), "read"


def refusal(told):
    """The place and the rule of a refusal."""
    place, rule = told.decode().split(": ")[:2]
    return f"{place.removeprefix('-:')} {rule}"


def again_fault(case):
    """How a program's texts differ from those of the texts, or what else is wrong with them."""
    place, text, said = case
    status, parsed, told = run("parsed", text)
    if status == 1 and not parsed:
        if said is None or said == refusal(told) and said.split(" ")[1][0] in "LG":
            return None
        return f"{place}: {refusal(told)}, wanted {said}: {text[:200]!r}"
    if said and said.split(" ")[-1][0] in "LG":
        return f"{place}: read, wanted {said}: {text[:200]!r}"
    status_of_normal, normal, _ = run("normal", text)
    if status or status_of_normal:
        return f"{place}: statuses {status} and {status_of_normal}: {text[:200]!r}"
    for word, source, wanted in (("parsed", parsed, parsed), ("normal", normal, normal), ("parsed", normal, normal), ("normal", parsed, normal)):
        if run(word, source) != (0, wanted, b""):
            return f"{place}: {word} differs for the text {source[:400]!r}"
    return None


# ---- Texts that are compiled.


def compiled(path, folder):
    """A text as g++ compiles it: what it answers and prints, or what g++ says."""
    made = subprocess.run([*COMPILER, "-o", path.with_suffix(""), path], cwd=folder, capture_output=True, text=True)
    if made.returncode:
        return f"g++ refuses it: {made.stderr[:400]}"
    return None


def compiled_fault(case):
    """What g++ says of a program's text, and how it runs where the program is to end."""
    name, text, original = case
    with tempfile.TemporaryDirectory() as folder:
        path = pathlib.Path(folder) / "text.cc"
        path.write_bytes(text)
        refused = compiled(path, folder)
        if refused or original is None:
            return refused and f"{name}: {refused}"
        ran = subprocess.run([path.with_suffix("")], capture_output=True, timeout=60)
    status, output, lines = program.run_file(original)
    if status or (ran.returncode, ran.stdout) != (int(lines[0].split(" ")[1]) % 256, output):
        return f"{name}: {ran.returncode} and {ran.stdout[:200]!r}, agxx {lines} and {output[:200]!r}"
    return None


def whole():
    """The texts of whole programs, with the file of the program where it ends by itself."""
    for folder, names in FOLDERS.items():
        for path in sorted(pathlib.Path(folder).glob(names)):
            status, text, _ = run("normal", path.read_bytes())
            if status == 0 and path.parent.name != "refused":
                yield str(path), text, path if path.parent.name in ("programs", "examples") else None
    for word, source, text in spellings():
        if text.startswith(INCLUDES) and "\nint main() {\n" in text and "__gop" in text:
            yield str(SPELLINGS), text.encode(), None


def faults_of(pool, fault, cases):
    return [found for found in pool.map(fault, cases) if found]


def main():
    program.skip_without("texts", built=PROGRAM)
    faults, count = [], 0
    with concurrent.futures.ThreadPoolExecutor(program.WORKERS) as pool:
        written = [*spellings(), *placed(), *limits()]
        read = list({(text, said): (place, text, said) for place, text, said in programs()}.values())
        parts = [(written_fault, written), (again_fault, read)]
        if shutil.which("g++") and program.PROGRAM.exists():
            parts.append((compiled_fault, list(whole())))
        else:
            print("texts: none compiled, no g++ or no program", file=sys.stderr)
        for fault, cases in parts:
            faults += faults_of(pool, fault, cases)
            count += len(cases)
    program.end("texts", faults, count, "texts as wanted")


main()
