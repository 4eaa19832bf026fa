"""Runs `agxx exec` on each program of cases/refusals.txt, and on programs at their limits and one past them."""

import concurrent.futures
import pathlib
import subprocess
import sys
import tempfile

PROGRAM = "crates/agxx_main/out/agxx_main"
CASES = pathlib.Path("cases/refusals.txt")
MAIN = "int main() { return 0; }"
# The statuses of a program that is run: it ends, stops, goes on or is halted.
RUNS = (0, 3, 4, 5)

# A first line, what stands before and behind the number of each further line, how many of these there are, a last line, and
# what is said.
LIMITS = [
    ("", ("class C", " { };"), 320, MAIN, "accepted"),
    ("", ("class C", " { };"), 321, MAIN, "322:7 N10"),
    ("class A; class A;", ("class C", " { };"), 320, MAIN, "accepted"),
    ("", ("int g", ";"), 1100, MAIN, "accepted"),
    ("", ("int g", ";"), 1101, MAIN, "1102:5 N10"),
    ("class C { }; C c; std::mutex m;", ("int g", ";"), 1098, MAIN, "accepted"),
    ("class C { }; C c; std::mutex m;", ("int g", ";"), 1099, MAIN, "1100:5 N10"),
    ("", ("void f", "() { }"), 5999, MAIN, "accepted"),
    ("", ("void f", "() { }"), 6000, MAIN, "6002:5 N10"),
    ("", ("void f", "();"), 6001, MAIN, "accepted"),
    ("struct A {", ("int m", ";"), 1000, "}; " + MAIN, "accepted"),
    ("struct A {", ("int m", ";"), 1001, "}; " + MAIN, "1002:5 N10"),
    ("struct A { std::mutex m;", ("int m", ";"), 999, "}; " + MAIN, "accepted"),
    ("struct A { std::mutex m;", ("int m", ";"), 1000, "}; " + MAIN, "1001:5 N10"),
    ("struct B { int b; }; struct A : public B {", ("int m", ";"), 1000, "}; " + MAIN, "accepted"),
    ("struct A {", ("void f", "() { }"), 5000, "}; " + MAIN, "accepted"),
    ("struct A {", ("void f", "() { }"), 5001, "}; " + MAIN, "5002:6 N10"),
    ("struct A { A() { } ~A() { }", ("void f", "() { }"), 5000, "}; " + MAIN, "accepted"),
    ("void f() {", ("int x", ";"), 1000, "} " + MAIN, "accepted"),
    ("void f() {", ("int x", ";"), 1001, "} " + MAIN, "1002:5 N10"),
    ("void f(int a) {", ("int x", ";"), 1000, "} " + MAIN, "accepted"),
    ("void g() { } void f() { std::thread t(g);", ("int x", ";"), 999, "} " + MAIN, "accepted"),
    ("void g() { } void f() { std::thread t(g);", ("int x", ";"), 1000, "} " + MAIN, "1001:5 N10"),
    ("void f() {", ("{ int x", "; }"), 1000, "} " + MAIN, "accepted"),
    ("void f() {", ("{ int x", "; }"), 1001, "} " + MAIN, "1002:7 N10"),
    ("struct A { A() { } }; void f() {", ("for (int x", "; ; ) { }"), 1001, "} " + MAIN, "1002:10 N10"),
    ("int f() {", ("if (true) { return ", "; }"), 400, "} " + MAIN, "accepted"),
    ("int f() {", ("if (true) { return ", "; }"), 401, "} " + MAIN, "402:13 N10"),
    ("int main() {", ("if (true) { return ", "; }"), 399, "}", "accepted"),
    ("int main() {", ("if (true) { return ", "; }"), 399, "return 0; }", "accepted"),
    ("int main() {", ("if (true) { return ", "; }"), 400, "}", "1:5 N10"),
    ("int main() {", ("if (true) { return ", "; }"), 400, "return 0; }", "402:1 N10"),
]


def cases():
    """Each text with what is said of it."""
    for line in CASES.read_text().splitlines():
        if line and not line.startswith("#"):
            yield line[12:].encode().decode("unicode_escape"), line[:12].strip()
    for front, (before, behind), count, back, said in LIMITS:
        yield "\n".join([front, *(f"{before}{number}{behind}" for number in range(count)), back]), said
    for part in ("a", "\\n"):
        yield f'int main() {{ std::cout << "{part * 4096}"; return 1; }}', "accepted"
        yield f'int main() {{ std::cout << "{part * 4097}"; return 1; }}', "1:27 N10"
    # 999 locals in each of 200 functions: with the functions and `main` the last local is the 200,001st name, or the 200,000th
    for last, said in ((999, "200000:5 N10"), (998, "accepted")):
        functions = [
            "\n".join([f"void f{j}() {{", *(f"int x{j}_{i};" for i in range(last if j == 199 else 999)), "}"])
            for j in range(200)
        ]
        yield MAIN + " " + " ".join(functions), said


def said_of(text):
    with tempfile.TemporaryDirectory() as folder:
        path = pathlib.Path(folder) / "a.cc"
        path.write_bytes(text.encode("latin-1"))
        run = subprocess.run([PROGRAM, "exec", str(path)], capture_output=True, text=True)
    if run.returncode in RUNS:
        return "accepted"
    place, rule = run.stderr.split(": ")[:2]
    return f"{place.removeprefix(str(path) + ':')} {rule}"


def main():
    table = list(cases())
    wrong = 0
    with concurrent.futures.ThreadPoolExecutor() as pool:
        for (text, wanted), came in zip(table, pool.map(lambda case: said_of(case[0]), table)):
            if came != wanted:
                wrong += 1
                print(f"refusals: {came}, wanted {wanted}: {text[:200]!r}")
    print(f"refusals: {len(table) - wrong} of {len(table)} as wanted")
    sys.exit(1 if wrong else 0)


main()
