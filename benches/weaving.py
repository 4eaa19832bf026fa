"""How long it takes to weave, and how much memory: programs of 200 guarded classes with more and more functions, against judging the same program
without weaving it (`exec` for one turn), in processor time. Where `ag++` is there, the same classes with one execution advice that matches each
function. Then 200 classes of ten members under check words against copies, which is to be at most 2. Ratios in one run; a ratio near that of
the sizes is linear. `AGXX` names another program to measure."""

import os
import pathlib
import shutil
import subprocess
import sys
import tempfile

PROGRAM = pathlib.Path(os.environ.get("AGXX", "crates/agxx_main/out/agxx_main")).resolve()
CLASSES = 200
FUNCTIONS = (25, 50, 100, 200)
FUNCTION = "    uint32_t f{number}(uint32_t x) {{ if (x < 3) {{ return a; }} a = a + x; b = a; return b + c; }}\n"
MAIN = "int main() { return 0; }\n"
ASPECT = 'aspect G : public GOP_{} {{ pointcut guarded() = {}; }};\n'
MEMBERS = 10
ADVICE = 'aspect G { advice execution("% %::%(...)") : before() { } };\n'


def program(functions):
    """A program of as many functions a class, of 3 members each."""
    body = "".join(FUNCTION.format(number=number) for number in range(functions))
    members = "    uint32_t a;\n    uint32_t b;\n    uint16_t c;\npublic:\n"
    return "".join(f"class C{number} {{\n{members}{body}}};\n" for number in range(CLASSES)) + MAIN


def guards(code):
    """The guard file by which all classes have this code."""
    return ASPECT.format(code, " || ".join(f'"C{number}"' for number in range(CLASSES)))


def run(words, folder):
    """The processor time of a run in seconds, its largest memory in bytes, and how many bytes it writes."""
    with tempfile.TemporaryFile() as out:
        started = subprocess.Popen([str(word) for word in words], stdout=out, stderr=subprocess.DEVNULL, cwd=folder)
        _, status, usage = os.wait4(started.pid, 0)
        started.returncode = os.waitstatus_to_exitcode(status)
        return usage.ru_utime + usage.ru_stime, usage.ru_maxrss * 1024, out.tell() if started.returncode == 0 else 0


def best(words, folder):
    return min(run(words, folder) for _ in range(3))


def aspects(folder, text, functions):
    """The time of ag++ for the same classes, where it is there."""
    if not shutil.which("ag++"):
        return None
    (folder / "g.ah").write_text(ADVICE)
    (folder / "p.cc").write_text("#include <cstdint>\n" + text)
    return run(["ag++", "--weave_only", "-p", ".", "-r", "repo.acp", "-c", "p.cc"], folder)[0]


def codes():
    """How long it takes to weave, and to run one turn, under check words and under copies, and the ratios."""
    members = "".join(f"    uint32_t m{number};\n" for number in range(MEMBERS))
    uses = "".join(f"    uint32_t f{number}(uint32_t x) {{ m{number} = m{number} + x; return m{number}; }}\n" for number in range(MEMBERS))
    with tempfile.TemporaryDirectory() as name:
        folder = pathlib.Path(name)
        (folder / "p.cc").write_text("".join(f"class C{number} {{\n{members}public:\n{uses}}};\n" for number in range(CLASSES)) + MAIN)
        (folder / "x.plan").write_text("limit 1\ncycle 0\n")
        for code in ("Copies", "Hamming"):
            (folder / f"{code}.ah").write_text(guards(code))
        for words in (["weave", "p.cc"], ["run", "x.plan", "p.cc"]):
            copies, checks = (best([PROGRAM, *words, f"{code}.ah"], folder) for code in ("Copies", "Hamming"))
            size = f"{copies[2] / 1e6:.1f} and {checks[2] / 1e6:.1f} MB" if words[0] == "weave" else "one turn"
            print(f"{words[0]} of {CLASSES} classes of {MEMBERS} members, {size}: check words {checks[0] / copies[0]:.2f} of copies")


def main():
    if not PROGRAM.exists():
        sys.exit("no program: run rt ci first")
    last = None
    for functions in FUNCTIONS:
        with tempfile.TemporaryDirectory() as name:
            folder = pathlib.Path(name)
            text = program(functions)
            (folder / "p.cc").write_text(text)
            (folder / "g.ah").write_text(guards("Copies"))
            (folder / "x.plan").write_text("limit 1\ncycle 0\n")
            judged = best([PROGRAM, "exec", "p.cc", "x.plan"], folder)
            woven = best([PROGRAM, "weave", "p.cc", "g.ah"], folder)
            back = best([PROGRAM, "run", "x.plan", "p.cc", "g.ah"], folder)
            other = aspects(folder, text, functions)
        growth = "" if last is None else f"; to the size before (2): {woven[0] / last:.2f}"
        size = f"{len(text) / 1e6:.1f} MB to {woven[2] / 1e6:.1f} MB"
        ratios = f"weave {woven[0] / judged[0]:.2f}, run {back[0] / judged[0]:.2f} of judging alone"
        memory = f"memory {woven[1] / len(text):.1f} times the source"
        compared = "" if other is None else f"; {woven[0] / other:.3f} of ag++"
        print(f"{functions:4} functions a class, {size}: {ratios}; {memory}{growth}{compared}")
        last = woven[0]
    codes()


main()
