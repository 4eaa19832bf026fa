"""Runs `agxx` with the words and files of cases/woven.txt, with words that are a command and words that are none, with as many aspect files as
there may be, with files at their limits, and where an output can't be written."""

import concurrent.futures
import pathlib
import subprocess
import tempfile

import program
from tables import INDENT

CASES = "cases/woven.txt"
FULL = "/dev/full"
USAGE = "usage: agxx weave CC AH.. | exec CC [PLAN] | run PLAN CC AH.. | source PLAN CC AH.. | points CC AH.. | demo N"
MOST_ASPECTS = 4194304
INCLUDES = b"".join(b"#include <%s>\n" % header for header in (b"cstdint", b"cstdlib", b"iostream", b"mutex", b"thread"))
LONG = "n" * 252 + ".ah"

# The files that words name where nothing else is said, and what the commands answer for them.
FILES = {"a.cc": b"int main() { return 7; }", "x.plan": b"limit 100\ncycle 0\n", "g.ah": b"", "h.ah": b"// none", "z.ah": b"no guard file"}
TEXT = INCLUDES + b"int main() {\n    return 7;\n}\n"
COUNTS = "turns 6 source 6 inserted 0 blocked 0 idle 0 flips 0"
WOVEN = 0, TEXT, []
RUN = 0, b"", ["ended 7", COUNTS, program.ADMISSIBLE]
SOURCE = 0, b"", ["ended 7", COUNTS]
FAULT = 2, b"", [USAGE]
ALL = ["g.ah"] * 64


def refused(line):
    return 1, b"", [line]


def numbered(count):
    """So many names of aspect files."""
    return [f"g{number}.ah" for number in range(count)]


# Words, files beside those above, and the answer.
BUILT = [
    (["weave", "a.cc"], {}, WOVEN),
    (["weave", "a.cc", "g.ah"], {}, WOVEN),
    (["weave", "a.cc", *ALL], {}, WOVEN),
    (["weave", "a.cc", *numbered(64)], {name: b"// none" for name in numbered(64)}, WOVEN),
    (["weave", "a.cc", *ALL, "g.ah"], {}, FAULT),
    (["weave", "a.cc", *numbered(65)], {}, FAULT),
    (["weave", "a.cc", *ALL[1:], "z.ah"], {}, refused("z.ah:1:1: U1: form not built")),
    (["weave", "a.cc", *numbered(64)], {name: b"// none" for name in numbered(63)}, (6, b"", ["agxx: cannot read g63.ah"])),
    (["weave", "a.cc", LONG], {LONG: b""}, WOVEN),
    (["weave", "a.cc", "n" + LONG], {}, FAULT),
    (["weave", "a.cc", "\u00e4 b.ah"], {"\u00e4 b.ah": b""}, WOVEN),
    (["weave", "a.cc", "..ah"], {"..ah": b""}, WOVEN),
    (["weave", "./a.cc", "./z.ah"], {}, refused("./z.ah:1:1: U1: form not built")),
    (["run", "x.plan", "a.cc"], {}, RUN),
    (["run", "x.plan", "a.cc", "g.ah", "h.ah"], {}, RUN),
    (["run", "x.plan", "a.cc", *ALL], {}, RUN),
    (["run", "x.plan", "a.cc", *ALL, "g.ah"], {}, FAULT),
    (["run", "x.plan", "a.cc", *ALL[2:], "z.ah", "h.ah"], {}, refused("z.ah:1:1: U1: form not built")),
    (["source", "x.plan", "a.cc"], {}, SOURCE),
    (["source", "x.plan", "a.cc", "g.ah"], {}, SOURCE),
    (["source", "x.plan", "a.cc", *ALL], {}, SOURCE),
    (["source", "x.plan", "a.cc", *ALL, "g.ah"], {}, FAULT),
    # An aspect file of as many bytes as it may have, and of one more, which comes before every rule on what stands in a file.
    (["weave", "a.cc", "h.ah"], {"h.ah": b"/*" + b"x" * (MOST_ASPECTS - 4) + b"*/"}, WOVEN),
    (["weave", "a.cc", "h.ah"], {"h.ah": b"/*" + b"x" * (MOST_ASPECTS - 3) + b"*/"}, refused("h.ah:1:1: S1: file too large")),
    (["weave", "a.cc", "z.ah", "h.ah"], {"a.cc": b"@", "h.ah": b" " * (MOST_ASPECTS + 1)}, refused("h.ah:1:1: S1: file too large")),
    (["run", "x.plan", "a.cc", "h.ah"], {"x.plan": b"", "h.ah": b" " * (MOST_ASPECTS + 1)}, refused("h.ah:1:1: S1: file too large")),
    (["source", "x.plan", "a.cc", "h.ah"], {"h.ah": b" " * (MOST_ASPECTS + 1)}, refused("h.ah:1:1: S1: file too large")),
    (["weave", "a.cc"], {"a.cc": FILES["a.cc"] + b" " * (MOST_ASPECTS - 24)}, WOVEN),
    (["weave", "a.cc"], {"a.cc": FILES["a.cc"] + b" " * (MOST_ASPECTS - 23)}, refused("a.cc:1:1: S1: file too large")),
    (["run", "x.plan", "a.cc"], {"a.cc": b" " * (MOST_ASPECTS + 1)}, refused("a.cc:1:1: S1: file too large")),
    # Woven text runs by `exec` alone.
    (["weave", "a.cc"], {"a.cc": b"int main() { int a__b; }"}, refused("a.cc:1:18: L4: reserved name")),
    (["exec", "a.cc", "x.plan"], {"a.cc": TEXT}, RUN),
    (["weave", "a.cc"], {"a.cc": TEXT}, WOVEN),
]

# Words that are no command. Files of these names are there.
FAULTY = [
    ["weave"],
    ["weave", "-x", "a.cc"],
    ["weave", "a.cc", "a.cc"],
    ["weave", "a.cc", "x.plan"],
    ["weave", "x.plan", "a.cc"],
    ["weave", "x.plan", "a.cc", "g.ah"],
    ["weave", "g.ah"],
    ["weave", "g.ah", "a.cc"],
    ["weave", "a.cc", "g.ah", "a.cc"],
    ["weave", "a.cc", ""],
    ["weave", "a.cc", ".ah"],
    ["weave", "a.cc", "g.AH"],
    ["weave", "a.cc", "g.ahh"],
    ["weave", "a.cc", "gah"],
    ["weave", "a.cc", "-g.ah"],
    ["weave", "a.cc", "--", "g.ah"],
    ["weave", "--", "a.cc", "g.ah"],
    ["weave", "a.cc", "g.ah", "-v"],
    ["weave", "a.cc", b"\xff.ah"],
    ["weave", b"\xff.cc"],
    ["weave", ".cc"],
    ["Weave", "a.cc"],
    ["run"],
    ["run", "a.cc"],
    ["run", "x.plan"],
    ["run", "a.cc", "g.ah"],
    ["run", "a.cc", "x.plan"],
    ["run", "a.cc", "g.ah", "x.plan"],
    ["run", "x.plan", "g.ah"],
    ["run", "x.plan", "g.ah", "a.cc"],
    ["run", "x.plan", "a.cc", "a.cc"],
    ["run", "x.plan", "x.plan", "a.cc"],
    ["run", "x.plan", "a.cc", "x.plan"],
    ["run", "x.plan", "a.cc", "g.ah", ""],
    ["run", "x.plan", "a.cc", "-"],
    ["run", "-x.plan", "a.cc"],
    ["run", ".plan", "a.cc"],
    ["run", "x.plan", "a.cc", b"\xff.ah"],
    ["source", "x.plan", "a.cc", "x.plan"],
    ["source", "x.plan", "a.cc", "g.ah", "a.cc"],
    ["source", "x.plan", "g.ah"],
    ["source", "x.plan", "a.cc", "g.a"],
    ["source", "x.plan", "a.cc", "-g.ah"],
    ["exec", "a.cc", "g.ah"],
    ["exec", "a.cc", "x.plan", "g.ah"],
    ["weave run", "a.cc"],
    ["weave,a.cc"],
    ["g.ah"],
    [],
    # Commands that aren't built yet.
    ["points", "a.cc"],
    ["points", "a.cc", "g.ah"],
    ["demo", "1"],
    ["demo", "0"],
    ["demo", "07"],
]

# Words, and the stream that takes nothing: then the status is 7, and nothing more is written.
FULL_RUNS = [
    (["weave", "a.cc"], "stdout"),
    (["run", "x.plan", "p.cc"], "stdout"),
    (["run", "x.plan", "a.cc"], "stderr"),
    (["source", "x.plan", "p.cc", "g.ah"], "stdout"),
    (["weave", "a.cc", "z.ah"], "stderr"),
]


def table():
    """The cases of the table."""
    files = {}
    for block in pathlib.Path(CASES).read_text().split("\n\n"):
        lines, name = [line for line in block.splitlines() if not line.startswith("#")], None
        if lines and lines[0] == "no files":
            files, lines = {}, lines[1:]
        if not lines:
            continue
        output, told = b"", []
        for line in lines[2:]:
            word, _, rest = line.partition(" ")
            if line.startswith(INDENT):
                files[name] += (line.removeprefix(INDENT) + "\n").encode()
            elif word == "file":
                name = rest
                files[name] = b""
            elif word == "!":
                told.append(rest)
            else:
                output += rest.encode() + b"\n" * (word == ">")
        yield lines[0].split(" "), dict(files), (int(lines[1].split(" ")[1]), output, told)


def written(files, folder):
    for name, data in files.items():
        (pathlib.Path(folder) / name).write_bytes(data)


def fault(case):
    """How an answer differs from what is wanted, or nothing."""
    words, files, wanted = case
    with tempfile.TemporaryDirectory() as folder:
        written(files, folder)
        came = program.run_words(words, folder)
    if came == wanted:
        return None
    return f"status {came[0]}, {came[1][:400]!r}, {came[2]}; wanted {wanted[0]}, {wanted[1][:400]!r}, {wanted[2]}: {words[:6]}"


def full_fault(run):
    """How a command ends otherwise than with status 7 and nothing more, where a stream has no room, or nothing."""
    words, stream = run
    with tempfile.TemporaryDirectory() as folder, open(FULL, "wb") as full:
        written(FILES | {"p.cc": b"int main() { std::cout << 7; }"}, folder)
        streams = {"stdout": subprocess.PIPE, "stderr": subprocess.PIPE} | {stream: full}
        came = subprocess.run([program.PROGRAM, *words], cwd=folder, timeout=300, **streams)
    return None if (came.returncode, came.stdout or b"", came.stderr or b"") == (7, b"", b"") else f"no room on {stream}: {came}"


def main():
    program.skip_without("commands")
    cases = [*table(), *((words, FILES | files, answer) for words, files, answer in BUILT), *((words, FILES, FAULT) for words in FAULTY)]
    full = FULL_RUNS if pathlib.Path(FULL).exists() else []
    with concurrent.futures.ThreadPoolExecutor(program.WORKERS) as pool:
        faults = [found for found in pool.map(fault, cases) if found]
        faults += [found for found in pool.map(full_fault, full) if found]
    program.end("commands", faults, len(cases) + len(full), "as wanted")


main()
