"""Tables of programs with a plan each, as in cases/plans.txt, and how a run differs from what is written there."""

import pathlib
import tempfile

import program

INDENT = "    "
COMMANDS = {"exec": ["exec", "a.cc", "x.plan"], "source": ["source", "x.plan", "a.cc"]}


def unescaped(text):
    return text.encode("latin-1").decode("unicode_escape").encode("latin-1")


def in_file(first):
    """The first line of a summary with the file before its place."""
    word, _, rest = first.partition(" ")
    cause, _, place = rest.partition(" ")
    return f"{word} {cause} a.cc:{place}" if word == "stopped" else first


def answer_of(word, told):
    """The status of a case for one of its commands, and the lines: a refusal, or a summary, which has a verdict for `exec` alone."""
    status = program.STATUSES.get(told[1].split(" ")[0], 1)
    summary = [in_file(told[1]), *told[2 : 4 if word == "exec" else 3]]
    return status, [told[1]] if status == 1 else summary


def case_of(block, text):
    """The runs of a case, as words, files, status, lines and output, and its program, which is `text` where it has none."""
    lines = block.splitlines()
    told = [line for line in lines if not line.startswith((INDENT, "#"))]
    own = [line.removeprefix(INDENT) for line in lines if line.startswith(INDENT)]
    text = "\n".join(own).encode() if own else text
    plan = b"".join(unescaped(line[5:]) + b"\n" * line.startswith("plan") for line in told if line.startswith(("plan", "last ")))
    output = b"".join(unescaped(line.removeprefix("prints ")) for line in told if line.startswith("prints "))
    files = {"a.cc": text, "x.plan": plan}
    return [(COMMANDS[word], files, *answer_of(word, told), output) for word in told[0].split(" ")], text


def cases(*paths):
    """The runs of all cases of tables."""
    text = b""
    for path in paths:
        for block in pathlib.Path(path).read_text().split("\n\n"):
            if any(line.split(" ")[0] in COMMANDS for line in block.splitlines()):
                case, text = case_of(block, text)
                yield from case


def fault(run):
    """How a run differs from what is wanted, or nothing."""
    words, files, status, lines, output = run
    with tempfile.TemporaryDirectory() as folder:
        for name, data in files.items():
            if data is not None:
                (pathlib.Path(folder) / name).write_bytes(data)
        came = program.run_words(words, folder)
    if came == (status, output, lines):
        return None
    text = {name: data[:600] for name, data in files.items() if data is not None}
    return f"status {came[0]}, {came[1][:80]!r}, {came[2]}; wanted {status}, {output[:80]!r}, {lines}: {words} {text}"
