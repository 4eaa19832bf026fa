"""Looks that each call and definition of the tables of docs/proofs.md stands in the file that is named behind it, as in "`name`, `other` in
`crate/src/file.rt`", and that each file that a document names is there."""

import pathlib
import re
import sys

PROOFS = pathlib.Path("docs/proofs.md")
TICKED = re.compile(r"`([^`]+)`")
# A path to a file or to a crate's definitions, with nothing left open in it.
FILE = re.compile(r"[\w.-]+(?:/[\w.-]+)*/(?:[\w-]+\.\w+|specs)")
# How a name is introduced in code (a variant of an enum begins its line) and in a file of definitions.
CODE = r"\b(?:fn|struct|enum|trait|type|const) {0}\b|^\s+{0}(?: \{{|\(|,)"
DEFINITION = r"^\s*(?:(?:abbrev|unfoldable|pub|record|data|mutual) +)*{0}(?= |:|$)"


def found(path):
    """The file or folder of this name, from the top or from `crates/`, or nothing."""
    return next((place for place in (pathlib.Path(path), "crates" / pathlib.Path(path)) if place.exists()), None)


def stands(name, place):
    """Whether a file introduces a name. Of `Type::call` it names the type too."""
    text = place.read_text()
    *owners, last = name.split("::")
    introduced = (CODE if place.suffix == ".rt" else DEFINITION).format(re.escape(last))
    return re.search(introduced, text, flags=re.M) and all(re.search(rf"\b{owner}\b", text) for owner in owners)


def cell_faults(cell):
    """Names that no file follows, and names that do not stand in the file that follows them."""
    names = []
    for ticked in TICKED.findall(cell):
        if "/" not in ticked:
            names.append(ticked)
            continue
        place = found(ticked)
        if place is not None:
            yield from (f"{name} is not in {ticked}" for name in names if not stands(name, place))
        names = []
    yield from (f"no file behind {name}" for name in names)


def cells(line):
    """The cells of a row that name calls and definitions; none for other lines."""
    parts = line.strip().strip("|").split("|")
    return parts[1:] if line.startswith("| ") and len(parts) == 3 else []


def lost_files(line):
    """Files that a line names and that are not there."""
    words = [word for ticked in TICKED.findall(line) for word in ticked.split()]
    return [f"no file {word}" for word in words if FILE.fullmatch(word) and found(word) is None]


def main():
    faults, count = [], 0
    for document in [pathlib.Path("README.md"), *sorted(pathlib.Path("docs").glob("*.md"))]:
        for number, line in enumerate(document.read_text().splitlines(), 1):
            rows = cells(line) if document == PROOFS else []
            count += len(TICKED.findall(" ".join(rows)))
            wrong = lost_files(line) + [fault for cell in rows for fault in cell_faults(cell)]
            faults += [f"{document}:{number}: {fault}" for fault in wrong]
    for fault in faults:
        print(f"proofs: {fault}")
    print(f"proofs: {count} names and files of proofs, {len(faults)} missing in the documents")
    sys.exit(1 if faults else 0)


main()
