"""Looks that each edit outside the gate (`edits/CRATE/*.edit`) still applies: each text that it replaces stands just once in its file, and
the edit changes something. `python3 benches/edits.py` has them tried."""

import pathlib
import sys


def fault(path):
    """Why an edit doesn't apply, or nothing."""
    file, old, texts, changes = None, None, {}, False
    for line in path.read_text().splitlines():
        if line.startswith("file: "):
            file = pathlib.Path("crates") / path.parent.name / line.removeprefix("file: ").strip()
        elif line.startswith("old: "):
            old = line.removeprefix("old: ")
        elif line.startswith("new:"):
            if file is None or old is None:
                return "a new text stands before its file or its old text"
            if not file.is_file():
                return f"no file {file}"
            text = texts.setdefault(file, file.read_text())
            if text.count(old) != 1:
                return f"the old text stands {text.count(old)} times in {file}: {old}"
            new = line.removeprefix("new:").removeprefix(" ")
            changes = changes or old != new
            texts[file], old = text.replace(old, new), None
    return None if changes else "it changes nothing"


def main():
    paths = sorted(pathlib.Path("edits").glob("*/*.edit"))
    faults = [f"{path}: {found}" for path in paths if (found := fault(path))]
    for found in faults:
        print(f"edits: {found}")
    print(f"edits: {len(paths) - len(faults)} of {len(paths)} apply")
    sys.exit(1 if faults else 0)


main()
