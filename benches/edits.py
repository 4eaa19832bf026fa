#!/usr/bin/env python3
"""Tries must-fail edits that the gate leaves out:   python3 benches/edits.py CRATE [NAME..]

`edits/CRATE/NAME.edit` are edits of crates whose proof is dear. Each turns the meaning of a public function, and the prover must
refuse it. They are tried on a copy of the repository, over one proof of the crate, all of them or those that are named. The status
is 0 where each was refused."""
import os
import shutil
import subprocess
import sys
import tempfile

TOP = os.path.join(os.path.dirname(os.path.abspath(__file__)), "..")
PARTS = ("crates.txt", "HANDLES", "crates")


def main():
    if len(sys.argv) < 2 or not os.path.isdir(f"{TOP}/edits/{sys.argv[1]}"):
        print(__doc__, file=sys.stderr)
        return 2
    crate, names = sys.argv[1], sys.argv[2:]
    with tempfile.TemporaryDirectory() as room:
        for part in PARTS:
            copy = shutil.copytree if os.path.isdir(f"{TOP}/{part}") else shutil.copyfile
            copy(f"{TOP}/{part}", f"{room}/{part}", **({"ignore": shutil.ignore_patterns("out")} if part == "crates" else {}))
        to = f"{room}/crates/{crate}/must-fail"
        shutil.rmtree(to, ignore_errors=True)
        shutil.copytree(f"{TOP}/edits/{crate}", to)
        for name in os.listdir(to):
            if names and name.removesuffix(".edit") not in names:
                os.remove(f"{to}/{name}")
        proved = subprocess.run(["rt", "check"], cwd=f"{room}/crates/{crate}", stdout=subprocess.DEVNULL)
        if proved.returncode:
            print(f"{crate} is not proved as it stands", file=sys.stderr)
            return 1
        return subprocess.run(["rt", "must-fail", crate], cwd=room).returncode


if __name__ == "__main__":
    sys.exit(main())
