#!/bin/sh
# Compares what agxx says of the texts in cases/grammar.txt, of each keyword and of texts at their limits of nesting and operators with what it
# is to say. Skipped where python3 or the program is missing.
command -v python3 >/dev/null 2>&1 || { echo "grammar: skipped, no python3"; exit 0; }
exec python3 -B .ci/checks/grammar.py
