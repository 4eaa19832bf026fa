#!/bin/sh
# Compares what agxx says of the programs in cases/refusals.txt, and of programs at their limits, with what it is to say.
# Skipped where python3 is missing.
command -v python3 >/dev/null 2>&1 || { echo "refusals: skipped, no python3"; exit 0; }
exec python3 .ci/checks/refusals.py
