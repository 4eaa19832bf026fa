#!/bin/sh
# Compares how programs run under agxx by the plans of cases/verdicts.txt, and by plans of many `free` lines, with what is written beside them:
# which flips fall, what comes of them, and the verdict. Skipped where python3 or the built program is missing.
command -v python3 >/dev/null 2>&1 || { echo "verdicts: skipped, no python3" >&2; exit 0; }
exec python3 -B .ci/checks/verdicts.py
