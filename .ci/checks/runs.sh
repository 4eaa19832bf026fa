#!/bin/sh
# Compares how the programs of cases/runs.txt and cases/stops.txt run under agxx, and programs at the limits of a run, with what is
# written beside them.
# Skipped where python3 or the built program is missing.
command -v python3 >/dev/null 2>&1 || { echo "runs: skipped, no python3" >&2; exit 0; }
exec python3 -B .ci/checks/runs.py
