#!/bin/sh
# Compares what each program of cases/programs prints and answers under agxx with the same as compiled by g++. Skipped where python3,
# g++ or the built program is missing.
command -v python3 >/dev/null 2>&1 || { echo "programs: skipped, no python3" >&2; exit 0; }
exec python3 -B .ci/checks/compiled.py programs cases/programs
