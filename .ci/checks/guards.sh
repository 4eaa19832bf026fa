#!/bin/sh
# Compares what agxx says of the aspect files in cases/guard_files.txt and of the guarded programs in cases/protection.txt with what is written
# beside them. Skipped where python3 or the built program is missing.
command -v python3 >/dev/null 2>&1 || { echo "guards: skipped, no python3" >&2; exit 0; }
exec python3 -B .ci/checks/guards.py
