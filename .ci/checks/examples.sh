#!/bin/sh
# Compares what each example prints under agxx with what it prints as compiled by g++. Skipped where python3 or g++ is missing.
command -v python3 >/dev/null 2>&1 || { echo "examples: skipped, no python3" >&2; exit 0; }
exec python3 -B .ci/checks/compiled.py examples examples
