#!/bin/sh
# Compares what agxx weaves of the programs in cases/weaving with what a second weaver makes of them, and how it runs with what the sources
# print as compiled by g++. Skipped where python3 or the built program is missing; where g++ is missing the texts alone are compared.
command -v python3 >/dev/null 2>&1 || { echo "weaving: skipped, no python3" >&2; exit 0; }
exec python3 -B .ci/checks/weaving.py
