#!/bin/sh
# Compares what agxx weaves and runs under GOP_Hamming, for parts of 1 to 120 members, with what a second weaver makes and what the definition of
# check words says. Skipped where python3 or the built program is missing; where g++ is missing nothing is compiled.
command -v python3 >/dev/null 2>&1 || { echo "check words: skipped, no python3" >&2; exit 0; }
exec python3 -B .ci/checks/check_words.py
