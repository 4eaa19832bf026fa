#!/bin/sh
# Compares what agxx answers for the words and files of cases/woven.txt, and for words that are no command, with what is written down.
# Skipped where python3 or the built program is missing.
command -v python3 >/dev/null 2>&1 || { echo "commands: skipped, no python3" >&2; exit 0; }
exec python3 -B .ci/checks/commands.py
