#!/bin/sh
# Compares the texts that the program of crates/agxx_text prints of the programs in cases/spellings.txt with what is written there, reads the
# texts of all programs in cases and examples again, and compiles those of whole programs. Skipped where python3 or the built program is missing.
command -v python3 >/dev/null 2>&1 || { echo "texts: skipped, no python3" >&2; exit 0; }
exec python3 -B .ci/checks/texts.py
