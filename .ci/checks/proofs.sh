#!/bin/sh
# Looks that the calls, definitions and files that docs/proofs.md names are there. Skipped where python3 is missing.
command -v python3 >/dev/null 2>&1 || { echo "proofs: skipped, no python3" >&2; exit 0; }
exec python3 -B .ci/checks/proofs.py
