#!/bin/sh
# Looks that flips between stays change nothing that the woven programs of cases/weaving print. Skipped where python3 or the built program is
# missing.
command -v python3 >/dev/null 2>&1 || { echo "masking: skipped, no python3" >&2; exit 0; }
exec python3 -B .ci/checks/masking.py
