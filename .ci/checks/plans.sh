#!/bin/sh
# Compares how programs run under agxx by the plans of cases/plans.txt, cases/schedules.txt and cases/flips.txt, and by plans and with files
# at their limits, with what is written beside them. Skipped where python3 or the built program is missing.
command -v python3 >/dev/null 2>&1 || { echo "plans: skipped, no python3" >&2; exit 0; }
exec python3 -B .ci/checks/plans.py
