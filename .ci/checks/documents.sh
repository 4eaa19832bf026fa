#!/bin/sh
# Runs what the documents show, and compares what comes. Skipped where python3 is missing.
command -v python3 >/dev/null 2>&1 || { echo "documents: skipped, no python3"; exit 0; }
exec python3 -B .ci/checks/documents.py
