#!/usr/bin/env bash
# Writes the reports beside the examples anew, and the documents that show them. Then `git diff` has what changed.
#
#     tests/write_reports.sh [PROGRAM]
set -euo pipefail
cd "$(dirname "$0")/.."
python3 tests/examples.py --write "${1:-hbird}"
python3 tests/papers.py --write
