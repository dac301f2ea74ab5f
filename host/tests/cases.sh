#!/usr/bin/env bash
# Every case has a capture, an answer, both in words and an entry in host/cases/cases.txt; docs/CASES.md and docs/SHEET.md are what
# host/cases.py makes of them, in lines of at most 120 characters.
set -euo pipefail
cd "$(dirname "$0")/../.."
python3 -B host/cases.py
