#!/usr/bin/env bash
# usage: same.sh RIGHT PRINTED NAME. The two files are the same to the byte; or else it says so of NAME, shows how they differ, and fails.
set -euo pipefail
cmp -s "$1" "$2" && exit 0
echo "$3: other bytes are printed; < is right, $1" >&2
diff -a "$1" "$2" 2>&1 | head -n 10 >&2 || true
exit 1
