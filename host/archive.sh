#!/usr/bin/env bash
# Builds the archive target/staticlib/liblap.a, unless it is there already, made from what stands here now. Where .ci/run has not done
# that, `rt lib` proves the archive's crates first, all that no earlier check has.
set -euo pipefail
cd "$(dirname "$0")/.."
archive=target/staticlib/liblap.a
mark=target/staticlib/sum
log=$PWD/target/archive.log
sum=$(bash host/sum.sh)
if [ ! -e "$archive" ] || [ "$(cat "$mark" 2> /dev/null)" != "$sum" ]; then
  mkdir -p target/staticlib
  rm -f "$mark"
  (cd crates/lap && rt lib) > "$log" 2>&1 || { cat "$log"; exit 1; }
  cp crates/lap/out/liblap.a "$archive"
  echo "$sum" > "$mark"
fi
