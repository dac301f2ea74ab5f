#!/usr/bin/env bash
# usage: programs.sh [NAME...]. Builds these programs, or replay, show and report, as target/bin/NAME, unless they are there already, made
# from what stands here now. Where .ci/run has not done that, `rt run` proves each program and its crates first, all that no earlier check has,
# and its lines that begin with `rt:` say how far it is.
set -euo pipefail
cd "$(dirname "$0")/.."
mkdir -p target/bin
sum=$(bash host/sum.sh)
[ $# -gt 0 ] || set -- replay show report
for name in "$@"; do
  mark=target/bin/$name.sum
  log=$PWD/target/$name.log
  if [ ! -e "target/bin/$name" ] || [ "$(cat "$mark" 2> /dev/null)" != "$sum" ]; then
    rm -f "$mark"
    (cd "crates/$name" && rt run < /dev/null 2>&1) | tee "$log" | { grep '^rt:' || true; } || { cat "$log"; exit 1; }
    cp "crates/$name/out/$name" target/bin/
    echo "$sum" > "$mark"
  fi
done
