#!/usr/bin/env bash
# usage: captures.sh PROGRAM ENDING. The program prints for each captures/NAME.capture what captures/NAME.ENDING holds, to the byte, and
# under another hub's name the same with that name in each handle. The path of the program is from the root on. The first difference
# ends it.
set -euo pipefail
cd "$(dirname "$0")/.."
program=$1
ending=$2
. host/x86_64.sh
if [ ! -x "$program" ]; then
  echo "captures: there is no program at $program" >&2
  exit 1
fi
got=$(mktemp)
want=$(mktemp)
trap 'rm -f "$got" "$want"' EXIT

for stored in captures/*."$ending"; do
  if [ ! -e "${stored%."$ending"}.capture" ]; then
    echo "captures: $stored has no capture" >&2
    exit 1
  fi
done

# A hub named mug is asked too: what is stored then has its handles, H:mug:1, in hexadecimal and in words, and all else is the same.
as_mug='s/483a6c61703a/483a6d75673a/g; s/H:lap:/H:mug:/g'
for capture in captures/*.capture; do
  stored=${capture%.capture}.$ending
  if ! "${run[@]}" "$program" < "$capture" > "$got"; then
    echo "$capture: $program failed" >&2
    exit 1
  fi
  bash host/same.sh "$stored" "$got" "$program < $capture"
  if ! sed "$as_mug" "$capture" | "${run[@]}" "$program" mug > "$got"; then
    echo "$capture: $program mug failed" >&2
    exit 1
  fi
  sed "$as_mug" "$stored" > "$want"
  bash host/same.sh "$want" "$got" "$program mug < $capture, with H:mug: for H:lap:"
  echo "$stored: ok"
done
