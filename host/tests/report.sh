#!/usr/bin/env bash
# For each stored input, a text command and a capture, report prints what is stored beside it, to the byte. REPORT names the program; where
# it is not set, the one in target/bin is run. Where its input cannot be read, or its output cannot be written, it says so on standard error.
# One argument is the hub's name. Started with more, or with one that is no hub's name, it says how it is used, and reads and writes nothing
# else. The first difference ends the test.
set -euo pipefail
cd "$(dirname "$0")/../.."
. host/x86_64.sh
program=${REPORT:-target/bin/report}
if [ ! -x "$program" ]; then
  echo "report: there is no program at $program" >&2
  exit 1
fi
folder=$(mktemp -d)
trap 'rm -rf "$folder"' EXIT
in=$folder/in
lap=$folder/lap
right=$folder/right
out=$folder/out
err=$folder/err

for stored in host/report/*.out; do
  input=${stored%.out}.in
  if ! "${run[@]}" "$program" < "$input" > "$out" 2> "$err"; then
    echo "$input: $program failed" >&2
    exit 1
  fi
  bash host/same.sh "$stored" "$out" "$program < $input"
  cmp "$err" /dev/null
  echo "$stored: ok"
done

# A folder can be opened and not read.
"${run[@]}" "$program" < host/report > "$out" 2> "$err" || true
cmp "$out" /dev/null
grep -qx "report: standard input could not be read" "$err"

# A full disk.
"${run[@]}" "$program" < host/report/version.in > /dev/full 2> "$err" || true
grep -qx "report: standard output could not be written" "$err"

# With the arguments it says how it is used. What came on standard input is still there.
explains() {
  local left
  left=$({ "${run[@]}" "$program" "$@" > "$out" 2> "$err"; cat; } < host/report/version.in | cksum)
  cmp "$out" /dev/null
  [ "$(head -1 "$err")" = "usage: report [HUB] < COMMAND_AND_CAPTURE" ]
  [ "$left" = "$(cksum < host/report/version.in)" ]
}

# An argument that is no hub's name: an option, a name of 0 or 16 bytes; and two that are names.
for argument in --help "" Lap quay-7 abcdefghijklmnop; do
  explains "$argument"
done
explains lap status

# Another name: a job that is held under it ends by a result with its handle, and not by one with lap's.
{
  echo status
  sed s/483a6c61703a/483a6375703a/g captures/example.capture
} > "$in"
{
  echo status
  cat captures/example.capture
} > "$lap"
"${run[@]}" "$program" < "$lap" > "$right"
"${run[@]}" "$program" cup < "$in" > "$out"
bash host/same.sh "$right" "$out" "$program cup"
"${run[@]}" "$program" cup < "$lap" > "$out"
if cmp -s "$right" "$out"; then
  echo "report cup: a result with the handle of lap ended a job" >&2
  exit 1
fi
