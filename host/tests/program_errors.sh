#!/usr/bin/env bash
# Where its input cannot be read, or its output cannot be written, replay says so on standard error and ends, and so does show. Empty
# input writes nothing. One argument is the hub's name, whose handles alone are taken. Started with more, or with one that is no hub's
# name, each says how it is used, and reads and writes nothing else.
set -euo pipefail
cd "$(dirname "$0")/../.."
. host/x86_64.sh
folder=$(mktemp -d)
trap 'rm -rf "$folder"' EXIT
out=$folder/out
err=$folder/err

# With the arguments it says how it is used. What came on standard input is still there.
explains() {
  local left
  left=$({ "${run[@]}" "$program" "$@" > "$out" 2> "$err"; cat; } < captures/example.capture | cksum)
  cmp "$out" /dev/null
  [ "$(head -1 "$err")" = "usage: $name [HUB] < CAPTURE" ]
  [ "$left" = "$(cksum < captures/example.capture)" ]
}

for name in replay show; do
  program=target/bin/$name

  # A folder can be opened and not read.
  "${run[@]}" "$program" < captures > "$out" 2> "$err" || true
  cmp "$out" /dev/null
  grep -qx "$name: standard input could not be read" "$err"

  # A full disk.
  "${run[@]}" "$program" < captures/example.capture > /dev/full 2> "$err" || true
  grep -qx "$name: standard output could not be written" "$err"

  # An argument that is no hub's name: a file's name, as for other programs, an option, a name of 0 or 16 bytes; and two that are names.
  for argument in captures/example.capture --help "" Lap quay-7 abcdefghijklmnop; do
    explains "$argument"
  done
  explains lap lap

  # Nothing to read, without an argument and under the shortest and the longest name.
  for hub in "" 7 abcdefghijklmno; do
    "${run[@]}" "$program" ${hub:+"$hub"} < /dev/null > "$out" 2> "$err"
    cmp "$out" /dev/null
    cmp "$err" /dev/null
  done
done

# Under another name the handles of lap are no handles: the result in the last line is refused by 14. What captures with that name's handles
# are answered is held by captures.sh.
"${run[@]}" target/bin/replay cup < captures/example.capture > "$out"
[ "$(tail -n 1 "$out")" = 0e ]
