#!/usr/bin/env bash
# usage: peer.sh [--events N] [--seed N]. Both go on to the long comparison: N random events instead of 300,000, from another seed than 1.
# The archive does what an ordinary job server in Rust does, written from the documents alone: the same number, length, output, table and
# workloads, byte for byte, in fixed, random and twin histories on hubs of many names, on fresh and damaged tables and on buffers that are
# too short; lines for the text entry are asked between the events. The ordinary server passes its own tests first. The program show prints
# what the ordinary server's show prints, on random captures of the hub lap; SHOW names it, or else it is target/bin/show. Last, the
# comparing program must find each of the 49 faults of host/peer/tests/faults.c and hub_faults.c.
set -euo pipefail
cd "$(dirname "$0")/../.."
bash host/archive.sh
. host/x86_64.sh
archive=$PWD/target/staticlib
faulty=$PWD/target/faulty
options=(--offline -j2 --quiet --manifest-path host/peer/Cargo.toml)

export CARGO_TARGET_DIR=$PWD/target/peer
cargo test "${options[@]}"
LAP_ARCHIVE_DIR=$archive "${cross[@]}" cargo build --release "${options[@]}" --features archive --bin compare --bin capture --bin show
programs=$CARGO_TARGET_DIR/$programs_of

# The long comparison runs beside what follows and is waited for at the end.
compared=$PWD/target/compared
"${run[@]}" "$programs/compare" "$@" > "$compared" &
comparing=$!
trap 'kill "$comparing" 2> /dev/null || true' EXIT

# 20,000 lines in four captures: the mix of compare's histories, and damaged lines.
show=${SHOW:-target/bin/show}
words=$PWD/target/words
mkdir -p "$words"
for seed in 1 2 3 4; do
  "${run[@]}" "$programs/capture" --lines 5000 --seed "$seed" > "$words/capture"
  "${run[@]}" "$programs/show" < "$words/capture" > "$words/right"
  "${run[@]}" "$show" < "$words/capture" > "$words/printed"
  bash host/same.sh "$words/right" "$words/printed" "$show, seed $seed"
done
echo "same: 20000 lines of random captures in words"

# The faulty archive: the right one with its functions renamed, and the faults on top. It has a cargo folder of its own, so that the right
# comparing program stays linked with the right archive.
mkdir -p "$faulty"
rm -f "$faulty/liblap.a"
"${tools}objcopy" --redefine-sym lap_fresh=core_fresh --redefine-sym lap_open=core_open --redefine-sym lap_close=core_close \
  --redefine-sym lap_packet=core_packet --redefine-sym lap_text=core_text "$archive/liblap.a" "$faulty/liblap.a"
for part in faults hub_faults; do
  "${tools}gcc" -std=c11 -O2 -Wall -Wextra -Werror -Iinclude -c "host/peer/tests/$part.c" -o "$faulty/$part.o"
done
"${tools}ar" r "$faulty/liblap.a" "$faulty/faults.o" "$faulty/hub_faults.o"
export CARGO_TARGET_DIR=$faulty/cargo
LAP_ARCHIVE_DIR=$faulty "${cross[@]}" cargo build --release "${options[@]}" --features archive --bin compare
compare=$CARGO_TARGET_DIR/$programs_of/compare
LAP_FAULT=0 "${run[@]}" "$compare" --events 2000 > "$faulty/printed"
for fault in $(seq 1 49); do
  status=0
  LAP_FAULT=$fault "${run[@]}" "$compare" --events 60000 > "$faulty/printed" || status=$?
  if [ "$status" != 1 ]; then
    echo "fault $fault was not found (exit status $status)"
    exit 1
  fi
done
echo "49 faults found, 0 missed"

status=0
wait "$comparing" || status=$?
cat "$compared"
exit "$status"
