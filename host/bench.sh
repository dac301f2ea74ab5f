#!/usr/bin/env bash
# Times submit, grab and complete on this computer: the archive beside the ordinary server of host/peer. With --before FOLDER the older
# liblap.a of that folder takes its turn as well. It may be one whose lap_fresh takes no name yet: it is given one all the same, which it
# does not look at, and its handles say lap as those of the others here do. It needs an x86-64 machine (host/native.sh).
# usage: host/bench.sh [--before FOLDER] [--rounds N] [--events N]
set -euo pipefail
older=
if [ "${1:-}" = --before ]; then
  older=$(realpath "${2:?--before needs the folder of an older liblap.a}")
  shift 2
fi
cd "$(dirname "$0")/.."
bash host/native.sh target/native

# Two archives in one program: the older one's functions get other names. An archive has no other names that a program can see.
features=archive
if [ -n "$older" ]; then
  export LAP_ARCHIVE_BEFORE_DIR=$PWD/target/before
  mkdir -p "$LAP_ARCHIVE_BEFORE_DIR"
  objcopy --redefine-sym lap_fresh=before_fresh --redefine-sym lap_open=before_open --redefine-sym lap_close=before_close \
    --redefine-sym lap_packet=before_packet --redefine-sym lap_text=before_text "$older/liblap.a" "$LAP_ARCHIVE_BEFORE_DIR/liblap_before.a"
  features=before
fi
export CARGO_TARGET_DIR=$PWD/target/peer
export LAP_ARCHIVE_DIR=$PWD/target/native
cargo build --release --offline -j2 --quiet --manifest-path host/peer/Cargo.toml --features "$features" --bin bench
"$CARGO_TARGET_DIR/release/bench" "$@"
