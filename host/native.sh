#!/usr/bin/env bash
# usage: native.sh FOLDER. Puts the archive into FOLDER to measure times with. The toolchain runs on x86-64 machines alone and builds for
# them: elsewhere there is no archive of the processor's own, and times of an emulated one say nothing.
set -euo pipefail
cd "$(dirname "$0")/.."
folder=$1
if [ "$(uname -m)" != x86_64 ]; then
  echo "native: this machine is $(uname -m), and the toolchain builds for x86-64 alone" >&2
  exit 1
fi
bash host/archive.sh
mkdir -p "$folder"
cp target/staticlib/liblap.a "$folder/liblap.a"
