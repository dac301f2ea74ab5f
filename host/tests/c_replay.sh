#!/usr/bin/env bash
# A C program over the archive and its header answers every stored capture as its stored answer says. The header stands by itself, in C
# and, where this machine has g++, in C++.
set -euo pipefail
cd "$(dirname "$0")/../.."
bash host/archive.sh
. host/x86_64.sh
build=target/c_replay
mkdir -p "$build"
strict=(-Wall -Wextra -Werror -pedantic -Iinclude)
"${tools}gcc" -std=c11 "${strict[@]}" -fsyntax-only -x c include/lap.h
if command -v g++ > /dev/null; then
  g++ -std=c++11 "${strict[@]}" -fsyntax-only -x c++ include/lap.h
fi
"${tools}gcc" -std=c11 -O2 "${strict[@]}" host/replay/replay.c target/staticlib/liblap.a -o "$build/replay"
bash host/captures.sh "$build/replay" answer > "$build/log" || { tail -n 12 "$build/log"; exit 1; }
