#!/usr/bin/env bash
# Prints one sum of the toolchain and of all that the archive and the programs are made from.
set -euo pipefail
cd "$(dirname "$0")/.."
{
  rt version
  find crates crates.txt -path 'crates/*/out' -prune -o -type f -print0 | sort -z | xargs -0 sha256sum
} | sha256sum | cut -d' ' -f1
