#!/usr/bin/env bash
# The stored input and output of the programs `packet_print` and `packet_cases` are what an independent reading of the protocol text says:
# host/packet_cases.py computes them anew, and they must be equal to the byte.
set -euo pipefail
cd "$(dirname "$0")/../.."
for program in packet_print packet_cases; do
  for stream in stdin stdout; do
    if [ -e "crates/$program/$stream" ]; then
      python3 host/packet_cases.py "$stream" "$program" | cmp - "crates/$program/$stream"
    fi
  done
done
