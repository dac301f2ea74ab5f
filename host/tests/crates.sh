#!/usr/bin/env bash
# crates.txt lists for each crate those that it uses, and docs/CRATES.md has one line for each.
set -euo pipefail
cd "$(dirname "$0")/../.."
python3 host/crates.py
