#!/usr/bin/env bash
# The README's C program is host/hub/smallest.c; built over the archive as the README says, it prints what the README says.
set -euo pipefail
cd "$(dirname "$0")/../.."
bash host/archive.sh
. host/x86_64.sh
mkdir -p target/smallest
"${tools}gcc" -std=c11 -Wall -Wextra -Werror -pedantic -Iinclude host/hub/smallest.c target/staticlib/liblap.a -o target/smallest/smallest
"${run[@]}" target/smallest/smallest > target/smallest/printed
bash host/same.sh host/hub/smallest.printed target/smallest/printed "the README's program"
python3 host/readme.py host/hub/smallest.c host/hub/smallest.printed captures/example.capture captures/example.shown
