#!/usr/bin/env bash
# What the archive needs from outside is what README.md, docs/HOST.md and include/lap.h say: memcpy and memset, and nothing else. What it
# gives is the five functions of lap.h, and nothing else.
set -euo pipefail
cd "$(dirname "$0")/../.."
bash host/archive.sh
archive=target/staticlib/liblap.a
names() {
  nm "$@" "$archive" | awk 'NF > 1 { print $NF }' | sort -u | xargs
}
[ "$(names -u)" = "memcpy memset" ]
[ "$(names -g --defined-only)" = "lap_close lap_fresh lap_open lap_packet lap_text" ]
