#!/usr/bin/env bash
# The hub of host/hub, over real sockets of 127.0.0.1: several workers and boards at once, bytes in any pieces, bad streams, a killed
# worker, an exception, a slow reader, a connection number used again, the 17th client, signals, a restart with the kept serial and one
# without, hubs of several names, handles of other hubs, and what is no name (host/hub_drive.py). What it sent is what its capture replays
# to under its name, for each connection. REPLAY names the program; where it is not set, it is target/bin/replay, or else
# host/replay/replay.c over the archive.
set -euo pipefail
cd "$(dirname "$0")/../.."
bash host/archive.sh
. host/x86_64.sh
build=target/hub
mkdir -p "$build"
strict=(-std=c11 -O2 -Wall -Wextra -Werror -pedantic -Iinclude)
"${tools}gcc" "${strict[@]}" host/hub/hub.c host/hub/stream.c host/hub/system.c target/staticlib/liblap.a -o "$build/hub"
replay=${REPLAY:-target/bin/replay}
if [ ! -x "$replay" ]; then
  replay=$build/replay
  "${tools}gcc" "${strict[@]}" host/replay/replay.c target/staticlib/liblap.a -o "$replay"
fi
python3 -B host/hub_drive.py "$build" "${run[*]} $replay" "${run[*]} $build/hub"
