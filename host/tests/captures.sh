#!/usr/bin/env bash
# For each stored capture, replay prints its stored answer and show its stored words, to the byte. REPLAY and SHOW name the programs;
# where they are not set, those in target/bin are run. The first difference ends the test.
set -euo pipefail
cd "$(dirname "$0")/../.."
bash host/captures.sh "${REPLAY:-target/bin/replay}" answer
bash host/captures.sh "${SHOW:-target/bin/show}" shown
