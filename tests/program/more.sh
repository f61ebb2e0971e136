#!/usr/bin/env bash
# more.sh [INPUTS [SEED]]: more inputs than the gate's, with another seed. First examples/run.sh
# and library/drawtrack/build.sh.
set -eu
cd "$(dirname "$0")/.."
PROGRAM_INPUTS="${1:-5000}" PROGRAM_SEED="${2:-$RANDOM}" \
    cargo test --quiet --offline -p program --test compared -- --nocapture
