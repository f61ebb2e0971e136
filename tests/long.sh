#!/usr/bin/env bash
# long.sh [ARRIVALS [SEED]]: long runs of the batch call beside the separate implementation, so many
# arrivals for each of eight settings (ten million if not given). The product's archive first:
# `bash library/build.sh`.
set -eu
cd "$(dirname "$0")"
LONG_ARRIVALS="${1:-10000000}" LONG_SEED="${2:-1}" \
    cargo test --quiet --offline -p boundary --test long -- --ignored --nocapture |
    grep -v '^seed '
