#!/usr/bin/env bash
# Draws every picture of docs/ anew. With the word `check` it changes nothing, names each picture
# that is not what its script draws, and fails if there is one: the gate's question.
#
#   docs/layers.svg         docs/layers.sh, from crates.txt
#   docs/messages.svg       bench/messages, which also makes the table of docs/MESSAGES.md
#   docs/pictures/NAME.svg  docs/pictures/NAME.sh; svg.sh has what these share
#
# Some 15 seconds, nearly all of them for the messages that are counted.
set -eu
cd "$(dirname "$0")/../.."

drawn=$(mktemp -d)
trap 'rm -rf "$drawn"' EXIT
mkdir "$drawn/pictures"

bash docs/layers.sh >"$drawn/layers.svg"
for script in docs/pictures/*.sh; do
  name=$(basename "$script" .sh)
  case "$name" in make | svg) continue ;; esac
  bash "$script" >"$drawn/pictures/$name.svg"
done
(cd bench/messages &&
  cargo run --quiet --release --offline -- "$drawn/messages.md" "$drawn/messages.svg")

differing=0
differs() {
  printf '%s\n' "$*"
  differing=1
}

# The table is the only one of its page.
grep '^|' docs/MESSAGES.md | cmp -s - "$drawn/messages.md" ||
  differs "docs/MESSAGES.md has another table than bench/messages makes"

if [ "${1:-}" != check ]; then
  cp "$drawn"/*.svg docs/
  cp "$drawn"/pictures/*.svg docs/pictures/
fi
for picture in $(for folder in docs "$drawn"; do
  (cd "$folder" && printf '%s\n' ./*.svg pictures/*.svg)
done | sort -u); do
  cmp -s "docs/$picture" "$drawn/$picture" ||
    differs "docs/${picture#./} is not what its script draws"
done
exit "$differing"
