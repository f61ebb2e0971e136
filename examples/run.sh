#!/usr/bin/env bash
# run.sh [FILE]: proves and builds the program `drawtrack`, which is then target/bin/drawtrack, and
# runs it on a file with a settings line and a worklist; by default one draw, document 01's instance
# P2. Standard output is the program's alone: what is being proved, and in how long, goes to
# standard error.
set -euo pipefail
root=$(cd "$(dirname "$0")/.." && pwd)
file=${1:-$root/examples/one-draw.txt}
case $file in /*) ;; *) file=$PWD/$file ;; esac
[ -r "$file" ] || { printf 'run.sh: cannot read %s\n' "$file" >&2; exit 2; }
cd "$root"

# Each crate as it is proved, of what `rt` prints.
progress() {
  local line name
  while IFS= read -r line; do
    case $line in
      "rt: chose --jobs "*" for "*) name=${line##* } ;;
      "logic=proved "*) printf '  %s proved\n' "${name-drawtrack}" ;;
    esac
  done
}

# `rt run` builds the program, and runs it once on its own example.
log=$(mktemp)
trap 'rm -f "$log"' EXIT
started=$SECONDS
printf 'proving drawtrack and all that it stands on (some minutes the first time)\n' >&2
if (cd crates/drawtrack && rt run <stdin) 2>&1 | tee "$log" | progress >&2; then
  printf 'proved and built in %s s\n' "$((SECONDS - started))" >&2
else
  printf 'rt run in crates/drawtrack failed:\n' >&2
  grep -vE '^library |^statements |^logic|: proved$|large solution' "$log" |
    tail -n 50 | cut -c 1-500 >&2
  exit 1
fi
mkdir -p target/bin
cp crates/drawtrack/out/drawtrack target/bin/drawtrack
target/bin/drawtrack <"$file"
