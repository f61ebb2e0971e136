#!/usr/bin/env bash
# try-release.sh FOLDER: tries a release as a customer without the kit would, on a copy of it in an
# empty folder, with nothing of the repository. The last line is 'N passed, M failed'.
set -u
export LC_ALL=C
release=${1:?try-release.sh FOLDER}
here=$(mktemp -d) || exit 1
trap 'rm -rf "$here"' EXIT
cp -r "$release" "$here/release" || exit 1
cd "$here" || exit 1
unset DRAW_TRACKER_LIB
export CARGO_TARGET_DIR=$here/target

passed=0
failed=0
# try NAME COMMAND..: the command must end well; where it doesn't, the end of what it said is shown.
try() {
  local name=$1
  shift
  if "$@" >"$here/said" 2>&1; then
    passed=$((passed + 1))
    echo "$name"
  else
    failed=$((failed + 1))
    echo "FAILED: $name"
    tail -n 30 "$here/said"
  fi
}
# prints FILE COMMAND..: whether the command ends well and prints just this file.
prints() {
  local expected=$1
  shift
  "$@" >"$here/printed" && diff "$here/printed" "$expected"
}
examples=release/examples

sums() {
  (cd release && sha256sum --quiet -c SHA256SUMS &&
    find . -type f ! -name SHA256SUMS | sed 's,^\./,,' | sort |
    diff - <(sed -E 's/^[0-9a-f]{64}  //' SHA256SUMS))
}
try "every file is the one that SHA256SUMS has" sums

in_c() {
  gcc -std=c99 -Wall -Wextra -Werror -pedantic -I release/include $examples/bench.c \
    release/lib/libtracker.a -o in_c && prints $examples/bench.expected ./in_c
}
try "the example in C" in_c

in_cpp() {
  g++ -std=c++11 -Wall -Wextra -Werror -I release/include -x c++ $examples/bench.c -x none \
    release/lib/libtracker.a -o in_cpp && prints $examples/bench.expected ./in_cpp
}
try "the same as C++" in_cpp

# A program of the customer's own, over the crate.
in_rust() {
  mkdir -p own/src && cp $examples/bench.rs own/src/main.rs &&
    printf '[package]\nname = "own"\nversion = "0.1.0"\nedition = "2021"\n[dependencies]\n%s\n' \
      'draw-tracker = { path = "../release/rust" }' >own/Cargo.toml &&
    prints $examples/bench.expected cargo run -q --offline --manifest-path own/Cargo.toml
}
try "the example in Rust" in_rust
try "the crate's own tests" cargo test -q --offline --locked --manifest-path release/rust/Cargo.toml

# The program starts without the kit: it asks for no shared library but those of every machine.
program_needs() {
  local needs
  needs=$(readelf -d release/bin/drawtrack | grep -E 'NEEDED|RPATH|RUNPATH' |
    grep -vE '\[(libc\.so\.6|libm\.so\.6|ld-linux-x86-64\.so\.2)\]')
  echo "$needs"
  [ -z "$needs" ]
}
try "drawtrack needs nothing but the C library" program_needs
# Each worklist that has an output beside it; a refusal may have an exit status of its own.
worklists() {
  local worklist tried=0
  for worklist in $examples/*.txt; do
    [ -f "${worklist%.txt}.out" ] || continue
    env -i release/bin/drawtrack <"$worklist" >"$here/printed"
    diff "$here/printed" "${worklist%.txt}.out" || return
    tried=$((tried + 1))
  done
  [ "$tried" -gt 0 ]
}
try "drawtrack on the worklists" worklists

# Every link of a page that leads to a file leads to one of the release.
links() {
  local page link lost=0
  for page in release/doc/*.md; do
    for link in $(grep -oE '\]\([^)#]+' "$page" | cut -c 3- | grep -v '^https\?:'); do
      [ -e "release/doc/$link" ] || { echo "$page: $link"; lost=1; }
    done
  done
  return "$lost"
}
try "the links of the manual pages" links

# Nothing above wrote into the release.
try "the release is as it was" sums
echo "$passed passed, $failed failed"
[ "$failed" -eq 0 ]
