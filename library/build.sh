#!/usr/bin/env bash
# build.sh [join]: makes the product's archives, from any current folder.
#
# Proves the crates below with all that they stand on, compiles them (crates/NAME/out/libNAME.a),
# and joins what they export into target/library/libtracker.a; libcontroller.a, with its three
# calls, comes beside it. The archive of the sums that tests and benchmarks compare (request N4) is
# made too, and stays in target/staticlib. With `join` the archives that stand in target/staticlib
# are joined as they are, without a proof: for whoever has just proved them. The last line is
# 'N passed, M failed': one for each crate, and three for the joined archives.
set -u
export LC_ALL=C
cd "$(dirname "$0")/.." || exit 1

# Static libraries that only export: each stands on the libraries whose calls it passes on.
crates="controller_c tracker_c library_batch_c"
# For tests and benchmarks, joined to nothing.
apart="checksum_singly_c"
headers=library/include
made=target/staticlib
out=target/library

passed=0
failed=0
pass() { passed=$((passed + 1)); }
fail() { failed=$((failed + 1)); echo "FAILED: $*"; }
finish() {
  echo "$passed passed, $failed failed"
  [ "$failed" -eq 0 ]
  exit
}

for tool in rt ld objcopy ar nm nproc; do
  command -v "$tool" >/dev/null || fail "no $tool on this machine"
done
[ "$failed" -eq 0 ] || finish

# How many crates are proved at once: one for each processor, and for each 3 GB of memory.
at_once=$(awk '/^MemAvailable:/ { print int($2 / 3000000) }' /proc/meminfo)
[ "$at_once" -lt "$(nproc)" ] || at_once=$(nproc)
[ "$at_once" -gt 0 ] || at_once=1

# prove CRATE: first all that it stands on, side by side. The last line of a proof counts what it
# assumes, if anything: a library assumes nothing. Archives lose the end of their crate's name.
prove() {
  local log status verdict started=$SECONDS
  log=$(mktemp)
  if ! (cd "crates/$1" && rt all check --jobs "$at_once") >"$log" 2>&1; then
    fail "what $1 stands on is not proved"
    grep -E 'error|^fn .*: no|: failed|: not run' "$log" | head -n 20
    rm -f "$log"
    return
  fi
  (cd "crates/$1" && rt lib) >"$log" 2>&1
  status=$?
  verdict=$(grep -E '^logic=' "$log" | tail -n 1)
  assumed=$(grep -E '^axioms ' "$log" | grep -v ': none reached')
  case "$status $verdict $assumed" in
    *axioms=* | *foreign=* | *axioms\ *) fail "lib$1.a assumes contracts: $verdict $assumed" ;;
    "0 logic=proved "*)
      mkdir -p "$made" && cp "crates/$1/out/lib$1.a" "$made/lib${1%_c}.a" || return
      pass
      echo "lib$1.a, $((SECONDS - started)) s: $verdict"
      ;;
    *) fail "rt lib in crates/$1 (exit $status): $verdict"; tail -n 20 "$log" ;;
  esac
  rm -f "$log"
}

# An archive of an earlier run is never taken for this one's.
mkdir -p "$out"
rm -f "$out/libtracker.a" "$out/libcontroller.a"
if [ "${1-}" = join ]; then
  echo "joining what stands in $made, proved or not"
else
  for crate in $crates $apart; do rm -f "$made/lib${crate%_c}.a"; done
  echo "proving what the library stands on, and compiling $crates $apart"
  for crate in $crates $apart; do prove "$crate"; done
fi
[ "$failed" -eq 0 ] || finish

# The calls that headers declare, one a line.
declared() { sed -nE 's/^uint32_t (tracker_[a-z_]+)\(.*/\1/p' "$@" | sort; }
# The names that an archive shows to whoever links it, and those that it asks for.
shown() { nm --defined-only --extern-only "$1" | awk 'NF == 3 { print $3 }' | sort; }
asked() { nm --undefined-only "$1" | awk 'NF == 2 { print $2 }' | sort -u; }

# Each crate's archive keeps its own copies of what it calls: there the compiler builds a function
# into its only caller (docs/DECISIONS.md 38). Only the declared calls stay visible. Every function
# begins at a multiple of 64 bytes, so that the short loops over slots and numbers lie in the same
# places of a line whatever a product links before them: where one of their branches crosses 32
# bytes, they take up to twice their time (bench/README.md).
aligned() {
  local crate
  for crate in $crates; do
    objcopy --set-section-alignment '.text.*=64' "$made/lib${crate%_c}.a" \
      "$out/parts/$crate.a" || return
  done
}
rm -rf "$out/parts"
mkdir -p "$out/parts"
declared "$headers/controller.h" "$headers/tracker.h" >"$out/names"
if aligned &&
  ld -r -o "$out/tracker.o" --whole-archive "$out"/parts/*.a &&
  objcopy --keep-global-symbols="$out/names" "$out/tracker.o" &&
  ar rcsD "$out/libtracker.a" "$out/tracker.o" &&
  cp "$made/libcontroller.a" "$out/"; then
  if shown "$out/libtracker.a" | diff - "$out/names"; then
    pass
  else
    fail "libtracker.a shows (<) other names than tracker.h and controller.h declare (>)"
  fi
  if shown "$out/libcontroller.a" | diff - <(declared "$headers/controller.h"); then
    pass
  else
    fail "libcontroller.a shows (<) other names than controller.h declares (>)"
  fi
  # No other library is needed: what is asked for, every C compiler's own functions are.
  wanted=$(asked "$out/libtracker.a" | grep -vxE 'memcpy|memmove|memset|memcmp|bcmp' | tr '\n' ' ')
  if [ -z "$wanted" ]; then pass; else fail "libtracker.a asks for: $wanted"; fi
  echo "$out/libtracker.a, $(wc -l <"$out/names") calls, $(wc -c <"$out/libtracker.a") bytes"
else
  fail "the archives could not be joined"
fi
rm -rf "$out/parts" "$out/tracker.o" "$out/names"
finish
