#!/usr/bin/env bash
# The proved sums of bytes for `bench sums` (request N4), twice from the same proved code:
# target/staticlib/libchecksum_singly.a, compiled as the product is, and
# target/sums/libsums_plain.a, compiled without vector instructions, its names with plain_ before
# them.
#
# rt has no word for that: the second is built by the kit's own prover, over the libraries that the
# first was built over, with a clang that is told not to use them.
set -eu
cd "$(dirname "$0")/.."
kit=$(dirname "$(dirname "$(readlink -f "$(command -v rt)")")")
crate=crates/checksum_singly_c
made=target/staticlib/libchecksum_singly.a
mkdir -p target/staticlib target/sums
(cd "$crate" && rt lib 2>&1) | tail -n 1
# Every function begins at a multiple of 64 bytes, as in libtracker.a.
objcopy --set-section-alignment '.text.*=64' "$crate/out/libchecksum_singly_c.a" "$made"

plain=$(mktemp -d)
trap 'rm -rf "$plain"' EXIT
mkdir -p "$plain/bin"
ln -s "$kit/toolchain/lib" "$plain/lib"
for tool in "$kit/toolchain/bin"/*; do
  [ "${tool##*/}" = clang ] || ln -s "$tool" "$plain/bin/"
done
printf '#!/bin/sh\nexec %s "$@" -fno-vectorize -fno-slp-vectorize\n' "$kit/toolchain/bin/clang" \
  >"$plain/bin/clang"
chmod +x "$plain/bin/clang"

words=()
for library in core io libc os std; do words+=(--extern "$library=$kit/rlibs/$library.rlib"); done
for library in checksum checksum_singly; do
  words+=(--extern "$library=$PWD/crates/$library/out/rlib/$library.rlib")
done
for folder in "$kit/rlibs" "$PWD"/crates/*/out/rlib; do words+=(-L "dependency=$folder"); done
(cd "$crate" && "$kit/bin/rattle" build --crate-name checksum_singly_c src/lib.rt "${words[@]}" \
  --antt-project "$kit/rattle/logic/antt-project.json" --logic-built "$kit/logic_built" --jobs 1 \
  --links checksum_singly_c= --crate-type staticlib --toolchain "$plain" --backend llvm \
  -o "$plain/plain.a" 2>&1) | tail -n 1
objcopy --prefix-symbols=plain_ --set-section-alignment '.text.*=64' "$plain/plain.a" \
  target/sums/libsums_plain.a
if objdump -d target/sums/libsums_plain.a | grep -q '%[xyz]mm'; then
  echo "the plain sums use vector instructions" >&2
  exit 1
fi
echo "$made and target/sums/libsums_plain.a"
