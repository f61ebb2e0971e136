#!/usr/bin/env bash
# release.sh [--built] [FOLDER]: all that a customer without the kit needs, in one new folder;
# target/release-COMMIT if none is named. From any current folder; FOLDER is from there.
#
# It builds first: the archives (build.sh) and the program (drawtrack/build.sh). With --built it
# takes those that stand in target/library. What a release holds:
#   README.md  what is where (RELEASE.md)
#   include/   tracker.h, controller.h
#   lib/       libtracker.a, libcontroller.a
#   rust/      the crate draw-tracker, which finds ../lib by itself
#   bin/       drawtrack
#   doc/       the manual pages: README.md, INTEGRATORS.md, DRAWTRACK.md, GLOSSARY.md and the others
#   examples/  in C and Rust, with their link lines, and worklists with what drawtrack prints
#   COMMIT     the commit, and which files differed from it
#   RATTLE     the kit's version
#   SHA256SUMS of all other files: `sha256sum -c SHA256SUMS`
set -u
export LC_ALL=C
library=$(cd "$(dirname "$0")" && pwd) || exit 1
top=$(dirname "$library")
built=$top/target/library

stop() {
  echo "release.sh: $*" >&2
  exit 1
}

again=yes
if [ "${1-}" = --built ]; then
  again=no
  shift
fi
commit=$(git -C "$top" rev-parse HEAD) || stop "$top is no git repository, so it has no commit"
final=${1-$top/target/release-${commit:0:12}}
[ ! -e "$final" ] || rmdir "$final" 2>/dev/null || stop "$final is there already, and not empty"

if [ "$again" = yes ]; then
  bash "$library/build.sh" || stop "the archives could not be built"
fi
if [ "$again" = yes ] || [ ! -x "$built/drawtrack" ]; then
  [ -f "$library/drawtrack/build.sh" ] || stop "there is no library/drawtrack/build.sh"
  bash "$library/drawtrack/build.sh" || stop "drawtrack could not be built"
fi

# It has another name until it is whole.
folder=$final.unfinished
rm -rf "$folder"
mkdir -p "$folder" && folder=$(cd "$folder" && pwd) || stop "$folder cannot be made"
# put FOLDER FILE..: copies files into a folder of the release, each of which must be there.
put() {
  local into=$folder/$1
  shift
  mkdir -p "$into"
  cp "$@" "$into/" || stop "a file of the release is missing"
}
cp "$library/RELEASE.md" "$folder/README.md" || stop "no RELEASE.md"
put include "$library/include/controller.h" "$library/include/tracker.h"
put lib "$built/libtracker.a" "$built/libcontroller.a"
put bin "$built/drawtrack"
# The manual pages; README.md stands among them here, so its links lose their folder.
for page in INTEGRATORS.md DRAWTRACK.md GLOSSARY.md; do put doc "$top/docs/$page"; done
put doc "$top"/docs/*.md "$top"/docs/*.svg "$top/CHANGELOG.md"
[ ! -d "$top/docs/pictures" ] || put doc/pictures "$top"/docs/pictures/*.svg
cp "$top/bench/README.md" "$folder/doc/BENCH.md" || stop "no bench/README.md"
sed 's,](docs/,](,g; s,](bench/README\.md),](BENCH.md),g' "$top/README.md" \
  >"$folder/doc/README.md" || stop "no README.md"
put examples "$library/examples/README.md" "$library/examples/bench.c" \
  "$library/examples/bench.expected" "$library/rust/examples/bench.rs"
# Worklists, each with what drawtrack prints beside it.
put examples "$top"/examples/*.txt
cp "$top/crates/drawtrack/stdout" "$folder/examples/one-draw.out" || stop "no drawtrack/stdout"
for output in "$top"/examples/*.out; do
  [ ! -f "$output" ] || put examples "$output"
done
# The crate as it stands in the working tree, without what cargo builds.
mkdir -p "$folder/rust"
(cd "$library/rust" && git ls-files -z | xargs -0 cp --parents -t "$folder/rust") ||
  stop "a file of the crate is missing"

{
  echo "$commit"
  changed=$(git -C "$top" status --porcelain)
  if [ -z "$changed" ]; then
    echo "built from a clean tree"
  else
    echo "built from a tree that differs:"
    echo "$changed"
  fi
} >"$folder/COMMIT"
rt version >"$folder/RATTLE" 2>&1 || stop "rt version"
(cd "$folder" && find . -type f ! -name SHA256SUMS | sed 's,^\./,,' | sort | xargs sha256sum) \
  >"$folder/SHA256SUMS" || stop "the sums"
(cd "$folder" && sha256sum --quiet -c SHA256SUMS) || stop "the sums are not those of the files"
mv -T "$folder" "$final" || stop "$final cannot be made"
echo "$final: $(wc -l <"$final/SHA256SUMS") files, $(head -n 1 "$final/RATTLE")"
cat "$final/COMMIT"
