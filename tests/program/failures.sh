#!/usr/bin/env bash
# What `drawtrack` writes and answers where reading or writing fails, is interrupted or comes in
# pieces: the program with an exit status (library/drawtrack) and the proved one, which has none.
# First examples/run.sh and library/drawtrack/build.sh. Its last line is 'N passed, M failed'.
# Injected failures want strace; where it is missing or may not trace this says so, and tries what
# pipes and closed descriptors show.
set -u
cd "$(dirname "$0")/../.." || exit 1
root=$PWD
folder=$(mktemp -d)
trap 'rm -rf "$folder"' EXIT

with_status=$root/target/library/drawtrack
proved=$root/target/bin/drawtrack
passed=0
failed=0

# tried NAME STATUS: compares what a try left in out, error and code with what is wanted in want-out
# and want-error. The proved program always answers 0.
tried() {
  local status=$2
  [ "$program" = "$proved" ] && status=0
  if [ "$(cat "$folder/code")" = "$status" ] &&
     cmp -s "$folder/out" "$folder/want-out" && cmp -s "$folder/error" "$folder/want-error"; then
    passed=$((passed + 1))
  else
    failed=$((failed + 1))
    printf 'FAILED: %s (%s): status %s\n' "$1" "$program" "$(cat "$folder/code")"
    head -n 5 "$folder/out" "$folder/error"
  fi
}
wants() { printf '%b' "$1" >"$folder/want-out"; printf '%b' "$2" >"$folder/want-error"; }
code() { printf '%s' "$1" >"$folder/code"; }

# Document 01's instance P2, whole and in the two pieces that the program writes.
input='1;1000;1000;500;6;10\n0;7;3\n'
messages='1 0 7 1\n2 0 1 3\n3 0 0 0\n4 0 0 0\n7 0 1 1\n'
results='listed 7\nclass 3\nmessages 5\n'
printf '%b' "$input" >"$folder/p2"

gcc -std=c11 -Wall -Wextra -Werror tests/program/nonblocking.c -o "$folder/nonblocking" || exit 1

for program in "$with_status" "$proved"; do
  # ---- Input

  wants "$messages$results" ''
  "$program" <"$folder/p2" >"$folder/out" 2>"$folder/error"
  code $?
  tried "a file on standard input" 0

  (printf '1;1000;1000;5'; sleep 0.2; printf '00;6;10\n0;'; sleep 0.2; printf '7;3\n') |
    "$program" >"$folder/out" 2>"$folder/error"
  code "${PIPESTATUS[1]}"
  tried "input in pieces" 0

  wants '' 'drawtrack: input failed: Bad file descriptor\n'
  "$program" <&- >"$folder/out" 2>"$folder/error"
  code $?
  tried "closed standard input" 2

  wants '' 'drawtrack: input failed: Is a directory\n'
  "$program" <"$folder" >"$folder/out" 2>"$folder/error"
  code $?
  tried "a directory on standard input" 2

  # A pipe that nobody has closed: with nothing in it, and with an input that would be whole.
  wants '' 'drawtrack: input failed: Resource temporarily unavailable\n'
  rm -f "$folder/pipe"
  mkfifo "$folder/pipe"
  exec 9<>"$folder/pipe"
  "$folder/nonblocking" 0 "$program" <&9 >"$folder/out" 2>"$folder/error"
  code $?
  tried "a non-blocking pipe with nothing in it" 2
  printf '%b' "$input" >&9
  "$folder/nonblocking" 0 "$program" <&9 >"$folder/out" 2>"$folder/error"
  code $?
  tried "a non-blocking pipe with a part of the input" 2
  exec 9>&-

  # ---- Output

  wants '' 'drawtrack: output failed: Bad file descriptor\n'
  : >"$folder/out"
  "$program" <"$folder/p2" >&- 2>"$folder/error"
  code $?
  tried "closed standard output" 2

  wants '' 'drawtrack: output failed: No space left on device\n'
  : >"$folder/out"
  "$program" <"$folder/p2" >/dev/full 2>"$folder/error"
  code $?
  tried "a full device" 2

  # A pipe that nobody reads any more.
  wants '' 'drawtrack: output failed: Broken pipe\n'
  : >"$folder/out"
  rm -f "$folder/pipe"
  mkfifo "$folder/pipe"
  exec 8<>"$folder/pipe" 9>"$folder/pipe" 8>&-
  (trap '' PIPE; exec "$program" <"$folder/p2" >&9 2>"$folder/error")
  code $?
  tried "a pipe without a reader" 2
  exec 9>&-

  # A pipe that is full: its 65536 bytes less than the first piece takes.
  wants '' 'drawtrack: output failed: Resource temporarily unavailable\n'
  : >"$folder/out"
  rm -f "$folder/pipe"
  mkfifo "$folder/pipe"
  exec 9<>"$folder/pipe"
  head -c 65536 /dev/zero >&9
  "$folder/nonblocking" 1 "$program" <"$folder/p2" >&9 2>"$folder/error"
  code $?
  tried "a full non-blocking pipe" 2
  exec 9>&-

  # A short write: a file may have 1024 bytes, so the write that reaches that place takes a part.
  { printf '1;1000;1000;500;6;10\n'; for _ in $(seq 300); do printf '0;7;3\n'; done; } \
    >"$folder/long"
  "$program" <"$folder/long" 2>"$folder/error" | head -c 1024 >"$folder/want-out"
  printf 'drawtrack: output failed: File too large\n' >"$folder/want-error"
  (trap '' XFSZ; ulimit -f 1; exec "$program" <"$folder/long" >"$folder/out" 2>"$folder/error")
  code $?
  tried "a short write" 2

  # A refusal's status stands, whoever reads the reason.
  wants 'refused 13\n' ''
  : >"$folder/error"
  printf 'x\n' | "$program" >"$folder/out" 2>&-
  code "${PIPESTATUS[1]}"
  tried "closed standard error" 1
done

# ---- File names, of the program that takes one

program=$with_status
wants "$messages$results" ''
(cd "$folder" && "$program" p2) >"$folder/out" 2>"$folder/error"
code $?
tried "a relative file name" 0

"$program" - <"$folder/p2" >"$folder/out" 2>"$folder/error"
code $?
tried "- for standard input" 0

"$program" "$folder/p2" <&- >"$folder/out" 2>"$folder/error"
code $?
tried "a file, with standard input closed" 0

wants '' 'drawtrack: missing: No such file or directory\n'
(cd "$folder" && "$program" missing) >"$folder/out" 2>"$folder/error"
code $?
tried "a missing file" 2

wants '' 'drawtrack: input failed: Is a directory\n'
"$program" "$folder" >"$folder/out" 2>"$folder/error"
code $?
tried "a directory" 2

wants '' 'drawtrack: more than one file name\n'
"$program" a b >"$folder/out" 2>"$folder/error"
code $?
tried "two file names" 2

# ---- The page's command that mends a file

printf '\xEF\xBB\xBF1;1000;1000;500;6;10\r\n\r\n 0; 7;3\t\r\n\n' >"$folder/export.txt"
wants 'refused 13\n' 'drawtrack: settings line: refused 13: malformed line\n'
"$program" "$folder/export.txt" >"$folder/out" 2>"$folder/error"
code $?
tried "a file from a spreadsheet" 1

mend=$(grep -m 1 "^sed -e" docs/DRAWTRACK.md)
printf '0;7;3' >>"$folder/export.txt"
(cd "$folder" && eval "$mend")
{ printf '%b' "$input"; printf '0;7;3\n'; } >"$folder/mended"
"$program" "$folder/mended" >"$folder/want-out"
: >"$folder/want-error"
"$program" "$folder/worklist.txt" >"$folder/out" 2>"$folder/error"
code $?
tried "the same, mended" 0

# ---- Injected failures

if ! strace -o "$folder/trace" true 2>/dev/null; then
  printf 'no strace here that may trace: EINTR, EIO and ENOSPC were not injected\n'
else
  for program in "$with_status" "$proved"; do
    # The reads before the first one of the input are the loader's.
    strace -o "$folder/trace" -e trace=read "$program" <"$folder/p2" >/dev/null
    first=$(awk '/^read\(0,/ { print NR; exit }' "$folder/trace")

    # injected NAME STATUS WHAT: a run on P2 with a failure injected.
    injected() {
      strace -o "$folder/trace" -e "inject=$3" "$program" \
        <"$folder/p2" >"$folder/out" 2>"$folder/error"
      code $?
      if ! grep -q INJECTED "$folder/trace"; then
        printf 'nothing was injected: %s\n' "$1" >>"$folder/error"
      fi
      tried "$1" "$2"
    }
    wants "$messages$results" ''
    injected "reads interrupted" 0 "read:error=EINTR:when=$first..$((first + 2))"
    injected "the read at the end interrupted" 0 "read:error=EINTR:when=$((first + 1))"
    injected "writes interrupted" 0 "write:error=EINTR:when=1..3"
    wants '' 'drawtrack: input failed: Input/output error\n'
    injected "the first read failed" 2 "read:error=EIO:when=$first"
    injected "a later read failed" 2 "read:error=EIO:when=$((first + 1))"
    wants '' 'drawtrack: input failed: Resource temporarily unavailable\n'
    injected "a later read would block" 2 "read:error=EAGAIN:when=$((first + 1))"
    wants '' 'drawtrack: output failed: No space left on device\n'
    injected "the first write failed" 2 "write:error=ENOSPC:when=1"
    wants "$messages" 'drawtrack: output failed: No space left on device\n'
    injected "a later write failed" 2 "write:error=ENOSPC:when=2"
  done
fi

printf '%s passed, %s failed\n' "$passed" "$failed"
[ "$failed" -eq 0 ]
