#!/usr/bin/env bash
# Makes target/library/drawtrack: the proved run under main.c, whose exit status tells results (0),
# a refusal (1) and failed input or output (2). run.c reads and writes for it. Proves crate
# drawtrack_run_c first. Linked statically where the C library is there for that, so that it starts
# on any Linux for x86-64.
set -eu
cd "$(dirname "$0")/../.."

mkdir -p target/library
log=target/library/staticlib.log
(cd crates/drawtrack_run_c && rt lib) >"$log" 2>&1 || { tail -n 40 "$log" >&2; exit 1; }

link() {
  gcc -std=c11 -O2 -Wall -Wextra -Werror "$@" library/drawtrack/main.c library/drawtrack/run.c \
    crates/drawtrack_run_c/out/libdrawtrack_run_c.a -o target/library/drawtrack
}
if ! link -static 2>/dev/null; then
  printf 'no static C library here: the program needs a glibc as new as this one\n' >&2
  link
fi
