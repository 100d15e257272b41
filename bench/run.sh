#!/bin/sh
# Builds the benchmark outside the repository and runs it. Needs Debian's libfec-dev and gcc.
set -e
here=$(cd "$(dirname "$0")/.." && pwd)
work=${1:-/tmp/aisle-bench}
mkdir -p "$work"
rsync -a --delete --exclude .git --exclude out "$here/" "$work/" 2>/dev/null || { rm -rf "$work"; cp -r "$here" "$work"; }
mkdir -p "$work/crates/bench_exports/src"
cp "$here/bench/exports.rt.txt" "$work/crates/bench_exports/src/lib.rt"
echo 'bench_exports staticlib: coder field rs_algebra reed_solomon' >> "$work/crates.txt"
(cd "$work/crates/bench_exports" && rt lib)
gcc -O2 -o "$work/bench_words" "$here/bench/bench.c" "$work/crates/bench_exports/out/libbench_exports.a" -lfec -lm
"$work/bench_words"
