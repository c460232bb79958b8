#!/usr/bin/env bash
# Measures one crate. bench.sh NAME builds benches/NAME.program as a program over a copy of the
# repository's crates, runs it, and prints what it prints: counts and milliseconds.
# It isn't part of the gate: figures differ from machine to machine and from run to run.
set -eu
here=$(cd "$(dirname "$0")" && pwd)
name=$1
top=$(mktemp -d)
trap 'rm -rf "$top"' EXIT
# (with what was proved there, so that only the bench itself is proved anew)
tar -C "$here/.." --exclude=incremental -cf - crates | tar -C "$top" -xf -
cp "$here/../HANDLES" "$top/"
{ cat "$here/../crates.txt"; printf 'bench_%s: %s\n' "$name" "$(head -n 1 "$here/$name.program" | sed 's,^// *needs: *,,')"; } >"$top/crates.txt"
mkdir -p "$top/crates/bench_$name/src"
tail -n +2 "$here/$name.program" >"$top/crates/bench_$name/src/main.rt"
cd "$top/crates/bench_$name"
rt run
