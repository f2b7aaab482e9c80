#!/usr/bin/env bash
# Prints, as a table in Markdown, how many thousand tasks a second pass through the pool and through a queue under one
# lock (`Mutex<VecDeque>`), for 1, 2 and 4 hands, each the fastest of five runs of 4,194,304 tasks. In `rows` each hand
# pushes rows of 64 tasks and takes as many; in `stealing` one hand has pushed all tasks, and all hands take until there
# are none. Run it by hand, on an idle machine. It proves and builds the program in a copy: a minute where
# crates/chr_pool is built, else some minutes. The gate refuses a .rt file that no crate has, so the program's text is
# benches/pool/main.rt.txt.
set -eu
top=$(cd "$(dirname "${BASH_SOURCE[0]}")/.." && pwd)
work=$(mktemp -d)
trap 'rm -rf "$work"' EXIT
trap 'exit 130' INT TERM HUP

mkdir -p "$work/crates/pool/src"
cp -r "$top/crates/chr_pool" "$work/crates/"
cp "$top/HANDLES" "$work/"
cp "$top/benches/pool/main.rt.txt" "$work/crates/pool/src/main.rt"
{ grep '^chr_pool:' "$top/crates.txt"; echo 'pool: chr_pool'; } >"$work/crates.txt"
cd "$work/crates/pool"
rt run >"$work/table" 2>"$work/log" || { tail -n 20 "$work/log" >&2; exit 1; }
cat "$work/table"
