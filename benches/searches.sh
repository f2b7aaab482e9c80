#!/usr/bin/env bash
# Times the trials of searches, from `candidate` by `judge` to `advance`, in nanoseconds each. Run it by hand, on an idle
# machine, where `rt all check` or `./prove` has been run: it builds the program benches/searches/main.rt.txt in a copy of the crates
# with what `rt` keeps of their proofs, which takes a few minutes.
set -eu
top=$(cd "$(dirname "${BASH_SOURCE[0]}")/.." && pwd)
work=$(mktemp -d)
trap 'rm -rf "$work"' EXIT

tar -C "$top" -c --exclude=out/incremental HANDLES crates | tar -C "$work" -x
mkdir -p "$work/crates/bench_searches/src"
cp "$top/benches/searches/main.rt.txt" "$work/crates/bench_searches/src/main.rt"
(cat "$top/crates.txt" && echo "bench_searches: chr_search chr_text chr_plan chr_store chr_rule chr_value") >"$work/crates.txt"
if ! env -C "$work/crates/bench_searches" rt run >"$work/log" 2>&1; then
  tail -n 20 "$work/log" >&2
  exit 1
fi
"$work/crates/bench_searches/out/bench_searches"
