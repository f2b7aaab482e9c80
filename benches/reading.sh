#!/usr/bin/env bash
# Times the reading of a rule text of 65,536 bytes: 256 rules, then a comment up to the last byte. Run it by hand, on an
# idle machine. It prints milliseconds of a whole run for that text and for an empty one; the difference is the reading.
set -eu
top=$(cd "$(dirname "${BASH_SOURCE[0]}")/.." && pwd)
work=$(mktemp -d)
trap 'rm -rf "$work"' EXIT

for i in $(seq 0 255); do
  printf 'rule%d @ edge%d(Xa,Yb,Zc), path%d(Yb,Zc,const%d) \\ node%d(Zc,W), other(W,Q) <=> ' "$i" "$i" "$i" "$i" "$i"
  printf 'Xa > Yb + 3 * Q, W =< 12 // Zc, Yb \\== Zc | '
  printf 'N is (Xa + Yb) * 2 - Q mod 7, M is N + 1, made%d(N,M,Xa), again(Yb,Zc,Q,sym%d).\n' "$i" "$i"
done >"$work/rules.chr"
printf '%%%*s' $((65535 - $(stat -c %s "$work/rules.chr"))) '' >>"$work/rules.chr"
: >"$work/none.chr"
: >"$work/posts.txt"

"$top/chr" run "$work/none.chr" "$work/posts.txt" >/dev/null
runs=100
for text in rules none; do
  start=$(date +%s%N)
  for _ in $(seq $runs); do
    "$top/out/chr" run "$work/$text.chr" "$work/posts.txt" >/dev/null
  done
  end=$(date +%s%N)
  echo "$text: $(stat -c %s "$work/$text.chr") bytes, $(((end - start) / runs / 1000)) microseconds"
done
