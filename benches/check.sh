#!/usr/bin/env bash
# Times `chr check`, `chr explain` and `chr picture` beside the `chr run` that made the log, for seven kinds of programs at two
# sizes each, and prints a table in Markdown: entries, seconds, how many times as long as the run the check takes, and the most
# memory of both. It builds nothing: run it by hand, on an idle machine, once `./chr` is built. `check.sh KIND..` measures these
# kinds alone, CHR names another program. Times are of whole processes, reading and writing included; each is the best of REPEAT
# runs, three unless it is set.
set -eu
top=$(cd "$(dirname "${BASH_SOURCE[0]}")/.." && pwd)
program=${CHR:-$top/out/chr}
repeat=${REPEAT:-3}

if [ ! -x "$program" ]; then
  echo "check.sh: $program isn't there; ./chr --help builds it" >&2
  exit 2
fi
work=$(mktemp -d)
trap 'rm -rf "$work"' EXIT

# Each kind prints its rules and the goal of a size, apart by a line `--`.

chain() {
  cat <<RULES
gcd(0) <=> true.
gcd(N) \\ gcd(M) <=> 0 < N, N =< M | L is M - N, gcd(L).
--
gcd(1), gcd($1).
RULES
}

primes() {
  cat "$top/examples/primes/primes.chr"
  echo --
  echo "upto($1)."
}

# trees without ranks, one union after another
union_find() {
  cat <<RULES
build(0, N) <=> join(N).
build(I, N) <=> 0 < I | J is I - 1, root(I), build(J, N).
join(1) <=> true.
join(I) <=> 1 < I | J is I - 1, union(I, J, J).
union(A, A, J) <=> join(J).
up(A, B) \\ union(A, C, J) <=> union(B, C, J).
up(A, B) \\ union(C, A, J) <=> union(C, B, J).
root(A) \\ root(B), union(A, B, J) <=> up(B, A), join(J).
--
build($1, $1).
RULES
}

# the example, with unions of elements that lie far apart
ranks() {
  cat "$top/examples/union_find/union_find.chr"
  cat <<RULES
elements(0, N) <=> unions(N, N).
elements(I, N) <=> 0 < I | J is I - 1, make(I), elements(J, N).
unions(0, N) <=> true.
unions(I, N) <=> 0 < I | J is I - 1, K is I * 7919 mod N + 1, union(I, K), unions(J, N).
--
elements($1, $1).
RULES
}

# which nodes of a graph with three edges a node can be reached
reach() {
  cat <<RULES
nodes(0, N) <=> at(1).
nodes(I, N) <=> 0 < I | J is I - 1, A is I * 2 mod N + 1, B is I * 7 mod N + 1, C is I mod N + 1, edge(I, A), edge(I, B), edge(I, C), new(I), nodes(J, N).
at(X), edge(X, Y) \\ new(Y) <=> at(Y).
--
nodes($1, $1).
RULES
}

# sorting by merging chains of links
merge() {
  cat <<RULES
build(0, V, N) <=> true.
build(I, V, N) <=> 0 < I | J is I - 1, W is (V + 7919) mod N, run(1, W), build(J, W, N).
link(X, A) \\ link(X, B) <=> A < B | link(A, B).
run(N, A), run(N, B) <=> A < B | M is N + N, run(M, A), link(A, B).
--
build($1, 0, $1).
RULES
}

bank() {
  cat <<RULES
open(0, N) <=> pay(N, 1, N).
open(I, N) <=> 0 < I | J is I - 1, account(I, 1000), open(J, N).
pay(0, S, N) <=> true.
pay(I, S, N) <=> 0 < I | J is I - 1, T is (S * 7919 + 17) mod 1000003, A is T mod N + 1, B is T // 7 mod N + 1, V is T mod 100, transfer(A, B, V), pay(J, T, N).
transfer(A, A, V) <=> true.
transfer(A, B, V), account(A, X), account(B, Y) <=> V =< X | P is X - V, Q is Y + V, account(A, P), account(B, Q).
--
open($1, $1).
RULES
}

sizes() {
  case $1 in
    chain) echo 20000 200000 ;;
    primes) echo 1000 3000 ;;
    union_find | ranks) echo 500 5000 ;;
    reach | bank) echo 2000 20000 ;;
    merge) echo 1024 8192 ;;
    *) echo "check.sh: no kind $1" >&2 && return 2 ;;
  esac
}

# Prints the best seconds and the most kilobytes of a command.
measure() {
  local best=999999 most=0 seconds kilobytes
  for ((k = 0; k < repeat; k++)); do
    /usr/bin/env time -f '%e %M' -o "$work/time" "$@" >"$work/said"
    read -r seconds kilobytes <"$work/time"
    best=$(awk -v a="$best" -v b="$seconds" 'BEGIN { print a < b ? a : b }')
    [ "$most" -ge "$kilobytes" ] || most=$kilobytes
  done
  echo "$best $most"
}

echo "| Kind | Size | Entries | run s | check s | check / run | explain s | picture s | run KB | check KB | Answer |"
echo "|---|---|---|---|---|---|---|---|---|---|---|"
[ $# -gt 0 ] || set -- chain primes union_find ranks reach merge bank
for kind; do
  for size in $(sizes "$kind"); do
    "$kind" "$size" >"$work/made"
    sed '/^--$/,$d' "$work/made" >"$work/rules"
    sed '1,/^--$/d' "$work/made" >"$work/posts"
    read -r run run_room <<<"$(measure "$program" run "$work/rules" "$work/posts" --steps 4294967295 --log "$work/log" --store "$work/store")"
    read -r check check_room <<<"$(measure "$program" check "$work/rules" "$work/log" "$work/store")"
    answer=$(cat "$work/said")
    read -r explain _ <<<"$(measure "$program" explain "$work/rules" "$work/log" 2)"
    read -r picture _ <<<"$(measure "$program" picture "$work/rules" "$work/log" --from 1 --to 20)"
    times=$(awk -v a="$check" -v b="$run" 'BEGIN { printf "%.1f", a / (b < .01 ? .01 : b) }')
    echo "| $kind | $size | $(($(wc -l <"$work/log") - 1)) | $run | $check | $times | $explain | $picture | $run_room | $check_room | $answer |"
  done
done
