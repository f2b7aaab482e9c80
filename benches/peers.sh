#!/usr/bin/env bash
# Times `chr run` against SWI-Prolog's library(chr) on eight programs of different shape, at three sizes each, and prints a
# table in Markdown: both times, how many times as fast `chr` is, and by how much each time grows from size to size. It
# builds nothing: run it by hand, on an idle machine, once `./chr` is built. `peers.sh SHAPE..` runs these shapes alone.
# Both run the same rules. The peer has modes declared and is optimised (`-O`, `optimize(full)`), and its time is that of
# the goal alone, without loading or compiling. That of `chr` is of the whole process with `--show store`, less that of one
# that makes no calls. Each is the best of REPEAT runs, three unless it is set. The final stores are compared without labels.
set -eu
top=$(cd "$(dirname "${BASH_SOURCE[0]}")/.." && pwd)
program=$top/out/chr
repeat=${REPEAT:-3}
most=4294967295

if [ ! -x "$program" ]; then
  echo "peers.sh: $program isn't there; ./chr --help builds it" >&2
  exit 2
fi
if ! command -v swipl >/dev/null; then
  echo "peers.sh: swipl isn't there; on Debian, apt-get install swi-prolog-nox" >&2
  exit 2
fi
work=$(mktemp -d)
trap 'rm -rf "$work"' EXIT

# Each shape prints its constraints with their arities, its rules, and the goal of a size, apart by lines `--`.

chain() {
  cat <<RULES
gcd/1
--
gcd(0) <=> true.
gcd(N) \\ gcd(M) <=> 0 < N, N =< M | L is M - N, gcd(L).
--
gcd(1), gcd($1)
RULES
}

# one head: a loop, which the peer compiles to a clause that calls itself, with no store
loop() {
  cat <<RULES
fib/3
--
fib(0, A, B) <=> true.
fib(N, A, B) <=> 0 < N | M is N - 1, C is (A + B) mod 1000007, fib(M, B, C).
--
fib($1, 0, 1)
RULES
}

sieve() {
  cat <<RULES
candidate/1 prime/1
--
candidate(1) <=> true.
candidate(N) <=> 1 < N | M is N - 1, prime(N), candidate(M).
prime(I) \\ prime(J) <=> J mod I =:= 0 | true.
--
candidate($1)
RULES
}

# the unions come one after another, so that the trees don't depend on the order in which goals are taken
union_find() {
  cat <<RULES
build/2 join/1 union/3 up/2 root/1
--
build(0, N) <=> join(N).
build(I, N) <=> 0 < I | J is I - 1, root(I), build(J, N).
join(1) <=> true.
join(I) <=> 1 < I | J is I - 1, union(I, J, J).
union(A, A, J) <=> join(J).
up(A, B) \\ union(A, C, J) <=> union(B, C, J).
up(A, B) \\ union(C, A, J) <=> union(C, B, J).
root(A) \\ root(B), union(A, B, J) <=> up(B, A), join(J).
--
build($1, $1)
RULES
}

# a join on three heads: two of three middles fit no right side
three_heads() {
  cat <<RULES
build/1 left/2 middle/2 right/2 found/2
--
build(0) <=> true.
build(I) <=> 0 < I | J is I - 1, A is 3 * I, B is A + 1, C is A + 2, left(I, I), middle(I, A), middle(I, B), middle(I, C), right(B, I), build(J).
left(X, Y), middle(Y, Z), right(Z, W) <=> found(X, W).
--
build($1)
RULES
}

# all items have one key, and each fetch takes one of them
equal_keys() {
  cat <<RULES
build/2 take/2 item/2 fetch/1
--
build(0, N) <=> take(N, 1).
build(I, N) <=> 0 < I | J is I - 1, item(1, I), build(J, N).
take(0, K) <=> true.
take(N, K) <=> 0 < N | M is N - 1, fetch(K), take(M, K).
fetch(K), item(K, V) <=> true.
--
build($1, $1)
RULES
}

# items of one key, of which all but a tenth go one by one, in an order that leaps about
from_the_middle() {
  cat <<RULES
build/2 leap/3 gone/1 item/2 sweep/1
--
build(0, N) <=> M is N * 9 // 10, leap(M, 0, N).
build(I, N) <=> 0 < I | J is I - 1, item(1, I), build(J, N).
leap(0, V, N) <=> sweep(2).
leap(I, V, N) <=> 0 < I | J is I - 1, W is (V + 7919) mod N, X is W + 1, gone(X), leap(J, W, N).
gone(V), item(K, V) <=> true.
sweep(K) \\ item(K, V) <=> true.
--
build($1, $1)
RULES
}

# a chain of links in order, into which numbers are put one by one; the place of each is found by going through the links.
# The sizes are primes, so that each number comes once.
sorted_chain() {
  cat <<RULES
build/3 link/2 put/1
--
build(0, V, N) <=> true.
build(I, V, N) <=> 0 < I | J is I - 1, W is (V + N * 618 // 1000) mod N, X is W + 1, put(X), build(J, W, N).
put(X), link(A, B) <=> A < X, X < B | link(A, X), link(X, B).
--
link(0, 1000000), build($1, 0, $1)
RULES
}

sizes() {
  case $1 in
    chain | loop) echo 2000 20000 200000 ;;
    sieve) echo 400 1200 4000 ;;
    union_find) echo 1000 10000 100000 ;;
    three_heads) echo 500 5000 50000 ;;
    equal_keys) echo 1000 10000 100000 ;;
    from_the_middle) echo 1000 3000 10000 ;;
    sorted_chain) echo 151 503 1511 ;;
  esac
}

# Writes the rules and posts of a shape at a size for both.
write() {
  "$1" "$2" >"$work/shape"
  awk -v at="$work" 'BEGIN { split("names rules goal", part); n = 1 } $0 == "--" { n++; next } { print >(at "/" part[n]) }' "$work/shape"
  sed 's/$/./' "$work/goal" >"$work/posts"
  {
    echo ':- use_module(library(chr)).'
    echo ':- style_check(-singleton).'
    echo ':- chr_option(debug, off).'
    echo ':- chr_option(optimize, full).'
    # each argument is a number when the constraint is called
    tr ' ' '\n' <"$work/names" | awk -F/ '{
      printf ":- chr_constraint %s(", $1
      for (i = 1; i <= $2; i++) printf "%s+int", (i > 1 ? "," : "")
      print ")."
    }'
    cat "$work/rules"
    cat <<PROLOG
main :-
    garbage_collect,
    get_time(Start), goal, get_time(End),
    Spent is round((End - Start) * 1.0e9),
    format("~d~n", [Spent]),
    forall(find_chr_constraint(C), (writeq(C), nl)).
goal :- $(cat "$work/goal").
PROLOG
  } >"$work/peer.pl"
}

# Prints the nanoseconds of the fastest run of at most so many calls, and leaves its store.
chr_cost() {
  local best=0 start spent
  for _ in $(seq "$repeat"); do
    start=$(date +%s%N)
    "$program" run "$work/rules" "$work/posts" --steps "$1" --show store >"$work/store" || [ $? = 3 ]
    spent=$(($(date +%s%N) - start))
    [ "$best" != 0 ] && [ "$best" -le "$spent" ] || best=$spent
  done
  echo "$best"
}

# Prints the nanoseconds of the peer's fastest run, and leaves its store. Nothing where it ends by a fault.
peer_cost() {
  local best=0 spent
  for _ in $(seq "$repeat"); do
    swipl -O --stack-limit=2g -g main -t halt "$work/peer.pl" >"$work/peer" 2>"$work/fault" || return 0
    spent=$(head -n 1 "$work/peer")
    [ "$best" != 0 ] && [ "$best" -le "$spent" ] || best=$spent
  done
  echo "$best"
}

# Whether the final stores are equal, but for labels and order.
are_equal() {
  sed 's/^#[0-9]* //; s/ //g' "$work/store" | LC_ALL=C sort >"$work/store.sorted"
  tail -n +2 "$work/peer" | sed 's/ //g' | LC_ALL=C sort | cmp -s - "$work/store.sorted"
}

# Prints the row of a shape at a size, after that of the size before, and notes both times.
row() {
  local idle whole own peer stores=differ
  write "$1" "$2"
  idle=$(chr_cost 0)
  whole=$(chr_cost $most)
  # a time that is lost in that of starting counts as a tenth of a millisecond
  own=$((whole - idle < 100000 ? 100000 : whole - idle))
  peer=$(peer_cost)
  are_equal && stores=equal
  [ -n "$peer" ] || stores="none of the peer, which ended by a fault"
  echo "$1 $2 $own ${peer:-0} $stores" >>"$work/rows"
  awk -v shape="$1" -v size="$2" -v stores="$stores" -v count="$(wc -l <"$work/store.sorted")" '
    function growth(now, before) { return before > 0 && now > 0 ? sprintf("%.1f", now / before) : "" }
    $1 == shape { own_before = own_now; peer_before = peer_now; own_now = $3; peer_now = $4 }
    END {
      faster = peer_now > 0 ? sprintf("%.1f", peer_now / own_now) : ""
      printf "| %s | %d | %.1f | %.1f | %s | %s | %s | %s (%d) |\n", shape, size, own_now / 1e6, peer_now / 1e6, faster, growth(own_now, own_before), growth(peer_now, peer_before), stores, count
    }' "$work/rows"
}

echo "| Program | Size | chr, ms | library(chr), ms | Times as fast | Growth of chr | Growth of library(chr) | Stores |"
echo "|---|---|---|---|---|---|---|---|"
# shellcheck disable=SC2068
for shape in ${@:-chain loop sieve union_find three_heads equal_keys from_the_middle sorted_chain}; do
  for size in $(sizes "$shape"); do
    row "$shape" "$size"
  done
done
awk '
  $4 > 0 { sum += log($4 / $3); count++ }
  $5 != "equal" { wrong++ }
  END {
    if (count) printf "\nGeometric mean: %.1f times as fast.\n", exp(sum / count)
    if (wrong) { printf "Stores that are not equal: %d.\n", wrong; exit 1 }
  }' "$work/rows"
