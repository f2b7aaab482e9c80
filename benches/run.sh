#!/usr/bin/env bash
# Prints, as a table in Markdown, how many firings a second `chr run` makes and how many bytes of memory an entry of its log
# takes, for three programs at two sizes each, ten times apart: a chain of firings over two constraints, the primes up to a
# number, and a union-find of so many elements. Run it by hand, on an idle machine.
# The time is the best of five runs with `--show store`, less the best of five that make no calls; the memory is the most
# that such a run had at once, the median of 21, less that of one that makes no calls. So store and tickets count as bytes
# of the entries; next to it stands what the entries take by themselves.
# Then it prints how many bytes a live constraint takes, with its labels in the indexes: the memory of a run that keeps its
# constraints, less that of one that takes each out at once, for constraints with no key, with one, and with two.
set -eu
top=$(cd "$(dirname "${BASH_SOURCE[0]}")/.." && pwd)
work=$(mktemp -d)
trap 'rm -rf "$work"' EXIT
program=$top/out/chr
most=4294967295

chain() {
  echo 'gcd(0) <=> true.'
  echo 'gcd(N) \ gcd(M) <=> 0 < N, N =< M | L is M - N, gcd(L).'
  echo "gcd(1), gcd($1)." >&3
}

primes() {
  echo 'candidate(1) <=> true.'
  echo 'candidate(N) <=> 1 < N | M is N - 1, prime(N), candidate(M).'
  echo 'prime(I) \ prime(J) <=> J mod I =:= 0 | true.'
  echo "candidate($1)." >&3
}

union_find() {
  echo 'make(A) <=> root(A).'
  echo 'union(A,A) <=> true.'
  echo 'up(A,B) \ union(A,C) <=> union(B,C).'
  echo 'up(A,B) \ union(C,A) <=> union(C,B).'
  echo 'root(A) \ root(B), union(A,B) <=> up(B,A).'
  seq -f 'make(%.0f).' "$1" >&3
  seq "$(($1 - 1))" | awk '{ print "union(" $1 "," $1 + 1 ")." }' >&3
}

# So many constraints that stay, where `$2` is 0, or else are taken out at once. The rules with two heads, for which the values
# at a place are looked up, never fire.
items() {
  echo 'build(0) <=> true.'
  echo 'build(I) <=> 0 < I | J is I - 1, item(I, I), build(J).'
  [ "$2" = 0 ] || echo 'item(I, J) <=> true.'
  [ "$3" -lt 1 ] || echo 'item(I, J), first(I) <=> true.'
  [ "$3" -lt 2 ] || echo 'item(I, J), second(J) <=> true.'
  echo "build($1)." >&3
}

# Prints the kilobytes of the most memory that a run of at most so many calls has at once: the median of 21 runs, since the
# system counts pages in lots.
memory() {
  for _ in $(seq 21); do
    /usr/bin/time -q -f %M -o "$work/memory" "$program" run "$work/rules" "$work/posts" --steps "$1" --show store >"$work/store" || [ $? = 3 ]
    cat "$work/memory"
  done | sort -n | sed -n 11p
}

# Prints the nanoseconds of the fastest of five runs of at most so many calls, and the kilobytes of memory.
cost() {
  local best=0 start spent
  for _ in 1 2 3 4 5; do
    start=$(date +%s%N)
    "$program" run "$work/rules" "$work/posts" --steps "$1" --show store >"$work/store" || [ $? = 3 ]
    spent=$(($(date +%s%N) - start))
    [ "$best" != 0 ] && [ "$best" -le "$spent" ] || best=$spent
  done
  echo "$best $(memory "$1")"
}

# Prints how many bytes the entries of a log take: 8 for a drop, 12 for an activation, 12 and 4 a label for a firing, 16 and
# 8 an argument for a post, and 8 more for each argument that isn't from 0 to 4,294,967,294. No ticket is above 16,777,214.
entry_bytes() {
  awk '
    $1 == "D" { bytes += 8 }
    $1 == "A" { bytes += 12 }
    $1 == "F" { bytes += 12 + 4 * gsub(/[0-9]+/, "&", $4) }
    $1 == "P" {
      count = split($0, parts, /[(),]/)
      bytes += 16
      for (i = 2; i < count; i++) bytes += 8 + (parts[i] + 0 < 0 || parts[i] + 0 > 4294967294 ? 8 : 0)
    }
    END { print bytes + 0 }' "$work/log"
}

# Prints the row of a program at a size.
row() {
  "$1" "$2" >"$work/rules" 3>"$work/posts"
  "$program" run "$work/rules" "$work/posts" --steps $most --show log >"$work/log"
  echo "$1 $2 $(grep -c '^F ' "$work/log") $(grep -c '^[PAFD] ' "$work/log") $(cost 0) $(cost $most) $(entry_bytes)"
}

"$top/chr" --help >/dev/null
echo "| Program | Size | Firings | Entries | Firings a second | Bytes an entry | By itself |"
echo "|---|---|---|---|---|---|---|"
for made in "chain 20000" "chain 200000" "primes 400" "primes 4000" "union_find 200" "union_find 2000"; do
  # shellcheck disable=SC2086
  row $made
done | awk '{
  spent = $7 - $5
  rate = spent > 0 ? sprintf("%.0f", $3 * 1e9 / spent) : "too fast to tell"
  printf "| %s | %d | %d | %d | %s | %.0f | %.1f |\n", $1, $2, $3, $4, rate, ($8 - $6) * 1024 / $4, $9 / $4
  fflush()
}'

# Prints the kilobytes of a run of so many constraints that stay or don't, under so many keys each.
kilobytes() {
  items "$@" >"$work/rules" 3>"$work/posts"
  memory $most
}

echo
echo "| Keys of a constraint | Constraints | Bytes a live constraint |"
echo "|---|---|---|"
for keys in 0 1 2; do
  for size in 20000 200000; do
    kept=$(kilobytes $size 0 $keys)
    gone=$(kilobytes $size 1 $keys)
    echo "| $keys | $size | $(((kept - gone) * 1024 / size)) |"
  done
done
