#!/usr/bin/env bash
# Prints, as a table in Markdown, what a join costs by the kind of its key: two constraints are found by one value, a number, a
# symbol, or compound values of two sizes, among 10,000 pairs and among 50,000. Run it by hand, on an idle machine.
# The time is the best of REPEAT runs with `--show store`, 25 unless it is set, less the best of as many that make no calls, by
# turns, and so without the reading of the posts. The memory is the most that such a run had at once, less that of one that makes no calls.
set -eu
top=$(cd "$(dirname "${BASH_SOURCE[0]}")/.." && pwd)
work=$(mktemp -d)
trap 'rm -rf "$work"' EXIT
program=$top/out/chr
most=4294967295
repeat=${REPEAT:-25}
echo 'left(K, I), right(K, J) <=> found(I, J).' >"$work/rules"

# How the key of a number is written, with `%d` for the number.
number='%d'
symbol='k%d'
compound='f(%d)'
deep='f(g(%d,a),h(h(b)))'

# Prints the pairs, the left ones first and the right ones from the last on, a constraint a line.
pairs() {
  awk -v size="$1" -v key="$2" 'BEGIN {
    for (i = 1; i <= size; i++) { printf "left("; printf key, i; print "," i ")." }
    for (i = size; i >= 1; i--) { printf "right("; printf key, i; print "," i ")." }
  }'
}

# Runs the rules on the posts for at most so many calls.
run() {
  "$program" run "$work/rules" "${posts[@]}" --steps "$1" --show store >"$work/store" || [ $? = 3 ]
}

# Prints the lesser of the nanoseconds given, 0 where there are none yet, and those of a run of at most so many calls.
least() {
  local start spent
  start=$(date +%s%N)
  run "$2"
  spent=$(($(date +%s%N) - start))
  [ "$1" != 0 ] && [ "$1" -le "$spent" ] && echo "$1" || echo "$spent"
}

# Prints the kilobytes that a run of at most so many calls had at most.
memory() {
  /usr/bin/time -q -f %M -o "$work/memory" "$program" run "$work/rules" "${posts[@]}" --steps "$1" --show store >"$work/store" || [ $? = 3 ]
  cat "$work/memory"
}

# Prints the nanoseconds of the fastest run without calls and of the fastest whole one, which go by turns, and their kilobytes.
costs() {
  local idle=0 whole=0
  for _ in $(seq "$repeat"); do
    idle=$(least "$idle" 0)
    whole=$(least "$whole" $most)
  done
  echo "$idle $(memory 0) $whole $(memory $most)"
}

# Prints the row of a key at a size.
row() {
  local file
  rm -f "$work"/posts.*
  pairs "$2" "${!1}" | split -C 65536 -a 4 - "$work/posts."
  posts=()
  for file in "$work"/posts.*; do
    [ ${#posts[@]} = 0 ] && posts=("$file") || posts+=(--posts "$file")
  done
  echo "$1 $2 $(costs) $(wc -l <"$work/store")"
}

"$top/chr" --help >/dev/null
echo "| Key | Pairs | Nanoseconds a pair | Bytes a pair | Firings |"
echo "|---|---|---|---|---|"
for key in number symbol compound deep; do
  for size in 10000 50000; do
    row $key $size
  done
done | awk '{
  printf "| %s | %d | %.0f | %.0f | %d |\n", $1, $2, ($5 - $3) / $2, ($6 - $4) * 1024 / $2, $7
  fflush()
}'
