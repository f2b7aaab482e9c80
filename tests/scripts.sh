#!/usr/bin/env bash
# Tests ./chr and release/ in small repositories of their own, whose ./build is a stand-in that says so, ./build in one more,
# what ./prove counts, the sums over statements, the pictures of docs, what the examples are to print against a plain reference,
# and the layout of the sources. Each test is a line `test NAME ... ok`, `test NAME ... FAILED` or `test NAME ... skipped`; the
# last line is 'N passed, M failed', and then ', K skipped' where a test was.
set -u
top=$(cd "$(dirname "${BASH_SOURCE[0]}")/.." && pwd)
work=$(mktemp -d)
trap 'rm -rf "$work"' EXIT
trap 'exit 130' INT TERM HUP
passed=0
failed=0
skipped=0
# The status of a test that can't be made here.
NOT_MADE=77

# A repository with the release of a program that prints `released` and its arguments.
make_repository() {
  repository=$work/$1
  mkdir -p "$repository/release" "$repository/crates/chr_program/src" "$repository/crates/low/specs" "$repository/crates/other/src"
  cp "$top/chr" "$repository/chr"
  cp "$top/release/sum" "$repository/release/sum"
  printf '# Crates.\nlow:\nother: low\nchr_program: low std\n' >"$repository/crates.txt"
  echo 'fn main() {}' >"$repository/crates/chr_program/src/main.rt"
  echo 'x = 1' >"$repository/crates/low/specs/Low.antt"
  echo 'fn other() {}' >"$repository/crates/other/src/lib.rt"
  printf '#!/bin/sh\nmkdir -p "${0%%/*}/out"\necho building\nexit 7\n' >"$repository/build"
  printf '#!/bin/sh\necho released "$@"\n' >"$repository/program"
  chmod +x "$repository/build"
  xz -c "$repository/program" >"$repository/release/chr-x86_64-linux.xz"
  {
    echo "kit of the test"
    echo "sources $("$repository/release/sum")"
    echo "program $(sha256sum <"$repository/program" | cut -d ' ' -f 1)"
  } >"$repository/release/built-from"
}

# Runs ./chr, and keeps its status, output and messages.
run() {
  output=$(cd / && "$repository/chr" "$@" 2>"$work/messages")
  status=$?
  messages=$(cat "$work/messages")
}

is_released() { [ "$status" = 0 ] && [ "$output" = "released${1:+ $1}" ]; }
is_built() { [ "$status" = 7 ] && [ -z "$output" ] && [[ $messages = *building* ]] && [ ! -e "$repository/out/chr" ]; }

changed_byte() { # FILE NUMBER: writes another byte there
  local byte
  byte=$(od -An -tu1 -j "$2" -N 1 "$1")
  printf "\\x$(printf %x $(((byte + 1) % 256)))" | dd of="$1" bs=1 seek="$2" conv=notrunc status=none
}

released_program_runs_at_once() {
  run a 'b c'
  is_released 'a b c' && [[ $messages = *'built from these very sources'* ]] || return
  run d
  is_released d && [ -z "$messages" ]
}

sum_that_differs_in_one_byte_builds() {
  sed -i 's/^sources ./sources x/' "$repository/release/built-from"
  run
  is_built
}

source_that_differs_in_one_byte_builds() {
  run
  is_released || return
  changed_byte "$repository/crates/low/specs/Low.antt" 4
  rm -f "$repository/out/chr"
  run
  is_built
}

program_of_other_sources_is_never_run() {
  run
  is_released || return
  changed_byte "$repository/crates/chr_program/src/main.rt" 0
  run
  [ "$status" = 7 ] && [ -z "$output" ]
}

crate_that_the_program_does_not_need_changes_nothing() {
  changed_byte "$repository/crates/other/src/lib.rt" 0
  run
  is_released
}

file_that_is_new_or_gone_builds() {
  touch "$repository/crates/low/specs/New.antt"
  run
  is_built || return
  rm "$repository/crates/low/specs/New.antt" "$repository/crates/low/specs/Low.antt"
  run
  is_built
}

program_of_out_with_a_changed_byte_is_never_run() {
  run
  is_released || return
  changed_byte "$repository/out/chr" 12
  run g
  is_released g || return
  rm "$repository/release/built-from"
  changed_byte "$repository/out/chr" 12
  run
  [ "$status" = 7 ] && [ -z "$output" ]
}

release_with_a_changed_byte_is_refused() {
  local size at
  size=$(stat -c %s "$repository/release/chr-x86_64-linux.xz")
  for at in 0 $((size / 2)) $((size - 1)); do
    changed_byte "$repository/release/chr-x86_64-linux.xz" "$at"
    run
    is_built && [[ $messages = *damaged* ]] || return
    xz -c "$repository/program" >"$repository/release/chr-x86_64-linux.xz"
  done
}

release_of_another_program_is_refused() {
  printf '#!/bin/sh\necho another\n' | xz -c >"$repository/release/chr-x86_64-linux.xz"
  run
  is_built && [[ $messages = *damaged* ]]
}

folder_without_release_builds() {
  rm "$repository/release/built-from" "$repository/release/chr-x86_64-linux.xz"
  run
  is_built
}

# What ./chr calls, and neither rt nor xz.
few_commands() {
  local it
  mkdir -p "$work/bin"
  for it in awk bash cat chmod cp cut dirname env find getconf git head mkdir mktemp mv rm sed sh sha256sum sort uname xargs "$@"; do
    ln -sf "$(command -v "$it")" "$work/bin/$it"
  done
  ln -sf "$(python3 -c 'import sys; print(sys.executable)')" "$work/bin/python3"
}

release_runs_without_rt() {
  few_commands xz
  PATH=$work/bin run e
  is_released e
}

without_rt_and_release_it_says_so() {
  few_commands
  cp "$top/build" "$repository/build"
  rm "$repository/release/built-from"
  PATH=$work/bin run
  [ "$status" = 2 ] && [[ $messages = *'toolchain (rt)'* ]]
}

without_xz_it_builds_and_says_why() {
  few_commands
  rm -f "$work/bin/xz"
  PATH=$work/bin run
  is_built && [[ $messages = *'no xz'* ]]
}

interrupted_unpacking_leaves_nothing() {
  mkdir -p "$work/slow"
  printf '#!/bin/sh\nprintf "#!/bin/sh\\n"\nkill -TERM "$(cat "%s/pid")"\nsleep 0.2\n' "$work" >"$work/slow/xz"
  chmod +x "$work/slow/xz"
  (echo $BASHPID >"$work/pid" && PATH="$work/slow:$PATH" exec "$repository/chr") >/dev/null 2>&1
  [ ! -e "$repository/out/chr" ] && [ -z "$(ls "$repository/out")" ] || return
  run f
  is_released f
}

two_at_once_both_run() {
  local it
  for it in 1 2 3 4 5 6 7 8; do
    (cd / && "$repository/chr" "$it" >"$work/out.$it" 2>/dev/null) &
  done
  wait
  for it in 1 2 3 4 5 6 7 8; do
    [ "$(cat "$work/out.$it")" = "released $it" ] || return
  done
}

# The gate refuses a crate whose text isn't formatted, but only when it comes to it, half an hour later.
texts_are_formatted() {
  command -v rt >/dev/null || return $NOT_MADE
  output=$(find "$top"/crates/*/{src,specs,proofs} \( -name '*.rt' -o -name '*.antt' \) -print0 2>/dev/null |
    xargs -0 "$(dirname "$(rt doc)")/bin/rattle" fmt --check 2>&1)
  status=$?
  [ "$status" = 0 ]
}

version_names_the_sources() {
  run --version
  [ "$status" = 0 ] && [[ $output = *"sources $("$repository/release/sum")"* ]]
}

for name in $(declare -F | sed 's/^declare -f //'); do
  case $name in
    make_repository | run | is_released | is_built | changed_byte | few_commands) continue ;;
  esac
  make_repository "$name"
  $name
  ended=$?
  if [ "$ended" = 0 ]; then
    echo "test scripts::$name ... ok"
    passed=$((passed + 1))
  elif [ "$ended" = "$NOT_MADE" ]; then
    echo "test scripts::$name ... skipped"
    skipped=$((skipped + 1))
  else
    echo "test scripts::$name ... FAILED: status $status, output '$output', messages '$messages'"
    failed=$((failed + 1))
  fi
done

for script in building.sh pictures.py reference.py statements.py proving.py; do
  shown=$("$top/tests/$script")
  status=$?
  grep '^test ' <<<"$shown"
  passed=$((passed + $(grep -c ' \.\.\. ok$' <<<"$shown")))
  skipped=$((skipped + $(grep -c ' \.\.\. skipped$' <<<"$shown")))
  failed=$((failed + (status != 0)))
done
echo "$passed passed, $failed failed$([ "$skipped" = 0 ] || echo ", $skipped skipped")"
[ "$failed" = 0 ]
