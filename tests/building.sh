#!/usr/bin/env bash
# Tests the real ./build, ./chr and release/sum in a repository of one small program, where `rt run` writes another program to
# the place of the one that ./build has built. It proves that program, so it needs rt; without rt it counts its tests as
# skipped. Each test is a line `test NAME ... ok`, `test NAME ... FAILED` or `test NAME ... skipped`.
set -u
top=$(cd "$(dirname "${BASH_SOURCE[0]}")/.." && pwd)
work=$(mktemp -d)
trap 'rm -rf "$work"' EXIT
trap 'exit 130' INT TERM HUP
repository=$work/repository
crate=$repository/crates/chr_program

make_repository() {
  mkdir -p "$crate/src" "$repository/release" "$repository/.git"
  cp "$top/build" "$top/chr" "$repository/"
  cp "$top/release/sum" "$repository/release/sum"
  echo 'chr_program:' >"$repository/crates.txt"
  cat >"$crate/src/main.rt" <<'END'
//! Prints one word.
#![tactic(auto)]

use std::io;

fn main(rt: HostRuntime) -> io::Result<()> {
    println!(rt; "right")
}
END
}

# What the programs of out/ and of release/ print, and the one that ./chr runs.
of_out() { "$repository/out/chr"; }
of_release() { xz -dc "$repository/release/chr-x86_64-linux.xz" >"$work/unpacked" && chmod 755 "$work/unpacked" && "$work/unpacked"; }
run() { (cd / && "$repository/chr" </dev/null 2>>"$work/messages"); }

build() { "$repository/build" "$@" >>"$work/messages" 2>&1 </dev/null; }

program_is_built_and_run() {
  build && [ "$(of_out)" = right ] && [ "$(run)" = right ]
}

# Another text is run in the place of the program that was built, and taken back.
program_that_rt_run_made_is_never_released() {
  sed -i 's/"right"/"wrong"/' "$crate/src/main.rt"
  (cd "$crate" && rt run >>"$work/messages" 2>&1 </dev/null)
  sed -i 's/"wrong"/"right"/' "$crate/src/main.rt"
  cp "$crate/out/chr_program" "$work/wrong"
  [ "$("$work/wrong")" = wrong ] && [ "$(run)" = right ] || return
  build --release && [ "$(of_release)" = right ] && [ "$(of_out)" = right ] && [ "$(run)" = right ] || return
  [ "$(sed -n 's/^program //p' "$repository/release/built-from")" = "$(sha256sum <"$work/unpacked" | cut -d ' ' -f 1)" ]
}

program_that_rt_run_made_is_never_run() {
  cp "$work/wrong" "$repository/out/chr"
  cp "$work/wrong" "$crate/out/chr_program"
  [ "$(of_out)" = wrong ] && [ "$(run)" = right ] && [ "$(of_out)" = right ]
}

failed=0
make_repository
for name in program_is_built_and_run program_that_rt_run_made_is_never_released program_that_rt_run_made_is_never_run; do
  : >"$work/messages"
  if ! command -v rt >/dev/null; then
    echo "test building::$name ... skipped"
  elif $name; then
    echo "test building::$name ... ok"
  else
    echo "test building::$name ... FAILED"
    cat "$work/messages" >&2
    failed=1
  fi
done
exit $failed
