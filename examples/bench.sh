#!/usr/bin/env bash
# Times small programs, outside the gate: examples/bench.sh [NAME ..], without names all of them.
#
# A program is a folder examples/bench/NAME. Its files, and the modules beside the folders, which all programs share,
# are those of a crate rk_bench_NAME with '.txt' behind each name: PART.rt.txt of its src/, proofs/.. of its proofs/,
# specs/.. of its specs/. A module of its own takes the place of a shared one of that name. The file 'crates' names the
# crates that it stands on. They are added to one copy of the last commit, where each is proved and built by LLVM before
# it runs.
#
# A program writes a line behind each piece of its work:
#     NAME            prints the milliseconds since the line before, or since the program began
#     NAME / OTHER    also how many times as long as OTHER it took, a line that was written before
set -euo pipefail
here=$(cd "$(dirname "$0")/.." && pwd)
bench=$here/examples/bench
work=$(mktemp -d)
trap 'rm -rf "$work"' EXIT

# Puts a file of a program into its crate, without the '.txt'.
put() {
  mkdir -p "$(dirname "$2")"
  cp "$1" "${2%.txt}"
}

# Makes a crate of a program.
add() {
  local crate=$work/crates/rk_bench_$1 file
  for file in "$bench"/*.rt.txt "$bench/$1"/*.rt.txt; do
    put "$file" "$crate/src/$(basename "$file")"
  done
  (cd "$bench/$1" && find . -name '*.antt.txt') | while read -r file; do
    put "$bench/$1/$file" "$crate/$file"
  done
  echo "rk_bench_$1: $(cat "$bench/$1/crates")" >> "$work/crates.txt"
}

# Microseconds of the clock.
clock() {
  echo "${EPOCHREALTIME/[^0-9]/}"
}

# Prints the times between the lines of a program.
times() {
  local line now last name other
  local -A took
  last=$(clock)
  while read -r line; do
    now=$(clock)
    name=${line%% / *}
    took[$name]=$((now - last))
    echo -n "$1: $name: $((took[$name] / 1000)) ms"
    if [ "$name" != "$line" ]; then
      other=${line#* / }
      awk -v a="${took[$name]}" -v b="${took[$other]}" -v o="$other" 'BEGIN { printf ", %.3g times %s", a / b, o }'
    fi
    echo
    last=$(clock)
  done
}

[ $# -gt 0 ] || set -- $(cd "$bench" && ls -d */ | tr -d /)
git -C "$here" archive HEAD | tar -x -C "$work"
for name in "$@"; do
  add "$name"
done
for name in "$@"; do
  crate=$work/crates/rk_bench_$name
  (cd "$crate" && rt run > "$work/build" 2>&1) || { cat "$work/build"; exit 1; }
  "$crate/out/rk_bench_$name" | times "$name"
done
