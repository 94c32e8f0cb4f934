#!/usr/bin/env bash
# Runs the program on each command file NAME.rk of this folder, and compares what it writes with NAME.out, what it says
# on standard error with NAME.err, and its exit status with NAME.status. Where there is no such file, nothing is to be
# written or said, and the status is to be 0. NAME.args has the words, one a line, where they are not the one word `run`.
# Then it runs the program where its input, its output or its standard error fails, and with a word that is no text.
set -u
cd "$(dirname "$0")/.." || exit 1
# This builds the program where it is not built. An empty command file writes nothing.
./rkrange run </dev/null || exit 1
room=$(mktemp -d) || exit 1
trap 'rm -rf "$room"' EXIT
echo 0 >"$room/0"
failed=0

# Says what came of the example $1, where $2 is the status of its comparisons.
tell() {
  if [ "$2" -eq 0 ]; then
    echo "$1: as it must be" >&2
  else
    echo "$1: DIFFERS" >&2
    failed=1
  fi
}

# Compares a part $2 of what the example $1 gave with its file, or with $3 where there is none.
is_same() {
  local wanted="examples/$1.$2"
  [ -e "$wanted" ] || wanted=$3
  diff "$wanted" "$room/$2" >&2
}

for file in examples/*.rk; do
  name=$(basename "$file" .rk)
  words=(run)
  [ -e "examples/$name.args" ] && mapfile -t words <"examples/$name.args"
  ./rkrange "${words[@]}" <"$file" >"$room/out" 2>"$room/err"
  echo "$?" >"$room/status"
  is_same "$name" out /dev/null && is_same "$name" err /dev/null && is_same "$name" status "$room/0"
  tell "$name" "$?"
done

# Runs the program over what the caller gives, and compares its line and its status.
fails_with() {
  ./rkrange run 2>"$room/err"
  local status=$?
  [ "$status" -eq "$2" ] && diff <(echo "rkrange: $1") "$room/err" >&2
  tell "$1" "$?"
}

# Lines of the greatest lengths: a batch is filled with values, and another with operations.
value=$(head -c 32768 /dev/zero | tr '\0' v)
{
  echo "put w a v$value"
  for _ in {1..32}; do echo "put w a $value"; done
  echo "put w a ${value:163}"
  for _ in {1..1001}; do echo 'del v a'; done
} >"$room/filled"
./rkrange run <"$room/filled" >"$room/told"
echo 'w refused TooLong value 32769 32768
w refused TooLong bytes 1048739 1048576
v refused TooLong ops 1001 1000' | diff - "$room/told" >&2
tell 'limits of a batch' "$?"

head -c 67108865 /dev/zero | tr '\0' '#' >"$room/long"
fails_with 'file too long' 3 <"$room/long" >"$room/none"
# A folder can be opened as input, but not read, and this device takes no byte.
fails_with 'source fault' 4 <examples >>"$room/none"
fails_with 'sink fault' 5 <examples/empty.rk >/dev/full
[ ! -s "$room/none" ]
tell 'nothing written' "$?"

./rkrange run $'\xff' </dev/null 2>"$room/err"
[ "$?" -eq 2 ] && diff <(echo 'rkrange: words') "$room/err" >&2
tell 'a word that is no text' "$?"
./rkrange </dev/null 2>/dev/full
[ "$?" -eq 2 ]
tell 'the line is not taken' "$?"
exit "$failed"
