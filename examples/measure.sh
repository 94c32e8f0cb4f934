#!/bin/sh
# Measures two runs of the program, outside the gate: a file of 1,000 lines, and 60 MiB of comment lines in at
# most 300 MiB of memory. It prints the seconds that each took, and fails where one was too slow or refused.
set -eu
here=$(cd "$(dirname "$0")/.." && pwd)
work=$(mktemp -d)
trap 'rm -rf "$work"' EXIT

# 400 operations in 40 commits, 10 iterators with all kinds of options, and 500 moves
awk 'BEGIN {
    for (c = 0; c < 40; c++) {
        for (o = 0; o < 10; o++) {
            n = c * 10 + o
            k = sprintf("k%03d", n * 37 % 400)
            e = sprintf("k%03d", n * 37 % 400 + 1 + n % 9)
            if (o % 5 == 0) print "rset w " k " " e " @" 1 + n % 50 " v" n
            else if (o % 5 == 1) print "runset w " k " " e " @" 1 + n % 50
            else if (o == 7) print "del w " k "@" 1 + n % 90
            else print "put w " k "@" 1 + n % 90 " v" n
        }
        print "commit w"
        if (c % 4 == 3) {
            i = (c - 3) / 4
            print "iter i" i (i % 2 ? " lower k050 upper k350" : "") (i % 3 ? " mask @" 20 + i : "")
        }
    }
    for (m = 0; m < 500; m++) {
        i = m % 10
        if (m < 10) print "first i" i
        else if (m % 50 == 0) print "seekge i" i " k200"
        else if (m % 70 == 0) print "seeklt i" i " k300@7"
        else print (m % 4 ? "next" : "prev") " i" i
    }
    for (n = 0; n < 50; n++) print "# and no more"
}' > "$work/thousand.rk"
awk 'BEGIN { for (n = 0; n < 1014800; n++) print "# a comment line of 62 bytes, with its line end counted, yes." }' > "$work/comments.rk"
test "$(wc -l < "$work/thousand.rk")" -eq 1000

# Runs a file within so many seconds and KiB of memory.
measure() {
    start=$(date +%s%N)
    (ulimit -v "$3"; "$here/rkrange" run < "$work/$1" > "$work/out")
    took=$((($(date +%s%N) - start) / 1000000))
    echo "$1: $took ms, $(wc -l < "$work/out") lines written"
    test "$took" -lt "$2"
}

"$here/rkrange" run < /dev/null
measure thousand.rk 2000 1048576
measure comments.rk 10000 307200
