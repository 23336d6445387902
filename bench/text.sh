#!/bin/sh
# Times the reading and the writing of a headed text of a random square matrix beside md5sum of the same file, in one run.
#
# Run it where crates/m4lin/out/m4lin stands (rt run makes it): bench/text.sh [ROUNDS]
# SIDE in the environment is the side of the matrix, 16384 where it isn't given. Reading alone is a product of no rows and the text;
# reading and writing is the conversion of the text to itself. The same is done with version 2, four entries a digit, beside md5sum of
# that file. The figures are the least of the rounds, in milliseconds of elapsed time, and their ratios to md5sum.
set -eu
top=$(cd "$(dirname "$0")/.." && pwd)
m4lin=$top/crates/m4lin/out/m4lin
rounds=${1:-5}
side=${SIDE:-16384}
folder=$(mktemp -d)
trap 'rm -r "$folder"' EXIT
cd "$folder"

"$m4lin" make gf2 "$side" "$side" 1 > text.gf2
"$m4lin" convert text.gf2 --out=hex > hex.gf2
printf 'gf2 0 %d\n' "$side" > flat.gf2

# The milliseconds that a command takes, ten times.
took() {
    begin=$(date +%s%N)
    "$@" > out.gf2
    end=$(date +%s%N)
    echo $(((end - begin) / 100000))
}

# The least of two numbers, the first of which may be missing.
least() {
    if [ -z "$1" ] || [ "$2" -lt "$1" ]; then echo "$2"; else echo "$1"; fi
}

# Times reading, and reading and writing, of a text, whose form is also that of the answer.
measure() {
    sum='' read='' both=''
    for _ in $(seq "$rounds"); do
        sum=$(least "$sum" "$(took md5sum "$1")")
        read=$(least "$read" "$(took "$m4lin" mul flat.gf2 "$1")")
        both=$(least "$both" "$(took "$m4lin" convert "$1" "$2")")
        cmp "$1" out.gf2
    done
    awk -v name="$1" -v bytes="$(wc -c < "$1")" -v sum="$sum" -v read="$read" -v both="$both" 'BEGIN {
        printf "%s, %d bytes\n", name, bytes
        printf "    md5sum               %7.1f ms\n", sum / 10
        printf "    reading              %7.1f ms  %.2f of md5sum\n", read / 10, read / sum
        printf "    reading and writing  %7.1f ms  %.2f of md5sum\n", both / 10, both / sum
    }'
}

measure text.gf2 --out=text
measure hex.gf2 --out=hex
