#!/bin/sh
# Copies crates of this repository, with those that they stand on, into another one, and adds their lines to its crates.txt.
#
#     take.sh FOLDER CRATE ..
#
# FOLDER is the top of the other repository. A crate that was taken before is replaced. docs/CALLING.md says what comes then.
set -eu
top=$(cd "$(dirname "$0")" && pwd)
mkdir -p "$1/crates"
folder=$(cd "$1" && pwd)
shift
touch "$folder/crates.txt"
taken=

take() {
    case " $taken " in
    *" $1 "*) return ;;
    esac
    taken="$taken $1"
    # A crate that the list doesn't have is one of the kit.
    line=$(grep "^$1[ :]" "$top/crates.txt") || return 0
    rm -rf "$folder/crates/$1"
    (cd "$top" && tar cf - --exclude=out --exclude=must-fail "crates/$1") | (cd "$folder" && tar xf -)
    grep "^$1[ :]" "$folder/crates.txt" > /dev/null || echo "$line" >> "$folder/crates.txt"
    for low in ${line#*:}; do
        take "$low"
    done
}

for name in "$@"; do
    grep "^$name[ :]" "$top/crates.txt" > /dev/null || { echo "take.sh: no crate $name" >&2; exit 1; }
    take "$name"
done
