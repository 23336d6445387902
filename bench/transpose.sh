#!/bin/sh
# Times the transpose of an 8192 x 8192 matrix beside a copy of it, and beside M4RI's where Debian's libm4ri is installed.
#
#     bench/transpose.sh
#
# The figures are the least of 30 rounds, in microseconds of elapsed time. Each call takes its result's memory itself. The
# program is made in a copy of the crates, which is removed at the end.
set -eu
top=$(cd "$(dirname "$0")/.." && pwd)
folder=$(mktemp -d)
trap 'rm -r "$folder"' EXIT

# The least of the numbers in a column of the input, in microseconds.
least() {
    awk -v column="$1" 'NR == 1 || $column < best { best = $column } END { printf "%.0f", best / 1000 }'
}

mkdir -p "$folder/crates/bench_transpose/src"
cd "$folder"
for name in m4_model m4_area m4_bits m4_mzd m4_shape; do
    (cd "$top" && tar cf - --exclude=out --exclude=must-fail "crates/$name") | tar xf -
    grep "^$name[ :]" "$top/crates.txt" >> crates.txt
done
echo 'bench_transpose: m4_model m4_mzd m4_shape' >> crates.txt
cat > crates/bench_transpose/src/main.rt <<'PROGRAM'
//! Times the transpose and a copy: a line of two numbers of nanoseconds for each round.
#![tactic(auto)]

use m4_model::NoMemory;
use m4_mzd::Mzd;
use m4_shape::transpose;
use std::alloc::Global;
use std::io;
use std::rt::Runtime;
use std::time::Instant;

/// A matrix of digits without an order.
fn mixed(alloc: Global) -> Result<Mzd, NoMemory> {
    let mut m = Mzd::zeros(alloc, 8192, 8192)?;
    for r in 0..8192 {
        mix_row(&mut m, r);
    }
    Ok(m)
}

fn mix_row(m: &mut Mzd, r: u32) {
    let mut word = 0x9E37_79B9_7F4A_7C15u64 ^ r as u64;
    for c in 0..8192 {
        word ^= word << 13;
        word ^= word >> 7;
        word ^= word << 17;
        if r < m.rows() && c < m.cols() {
            m.put(r, c, word & 1 == 1);
        }
    }
}

fn round<R: Runtime>(rt: &R, alloc: Global, a: &Mzd) -> io::Result<()> {
    let start = Instant::now(rt)?;
    let turned = transpose(alloc, &a.all());
    let turning = start.elapsed(rt)?;
    let begin = Instant::now(rt)?;
    let copied = a.copy(alloc);
    let copying = begin.elapsed(rt)?;
    println!(rt; "{} {} {}", turning.as_nanos(), copying.as_nanos(), turned.is_ok() && copied.is_ok())?;
    Ok(())
}

fn main(rt: HostRuntime) -> io::Result<()> {
    let alloc = rt.alloc();
    match mixed(alloc) {
        Ok(a) => {
            for _ in 0..30 {
                round(&rt, alloc, &a)?;
            }
            Ok(())
        }
        Err(NoMemory) => Ok(()),
    }
}
PROGRAM
(cd crates/bench_transpose && rt run > ../../times 2> ../../log) || { cat log; exit 1; }
echo "transpose  $(least 1 < times) us"
echo "copy       $(least 2 < times) us"

if [ ! -e /usr/include/m4ri/m4ri.h ]; then
    echo "M4RI is not installed here"
    exit 0
fi
cat > yardstick.c <<'PROGRAM'
#include <m4ri/m4ri.h>
#include <stdio.h>
#include <time.h>

static long now(void) {
    struct timespec t;
    clock_gettime(CLOCK_MONOTONIC, &t);
    return t.tv_sec * 1000000000L + t.tv_nsec;
}

int main(void) {
    mzd_t *a = mzd_init(8192, 8192);
    mzd_randomize(a);
    for (int k = 0; k < 30; k++) {
        long start = now();
        mzd_t *turned = mzd_transpose(NULL, a);
        printf("%ld\n", now() - start);
        mzd_free(turned);
    }
    return 0;
}
PROGRAM
cc -O2 -o yardstick yardstick.c -lm4ri
./yardstick > times.m4ri
echo "M4RI       $(least 1 < times.m4ri) us"
