#!/bin/sh
# Times products of two 2048 x 2048 matrices by each engine, beside M4RI's where Debian's libm4ri is installed, and sums of
# rows of 2^15 bits beside a copy of one, and beside the same loop in C.
#
#     bench/mul.sh
#
# The figures are the least of all rounds: milliseconds of elapsed time for a product, nanoseconds for a row. The program is
# made in a copy of the crates, which is removed at the end.
set -eu
top=$(cd "$(dirname "$0")/.." && pwd)
folder=$(mktemp -d)
trap 'rm -r "$folder"' EXIT

# The least number of each name, divided by a unit.
least() {
    awk -v unit="$1" '!($1 in best) || $2 < best[$1] { best[$1] = $2 } END { for (name in best) printf "%-24s %8.2f\n", name, best[name] / unit }' | sort
}

mkdir -p "$folder/crates/bench_mul/src"
cd "$folder"
for name in m4_model m4_area m4_bits m4_mzd m4_gray m4_mul; do
    (cd "$top" && tar cf - --exclude=out --exclude=must-fail "crates/$name") | tar xf -
    grep "^$name[ :]" "$top/crates.txt" >> crates.txt
done
echo 'bench_mul: m4_model m4_bits m4_mzd m4_mul' >> crates.txt
cat > crates/bench_mul/src/main.rt <<'PROGRAM'
//! Times products and sums of rows: a line with a name and a number of nanoseconds for each round.
#![tactic(auto)]

use m4_bits::{copy_into, xor_from2, xor_from4, xor_from8, xor_into};
use m4_model::NoMemory;
use m4_mul::{Plain, Table};
use m4_mzd::{AddMul, Mzd};
use std::alloc::Global;
use std::io;
use std::rt::Runtime;
use std::time::Instant;

/// A square matrix of entries without an order.
fn mixed(alloc: Global, seed: u64) -> Result<Mzd, NoMemory> {
    let mut m = Mzd::zeros(alloc, 2048, 2048)?;
    for r in 0..2048 {
        mix_row(&mut m, r, seed);
    }
    Ok(m)
}

fn mix_row(m: &mut Mzd, r: u32, seed: u64) {
    let mut word = 0x9E37_79B9_7F4A_7C15u64.wrapping_mul(seed) ^ r as u64;
    for c in 0..2048 {
        word ^= word << 13;
        word ^= word >> 7;
        word ^= word << 17;
        if r < m.rows() && c < m.cols() {
            m.put(r, c, word >> 33 & 1 == 1);
        }
    }
}

/// Adds the product of two matrices to a third, if they fit.
fn add_product<E: AddMul>(engine: &mut E, c: &mut Mzd, a: &Mzd, b: &Mzd) {
    let reach = engine.reach();
    let rows = a.rows() == c.rows() && c.rows() <= reach.m;
    let inner = a.cols() == b.rows() && a.cols() <= reach.l;
    let cols = b.cols() == c.cols() && c.cols() <= reach.n;
    if rows && inner && cols {
        let (mut all, home) = c.all_mut();
        engine.addmul(&mut all, &a.all(), &b.all());
        c.put_all(all, home);
    }
}

/// Does so some times, and prints how long each time takes.
fn rounds<E: AddMul, R: Runtime>(
    rt: &R,
    name: &str,
    engine: &mut E,
    c: &mut Mzd,
    factors: &(Mzd, Mzd),
    count: u32,
) -> io::Result<()> {
    for _ in 0..count {
        let start = Instant::now(rt)?;
        add_product(engine, c, &factors.0, &factors.1);
        let took = start.elapsed(rt)?;
        println!(rt; "{} {}", name, took.as_nanos())?;
    }
    Ok(())
}

fn products<R: Runtime>(rt: &R, alloc: Global) -> io::Result<()> {
    match (mixed(alloc, 1), mixed(alloc, 2), mixed(alloc, 3)) {
        (Ok(a), Ok(b), Ok(mut c)) => {
            let factors = (a, b);
            rounds(rt, "plain", &mut Plain, &mut c, &factors, 3)?;
            by_tables(rt, alloc, "k=8_tables=8", 8, &mut c, &factors)?;
            by_tables(rt, alloc, "k=6_tables=4", 4, &mut c, &factors)
        }
        _ => Ok(()),
    }
}

fn by_tables<R: Runtime>(
    rt: &R,
    alloc: Global,
    name: &str,
    tables: u32,
    c: &mut Mzd,
    factors: &(Mzd, Mzd),
) -> io::Result<()> {
    let made = if tables == 8 {
        Table::new(alloc, 2048, 8, 8)
    } else {
        Table::new(alloc, 2048, 6, 4)
    };
    match made {
        Ok(mut table) => rounds(rt, name, &mut table, c, factors, 40),
        Err(NoMemory) => Ok(()),
    }
}

/// A row of 2^15 bits.
fn row_of(seed: u64) -> [u64; 512] {
    let mut row = [0u64; 512];
    let mut word = seed;
    for place in row.iter_mut() {
        word ^= word << 13;
        word ^= word >> 7;
        word ^= word << 17;
        *place = word;
    }
    row
}

/// Prints how long a thousand calls of each kind take, divided by a thousand, and a word of the row, so that it is used.
fn rows<R: Runtime>(rt: &R, sources: &[[u64; 512]; 9], dst: &mut [u64; 512]) -> io::Result<()> {
    let [a, b, c, d, e, f, g, h, i] = sources;
    let start = Instant::now(rt)?;
    for _ in 0..500 {
        copy_into(dst, a, u64::MAX);
        copy_into(dst, i, u64::MAX);
    }
    let copied = start.elapsed(rt)?;
    let start = Instant::now(rt)?;
    for _ in 0..1000 {
        xor_into(dst, a, u64::MAX);
    }
    let one = start.elapsed(rt)?;
    let start = Instant::now(rt)?;
    for _ in 0..1000 {
        xor_from2(dst, a, b, u64::MAX);
    }
    let two = start.elapsed(rt)?;
    let start = Instant::now(rt)?;
    for _ in 0..1000 {
        xor_from4(dst, a, b, c, d, u64::MAX);
    }
    let four = start.elapsed(rt)?;
    let start = Instant::now(rt)?;
    for _ in 0..1000 {
        xor_from8(dst, a, b, c, d, e, f, g, h, u64::MAX);
    }
    let eight = start.elapsed(rt)?;
    println!(rt; "row_copied {}", copied.as_nanos() / 1000)?;
    println!(rt; "row_1_added {}", one.as_nanos() / 1000)?;
    println!(rt; "row_2_added {}", two.as_nanos() / 1000)?;
    println!(rt; "row_4_added {}", four.as_nanos() / 1000)?;
    println!(rt; "row_8_added {}", eight.as_nanos() / 1000)?;
    println!(rt; "used {}", dst[7] % 2)?;
    Ok(())
}

fn main(rt: HostRuntime) -> io::Result<()> {
    products(&rt, rt.alloc())?;
    let sources = [
        row_of(1),
        row_of(2),
        row_of(3),
        row_of(4),
        row_of(5),
        row_of(6),
        row_of(7),
        row_of(8),
        row_of(9),
    ];
    let mut dst = row_of(10);
    for _ in 0..50 {
        rows(&rt, &sources, &mut dst)?;
    }
    Ok(())
}
PROGRAM
(cd crates/bench_mul && rt run > ../../times 2> ../../log) || { tail -40 log; exit 1; }
grep -v '^row\|^used' times | least 1000000 | sed 's/$/ ms/'
grep '^row' times | least 1 | sed 's/$/ ns/'

cat > rows.c <<'PROGRAM'
#include <stdint.h>
#include <stdio.h>
#include <time.h>

static long now(void) {
    struct timespec t;
    clock_gettime(CLOCK_MONOTONIC, &t);
    return t.tv_sec * 1000000000L + t.tv_nsec;
}

static __attribute__((noinline)) void one(uint64_t *restrict d, const uint64_t *a, long n) {
    for (long i = 0; i < n; i++) d[i] ^= a[i];
}

static __attribute__((noinline)) void eight(uint64_t *restrict d, uint64_t r[][512], long n) {
    for (long i = 0; i < n; i++)
        d[i] ^= r[0][i] ^ r[1][i] ^ r[2][i] ^ r[3][i] ^ r[4][i] ^ r[5][i] ^ r[6][i] ^ r[7][i];
}

int main(void) {
    static uint64_t dst[512], rows[8][512];
    for (int k = 0; k < 8; k++)
        for (int i = 0; i < 512; i++) rows[k][i] = i * 0x9E3779B97F4A7C15 + k;
    for (int round = 0; round < 50; round++) {
        long start = now();
        for (int k = 0; k < 1000; k++) one(dst, rows[k & 7], 512);
        printf("row_1_added_in_C %ld\n", (now() - start) / 1000);
        start = now();
        for (int k = 0; k < 1000; k++) eight(dst, rows, 512);
        printf("row_8_added_in_C %ld\n", (now() - start) / 1000);
    }
    return (int)(dst[7] & 0);
}
PROGRAM
cc -O3 -msse4.2 -o rows rows.c
./rows | least 1 | sed 's/$/ ns/'

if [ ! -e /usr/include/m4ri/m4ri.h ]; then
    echo "M4RI is not installed here"
    exit 0
fi
cat > yardstick.c <<'PROGRAM'
#include <m4ri/m4ri.h>
#include <stdio.h>
#include <time.h>

static long now(void) {
    struct timespec t;
    clock_gettime(CLOCK_MONOTONIC, &t);
    return t.tv_sec * 1000000000L + t.tv_nsec;
}

int main(void) {
    mzd_t *a = mzd_init(2048, 2048), *b = mzd_init(2048, 2048), *c = mzd_init(2048, 2048);
    mzd_randomize(a);
    mzd_randomize(b);
    for (int k = 0; k < 40; k++) {
        long start = now();
        mzd_mul_m4rm(c, a, b, 0);
        printf("M4RI_m4rm %ld\n", now() - start);
        start = now();
        mzd_mul_m4rm(c, a, b, 8);
        printf("M4RI_m4rm_k=8 %ld\n", now() - start);
    }
    return 0;
}
PROGRAM
cc -O2 -o yardstick yardstick.c -lm4ri
./yardstick | least 1000000 | sed 's/$/ ms/'
