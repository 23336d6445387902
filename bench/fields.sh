#!/bin/sh
# Times products over GF(2^e) in memory, by tables for bits, beside M4RIE's where Debian's libm4rie is installed, and words
# and rows multiplied by an element.
#
#     bench/fields.sh
#
# The figures are the least of all rounds: milliseconds of elapsed time for a product, nanoseconds a word for the rest. The
# program is made in a copy of the crates, which is removed at the end.
set -eu
top=$(cd "$(dirname "$0")/.." && pwd)
folder=$(mktemp -d)
trap 'rm -r "$folder"' EXIT

# The least number of each name, divided by a unit.
least() {
    awk -v unit="$1" '!($1 in best) || $2 < best[$1] { best[$1] = $2 } END { for (name in best) printf "%-24s %8.2f\n", name, best[name] / unit }' | sort
}

mkdir -p "$folder/crates/bench_fields/src"
cd "$folder"
for name in m4_model m4_area m4_bits m4_mzd m4_field m4_mzed m4_gray m4_mul m4_newton; do
    (cd "$top" && tar cf - --exclude=out --exclude=must-fail "crates/$name") | tar xf -
    grep "^$name[ :]" "$top/crates.txt" >> crates.txt
done
echo 'bench_fields: m4_model m4_mzd m4_field m4_mzed m4_mul m4_newton' >> crates.txt
cat > crates/bench_fields/src/main.rt <<'PROGRAM'
//! Times products over fields, and words and rows multiplied by an element: a line with a name and a number of nanoseconds
//! for each round.
#![tactic(auto)]

ghost use Rattle.std.specs.Prelude.{◌≡◌, ◌*◌, ◌^◌, ◌<◌, ◌≤◌, ◌==◌, ◌||◌, IfOk, IsTrue};
ghost use Rattle.m4_field.specs.Fields.{the_field};

use m4_field::Field;
use m4_model::NoMemory;
use m4_mul::Table;
use m4_mzed::{Mzed, mul_word};
use m4_newton::{EAddMul, Newton};
use std::alloc::Global;
use std::io;
use std::rt::Runtime;
use std::time::Instant;

/// Degrees, polynomials, sides and rounds of products.
const PRODUCTS: [(u32, u32, u32, u32); 7] = [
    (2, 0x7, 512, 30),
    (2, 0x7, 1024, 20),
    (4, 0x13, 512, 30),
    (4, 0x13, 1024, 20),
    (8, 0x11b, 512, 20),
    (8, 0x11b, 1024, 10),
    (16, 0x1002b, 1024, 5),
];

/// Degrees and polynomials of fields whose elements fill their places.
const FIELDS: [(u32, u32); 4] = [(2, 0x7), (4, 0x13), (8, 0x11b), (16, 0x1002b)];

/// A matrix of elements without an order.
fn mixed(alloc: Global, field: Field, rows: u32, cols: u32, seed: u64) -> Result<Mzed, NoMemory>
    requires few_rows { rows ≤ 2 ^ 16 }
    requires few_cols { cols ≤ 2 ^ 16 }
    ensures { IfOk result (λ m. (m.rows ≡ rows) × (m.cols ≡ cols) × (m.field ≡ the_field field)) }
{
    let _degree = field.e();
    let mut m = Mzed::zeros(alloc, field, rows, cols)?;
    for r in 0..rows {
        mix_row(&mut m, r, seed);
    }
    Ok(m)
}

/// Writes elements without an order into a row.
fn mix_row(m: &mut Mzed, r: u32, seed: u64)
    requires { r < m.old.rows }
    ensures rows { m.new.rows ≡ m.old.rows }
    ensures cols { m.new.cols ≡ m.old.cols }
    ensures field { m.new.field ≡ m.old.field }
{
    let field = m.field();
    let _degree = field.e();
    let elements = 1u32 << field.e();
    let mut word = 0x9E37_79B9_7F4A_7C15u64.wrapping_mul(seed) ^ u64::from(r);
    for c in 0..m.cols() {
        word ^= word << 13;
        word ^= word >> 7;
        word ^= word << 17;
        m.put(r, c, (word >> 40) as u32 % elements);
    }
}

/// The factors and the sum of a product, and its engine.
#[derive(Drop)]
struct Product {
    a: Mzed,
    b: Mzed,
    c: Mzed,
    newton: Newton<Table>,
}

/// Square ones of this side.
fn made(alloc: Global, field: Field, side: u32) -> Result<Product, NoMemory>
    requires { side ≤ 2 ^ 14 }
    ensures fields { IfOk result (λ p. (p.a.field ≡ p.c.field) × (p.b.field ≡ p.c.field) × (p.c.field ≡ p.newton.field)) }
    ensures shapes { IfOk result (λ p. (p.a.rows ≡ p.c.rows) × (p.a.cols ≡ p.b.rows) × (p.b.cols ≡ p.c.cols)) }
    ensures reached { IfOk result (λ p. (p.c.rows ≤ p.newton.bits.m) × (p.a.cols ≤ 2 ^ 24) × (p.c.cols ≤ p.newton.cols)) }
{
    let _degree = field.e();
    let a = mixed(alloc, field, side, side, 1)?;
    let b = mixed(alloc, field, side, side, 2)?;
    let c = mixed(alloc, field, side, side, 3)?;
    let table = Table::new(alloc, side * field.width(), 8, 8)?;
    let newton = Newton::new(alloc, field, side, table)?;
    Ok(Product { a, b, c, newton })
}

/// Adds the product of two matrices to a third.
fn add_product(newton: &mut Newton<Table>, c: &mut Mzed, a: &Mzed, b: &Mzed)
    requires for_field { c.old.field ≡ newton.old.field }
    requires a_field { a.now.field ≡ c.old.field }
    requires b_field { b.now.field ≡ c.old.field }
    requires rows { a.now.rows ≡ c.old.rows }
    requires inner { a.now.cols ≡ b.now.rows }
    requires cols { b.now.cols ≡ c.old.cols }
    requires few_rows { c.old.rows ≤ newton.old.bits.m }
    requires few_inner { a.now.cols ≤ 2 ^ 24 }
    requires few_cols { c.old.cols ≤ newton.old.cols }
{
    let (mut all, home) = c.all_mut();
    newton.addmul(&mut all, &a.all(), &b.all());
    c.put_all(all, home);
}

/// Makes a product, and prints how long it took.
fn round<R: Runtime>(rt: &R, alloc: Global, field: Field, side: u32) -> io::Result<()>
    requires { side ≤ 2 ^ 14 }
{
    if let Ok(mut p) = made(alloc, field, side) {
        let start = Instant::now(rt)?;
        add_product(&mut p.newton, &mut p.c, &p.a, &p.b);
        let took = start.elapsed(rt)?;
        println!(rt; "Newton_{}_{} {}", field.e(), side, took.as_nanos())?;
    }
    Ok(())
}

fn products<R: Runtime>(rt: &R, alloc: Global) -> io::Result<()> {
    for case in &PRODUCTS {
        if let Ok(field) = Field::new(case.0, case.1) {
            for _ in 0..case.3 {
                round(rt, alloc, field, case.2.min(1 << 14))?;
            }
        }
    }
    Ok(())
}

/// Multiplies each word of a row.
fn mul_words<const W: usize>(f: &Field, row: &mut [u64; 512], x: u32)
    requires full { (the_field f.now).degree ≡ W }
    requires wide { IsTrue (W == 1 || W == 2 || W == 4 || W == 8 || W == 16) }
    requires element { x < 2 ^ W }
{
    for place in row.iter_mut() {
        *place = mul_word::<W>(f, *place, x);
    }
}

/// The same by the width of the field.
fn mul_row(f: &Field, row: &mut [u64; 512]) {
    match f.e() {
        2 => mul_words::<2>(f, row, 3),
        4 => mul_words::<4>(f, row, 13),
        8 => mul_words::<8>(f, row, 0xca),
        16 => mul_words::<16>(f, row, 0xcafe),
        _ => (),
    }
}

/// Adds a multiple of the first row of a matrix to the second.
fn add_row(m: &mut Mzed) {
    let field = m.field();
    let _degree = field.e();
    if m.rows() == 2 {
        let x = (1u32 << field.e()) - 1;
        let (mut all, home) = m.all_mut();
        all.add_own(1, 0, x, 0);
        m.put_all(all, home);
    }
}

/// Prints how long a hundred calls of each kind take over rows of 512 words, divided by so many words, and a number that hangs
/// on them, so that they are made.
fn words<R: Runtime>(rt: &R, field: Field, m: &mut Mzed) -> io::Result<()> {
    let mut row = [0x0123_4567_89ab_cdefu64; 512];
    let start = Instant::now(rt)?;
    for _ in 0..100 {
        mul_row(&field, &mut row);
    }
    let words = start.elapsed(rt)?;
    let start = Instant::now(rt)?;
    for _ in 0..100 {
        add_row(m);
    }
    let rows = start.elapsed(rt)?;
    println!(rt; "mul_word_{} {}", field.e(), words.as_nanos() / 512)?;
    println!(rt; "add_multiple_{} {}", field.e(), rows.as_nanos() / 512)?;
    println!(rt; "used {}", row[7] % 2)?;
    Ok(())
}

fn rows<R: Runtime>(rt: &R, alloc: Global) -> io::Result<()> {
    for case in &FIELDS {
        if let Ok(field) = Field::new(case.0, case.1) {
            if let Ok(mut m) = mixed(alloc, field, 2, 32768 / case.0.max(1), 1) {
                for _ in 0..200 {
                    words(rt, field, &mut m)?;
                }
            }
        }
    }
    Ok(())
}

fn main(rt: HostRuntime) -> io::Result<()> {
    products(&rt, rt.alloc())?;
    rows(&rt, rt.alloc())
}
PROGRAM
for name in mixed mix_row; do
    mkdir -p "crates/bench_fields/proofs/$name"
done
cat > crates/bench_fields/proofs/mixed/Invariants.antt <<'PROOF'
use Rattle.std.proofs.Common.{◌≡◌}
use Rattle.m4_field.specs.Fields.{the_field}
use Rattle.bench_fields.proofs.mixed.Given as goal

abbrev pub invariant-loop-r : goal.invariant-loop-r
invariant-loop-r l = (l.m.rows ≡ l.fn.rows) × (l.m.cols ≡ l.fn.cols) × (l.m.field ≡ the_field l.fn.field)
PROOF
cat > crates/bench_fields/proofs/mix_row/Invariants.antt <<'PROOF'
use Rattle.std.proofs.Common.{◌≡◌}
use Rattle.bench_fields.proofs.mix_row.Given as goal

abbrev pub invariant-loop-c : goal.invariant-loop-c
invariant-loop-c l = (l.m.rows ≡ l.fn.m.rows) × (l.m.cols ≡ l.fn.m.cols) × (l.m.field ≡ l.fn.m.field)
PROOF
(cd crates/bench_fields && rt run > ../../times 2> ../../log) || { tail -40 log; exit 1; }
grep '^Newton' times | least 1000000 | sed 's/$/ ms/'
grep '^mul\|^add' times | least 100 | sed 's/$/ ns a word/'

if [ ! -e /usr/include/m4rie/m4rie.h ]; then
    echo "M4RIE is not installed here"
    exit 0
fi
cat > yardstick.c <<'PROGRAM'
#include <m4rie/m4rie.h>
#include <stdio.h>
#include <time.h>

static long now(void) {
    struct timespec t;
    clock_gettime(CLOCK_MONOTONIC, &t);
    return t.tv_sec * 1000000000L + t.tv_nsec;
}

static void products(int degree, word poly, int side, int rounds) {
    gf2e *field = gf2e_init(poly);
    mzed_t *a = mzed_init(field, side, side), *b = mzed_init(field, side, side), *c = mzed_init(field, side, side);
    mzed_randomize(a);
    mzed_randomize(b);
    for (int k = 0; k < rounds; k++) {
        long start = now();
        mzed_mul(c, a, b);
        printf("M4RIE_%d_%d %ld\n", degree, side, now() - start);
        start = now();
        mzed_mul_newton_john(c, a, b);
        printf("M4RIE_newton_john_%d_%d %ld\n", degree, side, now() - start);
    }
    mzed_free(a);
    mzed_free(b);
    mzed_free(c);
    gf2e_free(field);
}

int main(void) {
    products(2, 0x7, 512, 30);
    products(2, 0x7, 1024, 20);
    products(4, 0x13, 512, 30);
    products(4, 0x13, 1024, 20);
    products(8, 0x11b, 512, 20);
    products(8, 0x11b, 1024, 10);
    products(16, 0x1002b, 1024, 1);
    return 0;
}
PROGRAM
cc -O2 -o yardstick yardstick.c -lm4rie -lm4ri
./yardstick | least 1000000 | sed 's/$/ ms/'
