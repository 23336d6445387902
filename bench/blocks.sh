#!/bin/sh
# Times products of square matrices in memory by the engine that multiplies by tables, whose products go block by block past
# 2,048 columns, beside M4RI's where Debian's libm4ri is installed.
#
#     bench/blocks.sh [SIZE ..]
#
# Sizes are 1024, 2048, 4096 and 8192 where none is named, and TABLES in the environment says which tables: 8x8 for eight tables of
# 2^8 entries, which is taken where it isn't set, or several of these. A line has a name, the size, and the least milliseconds of
# elapsed time of five rounds. The program is made in a copy of the crates, which is removed at the end.
set -eu
top=$(cd "$(dirname "$0")/.." && pwd)
sizes=${*:-1024 2048 4096 8192}
tables=${TABLES:-8x8}
folder=$(mktemp -d)
trap 'rm -r "$folder"' EXIT

# The least number of each name.
least() {
    awk '!($1 in best) || $2 < best[$1] { best[$1] = $2 } END { for (name in best) printf "%-24s %10.2f ms\n", name, best[name] / 1000000 }' | sort
}

mkdir -p "$folder/crates/bench_blocks/src"
cd "$folder"
for name in m4_model m4_area m4_bits m4_mzd m4_gray m4_mul; do
    (cd "$top" && tar cf - --exclude=out --exclude=must-fail "crates/$name") | tar xf -
    grep "^$name[ :]" "$top/crates.txt" >> crates.txt
done
echo 'bench_blocks: m4_model m4_mzd m4_mul' >> crates.txt
list=$(echo $sizes | sed 's/ /, /g')
pairs=$(echo $tables | sed 's/\([0-9]*\)x\([0-9]*\)/(\1, \2),/g')
cat > crates/bench_blocks/src/main.rt <<PROGRAM
//! Times products: a line with a name, a size and a number of nanoseconds for each round.
#![tactic(auto)]

use m4_model::NoMemory;
use m4_mul::Table;
use m4_mzd::{AddMul, Mzd, mixed};
use std::alloc::Global;
use std::io;
use std::rt::Runtime;
use std::time::Instant;

const SIZES: &[u32] = &[$list];

const TABLES: &[(u32, u32)] = &[$pairs];

PROGRAM
cat >> crates/bench_blocks/src/main.rt <<'PROGRAM'
/// The factors and the sum of a product, and its engine.
#[derive(Drop)]
struct Product {
    a: Mzd,
    b: Mzd,
    c: Mzd,
    table: Table,
}

impl Product {
    fn new(alloc: Global, size: u32, (k, tables): (u32, u32)) -> Result<Product, NoMemory> {
        let size = size.min(1 << 24);
        let a = mixed(alloc, size, size, 1)?;
        let b = mixed(alloc, size, size, 2)?;
        let c = mixed(alloc, size, size, 3)?;
        let table = Table::new(alloc, size, k.min(8).max(1), tables.min(8).max(1))?;
        Ok(Product { a, b, c, table })
    }

    fn add(&mut self) {
        let reach = self.table.reach();
        if self.a.rows() == self.c.rows()
            && self.a.cols() == self.b.rows()
            && self.b.cols() == self.c.cols()
            && self.c.rows() <= reach.m
            && self.a.cols() <= reach.l
            && self.c.cols() <= reach.n
        {
            let (mut all, home) = self.c.all_mut();
            self.table.addmul(&mut all, &self.a.all(), &self.b.all());
            self.c.put_all(all, home);
        }
    }
}

fn rounds<R: Runtime>(
    rt: &R,
    size: u32,
    (k, tables): (u32, u32),
    product: &mut Product,
) -> io::Result<()> {
    for _ in 0..5 {
        let start = Instant::now(rt)?;
        product.add();
        let took = start.elapsed(rt)?;
        println!(rt; "Table_{}_{}x{} {}", size, k, tables, took.as_nanos())?;
    }
    Ok(())
}

fn main(rt: HostRuntime) -> io::Result<()> {
    for size in SIZES {
        for sizes in TABLES {
            if let Ok(mut product) = Product::new(rt.alloc(), *size, *sizes) {
                rounds(&rt, *size, *sizes, &mut product)?;
            }
        }
    }
    Ok(())
}
PROGRAM
(cd crates/bench_blocks && rt run > ../../times 2> ../../log) || { tail -40 log; exit 1; }
least < times

if [ ! -e /usr/include/m4ri/m4ri.h ]; then
    echo "M4RI is not installed here"
    exit 0
fi
cat > yardstick.c <<'PROGRAM'
#include <m4ri/m4ri.h>
#include <stdio.h>
#include <stdlib.h>
#include <time.h>

static long now(void) {
    struct timespec t;
    clock_gettime(CLOCK_MONOTONIC, &t);
    return t.tv_sec * 1000000000L + t.tv_nsec;
}

int main(int count, char **sizes) {
    for (int k = 1; k < count; k++) {
        int n = atoi(sizes[k]);
        mzd_t *a = mzd_init(n, n), *b = mzd_init(n, n), *c = mzd_init(n, n);
        mzd_randomize(a);
        mzd_randomize(b);
        for (int round = 0; round < 5; round++) {
            long start = now();
            mzd_mul_m4rm(c, a, b, 0);
            printf("M4RI_m4rm_%d %ld\n", n, now() - start);
            start = now();
            mzd_mul(c, a, b, 0);
            printf("M4RI_mul_%d %ld\n", n, now() - start);
        }
        mzd_free(a);
        mzd_free(b);
        mzd_free(c);
    }
    return 0;
}
PROGRAM
cc -O2 -o yardstick yardstick.c -lm4ri
./yardstick $sizes | least
