#!/bin/sh
# Times the program over files beside a small C program over Debian's libm4ri that reads and writes the same text.
#
#     bench/whole.sh [COMMAND ..]
#
# Run it where crates/m4lin/out/m4lin stands (rt run makes it). Commands are mul, transpose, rank, echelon, inverse and solve,
# and all of them where none is named. SIZES and ROUNDS in the environment say which sizes and how many rounds (1024 2048
# 4096, and 5), and OPTIONS what words the program gets besides. Matrices are square, of random digits, and regular where one is
# inverted or solved by. The two programs take turns. A line has the command, the size, the least milliseconds of elapsed time
# of each, and the first in terms of the second; both must have written the same bytes.
#
# Where FIELD is a degree and a polynomial in hexadecimal, as FIELD='8 11b', matrices are over that field, the C program stands
# over libm4rie, and the commands are mul, add, transpose, stack, augment, convert, rank, echelon, inverse and solve. M4RIE has no
# transpose, which goes entry by entry, and no solution of a system: A beside B is reduced for it.
set -eu
top=$(cd "$(dirname "$0")/.." && pwd)
m4lin=$top/crates/m4lin/out/m4lin
field=${FIELD:-}
if [ -z "$field" ]; then
    library=m4ri name=M4RI
    commands=${*:-mul transpose rank echelon inverse solve}
else
    library=m4rie name=M4RIE
    commands=${*:-mul add transpose stack augment convert rank echelon inverse solve}
fi
sizes=${SIZES:-1024 2048 4096}
rounds=${ROUNDS:-5}
options=${OPTIONS:-}
if [ ! -x "$m4lin" ]; then
    echo "$m4lin is missing: rt run makes it in crates/m4lin" >&2
    exit 1
fi
if [ ! -e "/usr/include/$library/$library.h" ]; then
    echo "lib$library is not installed here" >&2
    exit 1
fi
folder=$(mktemp -d)
trap 'rm -r "$folder"' EXIT
cd "$folder"

cat > m4ri.c <<'PROGRAM'
#include <m4ri/m4ri.h>
#include <stdio.h>
#include <stdlib.h>
#include <string.h>

static void fail(const char *what) {
    fprintf(stderr, "yardstick: %s\n", what);
    exit(1);
}

/* A headed text: gf2 ROWS COLS, and a line of digits for each row. */
static mzd_t *read_text(const char *name) {
    FILE *file = fopen(name, "rb");
    int rows, cols;
    if (file == NULL || fscanf(file, "gf2 %d %d", &rows, &cols) != 2 || fgetc(file) != '\n') fail("no header");
    mzd_t *a = mzd_init(rows, cols);
    char *line = malloc((size_t)cols + 1);
    for (int r = 0; r < rows; r++) {
        if (fread(line, 1, (size_t)cols + 1, file) != (size_t)cols + 1) fail("a row is missing");
        word *words = a->rows[r];
        for (int c = 0; c < cols; c += 64) {
            int end = cols - c < 64 ? cols - c : 64;
            word sum = 0;
            for (int j = 0; j < end; j++) sum |= (word)(line[c + j] & 1) << j;
            words[c / 64] = sum;
        }
    }
    free(line);
    fclose(file);
    return a;
}

static void write_text(const mzd_t *a) {
    printf("gf2 %d %d\n", a->nrows, a->ncols);
    char *line = malloc((size_t)a->ncols + 64);
    for (int r = 0; r < a->nrows; r++) {
        for (int c = 0; c < a->ncols; c += 64) {
            word digits = a->rows[r][c / 64];
            for (int j = 0; j < 64; j++) line[c + j] = (char)('0' + (digits >> j & 1));
        }
        line[a->ncols] = '\n';
        fwrite(line, 1, (size_t)a->ncols + 1, stdout);
    }
    free(line);
}

/* Random digits; a regular matrix is the product of two triangles with ones on their diagonals. */
static void make(int size, unsigned seed, int regular) {
    srandom(seed);
    mzd_t *a = mzd_init(size, size);
    mzd_randomize(a);
    if (regular) {
        mzd_t *lower = mzd_copy(NULL, a), *upper = mzd_init(size, size);
        mzd_randomize(upper);
        for (int r = 0; r < size; r++) {
            mzd_write_bit(lower, r, r, 1);
            mzd_write_bit(upper, r, r, 1);
            for (int c = r + 1; c < size; c++) {
                mzd_write_bit(lower, r, c, 0);
                mzd_write_bit(upper, c, r, 0);
            }
        }
        mzd_mul(a, lower, upper, 0);
    }
    write_text(a);
}

int main(int count, char **words) {
    if (count < 3) fail("words are missing");
    const char *command = words[1];
    if (strcmp(command, "make") == 0) {
        make(atoi(words[2]), (unsigned)atoi(words[3]), atoi(words[4]));
        return 0;
    }
    mzd_t *a = read_text(words[2]);
    if (strcmp(command, "mul") == 0) {
        write_text(mzd_mul(NULL, a, read_text(words[3]), 0));
    } else if (strcmp(command, "transpose") == 0) {
        write_text(mzd_transpose(NULL, a));
    } else if (strcmp(command, "rank") == 0) {
        printf("rank %d\n", mzd_echelonize_pluq(a, 0));
    } else if (strcmp(command, "echelon") == 0) {
        mzd_echelonize(a, 1);
        write_text(a);
    } else if (strcmp(command, "inverse") == 0) {
        write_text(mzd_inv_m4ri(NULL, a, 0));
    } else if (strcmp(command, "solve") == 0) {
        mzd_t *b = read_text(words[3]);
        mzd_solve_left(a, b, 0, 0);
        write_text(b);
    } else {
        fail("no such command");
    }
    return 0;
}
PROGRAM

cat > m4rie.c <<'PROGRAM'
#include <m4rie/m4rie.h>
#include <stdio.h>
#include <stdlib.h>
#include <string.h>

static void fail(const char *what) {
    fprintf(stderr, "yardstick: %s\n", what);
    exit(1);
}

static int digits_of(const gf2e *field) {
    return ((int)field->degree + 3) / 4;
}

/* A headed text: gf2e DEGREE POLYNOMIAL ROWS COLS, and a line of digits for each row, so many for each element. */
static mzed_t *read_text(const char *name, gf2e *field) {
    unsigned char value[256] = {0};
    FILE *file = fopen(name, "rb");
    int degree, rows, cols, digits = digits_of(field);
    unsigned poly;
    if (file == NULL || fscanf(file, "gf2e %d %x %d %d", &degree, &poly, &rows, &cols) != 4 || fgetc(file) != '\n') fail("no header");
    if (degree != (int)field->degree || poly != field->minpoly) fail("another field");
    for (int d = 0; d < 16; d++) value[(unsigned char)"0123456789abcdef"[d]] = (unsigned char)d;
    mzed_t *a = mzed_init(field, rows, cols);
    size_t length = (size_t)cols * (size_t)digits + 1;
    unsigned char *line = malloc(length);
    for (int r = 0; r < rows; r++) {
        if (fread(line, 1, length, file) != length) fail("a row is missing");
        word *words = a->x->rows[r];
        unsigned char *digit = line;
        for (int c = 0; c < cols; c++) {
            word element = 0;
            for (int d = 0; d < digits; d++) element = element << 4 | value[*digit++];
            words[(size_t)c * a->w / 64] |= element << (size_t)c * a->w % 64;
        }
    }
    free(line);
    fclose(file);
    return a;
}

static void write_text(const mzed_t *a) {
    int digits = digits_of(a->finite_field);
    printf("gf2e %d %x %d %d\n", (int)a->finite_field->degree, (unsigned)a->finite_field->minpoly, a->nrows, a->ncols);
    size_t length = (size_t)a->ncols * (size_t)digits + 1;
    char *line = malloc(length);
    for (int r = 0; r < a->nrows; r++) {
        const word *words = a->x->rows[r];
        char *digit = line;
        for (int c = 0; c < a->ncols; c++) {
            word element = words[(size_t)c * a->w / 64] >> (size_t)c * a->w % 64 & (((word)1 << a->w) - 1);
            for (int d = digits - 1; d >= 0; d--) *digit++ = "0123456789abcdef"[element >> 4 * d & 15];
        }
        *digit = '\n';
        fwrite(line, 1, length, stdout);
    }
    free(line);
}

static mzed_t *transpose(const mzed_t *a) {
    mzed_t *turned = mzed_init(a->finite_field, a->ncols, a->nrows);
    for (int r = 0; r < a->nrows; r++)
        for (int c = 0; c < a->ncols; c++) mzed_write_elem(turned, c, r, mzed_read_elem(a, r, c));
    return turned;
}

/* Random elements; a regular matrix is the product of two triangles with ones on their diagonals. */
static void make(gf2e *field, int size, unsigned seed, int regular) {
    srandom(seed);
    mzed_t *a = mzed_init(field, size, size);
    mzed_randomize(a);
    if (regular) {
        mzed_t *lower = mzed_copy(NULL, a), *upper = mzed_init(field, size, size);
        mzed_randomize(upper);
        for (int r = 0; r < size; r++) {
            mzed_write_elem(lower, r, r, 1);
            mzed_write_elem(upper, r, r, 1);
            for (int c = r + 1; c < size; c++) {
                mzed_write_elem(lower, r, c, 0);
                mzed_write_elem(upper, c, r, 0);
            }
        }
        mzed_mul(a, lower, upper);
    }
    write_text(a);
}

int main(int count, char **words) {
    if (count < 4) fail("words are missing");
    const char *command = words[1];
    gf2e *field = gf2e_init(strtoul(words[2], NULL, 16));
    if (strcmp(command, "make") == 0) {
        make(field, atoi(words[3]), (unsigned)atoi(words[4]), atoi(words[5]));
        return 0;
    }
    mzed_t *a = read_text(words[3], field);
    if (strcmp(command, "mul") == 0) {
        write_text(mzed_mul(NULL, a, read_text(words[4], field)));
    } else if (strcmp(command, "add") == 0) {
        write_text(mzed_add(NULL, a, read_text(words[4], field)));
    } else if (strcmp(command, "stack") == 0) {
        write_text(mzed_stack(NULL, a, read_text(words[4], field)));
    } else if (strcmp(command, "augment") == 0) {
        write_text(mzed_concat(NULL, a, read_text(words[4], field)));
    } else if (strcmp(command, "transpose") == 0) {
        write_text(transpose(a));
    } else if (strcmp(command, "convert") == 0) {
        write_text(a);
    } else if (strcmp(command, "rank") == 0) {
        printf("rank %d\n", mzed_echelonize(a, 0));
    } else if (strcmp(command, "echelon") == 0) {
        mzed_echelonize(a, 1);
        write_text(a);
    } else if (strcmp(command, "inverse") == 0) {
        write_text(mzed_invert_newton_john(NULL, a));
    } else if (strcmp(command, "solve") == 0) {
        mzed_t *b = read_text(words[4], field);
        mzed_t *both = mzed_concat(NULL, a, b);
        mzed_echelonize(both, 1);
        write_text(mzed_submatrix(NULL, both, 0, a->ncols, a->nrows, both->ncols));
    } else {
        fail("no such command");
    }
    return 0;
}
PROGRAM
if [ -z "$field" ]; then
    cc -O2 -o yardstick m4ri.c -lm4ri
else
    cc -O2 -o yardstick m4rie.c -lm4rie -lm4ri
fi

# The tenths of milliseconds that a command takes, whose output goes to a file.
took() {
    out=$1
    shift
    begin=$(date +%s%N)
    "$@" > "$out"
    end=$(date +%s%N)
    echo $(((end - begin) / 100000))
}

# The least of two numbers, the first of which may be missing.
least() {
    if [ -z "$1" ] || [ "$2" -lt "$1" ]; then echo "$2"; else echo "$1"; fi
}

poly=${field#* }
for size in $sizes; do
    ./yardstick make $poly "$size" 1 0 > a.gf2
    ./yardstick make $poly "$size" 2 0 > b.gf2
    ./yardstick make $poly "$size" 3 1 > regular.gf2
    for command in $commands; do
        case $command in
            mul | add | stack | augment) operands='a.gf2 b.gf2' ;;
            inverse) operands=regular.gf2 ;;
            solve) operands='regular.gf2 b.gf2' ;;
            *) operands=a.gf2 ;;
        esac
        ours='' theirs=''
        for _ in $(seq "$rounds"); do
            ours=$(least "$ours" "$(took ours "$m4lin" "$command" $operands $options)")
            theirs=$(least "$theirs" "$(took theirs ./yardstick "$command" $poly $operands)")
        done
        cmp ours theirs || exit 1
        awk -v command="$command" -v size="$size" -v ours="$ours" -v theirs="$theirs" -v name="$name" 'BEGIN {
            printf "%-10s %6d  m4lin %9.1f ms  %s %9.1f ms  %.2f\n", command, size, ours / 10, name, theirs / 10, ours / theirs
        }'
    done
done
