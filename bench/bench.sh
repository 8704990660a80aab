#!/bin/sh
# Measures the library beside the original Rust, on the same inputs in one process, and writes the table of ratios, 64 stars in one call, raw costing,
# packages, the growth of each call, its stack and the code's size to docs/BENCHMARK.md.
# Use: bench/bench.sh RUST_DIR. It rests on oracle/build.sh, rustc, cc, objcopy, size and rt.
set -eu

rust=${1:-}
if [ -z "$rust" ]; then
    echo "bench: say where the original Rust sources are: make bench RUST=DIR, a folder with anf_cleanup.rs and the files beside it" >&2
    exit 2
fi
here=$(cd "$(dirname "$0")/.." && pwd)
scratch=$(mktemp -d)
trap 'rm -rf "$scratch"' EXIT
trap 'exit 1' INT TERM

"$here/oracle/build.sh" "$rust" "$scratch"
# The static library that exports a crate, built over what was proved before.
library() {
    (cd "$here/crates/$1_c" && rt lib >"$scratch/$1.log" 2>&1) || {
        tail -n 5 "$scratch/$1.log" >&2
        exit 1
    }
}

library guide_rules
# Left to the linker, a function's place depends on what else is linked, and moves the time of a short call by about a seventh, up or down.
objcopy --set-section-alignment '.text.*=64' "$here/crates/guide_rules_c/out/libguide_rules_c.a" "$scratch/libguide_rules.a"
rustc --edition 2021 -C opt-level=3 --crate-name bench --extern original="$scratch/liboriginal.rlib" -L "$scratch" -o "$scratch/bench" \
    "$here/bench/main.rs"
"$scratch/bench" >"$scratch/table.md"
"$scratch/bench" stars >"$scratch/stars.md"
"$scratch/bench" raw_costs >"$scratch/raw_costs.md"
"$scratch/bench" packages >"$scratch/packages.md"
"$scratch/bench" growth >"$scratch/growth.md"
cc -O2 -std=c99 -Wall -Wextra -Werror -I"$here/include" "$here/bench/stack.c" "$here/crates/guide_rules_c/out/libguide_rules_c.a" -o "$scratch/stack"
"$scratch/stack" >"$scratch/stack.md"
library console
# Code and constants, in bytes: the second and later lines of size's output, first column.
code=$(size "$here/crates/console_c/out/libconsole_c.a" | awk 'NR > 1 { sum += $1 } END { print sum }')
{
    cat <<'END'
# Measured beside the original

`make bench RUST=DIR` makes this page. Both sides are built for release (rustc -O for the original, -O3 for the library, whose code is for x86-64-v2, the toolchain's default) and run on the same inputs in one process, the two in turn, 25 rounds; a time is the least of the rounds, in nanoseconds a call, and the table has the mean over the inputs. A ratio is the original's time over ours; the last column compares the slowest tenths of the inputs. The inputs come from a fixed sequence of numbers: 60 tables of each kind for compiling (worst: of 1,000 random tables the 60 that ours takes longest for), 8 for transforms, 6 for listings, and the expressions of 60 random tables for the rest. The original's results are allocated, ours are written to lent buffers, which are not cleared between calls. Each of the library's functions starts at a multiple of 64 bytes; left to the linker, its place moves the time of a short call by about a seventh, up or down. Absolute times vary by machine, and no time is a test.

The original has no way back and no examiner: the first is compared with its transform of the unpacked coefficients, the second with evaluating its tree at every setting and comparing. Costing on our side reads bytes and answers cost, size and depth; the original's side is `anf_expr_cost` and `compute_cost` on a tree that stands in memory. Our side of every row is the C function of include/guide_rules.h with its whole answer. Version 0.1.0 measured calls that threw costs and values away, so that the compiler left part of the work out: its ratios of costing (2 to 3) and of raw costing (19 and more) were too good.

END
    cat "$scratch/table.md"
    printf '\n## Sixty-four stars in one call\n\nThe expressions of 60 random tables, each with random words of stars. The original evaluates its tree at 64 settings that stand in memory; the 64 single evaluations are calls of the library. Before they are measured, the values of all stars are compared with those of the original.\n\n'
    cat "$scratch/stars.md"
    printf '\n## Raw costing\n\nThe coefficients of 60 random tables. The original lists and sorts the monomials of the coefficients and then adds up what they cost; the library walks the coefficients and makes no list. The sum alone is that of a list that stands in memory already. Before they are measured, the costs of all forms are compared with those of the original.\n\n'
    cat "$scratch/raw_costs.md"
    printf '\n## Packages\n\nA package of rules of random tables, as many as 65,536 bytes have room for, with the expressions that the original gives: all its rules read one after the other, beside the examination of its expressions alone, each against its table in memory. MB are millions of bytes of the package, headers included, in both columns. An examination packs the entries of its table, which a rule of a package has as a word. Before they are measured, the rules that are read are counted.\n\n'
    cat "$scratch/packages.md"
    printf '\n## Growth\n\nOurs alone: the least of 25 rounds, over random tables of that many flags, or one expression of that many records of six flags.\n\n'
    cat "$scratch/growth.md"
    printf '\n## Memory and code\n\nStack, by painting a stack of its own for each call and looking for the lowest byte that changed. No call allocates.\n\n'
    cat "$scratch/stack.md"
    printf '\nThe console library has %s bytes of code and constants (`size libconsole.a`).\n' "$code"
    printf '\nMeasured on: %s, %s, %s.\n' "$(sed -n 's/^model name[^:]*: //p' /proc/cpuinfo | head -n 1)" "$(rustc --version | cut -d' ' -f1,2)" "$(rt version)"
} >"$here/docs/BENCHMARK.md"
cat "$scratch/table.md"
