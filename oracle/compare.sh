#!/bin/sh
# Makes the recorded files of the replay programs anew in a scratch folder, and compares them byte for byte with those checked in.
# Use: oracle/compare.sh RUST_DIR. It rests on build.sh, python3 and, for sympy.bin, on sympy, without which that file is skipped.
# A line for each file, and at the end `N passed, M failed`; the status is 0 where none failed.
set -eu

rust=${1:-}
if [ -z "$rust" ]; then
    echo "compare: say where the original Rust sources are: make compare RUST=DIR, a folder with anf_transform.rs and the files beside it" >&2
    exit 2
fi
if ! command -v python3 >/dev/null 2>&1; then
    echo "compare: python3 is not installed; it makes the files from print, from sympy and from the documents" >&2
    exit 2
fi

here=$(cd "$(dirname "$0")" && pwd)
scratch=$(mktemp -d)
trap 'rm -rf "$scratch"' EXIT
trap 'exit 1' INT TERM
passed=0
failed=0

# A file or folder made just before, by its path below the scratch folder, and the path below crates/ of the one checked in.
compare_paths() {
    if diff -rq -x README.md "$scratch/made/$1" "$here/../crates/$2" >/dev/null; then
        echo "$2: same"
        passed=$((passed + 1))
    else
        echo "$2: DIFFERS"
        failed=$((failed + 1))
    fi
}

# One recorded file of a program.
compare() {
    compare_paths "$2" "$1/data/$2"
}

mkdir "$scratch/made"
"$here/build.sh" "$rust" "$scratch/build"

"$scratch/build/oracle" transforms "$scratch/made"
compare replay_transforms small.bin
compare replay_transforms samples.bin
compare replay_transforms wrong_small.bin
compare replay_transforms wrong_samples.bin

"$scratch/build/oracle" expressions "$scratch/made"
compare replay_rules small.bin
compare replay_rules samples.bin
compare replay_rules wrong_small.bin
compare replay_rules wrong_samples.bin

"$scratch/build/oracle" costs "$scratch/made"
compare replay_expressions costs.bin
compare replay_expressions wrong_costs.bin

"$scratch/build/oracle" choices "$scratch/made"
compare replay_expressions choices.bin
compare replay_expressions wrong_choices.bin

"$scratch/build/oracle" listings "$scratch/made"
compare replay_expressions listings.bin
compare replay_expressions wrong_listings.bin

python3 "$here/expression_cases.py" "$scratch/made"
compare replay_expressions cases.bin
compare replay_expressions wrong_cases.bin

python3 -B "$here/reading_cases.py" "$scratch/made" >/dev/null
compare replay_expressions readings.bin
compare replay_expressions wrong_readings.bin

python3 -B "$here/star_cases.py" "$scratch/made"
compare replay_expressions stars.bin
compare replay_expressions wrong_stars.bin

python3 -B "$here/package_cases.py" "$scratch/made"
compare replay_packages full_small.bin
compare replay_packages full_samples.bin
compare replay_packages cuts.bin
compare replay_packages changes.bin
compare replay_packages edges.bin
compare replay_packages writings.bin
compare replay_packages wrong_readings.bin
compare replay_packages wrong_writings.bin

python3 "$here/printed_transforms.py" "$scratch/made"
compare replay_transforms printed.bin

python3 "$here/printed_rules.py" "$scratch/made"
compare_paths data replay_printing/data
compare_paths stdout replay_printing/stdout

python3 "$here/examined_rules.py" "$scratch/made/examining"
compare_paths examining/data replay_examining/data
compare_paths examining/stdout replay_examining/stdout

if python3 -c 'import sympy' >/dev/null 2>&1; then
    python3 "$here/sympy_transforms.py" "$scratch/made"
    compare replay_transforms sympy.bin
else
    echo "replay_transforms/data/sympy.bin: skipped, python3 has no sympy (Debian's package python3-sympy)"
fi

echo "$passed passed, $failed failed"
[ "$failed" -eq 0 ]
