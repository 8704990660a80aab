#!/bin/sh
# Builds the driver over the original Rust sources, which are compiled where they lie and are never copied or changed.
# Use: oracle/build.sh RUST_DIR OUT_DIR. RUST_DIR holds anf_transform.rs and the five files beside it; OUT_DIR gets the program `oracle`.
# It rests on rustc and on the sources of the crate smallvec, as Debian's package librust-smallvec-dev installs them; SMALLVEC=DIR names another copy.
set -eu

fail() {
    echo "oracle: $1" >&2
    exit 1
}

[ $# -eq 2 ] || fail "two folders are needed: the original Rust sources, and where to build (oracle/build.sh RUST_DIR OUT_DIR)"
command -v rustc >/dev/null 2>&1 || fail "rustc is not installed; it compiles the original Rust"
[ -d "$1" ] || fail "there is no folder $1; RUST= must name the one that holds the original Rust sources"

here=$(cd "$(dirname "$0")" && pwd)
rust=$(cd "$1" && pwd)
for file in arith expr expr_cost anf_cleanup anf_transform packed_anf; do
    [ -f "$rust/$file.rs" ] || fail "$rust has no $file.rs; RUST= must name the folder that holds the original Rust sources"
done

smallvec=${SMALLVEC:-}
if [ -z "$smallvec" ]; then
    for folder in /usr/share/cargo/registry/smallvec-1.*; do
        [ -f "$folder/src/lib.rs" ] && smallvec=$folder
    done
fi
[ -n "$smallvec" ] || fail "the crate smallvec is not installed; Debian's package librust-smallvec-dev has it, or SMALLVEC= names a folder with its sources"
[ -f "$smallvec/src/lib.rs" ] || fail "$smallvec has no src/lib.rs; SMALLVEC= must name a folder with the sources of smallvec"

mkdir -p "$2"
out=$(cd "$2" && pwd)

# The sources name each other by these two modules, so the crate that holds them has the same two.
cat > "$out/original.rs" <<END
#![allow(dead_code)]
pub mod core {
    #[path = "$rust/arith.rs"]
    pub mod arith;
    #[path = "$rust/expr.rs"]
    pub mod expr;
    #[path = "$rust/expr_cost.rs"]
    pub mod expr_cost;
}
pub mod ir {
    #[path = "$rust/anf_cleanup.rs"]
    pub mod anf_cleanup;
    #[path = "$rust/anf_transform.rs"]
    pub mod anf_transform;
    #[path = "$rust/packed_anf.rs"]
    pub mod packed_anf;
}
END

rustc --edition 2018 -O --cap-lints allow --crate-type rlib --crate-name smallvec \
    --out-dir "$out" "$smallvec/src/lib.rs"
rustc --edition 2021 -O --crate-type rlib --crate-name original \
    --extern smallvec="$out/libsmallvec.rlib" --out-dir "$out" "$out/original.rs"
rustc --edition 2021 -O --crate-name oracle \
    --extern original="$out/liboriginal.rlib" -L "$out" -o "$out/oracle" "$here/src/main.rs"
