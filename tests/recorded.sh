# What the makers of recorded calls share; sourced by make in tests/vectors and tests/replay, with the maker's arguments.
# It builds the oracle and the program main.rs that stands beside the maker, as $out/NAME, where NAME is the folder's.
set -euo pipefail

here=$(cd "$(dirname "$0")" && pwd)
root=$(cd "$here/../.." && pwd)
name=$(basename "$here")
oracle=$root/target/oracle
out=$root/target/$name
mode=${1-}
mkdir -p "$out"

"$root/tests/oracle/build"
rustc --edition 2024 -O -C overflow-checks=on -L "$oracle" --extern "oracle=$oracle/liboracle.rlib" \
    --crate-name "$name" -o "$out/$name" "$here/main.rs"

# readme: the README beside the maker, with standard input as what it counts.
readme() {
    sed '/^## Counts/,$d' "$here/README.md" >"$out/README.md"
    { echo "## Counts"; echo; cat; } >>"$out/README.md"
}

# keep FILE PLACE: puts a file in its place, or with --check compares it with what is there.
keep() {
    if [ "$mode" = --check ]; then
        cmp "$out/$1" "$2/$1" || exit 1
    else
        cp "$out/$1" "$2/$1"
    fi
}

# keep_all CRATE: the calls and their ends, which the gate replays by this crate, and the README.
keep_all() {
    keep stdin "$root/crates/$1"
    keep stdout "$root/crates/$1"
    keep README.md "$here"
}
