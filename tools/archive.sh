#!/usr/bin/env bash
# Makes target/staticlib/liborder.a of the static library crates/order_c.
#
#   bash tools/archive.sh anew   proves order_c and the libraries below it, but for those that have not changed since a command in
#                                this checkout proved them
#   bash tools/archive.sh        after `rt ci` in a checkout that had no libraries of its own in crates/*/out/rlib: over those that
#                                `rt ci` proved and left there, which `rt lib` would prove once more; order_c itself is checked again.
#                                (Where there were such libraries, `rt ci` puts them back, and they may be of an older text.)
set -euo pipefail
cd "$(dirname "$0")/.."
top=$PWD

# rt has no command for this, so these are the words that `rt lib` gives to rattle.
over_proved() {
    local kit name words=()
    kit=$(dirname "$(rt doc)")
    for name in $(sed -n 's/^order_c staticlib: *//p' crates.txt); do
        words+=(--extern "$name=$top/crates/$name/out/rlib/$name.rlib")
    done
    for name in crates/*/out/rlib; do
        words+=(-L "dependency=$top/$name")
    done
    mkdir -p crates/order_c/out
    (
        cd crates/order_c
        rattle build --crate-name order_c src/lib.rt --crate-type staticlib "${words[@]}" \
            --extern "std=$kit/rlibs/std.rlib" -L "dependency=$kit/rlibs" \
            --antt-project "$kit/rattle/logic/antt-project.json" --logic-built "$kit/logic_built" \
            --toolchain "$kit/toolchain" --backend llvm --jobs 2 -o out/liborder_c.a
    )
}

rm -f crates/order_c/out/liborder_c.a
if [ "${1:-}" = anew ] || ! over_proved; then
    (cd crates/order_c && rt lib)
fi
mkdir -p target/staticlib
cp crates/order_c/out/liborder_c.a target/staticlib/liborder.a
