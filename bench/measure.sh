#!/bin/sh
# Builds hy_measured, links bench/measure.c with it, and runs it. It needs a C compiler, and KIT, the toolchain's folder,
# where `rt` is not installed from /opt/rattle. Where clang is there too, the plain loop is compiled by both;
# where python3 is, the same questions are put to SQLite.
set -e
cd "$(dirname "$0")/.."
(cd crates/hy_measured && rt lib)
work="$(mktemp -d)"
trap 'rm -rf "$work"' EXIT
cc -O2 -c -DPLAIN_BELOW=plain_below_by_cc -o "$work/by_cc.o" bench/plain.c
by_clang=""
if command -v clang >/dev/null; then
    clang -O3 -march=x86-64-v2 -c -DPLAIN_BELOW=plain_below_by_clang -o "$work/by_clang.o" bench/plain.c
    by_clang="-DBY_CLANG $work/by_clang.o"
fi
# shellcheck disable=SC2086  # two words, or none
cc -O2 -o "$work/measure" bench/measure.c "$work/by_cc.o" $by_clang crates/hy_measured/out/libhy_measured.a "${KIT:-/opt/rattle}/c/liblibc_c.a"
"$work/measure"
if command -v python3 >/dev/null; then
    python3 bench/beside_sqlite.py
fi
