#!/bin/sh
# Builds the benchmark against the proved library, and runs it.
set -eu
cd "$(dirname "$0")/.."
kit=$(dirname "$(rt doc)")
mkdir -p target
(cd crates/host && rt lib) >target/bench.log 2>&1 </dev/null || { cat target/bench.log >&2; exit 1; }
${CC:-cc} -std=c11 -D_POSIX_C_SOURCE=200809L -O2 -Wall -Wextra -Wpedantic -Werror -Iinclude -o target/bench \
    bench/bench.c crates/host/out/libhost.a "$kit/c/liblibc_c.a"
exec target/bench
