#!/bin/sh
# Builds the example host in C against the proved library, and runs it on the script on standard input:
#   examples/host.sh < examples/worked.script
set -eu
cd "$(dirname "$0")/.."
kit=$(dirname "$(rt doc)")
mkdir -p target
(cd crates/host && rt lib) >target/host.log 2>&1 </dev/null || { cat target/host.log >&2; exit 1; }
${CC:-cc} -std=c11 -O2 -Wall -Wextra -Wpedantic -Werror -Iinclude -o target/host \
    examples/host.c crates/host/out/libhost.a "$kit/c/liblibc_c.a"
exec target/host
