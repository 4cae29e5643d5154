#!/bin/bash
# bench/example.sh: builds the library of the crate capi for this machine, and bench/example.c over it, and runs it: a sheet, then a refusal. Needs rt
# and gcc (or another C compiler, named by CC).
set -euo pipefail
cd "$(dirname "${BASH_SOURCE[0]}")/.."
root=$PWD
. bench/library.sh
mkdir -p target/bench
"${CC:-gcc}" -O2 -Wall -Wextra -Icrates/capi bench/example.c "$ROVIGNESC_LIB/libcapi.a" -o target/bench/example
target/bench/example
