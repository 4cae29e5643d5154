#!/bin/bash
# bench/sqrt.sh: builds the library of the crate capi for this machine, and runs bench/sqrt.c over it: rovignesc_sqrt beside the processor's square
# root, compared on 40 million doubles and timed. Needs rt and gcc (or another C compiler, named by CC). Its status is 1 where an answer differs.
set -euo pipefail
cd "$(dirname "${BASH_SOURCE[0]}")/.."
bench/native-staticlib capi
mkdir -p target/bench
# no errno, so that sqrt is the processor's instruction alone; one at a time, as ours
"${CC:-gcc}" -O2 -fno-math-errno -fno-tree-vectorize -Icrates/capi bench/sqrt.c target/native/libcapi.a -lm -o target/bench/sqrt
target/bench/sqrt
