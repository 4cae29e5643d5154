#!/bin/bash
# bench/stack.sh: builds the library of the crate capi for this machine, and bench/stack.c over it, and runs it: how many bytes of stack a call takes, of both
# allocators from each form of account, of the merge step alone and of a job text, by a covariance and by prices, to its listing and to its sheet (of a tree
# that is one chain too), at 64 assets (8 beside them; a text has room for fewer in hex). A line 'WHAT N BYTES' for each; N is the assets. Needs rt and gcc (or
# another C compiler, named by CC). Its status is 1 where a call is not answered as it should be.
set -euo pipefail
cd "$(dirname "${BASH_SOURCE[0]}")/.."
root=$PWD
. bench/library.sh
mkdir -p target/bench
# bound at the start: what the loader takes to find memset is not the library's
"${CC:-gcc}" -O2 -Wall -Wextra -pthread -Wl,-z,now -Icrates/capi bench/stack.c "$ROVIGNESC_LIB/libcapi.a" -o target/bench/stack
target/bench/stack samples/long.job
