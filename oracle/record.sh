#!/bin/sh
# Builds the Rust against its stand-ins and writes stdin and stdout of the programs that play calls. Needs cargo, the source's five files
# (oracle/source.sh says where they are looked for) and no network.
set -eu
root=$(cd "$(dirname "$0")/.." && pwd -P)
. "$root/oracle/source.sh"
for program in replay risks hrp_accounts hcaa_accounts; do
    oracle_cargo run --quiet --release -p record -- "$program" "$root/crates/$program/stdin" "$root/crates/$program/stdout"
done
