# Sourced, with the repository's folder in $root: makes target/oracle/rust, a copy of oracle/rust and in it the source's five files, unchanged, from
# OPENQUANT_SRC (a path from $root where it is relative). What is the same stays as it is, so that cargo builds again only what it has to.
source=${OPENQUANT_SRC:-../shared/docs/src/crates/openquant/src}
made=$root/target/oracle/rust
case $source in /*) ;; *) source=$root/$source ;; esac

put() {
    cmp -s "$1" "$2" || { mkdir -p "$(dirname "$2")" && cp "$1" "$2"; }
}

for file in hcaa.rs hrp.rs util/linkage.rs util/stats.rs util/resample.rs; do
    [ -f "$source/$file" ] || { echo "oracle: $file of Open-Quant/openquant is not in $source (OPENQUANT_SRC names its folder)" >&2; exit 2; }
    put "$source/$file" "$made/openquant/src/$file"
done
(cd "$root/oracle/rust" && find . -type f) | while read -r file; do put "$root/oracle/rust/$file" "$made/$file"; done
# nothing of an earlier copy
(cd "$made" && find . -type f) | while read -r file; do
    [ -f "$root/oracle/rust/$file" ] || [ -f "$source/${file#./openquant/src/}" ] || rm "$made/$file"
done

# cargo on the copy, without a network
oracle_cargo() {
    (cd "$made" && CARGO_TARGET_DIR=$root/target/oracle/build cargo --offline "$@")
}
