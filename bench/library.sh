# Sourced, with the repository's folder in $root: proves our library and builds it for this machine, and leaves its folder in ROVIGNESC_LIB. Where that
# is set already, it is the folder of a libcapi.a that is taken as it is.
if [ -z "${ROVIGNESC_LIB:-}" ]; then
    (cd "$root" && bench/native-staticlib capi) >&2
    ROVIGNESC_LIB=$root/target/native
fi
ROVIGNESC_LIB=$(cd "$ROVIGNESC_LIB" && pwd -P)
export ROVIGNESC_LIB
