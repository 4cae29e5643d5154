# Sourced, with the repository's folder in $root: `run_program NAME WHAT` runs the program NAME of crates.txt, which prints WHAT, on standard input.
# It is proved and built first where it is not, or a source is newer (minutes, once). x86-64 alone, as the kit is.
run_program() {
    program=$root/crates/$1/out/$1
    if [ ! -x "$program" ] || [ -n "$(find "$root/crates" -name '*.rt' -newer "$program" | head -n 1)" ]; then
        # the crates that crates.txt has below the program, those of the kit left out
        crates=$(awk -v name="$1:" '$1 == name { for (i = 2; i <= NF; i++) if ($i != "io") n++ } END { print n }' "$root/crates.txt")
        echo "$1: proving and building the program and the $crates crates below it, once: some 5 to 10 minutes on two cores; then the $2 is printed" >&2
        # rt builds the program and runs it once, on no input
        (cd "$root/crates/$1" && rt run) >/dev/null </dev/null
        touch "$program"
    fi
    exec "$program"
}
