# What the benches share that prove and build a program of their own and time its runs: sourced by
# them, with `top` as the repository. The program's first byte of input says what a run does; it
# prints a count, which is compared.
work=$(mktemp -d)
trap 'rm -rf "$work"' EXIT

# Puts a crate of the first name beside copies of these crates, each behind those below it, and goes
# into its folder. Its main.rt is read from the input.
bench_crate() {
    local bench=$1 name used
    shift
    mkdir -p "$work/crates/$bench/src"
    tar -C "$top/crates" --exclude=out --exclude=must-fail -cf - "$@" | tar -C "$work/crates" -xf -
    for name in "$@"; do grep "^$name:" "$top/crates.txt"; done >"$work/crates.txt"
    used=" $*"
    echo "$bench:${used/ ob_io/}" >>"$work/crates.txt"
    git -C "$work" init -q
    cat >"$work/crates/$bench/src/main.rt"
    cd "$work/crates/$bench"
}

# Gives the loop over `n` of a function of this folder's crate an invariant, spelled with these words
# of the prelude: that of `l`, or of what is said behind it.
invariant() {
    mkdir -p "proofs/$1"
    cat >"proofs/$1/Invariants.antt" <<PROOF
use Rattle.std.proofs.Common.{$2}
use Rattle.${PWD##*/}.proofs.$1.Given as goal

abbrev pub invariant-loop-n : goal.invariant-loop-n
invariant-loop-n ${4-l} = $3
PROOF
}

# Proves and builds this folder's crate.
build_bench() {
    rt run </dev/null >"$work/log" 2>&1 || {
        tail -30 "$work/log"
        exit 1
    }
}

# Prints the lesser of two numbers.
fewest() {
    awk -v a="$1" -v b="$2" 'BEGIN { print a < b ? a : b }'
}

# Does each kind of run seven times, in turns: each word is a kind's byte, a colon and the count that
# it has to tell. The fewest seconds of the processor in the program come into `best`, by kind, and
# the fewest in the kernel into `kernel`.
declare -A best=() kernel=()
time_kinds() {
    local TIMEFORMAT='%U %S' run kind t user system
    for _ in 1 2 3 4 5 6 7; do
        for run in "$@"; do
            kind=${run%%:*}
            t=$({ time "./out/${PWD##*/}" <<<"$kind" >"$work/count"; } 2>&1)
            read -r user system <<<"$t"
            [[ $(<"$work/count") == "${run#*:}" ]]
            best[$kind]=$(fewest "${best[$kind]:-$user}" "$user")
            kernel[$kind]=$(fewest "${kernel[$kind]:-$system}" "$system")
        done
    done
}
