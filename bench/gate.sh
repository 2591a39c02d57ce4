#!/usr/bin/env bash
# Measures a gate: runs `rt ci` in a clone of this repository's last commit and tells where its processor
# seconds go, by kind (libraries, crates of tests, tests inside of crates, must-fail edits and the check of
# each crate that they begin with, compiler and linker, running, `rt` itself) and by crate, how long
# processors stood idle, and what ran alone at the end (`gate_times.py`). With nothing else running it takes
# as long as the gate does; words are handed to `rt ci`: with `--anew` it proves all, else what no run on
# this machine has passed. Figures are in README.md beside this. It needs rt, git and python3.
set -euo pipefail
top=$(cd "$(dirname "$0")/.." && pwd)
work=$(mktemp -d)
trap 'rm -rf "$work"' EXIT
git clone -q "$top" "$work/gate"
cd "$work/gate"
python3 "$top/bench/gate_times.py" rt ci "$@" >"$work/told" || {
    status=$?
    cat "$work/told"
    exit "$status"
}
grep -E '^[0-9]+ passed' "$work/told"
sed -n '/^wall /,$p' "$work/told"
