#!/usr/bin/env bash
# Measures audits: traces of 250, 500 and 1,000 epochs of a store of 256 keys (about 1,470 lines an epoch),
# and 1 GiB of the trace of a format and a run of a small store, again and again. It prints lines a second,
# nanoseconds of processor time a line and the largest resident size of each, and fails where a trace
# doesn't fit. What is aimed at: 250 ns a line, the three within a tenth of one another, 8 MiB, the same for
# all four.
#
# Figures, on a busy machine of four processors (November 2026): 75 to 81 ns a line for each of the four (234
# million lines in the last), 1.1 to 1.4 MiB. A format and two epochs under the greatest parameters (7.4
# million lines) take 82 ns a line and 15.4 MiB.
#
# It needs rt, python3 and GNU time, and writes only to a temporary folder. With the word `short` the 1 GiB
# is left out.
set -euo pipefail
top=$(cd "$(dirname "$0")/.." && pwd)
work=$(mktemp -d)
trap 'rm -rf "$work"' EXIT
program=$top/crates/obladi/out/obladi
[ -x "$program" ] || "$top/build"

# Audits so many copies of a trace, one behind the other, and prints what it cost.
measure() {
    local name=$1 trace=$2 copies=$3 lines user system size
    lines=$(wc -l <"$trace")
    python3 -c '
import sys
text = open(sys.argv[1], "rb").read()
for _ in range(int(sys.argv[2])):
    sys.stdout.buffer.write(text)' "$trace" "$copies" |
        /usr/bin/time -f '%U %S %M' -o "$work/cost" "$program" audit >"$work/answer"
    [ "$(cat "$work/answer")" = fits ]
    read -r user system size <"$work/cost"
    python3 -c "
lines, seconds = $lines * $copies, max($user + $system, 0.001)
print(f'$name: {lines} lines, {lines / seconds:,.0f} a second, {1e9 * seconds / lines:,.0f} ns a line, $size KiB')"
}

for epochs in 250 500 1000; do
    python3 "$top/bench/audit_trace.py" 256 8 4 6 4 4 8 8 256 "$epochs" >"$work/trace"
    measure "$epochs epochs" "$work/trace" 1
done
if [ "${1:-}" != short ]; then
    python3 "$top/bench/audit_trace.py" 8 2 2 3 2 2 2 2 8 1 >"$work/small"
    measure "1 GiB" "$work/small" $((2 ** 30 / $(stat -c %s "$work/small")))
fi
