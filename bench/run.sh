#!/usr/bin/env bash
# Builds the program crates/bench and the baseline in plain Rust, runs both on the same work, and prints for each workload the instructions
# (callgrind) and the time (median of nine runs) of each, and the ratios. It stops where the two do not print the same.
#
#   bench/run.sh            instructions and times
#   bench/run.sh --counts   instructions alone, for a machine that is busy
set -euo pipefail
cd "$(dirname "$0")/.."

# `rt run` proves and builds; both programs may use the same instructions.
(cd crates/bench && rt run) >/dev/null 2>&1 || { echo "crates/bench was not built: run rt check in it"; exit 1; }
(cd bench/baseline && RUSTFLAGS="-C target-cpu=x86-64-v2" cargo build --release --offline --quiet)
proved=crates/bench/out/bench
plain=bench/baseline/target/release/baseline

# The instructions of a run.
counted() {
    valgrind --tool=callgrind --callgrind-out-file=/dev/null "$@" 2>&1 >/dev/null | sed -n 's/.*I *refs: *//p' | tr -d ,
}

# The user time of a run, in seconds.
timed() {
    { TIMEFORMAT=%U; time "$@" >/dev/null; } 2>&1
}

# The medians of the user times of nine runs of each, turn by turn, so that other work on the machine weighs on both.
medians() {
    local s="" t=""
    for _ in 1 2 3 4 5 6 7 8 9; do
        s+="$(timed "$proved" "$@")"$'\n'
        t+="$(timed "$plain" "$@")"$'\n'
    done
    echo "$(sort -n <<<"${s%$'\n'}" | sed -n 5p) $(sort -n <<<"${t%$'\n'}" | sed -n 5p)"
}

same() {
    [ "$("$proved" "$@")" = "$("$plain" "$@")" ] || { echo "the two differ on: $*"; exit 1; }
}

ratio() {
    awk -v a="$1" -v b="$2" 'BEGIN { if (b > 0) printf "%.2f", a / b; else printf "-" }'
}

# What further rounds cost: the instructions that the longer of two runs makes more, so that neither start-up nor opening counts.
row() {
    local name=$1 less=$2 more=$3
    shift 3
    same "$@" "$more"
    local a b
    a=$(($(counted "$proved" "$@" "$more") - $(counted "$proved" "$@" "$less")))
    b=$(($(counted "$plain" "$@" "$more") - $(counted "$plain" "$@" "$less")))
    printf '%-34s %14d %14d %6s' "$name" "$a" "$b" "$(ratio "$a" "$b")"
}

# The same with the time of a long run beside it.
timed_row() {
    local name=$1 less=$2 more=$3 long=$4
    shift 4
    row "$name" "$less" "$more" "$@"
    if [ "${counts_alone:-}" = yes ]; then
        printf '\n'
        return
    fi
    same "$@" "$long"
    local s t
    read -r s t <<<"$(medians "$@" "$long")"
    printf ' %9s %9s %6s\n' "$s" "$t" "$(ratio "$s" "$t")"
}

if [ "${1:-}" = --counts ]; then
    counts_alone=yes
fi
same
printf '%-34s %14s %14s %6s %9s %9s %6s\n' workload proved plain ratio proved/s plain/s ratio
timed_row 'two-way, 2,000 nodes, 5 terms' 4 24 2000 two_way 2000 1
timed_row 'stage sets, 2,000 nodes, 5 terms' 1 3 200 stages 2000 1
timed_row 'file of 65,536 bytes' 10 50 4000 file
echo
echo 'how the instructions grow:'
printf '%-34s %14s %14s %6s\n' workload proved plain ratio
for size in '500 1' '1000 1' '2000 1' '1000 2' '1000 4' '1000 8'; do
    read -r nodes copies <<<"$size"
    for work in two_way stages; do
        row "$work, $nodes nodes, $((5 * copies)) terms" 2 4 "$work" "$nodes" "$copies"
        printf '\n'
    done
done
