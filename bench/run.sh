#!/usr/bin/env bash
# Times the loading and the writing of the longest problem file, and the validation of plans of 500,
# 1,000 and 2,000 rows of largest problems: our crates/repeat/out/repeat, which `rt run` leaves
# there, against bench/plain. Usage: bench/run.sh [COUNT [RUNS]]
set -euo pipefail
cd "$(dirname "$0")/.."
count=${1:-2000} runs=${2:-15} longest=crates/cases/data/longest
ours=crates/repeat/out/repeat plain=bench/plain/target/release/plain

cargo build --quiet --release --offline --manifest-path bench/plain/Cargo.toml
[ -x "$ours" ] || { echo "run.sh: no $ours; build it by: (cd crates/repeat && rt run -- load 1 < stdin)" >&2; exit 1; }
largest=$(mktemp -d)
trap 'rm -r "$largest"' EXIT

# Runs a program once. $best is then its fewest microseconds, given the fewest before (0: none).
once() { # FEWEST WANTED TEXT PROGRAM WORD..
    local fewest=$1 want=$2 text=$3 from=${EPOCHREALTIME//[.,]/} said took
    shift 3
    said=$("$@" < "$text") || { echo "run.sh: $* failed" >&2; exit 1; }
    took=$((${EPOCHREALTIME//[.,]/} - from))
    [ "$said" = "$want" ] || { printf 'run.sh: %s printed\n%s\nand not\n%s\n' "$*" "$said" "$want" >&2; exit 1; }
    best=$((fewest == 0 || took < fewest ? took : fewest))
}

# Runs both programs in turn, so that neither has the quieter machine, and compares their fewest microseconds.
compare() { # NAME SUM TEXT MODE [FILE]
    local name=$1 want="$4=$count"$'\n'"$2" text=$3 mode=$4 a=0 b=0 run
    shift 4
    for ((run = 0; run < runs; run++)); do
        once "$a" "$want" "$text" "$ours" "$mode" "$count" "$@"; a=$best
        once "$b" "$want" "$text" "$plain" "$mode" "$count" "$@"; b=$best
    done
    awk -v m="$name" -v a="$a" -v b="$b" -v n="$count" 'BEGIN {
        printf "%-13s  ours %.4f ms  plain %.4f ms  ratio %.2f\n", m, a / n / 1000, b / n / 1000, a / b }'
}

bytes=$(wc -c < "$longest")
compare load "bytes=$((count * bytes))" "$longest" load
compare write "bytes=$((count * bytes))" "$longest" write
for first in 4 8 16; do
    rows=$((125 * first))
    python3 bench/largest.py "$largest" "$first"
    compare "validate $rows" "rows=$((count * rows))" "$largest/problem" validate "$largest/plan"
done
