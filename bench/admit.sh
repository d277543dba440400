#!/usr/bin/env bash
# Times admissions of blocks one by one by the core in memory against the proved hash of the same bytes, in one run in
# which both take turns: the least time of five rounds (of as many as BENCH_ROUNDS says, for a machine that is not quiet).
# First build the program: (cd crates/bench_log && rt run)
set -eu
cd "$(dirname "$0")/.."
ours=$PWD/crates/bench_log/out/bench_log
rounds=${BENCH_ROUNDS:-5}
batches=${BENCH_BATCHES:-64}
[ -x "$ours" ] || { echo "no $ours: run 'rt run' in crates/bench_log" >&2; exit 2; }

declare -A least first last
for kind in admit admit-jump; do
    least[$kind]=0
    least[hash-$kind]=0
done

# keeps the least time of a kind, with the first and the last tenth of that round
keep() {
    if [ "${least[$1]}" = 0 ] || [ "$4" -lt "${least[$1]}" ]; then
        least[$1]=$4
        first[$1]=$2
        last[$1]=$3
    fi
}

for _ in $(seq "$rounds"); do
    for kind in admit admit-jump; do
        read -r begin end all hash_begin hash_end hash_all _ held < <($ours "$kind" "$batches")
        [ "$held" = $((batches * 1024)) ] || { echo "$kind: $held blocks are held" >&2; exit 1; }
        keep "$kind" "$begin" "$end" "$all"
        keep "hash-$kind" "$hash_begin" "$hash_end" "$hash_all"
    done
done

ratio() { awk -v a="$1" -v b="$2" 'BEGIN { printf "%.2f", a / b }'; }
for kind in admit admit-jump; do
    echo "$kind: $(ratio "${least[$kind]}" "${least[hash-$kind]}") of the hashes of its block and path"
    echo "$kind: last tenth $(ratio "${last[$kind]}" "${first[$kind]}") of the first"
done
