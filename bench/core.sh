#!/usr/bin/env bash
# Times the core in memory against the proved hash of the same leaves and parents, in one run in which all of them take
# turns: the least time of five rounds (of as many as BENCH_ROUNDS says, for a machine that is not quiet).
# First build the program: (cd crates/bench_log && rt run)
set -eu
cd "$(dirname "$0")/.."
ours=$PWD/crates/bench_log/out/bench_log
rounds=${BENCH_ROUNDS:-5}
batches=${BENCH_BATCHES:-1024}
[ -x "$ours" ] || { echo "no $ours: run 'rt run' in crates/bench_log" >&2; exit 2; }

# the full root over a block of the log
depth=0
while [ $((1 << (depth + 1))) -le $((batches * 1024)) ]; do depth=$((depth + 1)); done

declare -A least first last
for kind in "hash $batches 1" "append $batches" "hash $batches $depth" "get $batches" "jump $batches"; do
    least[$kind]=0
done
for _ in $(seq "$rounds"); do
    for kind in "${!least[@]}"; do
        read -r begin end all < <($ours $kind)
        if [ "${least[$kind]}" = 0 ] || [ "$all" -lt "${least[$kind]}" ]; then
            least[$kind]=$all
            first[$kind]=$begin
            last[$kind]=$end
        fi
    done
done

ratio() { awk -v a="$1" -v b="$2" 'BEGIN { printf "%.2f", a / b }'; }
echo "append: $(ratio "${least[append $batches]}" "${least[hash $batches 1]}") of the hashes of its leaves and parents"
echo "append: last tenth $(ratio "${last[append $batches]}" "${first[append $batches]}") of the first"
echo "get: $(ratio "${least[get $batches]}" "${least[hash $batches $depth]}") of the hashes of its path, in order"
echo "get: $(ratio "${least[jump $batches]}" "${least[hash $batches $depth]}") of them, where reads jump about"
