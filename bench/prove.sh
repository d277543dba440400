#!/usr/bin/env bash
# Times `prove` on the largest batch (1,024 lines of 8,192 bytes: 8 MiB) against hashing the same bytes with
# crates/bench_log, in one run: the least time of five rounds of twenty runs each, in which both take turns. On a
# machine that is not quiet set BENCH_ROUNDS to more.
# First build both programs: (cd crates/bench_log && rt run) and (cd crates/hypercore_cli && rt run)
set -eu
cd "$(dirname "$0")/.."
hash=$PWD/crates/bench_log/out/bench_log
program=$PWD/crates/hypercore_cli/out/hypercore_cli
rounds=${BENCH_ROUNDS:-5}
runs=20
key=$(printf '%064d' 0)
for built in "$hash" "$program"; do
    [ -x "$built" ] || { echo "no $built: run 'rt run' in its crate" >&2; exit 2; }
done

folder=$(mktemp -d "${BENCH_FOLDER:-/dev/shm}/prove.XXXXXX")
trap 'rm -rf "$folder"' EXIT
# 6,144 bytes in base64 are 8,192 characters, a line.
head -c $((1024 * 6144)) /dev/urandom | base64 -w 8192 > "$folder/lines"

# timed FILE COMMAND..: adds the user time of so many runs of the command, and with it the system's, to the file.
timed() {
    local file=$folder/$1 TIMEFORMAT='%3U %3S'
    shift
    { time for _ in $(seq "$runs"); do "$@" < "$folder/lines" > "$folder/answer"; done; } 2> "$folder/time"
    awk '{ print $1, $1 + $2 }' "$folder/time" >> "$file"
}

for _ in $(seq "$rounds"); do
    timed hash "$hash" stdin
    timed prove "$program" prove "$key" 1023
done
"$program" check "$key" < "$folder/answer" | cmp -s - <(tail -n 1 "$folder/lines" | tr -d '\n') ||
    { echo 'the bundle does not give the last line back' >&2; exit 1; }

least() { cut -d ' ' -f "$2" "$folder/$1" | sort -n | head -n 1; }
for column in 1 2; do
    [ "$column" = 1 ] && what='user time' || what='with the system'
    awk -v what="$what" -v runs="$runs" -v a="$(least prove "$column")" -v b="$(least hash "$column")" \
        'BEGIN { printf "%-16s prove %.1f ms   hash %.1f ms   ratio %.2f\n", what, 1000 * a / runs, 1000 * b / runs, a / b }'
done
