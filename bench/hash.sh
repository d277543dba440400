#!/usr/bin/env bash
# Times the hash of crates/blake2b_hash against b2sum and, where it is installed, libb2, over the
# same bytes in one run: the least user time of five rounds, in which all of them take turns. On a
# machine that is not quiet set BENCH_ROUNDS to more.
# First build the program: (cd crates/bench_log && rt run)
set -eu
cd "$(dirname "$0")/.."
ours=$PWD/crates/bench_log/out/bench_log
rounds=${BENCH_ROUNDS:-5}
mebibytes=256
messages=1000000
[ -x "$ours" ] || { echo "no $ours: run 'rt run' in crates/bench_log" >&2; exit 2; }

folder=$(mktemp -d "${BENCH_FOLDER:-/dev/shm}/hash.XXXXXX")
trap 'rm -rf "$folder"' EXIT
head -c $((mebibytes * 1048576)) /dev/urandom > "$folder/input"

# The same work over libb2: a stream in the same pieces, and messages with the same bytes.
cat > "$folder/libb2.c" <<'C'
#include <blake2.h>
#include <stdint.h>
#include <stdio.h>
#include <stdlib.h>
#include <string.h>

static uint8_t piece[65536];

int main(int count, char **words) {
    uint8_t hash[32], message[256] = {0}, mixed = 0;
    if (count > 1 && !strcmp(words[1], "stdin")) {
        blake2b_state state;
        blake2b_init(&state, 32);
        for (size_t n; (n = fread(piece, 1, sizeof piece, stdin)) > 0;)
            blake2b_update(&state, piece, n);
        blake2b_final(&state, hash, 32);
        mixed = hash[0];
    } else if (count > 3) {
        size_t length = strtoull(words[2], 0, 10);
        for (uint64_t i = 0, end = strtoull(words[3], 0, 10); i < end; i++) {
            memcpy(message, &i, 8);
            blake2b(hash, message, NULL, 32, length, 0);
            mixed ^= hash[0];
        }
    }
    printf("%02x\n", mixed);
    return 0;
}
C
libb2=
if cc -O3 -o "$folder/libb2" "$folder/libb2.c" -lb2 2> "$folder/errors"; then
    libb2=$folder/libb2
else
    echo "libb2 isn't installed, or there is no C compiler: left out"
fi

# user FILE COMMAND..: adds the user time of the command, reading the input, to the file.
user() {
    local file=$folder/$1
    shift
    local TIMEFORMAT=%3U
    { time "$@" < "$folder/input" > "$folder/answer" 2> /dev/null; } 2>> "$file"
    cut -c1-2 "$folder/answer" >> "$file.answers"
}

for _ in $(seq "$rounds"); do
    user whole.ours "$ours" stdin
    user whole.b2sum b2sum -l 256
    [ -z "$libb2" ] || user whole.libb2 "$libb2" stdin
    for length in 41 73; do
        user "$length.ours" "$ours" small "$length" "$messages"
        [ -z "$libb2" ] || user "$length.libb2" "$libb2" small "$length" "$messages"
    done
done

least() { sort -n "$folder/$1" | head -n 1; }
for what in whole 41 73; do
    for other in b2sum libb2; do
        [ -e "$folder/$what.$other" ] || continue
        cmp -s "$folder/$what.ours.answers" "$folder/$what.$other.answers" ||
            { echo "$what: $other gives another hash" >&2; exit 1; }
        awk -v what="$what" -v other="$other" -v a="$(least "$what.ours")" -v b="$(least "$what.$other")" \
            'BEGIN { printf "%-6s ours %.3f s   %-6s %.3f s   ratio %.2f\n", what, a, other, b, a / b }'
    done
done
