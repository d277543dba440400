#!/usr/bin/env bash
# Times the store on a real folder: below the one that is given, or else below the repository's. Three things are
# measured, each against a yardstick of the same work in the same folder: a durable commit of one block, `append` of
# 256 MiB, and `get` of a long log's last block. All take turns in one run; what counts is the least time of five
# rounds (of as many as BENCH_ROUNDS says, for a machine that is not quiet). BENCH_KINDS names those of
# `commit append get` that are measured.
# First build the programs: (cd crates/NAME && rt run) for bench_log and hypercore_cli.
set -eu
top=$(cd "$(dirname "$0")/.." && pwd)
parent=$(cd "${1:-$top}" && pwd)
ours=$top/crates/bench_log/out/bench_log
program=$top/crates/hypercore_cli/out/hypercore_cli
rounds=${BENCH_ROUNDS:-5}
kinds=${BENCH_KINDS:-commit append get}
commits=${BENCH_COMMITS:-100}
batches=${BENCH_BATCHES:-131}
logs=2
blocks=${BENCH_BLOCKS:-131072}
turns=10
block_bytes=1000
batch_blocks=1024
key=$(printf '%064d' 0)
for built in "$ours" "$program"; do
    [ -x "$built" ] || { echo "no $built: run 'rt run' in its crate" >&2; exit 2; }
done

folder=$(mktemp -d "$parent/store.XXXXXX")
trap 'rm -rf "$folder"' EXIT
case $(stat -f -c %T "$folder") in
    tmpfs | ramfs) echo "$folder is in memory: give a folder on a disk" >&2; exit 2 ;;
esac
pairs=$folder/pairs
gcc -O2 -o "$pairs" "$top/bench/store.c"

stop() { echo "$1" >&2; exit 1; }

declare -A least
# keeps the least nanoseconds of a kind
keep() { if [ -z "${least[$1]:-}" ] || [ "$2" -lt "${least[$1]}" ]; then least[$1]=$2; fi; }

# An empty folder to run in, and nothing left to be written of what ran before.
fresh() {
    cd "$folder"
    rm -rf run
    mkdir run
    cd run
    sync -f .
}

# Runs a command, and puts the nanoseconds that it took into `spent`.
wall() {
    local start=${EPOCHREALTIME/[.,]/}
    "$@" || return
    spent=$(((${EPOCHREALTIME/[.,]/} - start) * 1000))
}

# Puts the mean bytes of an entry in the change file of the only core of a store into `entry_bytes`.
measure_entries() {
    local count bytes
    read -r count bytes < <("$pairs" entries "$1"/*/oplog)
    [ "$count" -gt 0 ] || stop 'the change file has no entries'
    entry_bytes=$((bytes / count))
}

# Commits of one block, against as many pairs of writes with a sync each. The turns are short, since what a sync takes
# may change by much from one moment to the next.
commit_round() {
    for _ in $(seq "$turns"); do
        fresh
        spent=$("$ours" commit store "$commits" "$block_bytes")
        measure_entries store
        keep commit "$spent"
        fresh
        spent=$("$pairs" pairs . "$commits" "$block_bytes" "$entry_bytes")
        keep pairs "$spent"
    done
}

# Appends of all lines to an empty log, one log after the other, against hashing their leaves and parents, writing and
# syncing.
append_round() {
    local appended=0 stored=0 lines=$((batches * batch_blocks))
    for _ in $(seq "$logs"); do
        fresh
        "$program" init "$key" log > /dev/null
        sync -f .
        wall "$program" append "$key" log < "$folder/lines" > said || stop 'append: failed'
        [ "$(cat said)" = "length $lines fork 0" ] || stop "append: $(cat said)"
        appended=$((appended + spent))
        measure_entries hypercore-store
        fresh
        spent=$("$ours" leaves "$lines" "$block_bytes" "$(parents_of "$lines")")
        stored=$((stored + spent))
        spent=$("$pairs" pairs . "$batches" $((batch_blocks * block_bytes)) "$entry_bytes")
        stored=$((stored + spent))
    done
    keep append "$appended"
    keep stored "$stored"
}

# How many parents the log of so many blocks has: one less than blocks in each of its perfect subtrees.
parents_of() {
    local left=$1 parents=$1
    while [ "$left" -gt 0 ]; do
        parents=$((parents - left % 2))
        left=$((left / 2))
    done
    echo "$parents"
}

# Reads of the last block, against opening the same log.
get_round() {
    cd "$folder/long"
    for _ in $(seq "$turns"); do
        wall "$program" get "$key" log $((blocks - 1)) > said || stop 'get: failed'
        [ "$(cat said)" = "$last" ] || stop 'get: another block'
        keep get "$spent"
        wall "$program" append "$key" log < /dev/null > said || stop 'append of nothing: failed'
        [ "$(cat said)" = "length $blocks fork 0" ] || stop "append of nothing: $(cat said)"
        keep open "$spent"
    done
}

# What the rounds of a kind share.
prepare() {
    case $1 in
        # 750 bytes in base64 are 1,000 characters, a line
        append) head -c $((batches * batch_blocks * 750)) /dev/urandom | base64 -w "$block_bytes" > "$folder/lines" ;;
        get)
            mkdir "$folder/long"
            cd "$folder/long"
            seq -f '%032.0f' "$blocks" > ../numbers
            last=$(tail -n 1 ../numbers)
            "$program" init "$key" log > /dev/null
            "$program" append "$key" log < ../numbers > said
            sync -f .
            ;;
    esac
}

for kind in $kinds; do prepare "$kind"; done
for _ in $(seq "$rounds"); do
    for kind in $kinds; do "${kind}_round"; done
done

# ratio KIND OTHER WORDS PARTS: the ratio of both times, and each of them by so many parts.
ratio() {
    awk -v kind="$1" -v a="${least[$1]}" -v b="${least[$2]}" -v other="$3" -v parts="$4" 'BEGIN {
        printf "%-6s  ours %.3f ms   %s %.3f ms   ratio %.2f\n", kind, a / parts / 1e6, other, b / parts / 1e6, a / b }'
}
for kind in $kinds; do
    case $kind in
        commit) ratio commit pairs 'two writes and syncs' "$commits" ;;
        append) ratio append stored 'hashes, writes and syncs' 1 ;;
        get) ratio get open 'opening' 1 ;;
    esac
done
