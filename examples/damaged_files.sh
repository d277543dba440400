#!/usr/bin/env bash
# Changes each byte of a log's files in turn, and cuts each file at each place, and reads every block of what is left: it
# is the block that was appended, or just the refusal that docs/FORMATS.md tells of, and never another block. Without a
# header that counts the log isn't opened; an entry whose check doesn't match, or that is cut, ends the log before it; and
# a block whose bytes are others is damaged. Ends with status 1 where something doesn't hold.
program=$(cd "$(dirname "$0")/.." && pwd)/hypercore || exit 2
key=$(printf '%064d' 0)
folder=$(mktemp -d) || exit 2
trap 'rm -rf "$folder"' EXIT
cd "$folder" || exit 2
blocks=(one 'the second block' three)
# where each block begins, and the last one ends
begins=(0 3 19 24)
header_bytes=164
entries_at=8192
cases=0
failed=0
declare -A seen

append() { printf '%s\n' "$@" | "$program" append "$key" log > said || exit 2; }

size() { stat -c %s "$1"; }

# Two commits: the first block, and the two behind it.
id=$("$program" init "$key" log) || exit 2
store=hypercore-store/${id#id }
append "${blocks[0]}"
first_end=$(size "$store/oplog")
append "${blocks[@]:1}"
end=$(size "$store/oplog")
cp -r "$store" whole

# What a read of each block is to come to: of a log that isn't opened; of one with so many blocks; and of one of whose
# blocks some are damaged.
unopened() { want=('15 bad store oplog at 0' '15 bad store oplog at 0' '15 bad store oplog at 0'); }

with_blocks() {
  local index
  for index in 0 1 2; do
    [ "$index" -lt "$1" ] && want[index]=0 || want[index]="12 out of range: $1"
  done
}

damaged() {
  local index
  with_blocks 3
  for index; do want[index]="16 damaged block $index want "; done
}

# Reads every block of the store as it is, and puts its file back.
read_all() {
  local what=$1 file=$2 index status line
  for index in 0 1 2; do
    "$program" get "$key" log "$index" > block 2> line
    status=$?
    line="$status $(cat line)"
    seen[$status]=$((${seen[$status]:-0} + 1))
    if [ "${want[index]}" = 0 ]; then
      [ "$line" = '0 ' ] && [ "$(cat block)" = "${blocks[index]}" ] && continue
    elif [[ $line = "${want[index]}"* ]] && [ ! -s block ]; then
      continue
    fi
    echo "$what: block $index: $line, wanted ${want[index]}"
    failed=$((failed + 1))
  done
  cases=$((cases + 1))
  cp "whole/$file" "$store/$file"
}

# Changes the byte at a place of a file.
change() {
  local file=$1 at=$2 byte
  byte=$(od -An -tu1 -j "$at" -N 1 "whole/$file")
  printf "\\$(printf '%03o' $(((byte + 1) % 256)))" | dd of="$store/$file" bs=1 seek="$at" conv=notrunc status=none
  read_all "$file, byte $at" "$file"
}

cut() {
  truncate -s "$2" "$store/$1"
  read_all "$1, cut at $2" "$1"
}

# The change file: the header's frame, what is behind it in its slot, and the entries.
unopened
for at in $(seq 0 $((header_bytes - 1))); do change oplog "$at"; cut oplog "$at"; done
with_blocks 3
for at in $(seq "$header_bytes" 200); do change oplog "$at"; done
with_blocks 0
for at in $(seq "$entries_at" $((first_end - 1))); do change oplog "$at"; cut oplog "$at"; done
for at in $(seq "$header_bytes" 64 "$entries_at"); do cut oplog "$at"; done
with_blocks 1
for at in $(seq "$first_end" $((end - 1))); do change oplog "$at"; cut oplog "$at"; done

# The blocks.
for index in 0 1 2; do
  for at in $(seq "${begins[index]}" $((begins[index + 1] - 1))); do
    damaged "$index"
    change blocks "$at"
    damaged $(seq "$index" 2)
    cut blocks "$at"
  done
done
for status in "${!seen[@]}"; do echo "status $status: ${seen[$status]} reads"; done | sort -k2n
echo "damaged files: $cases cases, $failed failed"
[ "$failed" -eq 0 ]
