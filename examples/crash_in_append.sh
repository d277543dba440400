#!/usr/bin/env bash
# Kills the program in the midst of an append of 40 batches, at eight moments in turns, and looks at what opening gives:
# the batch that was acknowledged before and some whole batches behind it, block for block, and a log that takes a
# further append. A kill that comes before the first write or after the last batch is fine too, but isn't counted as one
# in the midst. Ends with status 1 where something doesn't hold.
program=$(cd "$(dirname "$0")/.." && pwd)/hypercore || exit 2
key=$(printf '%064d' 0)
batch=1024
most=$((41 * batch))
# after so many batches, a write to the blocks' file or to the change file tells that the moment has come
moments='blocks:0 oplog:1 blocks:5 oplog:9 blocks:14 oplog:19 blocks:25 oplog:32'
seconds=5
folder=$(mktemp -d) || exit 2
pid=
trap '[ -z "$pid" ] || kill -KILL "$pid" 2> /dev/null; rm -rf "$folder"' EXIT
cd "$folder" || exit 2
kills=0
midst=0
failed=0

# The lines: the first batch is acknowledged, and behind it come those of the append that is killed.
awk -v most="$most" 'BEGIN {
  dots = sprintf("%100s", ""); gsub(/ /, ".", dots)
  for (i = 0; i < most; i++) print "line " i substr(dots, 1, i * 7 % 100)
}' > lines
head -n "$batch" lines > first
tail -n +$((batch + 1)) lines > rest
mapfile -t line < lines
line[most]=further

fail() {
  echo "$name: $1"
  failed=$((failed + 1))
  return 1
}

size() { stat -c %s "hypercore-store/$id/$1"; }

# The log's length, as an append of nothing tells.
length_now() {
  local said
  said=$("$program" append "$key" "$name" < /dev/null) || return 1
  [[ $said =~ ^length\ ([0-9]+)\ fork\ 0$ ]] && echo "${BASH_REMATCH[1]}"
}

# Makes a core whose first batch is acknowledged.
begin() {
  id=$("$program" init "$key" "$name") || { fail 'init failed'; return; }
  id=${id#id }
  [ "$("$program" append "$key" "$name" < first)" = "length $batch fork 0" ] || fail 'the first batch failed'
}

# Starts the long append, and kills it once the file has grown by so many batches and a byte. The status is the
# append's.
kill_append() {
  local file=$1 start end
  start=$(size "$file")
  # the first batch's entry stands behind the two slots of headers
  [ "$file" = oplog ] && end=$((start + $2 * (start - 8192))) || end=$((start + $2 * start))
  "$program" append "$key" "$name" < rest > said 2>&1 &
  pid=$!
  SECONDS=0
  while [ "$(size "$file")" -le "$end" ] && kill -0 "$pid" 2> /dev/null && [ "$SECONDS" -lt "$seconds" ]; do :; done
  kill -KILL "$pid" 2> /dev/null
  wait "$pid" 2> /dev/null
  local status=$?
  pid=
  return "$status"
}

# Whether the block of each index is the line that was appended there.
has_lines() {
  local index
  for index; do
    [ "$("$program" get "$key" "$name" "$index")" = "${line[index]}" ] || { fail "block $index is another"; return; }
  done
}

# Whether there is nothing at the length, and a further block is taken there.
goes_on() {
  local length=$1
  "$program" get "$key" "$name" "$length" > said 2>&1
  [ $? -eq 12 ] || { fail "there is a block $length"; return; }
  [ "$(echo "${line[most]}" | "$program" append "$key" "$name")" = "length $((length + 1)) fork 0" ] ||
    { fail 'the further append failed'; return; }
  [ "$("$program" get "$key" "$name" "$length")" = "${line[most]}" ] || fail 'the further block is another'
}

# Kills an append to a core of its own at this moment, and looks at what is left.
kill_at() {
  local moment=$1 before status written length where='in the midst'
  name=kill-$kills
  begin || return
  before=$(size blocks)
  kill_append "${moment%:*}" "${moment#*:}"
  status=$?
  written=$(size blocks)
  [ "$status" -eq 137 ] || [ "$status" -eq 0 ] || { fail "the append ended with $status: $(cat said)"; return; }
  length=$(length_now) || { fail 'it cannot be opened'; return; }
  if [ "$length" -lt "$batch" ] || [ "$length" -gt "$most" ] || [ $((length % batch)) -ne 0 ]; then
    fail "$length blocks are left"
    return
  fi
  [ "$status" -eq 137 ] || [ "$length" -eq "$most" ] || { fail "$length blocks of a whole append"; return; }
  has_lines 0 $((batch - 1)) $((length / 2)) $((length - batch)) $((length - 2)) $((length - 1)) || return
  goes_on "$length" || return
  [ "$written" -gt "$before" ] || where='before the first write'
  [ "$length" -lt "$most" ] || where='after the last batch'
  [ "$where" != 'in the midst' ] || midst=$((midst + 1))
  echo "$name: at $moment, $where: $length blocks of $most"
}

for moment in $moments; do
  kill_at "$moment"
  kills=$((kills + 1))
done
echo "in the midst: $midst of $kills kills"
echo "crash in append: $kills kills, $failed failed"
[ "$failed" -eq 0 ]
