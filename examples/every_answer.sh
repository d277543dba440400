#!/usr/bin/env bash
# Leads each command of the built program to each of its ends, and compares the status, the bytes of the output and those
# of the stream of errors. What is wanted of bundles, ids and hashes is another program's: samples/make.py, Python's
# hashlib and b2sum. Ends with status 1 where a case comes to something else.
top=$(cd "$(dirname "$0")/.." && pwd) || exit 2
program=$top/crates/hypercore_cli/out/hypercore_cli
samples=$top/samples
key=$(printf '%064d' 0)
id=f33e7949fb400accac5ba5d8d06d914e922a543d7d44b0e8e8b39935691473d6
other_id=f73a8bad422877be2d700ff51dc0b0bdcb8df01fd29aef8b9e9d58533a696a9e
store=hypercore-store/$id
entries_at=8192
seconds=10
folder=$(mktemp -d) || exit 2
trap 'rm -rf "$folder"' EXIT
cd "$folder" || exit 2
cases=0
failed=0
# what the next cases run with: their input, output and stream of errors, and what stands before the program
input=/dev/null
output=out
errors=err
before=()

# The launcher builds the program where it isn't built yet.
"$top/hypercore" > said 2>&1
[ -x "$program" ] || { cat said; exit 2; }

fail() {
  echo "$1"
  failed=$((failed + 1))
}

# Looks at what a case left: what is there, what is wanted, and of what.
holds() {
  cases=$((cases + 1))
  [ "$1" = "$2" ] || fail "$3: $1, wanted $2"
}

# Puts out a text with escapes, or the file behind an @.
put() { case $1 in @*) cat "${1#@}" ;; *) printf '%b' "$1" ;; esac; }

run() { timeout "$seconds" "${before[@]}" "$program" "$@" < "$input"; }

# A case: the status, the output and the line of errors to which the program comes with the words behind them.
ends() {
  local status=$1 line=$3 came
  put "$2" > want
  put "${line:+$line\\n}" > want_line
  : > out
  : > err
  shift 3
  run "$@" > "$output" 2> "$errors"
  came=$?
  cases=$((cases + 1))
  [ "$came" -eq "$status" ] && cmp -s out want && cmp -s err want_line && return
  fail "${*//$key/KEY} < $input: $came $(head -c 80 out | tr -d '\0') $(cat err), wanted $status $line"
}

# The same, on a text or a file as the input.
fed() {
  put "$1" > in
  input=in
  shift
  ends "$@"
  input=/dev/null
}

# The same, on an input that stays open behind the bytes of a file: a program that read on would wait.
held_open() {
  local feeder
  rm -f pipe
  mkfifo pipe
  exec 9<> pipe
  cat "$1" >&9 &
  feeder=$!
  input=pipe
  shift
  ends "$@"
  input=/dev/null
  exec 9>&-
  kill "$feeder" 2> /dev/null
  wait "$feeder" 2> /dev/null
}

# The same, on an input that fails behind a text: a terminal that was left.
cut_off() {
  put "$1" > in
  shift
  before=(python3 -c 'import os, subprocess, sys, tty
master, slave = os.openpty()
tty.setraw(slave)
os.write(slave, open("in", "rb").read())
os.close(slave)
sys.exit(subprocess.call(sys.argv[1:], stdin=master))')
  ends "$@"
  before=()
}

empty_lines() { yes '' | head -n "$1"; }

long_line() {
  head -c "$1" /dev/zero | tr '\0' x
  echo
}

long_lines() {
  local number
  for ((number = 0; number < $1; number++)); do long_line "$2"; done
}

# Makes the log `log` anew, with the lines of a text.
begin() {
  rm -rf hypercore-store
  "$program" init "$key" log > said || fail 'no log'
  put "$1" | "$program" append "$key" log > said || fail "$1 isn't appended"
}

# The length of the log, as an append of nothing tells, and how many entries its change file has.
length_is() { ends 0 "length $1 fork 0\n" '' append "$key" log; }

entries() {
  local at=$entries_at count=0 end
  end=$(stat -c %s "$store/oplog")
  while [ "$at" -lt "$end" ]; do
    at=$((at + 32 + $(od -An -tu4 -j "$at" -N 4 "$store/oplog")))
    count=$((count + 1))
  done
  echo "$count"
}

# ---- words

usage() { ends 2 '' 'usage: hypercore_cli COMMAND KEY [NAME] [ARGUMENTS]' "$@"; }

no_command_lines() {
  local short=${key#0} word
  usage
  usage ''
  usage --help
  usage $'\xff' "$key"
  usage check
  for word in '' -h "$short" "${short}g" "0$key"; do
    usage check "$word"
    usage init "$word" log
  done
  usage check "$key" 0
  usage frob "$key"
  usage prove "$key"
  usage prove "$short" 0
  for word in '' -1 +1 01 1000000000000000000; do
    usage prove "$key" "$word"
    usage get "$key" log "$word"
  done
  for word in '' -log "$(printf '%0256d' 0)"; do
    usage init "$key" "$word"
    usage append "$key" "$word"
    usage get "$key" "$word" 0
  done
  usage init "$key"
  usage append "$key"
  usage get "$key" log
  ends 10 '' 'no core' get "$(printf 'aB%.0s' {1..32})" "$(printf '%0255d' 0)" 999999999999999999
}

# ---- check and prove

each_end_of_a_check() {
  local hello=$samples/hello.bundle
  fed @"$hello" 0 'hello, log\n' '' check "$key"
  fed @"$samples/seven-0.bundle" 0 a '' check "$key"
  fed @"$samples/seven-6.bundle" 0 g '' check "$key"
  fed @"$samples/empty-block.bundle" 0 '' '' check "$key"
  fed @"$samples/bad-form.bundle" 7 '' 'bad form at 155' check "$key"
  head -c 154 "$hello" > cut
  fed @cut 7 '' 'bad form at 144' check "$key"
  fed '' 7 '' 'bad form at 0' check "$key"
  fed @"$samples/bad-signature.bundle" 9 '' 'bad signature' check "$key"
  fed @"$hello" 9 '' 'bad signature' check "1${key#0}"
  fed @"$samples/not-proved.bundle" 8 '' 'not proved: index 0 want 4 0f9ccfd59f6c98fd5b6e444a6e57325c91eddcfabceb4c74d92f28c45f310cd3 have 4 18df84bd44407c0df86d52137f16fd9be015923a00c1dbb08e4e432f73c0c2f8' check "$key"
  { cat cut; printf '\0'; } > changed
  fed @changed 8 '' 'not proved: index 0 want 11 f2e0d01577dbc0b9ee18b3c616f3871cf742946cf20e2a2d3486b7d5aed1b6df have 11 b019dd62cc650fcfbd3c7e0f0bb4169a848e406ef8add99849bf5cc9ab63d0ab' check "$key"
}

each_end_of_a_proof() {
  fed @"$samples/seven.lines" 0 @"$samples/seven-0.bundle" '' prove "$key" 0
  fed 'a\nb\nc\nd\ne\nf\ng' 0 @"$samples/seven-6.bundle" '' prove "$key" 6
  fed '\n' 0 @"$samples/empty-block.bundle" '' prove "$key" 0
  fed @"$samples/seven.lines" 12 '' 'out of range: 7' prove "$key" 7
  fed 'a\n' 12 '' 'out of range: 1' prove "$key" 999999999999999999
  fed '' 12 '' 'out of range: 0' prove "$key" 0
}

# Where a limit is passed no more is read.
limits_of_a_proof() {
  empty_lines 1024 > most
  fed @most 12 '' 'out of range: 1024' prove "$key" 1024
  empty_lines 1025 > more
  held_open more 14 '' 'limit batch: 1024' prove "$key" 0
  long_line 1048576 > most
  fed @most 12 '' 'out of range: 1' prove "$key" 1
  long_line 1048577 > more
  held_open more 14 '' 'limit block: 1048576' prove "$key" 0
  long_lines 8 1048576 > most
  fed @most 12 '' 'out of range: 8' prove "$key" 8
  { cat most; echo x; } > more
  held_open more 14 '' 'limit batch-bytes: 8388608' prove "$key" 0
}

# ---- logs

each_end_of_a_log() {
  rm -rf hypercore-store
  ends 10 '' 'no core' get "$key" log 0
  fed a 10 '' 'no core' append "$key" log
  ends 0 "id $id\n" '' init "$key" log
  ends 11 '' 'core exists' init "$key" log
  ends 12 '' 'out of range: 0' get "$key" log 0
  fed 'a\nb\n' 0 'length 2 fork 0\n' '' append "$key" log
  fed '\nc' 0 'length 4 fork 0\n' '' append "$key" log
  length_is 4
  ends 0 b '' get "$key" log 1
  ends 0 '' '' get "$key" log 2
  ends 0 c '' get "$key" log 3
  ends 12 '' 'out of range: 4' get "$key" log 4
  ends 10 '' 'no core' get "$key" other 0
  ends 0 "id $other_id\n" '' init "$key" other
  ends 12 '' 'out of range: 0' get "$key" other 0
}

# Empty lines and a last one of so many bytes come to this length, in so many entries.
batches_of() {
  rm -rf hypercore-store
  "$program" init "$key" log > said
  { empty_lines "$1"; long_line "$2" | tr -d '\n'; } > lines
  fed @lines 0 "length $3 fork 0\n" '' append "$key" log
  holds "$(entries)" "$4" "entries of $1 lines and $2 bytes"
}

lines_in_batches() {
  batches_of 0 0 0 0
  batches_of 0 1 1 1
  batches_of 1 0 1 1
  batches_of 2 1 3 1
  batches_of 1024 0 1024 1
  batches_of 1024 1 1025 2
  batches_of 2048 0 2048 2
  batches_of 2049 0 2049 3
  begin ''
  fed @more 0 'length 9 fork 0\n' '' append "$key" log
  holds "$(entries)" 2 'entries of more bytes than a batch has'
}

# A line too long, and an input that fails, drop the batch that isn't closed.
limits_of_an_append() {
  local row
  begin ''
  long_line 1048576 > most
  fed @most 0 'length 1 fork 0\n' '' append "$key" log
  for row in '0 0' '3 0' '1024 0' '1025 1024' '1026 1024'; do
    begin ''
    { empty_lines "${row% *}"; long_line 1048577; } > more
    held_open more 14 '' 'limit block: 1048576' append "$key" log
    length_is "${row#* }"
    begin ''
    { empty_lines "${row% *}"; printf x; } > lines
    cut_off @lines 3 '' 'read fault' append "$key" log
    length_is "${row#* }"
  done
  begin ''
  empty_lines 230000 > more
  fed @more 14 '' 'limit oplog: 16777216' append "$key" log
}

# ---- faults

streams_that_fail() {
  local hello=$samples/hello.bundle
  input=/
  ends 3 '' 'read fault' check "$key"
  ends 3 '' 'read fault' prove "$key" 0
  begin ''
  ends 3 '' 'read fault' append "$key" log
  input=/dev/null
  cut_off @"$hello" 3 '' 'read fault' check "$key"
  cut_off 'a\nb' 3 '' 'read fault' prove "$key" 0
  output=/dev/full
  fed @"$hello" 4 '' 'write fault' check "$key"
  fed a 4 '' 'write fault' prove "$key" 0
  fed a 4 '' 'write fault' append "$key" log
  ends 4 '' 'write fault' get "$key" log 0
  ends 4 '' 'write fault' init "$key" other
  output=out
  ends 0 a '' get "$key" log 0
  ends 11 '' 'core exists' init "$key" other
  errors=/dev/full
  ends 7 '' '' check "$key"
  ends 12 '' '' get "$key" log 1
  ends 2 '' '' frob
  errors=err
}

fails() { ends 5 '' 'store fault' "$@"; }

# A command fails by the store, and does what it does once that is as it was.
folders_that_fail() {
  rm -rf hypercore-store
  : > hypercore-store
  fails init "$key" log
  rm hypercore-store
  mkdir -p "$store"
  mkfifo "$store/tree"
  fails init "$key" log
  rm "$store/tree"
  ln -s nowhere/made "$store/made"
  fails init "$key" log
  rm "$store/made"
  ends 0 "id $id\n" '' init "$key" log
  fed a 0 'length 1 fork 0\n' '' append "$key" log
  mv hypercore-store kept
  ln -s hypercore-store hypercore-store
  fails get "$key" log 0
  fails append "$key" log
  rm hypercore-store
  mv kept hypercore-store
  mv "$store/oplog" kept
  mkdir "$store/oplog"
  fails get "$key" log 0
  fails append "$key" log
  rmdir "$store/oplog"
  mv kept "$store/oplog"
  mv "$store/tree" kept
  mkfifo "$store/tree"
  fails get "$key" log 0
  fails append "$key" log
  rm "$store/tree"
  ends 0 a '' get "$key" log 0
}

# No file grows past so many times 1,024 bytes. Empty lines and one of so many bytes leave this length.
full_at() {
  begin ''
  { empty_lines "$2"; long_line "$3"; } > more
  before=(bash -c 'trap "" XFSZ && ulimit -f "$0" && exec "$@"' "$1")
  fed @more 5 '' 'store fault' append "$key" log
  before=()
  length_is "$4"
  fed a 0 "length $(($4 + 1)) fork 0\n" '' append "$key" log
  ends 0 a '' get "$key" log "$4"
}

disks_that_are_full() {
  full_at 1 0 2000 0
  full_at 8 0 1 0
  full_at 128 1024 200000 1024
  full_at 128 2048 1 1024
}

# Sets bytes of the change file, given in hexadecimal.
poke() { printf '%b' "$(sed 's/../\\x&/g' <<< "$2")" | dd of="$store/oplog" bs=1 seek="$1" conv=notrunc status=none; }

peek() { od -An -v -tx1 -j "$1" -N "$2" "$store/oplog" | tr -d ' \n'; }

# Gives the frame at a place its check.
seal() {
  local size check
  size=$(od -An -tu4 -j "$1" -N 4 "$store/oplog")
  check=$(tail -c +$(($1 + 21)) "$store/oplog" | head -c $((12 + size)) | b2sum -l 256)
  poke $(($1 + 4)) "${check:0:32}"
}

# Puts a frame of this number with a payload of at most 255 bytes at a place.
put_entry() {
  poke "$1" "$(printf '%02x' $((${#3} / 2)))000000$(printf '%048d' 0)$(printf '%02x' "$2")000000$3"
  seal "$1"
}

# How the log is opened.
refused() {
  ends "$1" '' "$2" get "$key" log 0
  fed c "$1" '' "$2" append "$key" log
}

each_store_that_is_not_opened() {
  local behind
  begin 'a\nb\n'
  behind=$(stat -c %s "$store/oplog")
  cp -r "$store" "hypercore-store/$other_id"
  ends 15 '' 'bad store oplog at 33' get "$key" other 0
  put_entry "$behind" 2 "$(peek $((entries_at + 32)) $((behind - entries_at - 32)))"
  refused 15 "bad store oplog at $behind"
  truncate -s "$behind" "$store/oplog"
  poke $((entries_at + 36)) 00
  seal "$entries_at"
  refused 9 'bad signature'
  begin ''
  put_entry "$entries_at" 1 08
  refused 15 'bad store oplog at 8224'
  begin ''
  poke 132 "$(printf '22%.0s' {1..32})"
  seal 0
  refused 16 "damaged bits-a want $(printf '22%.0s' {1..32}) have 0e5751c026e543b2e8ab2eb06099daa1d1e5df47778f7787faab45cdf12fe3a8"
  begin 'a\n'
  head -c 8192 /dev/zero > "$store/oplog"
  refused 15 'bad store oplog at 0'
  rm "$store/oplog"
  refused 15 'bad store oplog at 0'
}

# The first block is changed; and then given up, by an entry that no command writes.
blocks_that_are_not_read() {
  local behind
  begin 'a\nb\n'
  printf x | dd of="$store/blocks" conv=notrunc status=none
  ends 16 '' 'damaged block 0 want 423177bd3da55c6ac57419beff9c763bab05e12a6d8908b38b7fc14360228d4a have d0af04455e98871ea1577bc2eab2c72ccbf8bcd7d841750185ef1c059338cc66' get "$key" log 0
  behind=$(stat -c %s "$store/oplog")
  put_entry "$behind" 2 "020001$(peek $((entries_at + 34)) 66)00"
  ends 13 '' 'unavailable block 0' get "$key" log 0
  ends 0 b '' get "$key" log 1
  fed c 0 'length 3 fork 0\n' '' append "$key" log
}

# ---- memory

# Finds how little memory, in kibibytes, a command needs on the store as it is, and gives it less.
starved() {
  local low=0 high=262144 middle
  rm -rf kept
  cp -r hypercore-store kept
  while [ $((high - low)) -gt 16 ]; do
    middle=$(((low + high) / 2))
    before=(bash -c 'ulimit -v "$0" && exec "$@"' "$middle")
    if run "$@" > said 2>&1; then high=$middle; else low=$middle; fi
    rm -rf hypercore-store
    cp -r kept hypercore-store
  done
  before=(bash -c 'ulimit -v "$0" && exec "$@"' "$low")
  ends 70 '' 'no memory' "$@"
  before=()
}

commands_without_memory() {
  begin 'a\n'
  input=$samples/hello.bundle
  starved check "$key"
  input=$samples/seven.lines
  starved prove "$key" 0
  starved append "$key" log
  input=/dev/null
  length_is 1
  starved get "$key" log 0
  starved init "$key" other
  ends 0 "id $other_id\n" '' init "$key" other
}

no_command_lines
each_end_of_a_check
each_end_of_a_proof
limits_of_a_proof
each_end_of_a_log
lines_in_batches
limits_of_an_append
streams_that_fail
folders_that_fail
disks_that_are_full
each_store_that_is_not_opened
blocks_that_are_not_read
commands_without_memory
echo "every answer: $cases cases, $failed failed"
[ "$failed" -eq 0 ]
