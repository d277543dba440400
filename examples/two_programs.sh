#!/usr/bin/env bash
# two_programs.sh [PROGRAM]: what the store's files are kept from. A standard stream that is closed is no file of the
# store: for each set of closed streams every command ends as it must, and the store has what it has with open ones. While
# one program has a core, another one can neither read nor change it, and an `init` that finds a core made meanwhile
# leaves it. A mark is durable before a change is acknowledged behind it. The calls of the system that are made to fail
# or to wait need strace; without it their cases are left out. Ends with status 1 where something doesn't hold.
top=$(cd "$(dirname "$0")/.." && pwd) || exit 2
program=$1
if [ -z "$program" ]; then
  # Without words it is built and says how it is used.
  "$top/hypercore" > /dev/null 2>&1
  program=$top/crates/hypercore_cli/out/hypercore_cli
fi
program=$(realpath "$program") && [ -x "$program" ] || exit 2
key=$(printf '%064d' 0)
folder=$(mktemp -d) || exit 2
pid=
trap '[ -z "$pid" ] || kill -KILL "$pid" 2> /dev/null; rm -rf "$folder"' EXIT
cd "$folder" || exit 2
cases=0
failed=0
right=yes

# A case is what is looked at between two calls of `done_with`.
wrong() {
  echo "$*"
  right=no
}

done_with() {
  cases=$((cases + 1))
  [ "$right" = yes ] || { echo "failed: $1"; failed=$((failed + 1)); }
  right=yes
}

# Runs the program with the streams closed whose numbers stand in `closed`, and looks at its status.
ends() {
  local want=$1 status
  shift
  (
    [[ $closed != *0* ]] || exec 0<&-
    [[ $closed != *1* ]] || exec 1>&-
    [[ $closed != *2* ]] || exec 2>&-
    # A program that waits for another one is stopped.
    [ -n "$closed" ] || exec timeout 20 "$program" "$@"
    exec "$program" "$@"
  ) < "$input" > said 2> line
  status=$?
  [ "$status" -eq "$want" ] || wrong "$*${closed:+ with $closed closed}: status $status, wanted $want"
}

is_same() { diff -r "$1" "$2" > /dev/null || wrong "$2 is another store than $1"; }

text_is() { [ "$(cat "$1")" = "$2" ] || wrong "$1 has '$(cat "$1")', wanted '$2'"; }

# What the store has once a core was made, and once a block was appended.
closed=
input=/dev/null
ends 0 init "$key" log
id=$(cut -c 4- said)
oplog=hypercore-store/$id/oplog
cp -r hypercore-store made
echo one > one
input=one ends 0 append "$key" log
cp -r hypercore-store one-block
"$program" prove "$key" 0 < one > one.bundle
[ "$right" = yes ] || exit 2

fresh() {
  rm -rf hypercore-store
  cp -r "$1" hypercore-store
}

# The status where the input is read and the output written; and where the output alone is.
both() { [[ $closed == *0* ]] && echo 3 || written; }
written() { [[ $closed == *1* ]] && echo 4 || echo 0; }

with_closed() {
  input=one.bundle
  ends "$(both)" check "$key"
  input=one
  ends "$(both)" prove "$key" 0
  rm -rf hypercore-store
  ends "$(written)" init "$key" log
  is_same made hypercore-store
  ends "$(both)" append "$key" log
  [[ $closed == *0* ]] && is_same made hypercore-store || is_same one-block hypercore-store
  fresh one-block
  ends "$(written)" get "$key" log 0
  [[ $closed == *1* ]] || text_is said one
  ends 12 get "$key" log 1
  [[ $closed == *2* ]] || text_is line 'out of range: 1'
  is_same one-block hypercore-store
}

for outputs in '' 1 2 12; do
  for closed in $outputs 0$outputs; do with_closed; done
  done_with "closed streams $closed"
done
closed=

# Waits for what comes within a second or two.
wait_for() {
  local turn
  for turn in $(seq 100); do
    "$@" && return
    sleep 0.02
  done
  wrong "waited in vain: $*"
}

has_open() { ls -l "/proc/$pid/fd" | grep -q "$id/blocks"; }

# An append has the core until its input, which stays open, has ended.
mkfifo lines
hold() {
  "$program" append "$key" log < lines > held 2>&1 &
  pid=$!
  exec 9> lines
  wait_for has_open
}

fresh one-block
hold
input=one
ends 5 get "$key" log 0
is_same one-block hypercore-store
done_with 'get beside an append'
ends 5 append "$key" log
is_same one-block hypercore-store
done_with 'append beside an append'
ends 11 init "$key" log
ends 0 init "$key" other
echo two >&9
exec 9>&-
wait "$pid"
pid=
text_is held 'length 2 fork 0'
ends 0 get "$key" log 1
text_is said two
hold
ends 5 get "$key" log 1
kill -KILL "$pid"
wait "$pid" 2> /dev/null
pid=
exec 9>&-
ends 0 get "$key" log 1
text_is said two
done_with 'the core is free once the append has ended, and once it was killed'

# An init that was killed before the mark left files; one that is under way has the lock.
fresh made
rm "hypercore-store/$id/made" "hypercore-store/$id/blocks"
cp -r hypercore-store under-way
flock "$oplog" "$program" init "$key" log > said 2>&1
[ $? -eq 5 ] || wrong 'an init beside an init makes the core'
is_same under-way hypercore-store
done_with 'init beside an init'

# Runs the program where a call of the system fails or waits.
traced() {
  local call=$1
  shift
  strace -qq -o /dev/null -e trace="${call%%:*}" -e inject="$call" "$program" "$@"
}

# An append of these lines to a new core writes and syncs the file of the blocks so many times.
blocks_are_called() {
  local count
  fresh made
  strace -qq -y -o calls -e trace=fsync,fdatasync,pwrite64 "$program" append "$key" log < "$1" > said 2>&1
  count=$(grep -c '/blocks>' calls)
  [ "$count" -eq "$2" ] || wrong "append of $1: $count calls on the blocks, wanted $2"
}

with_strace() {
  # The second init waits before the lock, after it saw no core. Meanwhile one is made, and a block appended.
  rm -rf hypercore-store
  traced flock:delay_enter=2000000 init "$key" log > late 2>&1 &
  pid=$!
  wait_for test -e "$oplog"
  ends 0 init "$key" log
  ends 0 append "$key" log
  wait "$pid"
  [ $? -eq 11 ] || wrong "the late init ends otherwise: $(cat late)"
  pid=
  is_same one-block hypercore-store
  done_with 'an init that finds a core made meanwhile'

  # A commit with bytes writes and syncs the file of the blocks, and one without leaves it to the sync of opening.
  echo > empty
  blocks_are_called one 3
  blocks_are_called empty 1
  done_with 'a commit without bytes leaves the blocks alone'

  # The mark's file is synced first, and then the folder with its name.
  local call
  for call in 1 2; do
    fresh one-block
    traced "fsync:error=EIO:when=$call" append "$key" log < one > said 2>&1
    [ $? -eq 5 ] || wrong "an append goes on where sync $call fails"
    is_same one-block hypercore-store
    done_with "an append behind a mark that isn't durable, sync $call"
  done
}

if strace -qq -o /dev/null true 2> /dev/null; then
  with_strace
else
  echo 'strace is not there: the calls that fail or wait are left out'
fi
echo "two programs: $cases cases, $failed failed"
[ "$failed" -eq 0 ]
