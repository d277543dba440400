#!/usr/bin/env bash
# Proves each line of each log of 1 to 9 lines and of the longest that one append takes, and checks the bundle: the
# check has to give the line back. Ends with status 1 where one doesn't come back.
set -o pipefail
cd "$(dirname "$0")/.." || exit 2
key=$(printf '%064d' 0)
log=$(mktemp) || exit 2
trap 'rm -f "$log"' EXIT
tried=0
failed=0

prove_each() {
  local index line got
  seq -f "line %g of $1" "$1" > "$log"
  mapfile -t lines < "$log"
  for index in "${!lines[@]}"; do
    line=${lines[$index]}
    got=$(./hypercore prove "$key" "$index" < "$log" | ./hypercore check "$key")
    if [ $? -ne 0 ] || [ "$got" != "$line" ]; then
      echo "$line: came back as '$got'"
      failed=$((failed + 1))
    fi
    tried=$((tried + 1))
  done
}

for count in 1 2 3 4 5 6 7 8 9 1024; do
  prove_each "$count"
done
echo "prove and check: $tried lines, $failed failed"
[ "$failed" -eq 0 ]
