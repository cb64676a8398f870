#!/usr/bin/env bash
# Hands every image of the vectors, whole or damaged, to the reader by a trace without operations: it is accepted, or refused with the
# number that the independent model gives.
set -u
cd "$(dirname "$0")/.." || exit 2
. tests/cases.bash
out=$(mktemp) || exit 2
trap 'rm -f "$out"' EXIT

number() { # N: N as four bytes, big-endian
  local hex
  hex=$(printf '%08x' "$1")
  printf '%b' "\\x${hex:0:2}\\x${hex:2:2}\\x${hex:4:2}\\x${hex:6:2}"
}

answered() { # NAME: the reader's number is the model's
  local verdict figure expected=0
  read -r verdict figure <"$1.flow"
  [ "$verdict" = accepted ] || expected=$figure
  { number "$(wc -c <"$1.image")" && cat "$1.image"; } | program replay >"$out" && cmp -s "$out" <(number "$expected")
}

for image in tests/vectors/*.image; do
  name=${image%.image}
  check "read $(basename "$name")" answered "$name"
done
exit $bad
