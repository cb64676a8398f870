#!/usr/bin/env bash
# Replays every trace of the vectors, and compares byte by byte with the answers of the independent model.
set -u
cd "$(dirname "$0")/.." || exit 2
. tests/cases.bash
out=$(mktemp) || exit 2
trap 'rm -f "$out"' EXIT

agrees() { program replay <"$1.trace" >"$out" && cmp -s "$out" "$1.answers"; }

for trace in tests/vectors/*.trace; do
  name=${trace%.trace}
  [ ! -f "$name.answers" ] || check "replay $(basename "$name")" agrees "$name"
done
exit $bad
