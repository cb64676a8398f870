#!/usr/bin/env bash
# Runs every trace of the vectors that has an image written after it, and compares byte by byte what the writer gives with what the
# independent model gives: the image, refusal 27, or the number with which the trace's own image is refused.
set -u
cd "$(dirname "$0")/.." || exit 2
. tests/cases.bash
out=$(mktemp) || exit 2
trap 'rm -f "$out"' EXIT

agrees() { program replay written <"$1.trace" >"$out" && cmp -s "$out" "$1.written"; }

for written in tests/vectors/*.written; do
  name=${written%.written}
  check "write $(basename "$name")" agrees "$name"
done
exit $bad
