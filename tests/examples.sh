#!/usr/bin/env bash
# Composes each text of examples/ and compares what may flow where with what is expected of it, a line for each domain, in the text's order.
set -u
cd "$(dirname "$0")/.." || exit 2
. tests/cases.bash
work=$(mktemp -d) || exit 2
trap 'rm -rf "$work"' EXIT

flows() { program compose <"$1.txt" >"$work/image" && program inspect matrix <"$work/image" >"$work/flow" && cmp -s "$work/flow" "$1.flow"; }

for text in examples/*.txt; do
  name=${text%.txt}
  check "flow of $(basename "$name")" flows "$name"
done
exit $bad
