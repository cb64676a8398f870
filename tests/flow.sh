#!/usr/bin/env bash
# Hands every image of the vectors, whole or damaged, to `inspect`: what may flow where and what each domain could hold are, byte for
# byte, what the independent model gives. Then what is no image, and words that are no view.
set -u
cd "$(dirname "$0")/.." || exit 2
. tests/cases.bash
out=$(mktemp) || exit 2
trap 'rm -f "$out"' EXIT

shown() { # VIEW IMAGE EXPECTED: the view is what the file has
  program inspect "$1" <"$2" >"$out" && cmp -s "$out" "$3"
}

says() { # TEXT WORD..: nothing on standard output, and the text on standard error
  local expected=$1
  shift
  [ "$(program inspect "$@" 2>&1 >"$out" </dev/null)" = "$expected" ] && [ ! -s "$out" ]
}

longer() { # BYTES EXPECTED: what is made of so many bytes that begin as the longest image does
  { printf '\020\100\004\000\001\000\000\000' && head -c "$(($1 - 8))" /dev/zero; } | program inspect matrix >"$out"
  [ "$(cat "$out")" = "$2" ]
}

for image in tests/vectors/*.image; do
  name=${image%.image}
  check "matrix $(basename "$name")" shown matrix "$image" "$name.flow"
  check "hold $(basename "$name")" shown hold "$image" "$name.hold"
done
check 'nothing is refused with 20' shown matrix /dev/null <(echo 'refused 20')
check '12,360 bytes have the right length' longer 12360 'refused 24'
check '12,361 bytes are too long' longer 12361 'refused 22'
check '100,000 bytes are too long' longer 100000 'refused 22'
usage='usage: inspect report|matrix|hold|dot <IMAGE'
check 'no word' says "$usage"
check 'a word that is no view' says "$usage" matri
check 'a word that is too long' says "$usage" matrixmatrixmatrix
exit $bad
