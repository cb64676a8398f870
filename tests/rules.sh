#!/usr/bin/env bash
# Tests of the written rules as a text: what a reader has to believe stays short, names each size once, and rests on nothing unproved.
set -u
cd "$(dirname "$0")/.." || exit 2
specs=crates/rules/specs
. tests/cases.bash

# The definitions that the theorems speak of, without the worked example and the statements themselves.
believed() { (cd "$specs" && cat Sizes.antt State.antt Turn.antt Image.antt Flow.antt); }
definitions() { believed | grep -vc -E '^ *(--.*)?$|^use '; }
short() { n=$(definitions); echo "# $n lines of definitions"; [ "$n" -lt 500 ]; }

# Sizes are named in Sizes.antt: 64, 256, 1,024, 1,088 and 65,535 stand nowhere else. 256 is also the value of a byte's place.
sizes_once() {
  ! (cd "$specs" && grep -nE '(^|[^0-9A-Za-z])(64|1024|1088|65535)([^0-9]|$)' State.antt Turn.antt Image.antt Flow.antt Authority.antt History.antt Partition.antt RoundTrip.antt | grep -v ':[0-9]*: *--')
}

no_code_words() { ! believed | sed 's/--.*//' | grep -niE 'memory|offset|visit|loop'; }
nothing_unproved() { ! grep -rnE '^ *axiom |(=|\()[[:space:]]*\?[A-Za-z0-9]*[[:space:]]*(\)|$)' crates --include='*.antt'; }
each_crate_listed() {
  local all=0 d
  for d in crates/*/; do grep -q "^$(basename "$d")[ :]" crates.txt || { echo "# $d is not in crates.txt"; all=1; }; done
  return $all
}

# Each statement of a crate's specs/ has a proof in its proofs/ whose type is its name.
each_statement_proved() {
  local missing=0 file name
  for file in $specs/Authority.antt $specs/History.antt $specs/Partition.antt $specs/RoundTrip.antt crates/write/specs/RoundTrip.antt; do
    for name in $(sed -nE 's/^abbrev pub ([A-Z][A-Za-z0-9]*) : Type 0$/\1/p' "$file"); do
      case $name in Program | Programs) continue ;; esac
      grep -rqE "^ *pub [a-z0-9_-]+ : $name\$" "${file%/specs/*}/proofs" || { echo "# $name has no proof"; missing=1; }
    done
  done
  return $missing
}

check "the definitions are fewer than 500 lines" short
check "each size is named once" sizes_once
check "no definition speaks of code" no_code_words
check "no axiom and no hole" nothing_unproved
check "crates.txt names each crate" each_crate_listed
check "each statement has a proof" each_statement_proved
exit $bad
