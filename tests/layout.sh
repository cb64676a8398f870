#!/usr/bin/env bash
# Tests of the code as a text: only layout indexes the memory, so that no visit to a place is left out, and no public entry asks anything.
set -u
cd "$(dirname "$0")/.." || exit 2
. tests/cases.bash

only_layout_indexes() {
  ! grep -nE 'mem\[' crates/*/src/*.rt | grep -v '^crates/layout/' && ! grep -nE 'words\[' crates/{look,mail,decide,tree,turn,boot,write}/src/*.rt
}
places_by_count() { ! grep -nE '(mem|words)\[(KIND|RIGHTS|OBJECT|BADGE|SOURCE)' crates/layout/src/lib.rt | awk -F: '{ print $1 }' | while read -r line; do
  # the function that the line stands in counts the visit
  sed -n "1,${line}p" crates/layout/src/lib.rt | grep -E '^ *(pub )?fn ' | tail -n 1 | grep -q 'visits: &mut u32' || echo "$line"
done | grep -q .; }
one_count() { # a turn has one count of visits, which goes from function to function: none has a count of its own, or sets it
  local counts
  counts=$(grep -nE 'let mut visits|&mut [0-9]|\*visits' crates/{look,mail,decide,tree,turn}/src/*.rt)
  [ "$(printf '%s' "$counts" | grep -c .)" -eq 1 ] || { printf '# %s\n' "$counts"; false; }
}
no_requires() { # FILE FUNCTION: a public entry has no requires
  local entry
  entry=$(sed -n "/^pub fn $2(/,/^{/p" "$1")
  [ -n "$entry" ] && ! printf '%s' "$entry" | grep -q requires
}
entries_ask_nothing() { # no function that C may call has a requires
  ! sed -n '/^pub extern "C" fn /,/^{/p' crates/meterkernel/src/lib.rt | grep -q requires
}
state_is_small() { # beside the frames at most 6,500 words
  local words
  words=$(sed -n 's/^frames_at = \([0-9]*\)$/\1/p' crates/layout/specs/Layout.antt)
  [ -n "$words" ] && [ "$words" -le 6500 ]
}

check "only layout indexes the memory" only_layout_indexes
check "what a place holds is read and written by functions that count the visit" places_by_count
check "a turn has one count of visits" one_count
check "beside the frames a state takes at most 6,500 words" state_is_small
check "turn asks nothing" no_requires crates/turn/src/lib.rt turn
check "whose asks nothing" no_requires crates/turn/src/lib.rt whose
check "words asks nothing" no_requires crates/turn/src/lib.rt words
check "the reader asks nothing" no_requires crates/boot/src/lib.rt read
check "the writer asks nothing" no_requires crates/write/src/lib.rt write
check "the image's refusal asks nothing" no_requires crates/image/src/lib.rt accept
check "flow asks nothing" no_requires crates/flow/src/lib.rt flow
check "could_hold asks nothing" no_requires crates/flow/src/lib.rt could_hold
check "no entry for C asks anything" entries_ask_nothing
exit $bad
