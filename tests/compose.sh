#!/usr/bin/env bash
# Composes texts: the worked example byte by byte, as it is and with other blanks and line ends; the largest image, against bytes that are
# made here; each text of tests/compose, which must give nothing but its line on standard error; and texts at the limit of their length.
set -u
cd "$(dirname "$0")/.." || exit 2
. tests/cases.bash
work=$(mktemp -d) || exit 2
trap 'rm -rf "$work"' EXIT

compose() { program compose >"$work/out" 2>"$work/error"; } # <TEXT

gives() { [ ! -s "$work/error" ] && cmp -s "$work/out" "$1"; } # IMAGE: what the last text gave

fails() { [ ! -s "$work/out" ] && cmp -s "$work/error" "$1"; } # LINE: how the last text failed

composes() { compose <"$1" && gives "$2"; } # TEXT IMAGE

refuses() { compose <"$1" && fails "$2"; } # TEXT LINE

bytes() { # NUMBER..: as bytes
  local number
  for number in "$@"; do
    # shellcheck disable=SC2059
    printf "\\x$(printf %02x "$number")"
  done
}

worked=$work/worked
head -c 152 tests/vectors/trace-1-0000.trace | tail -c 148 >"$worked"
check 'compose worked' composes examples/worked.txt "$worked"
sed 's/$/\r/' examples/worked.txt >"$work/text"
check 'compose worked, lines that end in CR LF' composes "$work/text" "$worked"
sed 's/ /\t  /g; s/^/ /; /^ *$/s/$/ \t/' examples/worked.txt >"$work/text"
check 'compose worked, other blanks' composes "$work/text" "$worked"
sed '/^ *$/d; s/ *#.*//' examples/worked.txt | sed '/^$/d' | head -c -1 >"$work/text"
check 'compose worked, no comment, no end of the last line' composes "$work/text" "$worked"
{ grep -v '^give' examples/worked.txt; grep '^give' examples/worked.txt | sort -r; } >"$work/text"
check 'compose worked, gives in another order' composes "$work/text" "$worked"

# Every number at its limit: 16 domains, 64 turns, 256 frames, every slot of every domain, the last first; each domain's slot s comes from
# the same slot of the domain before it. The objects go through the kinds and the rights are all that there are.
kinds=(frame mailbox bell) lasts=(255 63 63) rights=(rw rwg rw) sums=(3 7 3)
{
  echo 'frames 256'
  for d in {0..15}; do echo "domain the-domain-with-the-number-$d"; done
  for k in 0 1 2; do echo "${kinds[k]} last-$k ${lasts[k]}"; done
  for t in {0..15}; do echo "turns$(for n in 1 2 3 4; do printf ' the-domain-with-the-number-%s' $(((t * n) % 16)); done)"; done
  for p in {1023..0}; do
    d=$((p / 64)) s=$((p % 64)) k=$((p % 64 % 3))
    line="give the-domain-with-the-number-$d $s last-$k ${rights[k]} badge $((65535 - s))"
    [ "$d" -eq 0 ] || line+=" from the-domain-with-the-number-$((d - 1)) $s"
    echo "$line"
  done
} >"$work/text"
{
  bytes 16 64 4 0 1 0 0 0
  for t in {0..15}; do for n in 1 2 3 4; do bytes $(((t * n) % 16)); done; done
  for p in {0..1023}; do
    d=$((p / 64)) s=$((p % 64)) k=$((p % 64 % 3)) badge=$((65535 - p % 64))
    if [ "$d" -eq 0 ]; then source="255 0"; else source="$((d - 1)) $s"; fi
    # shellcheck disable=SC2086
    bytes "$d" "$s" $((k + 1)) "${sums[k]}" 0 "${lasts[k]}" $((badge / 256)) $((badge % 256)) $source 0 0
  done
} >"$work/largest"
check 'compose the largest image' composes "$work/text" "$work/largest"

for text in tests/compose/*.txt; do
  check "compose $(basename "$text")" refuses "$text" "${text%.txt}.error"
done

filled() { # LENGTH: the worked example, filled up by a comment to that many bytes
  cat examples/worked.txt
  head -c $(($1 - $(wc -c <examples/worked.txt))) /dev/zero | tr '\0' '#'
}
filled 262144 >"$work/text"
check 'compose the longest text' composes "$work/text" "$worked"
filled 262145 >"$work/text"
echo 'the text is longer than 262144 bytes' >"$work/line"
check 'compose a longer text' refuses "$work/text" "$work/line"
exit $bad
