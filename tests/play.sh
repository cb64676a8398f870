#!/usr/bin/env bash
# Plays traces that are written as text: those of examples/, whose first line names the image; the vectors, written out as numbers, against
# the answers of the independent model; and lines that are wrong, of which the turns before are played and one line says what is wrong.
set -u
cd "$(dirname "$0")/.." || exit 2
. tests/cases.bash
work=$(mktemp -d) || exit 2
trap 'rm -rf "$work"' EXIT

lengthened() { # IMAGE: its length in four bytes, and the image
  # shellcheck disable=SC2059
  printf "$(printf '\\x%02x' 0 0 $(($(wc -c <"$1") / 256)) $(($(wc -c <"$1") % 256)))"
  cat "$1"
}

plays() { # IMAGE TRACE ANSWERS ERRORS
  lengthened "$1" | cat - "$2" | program play >"$work/out" 2>"$work/error"
  cmp -s "$work/out" "$3" && cmp -s "$work/error" "$4"
}

for trace in examples/*.trace; do
  name=${trace%.trace}
  program compose <"examples/$(sed -n '1s/^# image: //p' "$trace")" >"$work/image"
  check "play $(basename "$name")" plays "$work/image" "$trace" "$name.answers" /dev/null
done

# A vector's operations as lines of numbers, and its answers as lines of play: an operation's number says how many words it answers.
for vector in tests/vectors/*.trace; do
  name=${vector%.trace}
  [ -f "$name.answers" ] || continue
  length=$((0x$(head -c 4 "$vector" | od -An -tx1 | tr -d ' ')))
  refusal=$((0x$(head -c 4 "$name.answers" | od -An -tx1 | tr -d ' ')))
  [ "$refusal" -eq 0 ] || echo "the image is refused with $refusal" >"$work/line"
  [ "$refusal" -gt 0 ] || : >"$work/line"
  tail -c +5 "$vector" | head -c "$length" >"$work/image"
  tail -c +$((5 + length)) "$vector" | od -An -v -w32 -tu4 --endian=big >"$work/trace"
  tail -c +5 "$name.answers" | od -An -v -w32 -tu4 --endian=big | paste "$work/trace" - | awk -v refused="$refusal" '
    BEGIN { count[1] = 1; count[7] = 1; count[9] = 6; count[10] = 4 }
    refused == 0 {
      line = $9
      for (i = 1; i <= 8; i++) line = line " " $i
      if ($10 > 0) line = line ": refusal " $10
      else { line = line ": 0"; for (i = 0; i < count[$1]; i++) line = line " " $(11 + i) }
      print line
    }' >"$work/answers"
  check "play $(basename "$name")" plays "$work/image" "$work/trace" "$work/answers" "$work/line"
done

program compose <examples/worked.txt >"$work/image"

stops() { # TRACE ANSWERS ERROR, as texts, with escapes for printf
  printf '%b' "$1" >"$work/trace"
  printf '%b' "$2" >"$work/answers"
  printf '%b' "$3" >"$work/line"
  plays "$work/image" "$work/trace" "$work/answers" "$work/line"
}

blanks() { head -c "$1" /dev/zero | tr '\0' ' '; } # NUMBER: that many blanks

check 'play nothing' stops '' '' ''
check 'play no operation, only comments' stops '\n# STORE\n   \n\r\n' '' ''
check 'play blanks, commas, CR LF and no end of the last line' stops '\tSTORE 0,7 ,  5\r\n LOAD 0 7# as before\nRING' \
  '0 STORE 0 7 5: 0\n1 LOAD 0 7: 0 5\n0 RING: refusal 4\n' ''
check 'play arguments that no operation uses' stops 'IDLE 1 2 3 4 5 6 4294967295\n' '0 IDLE 1 2 3 4 5 6 4294967295: 0\n' ''
check 'play the longest line' stops "IDLE$(blanks 1018) 7\n" '0 IDLE 7: 0\n' ''
check 'play a name that is none' stops 'RING 1\n\nSTOER 0 7 1\nRING 1\n' '0 RING 1: 0\n' 'line 3: STOER: there is no such operation\n'
check 'play a name in small letters' stops 'ring 1\n' '' 'line 1: ring: there is no such operation\n'
check 'play a number of no operation' stops '4294967295\n4294967296\n' '0 4294967295: refusal 1\n' \
  'line 2: 4294967296: there is no such operation\n'
check 'play an argument that is no number' stops 'LOAD 0 x\n' '' 'line 1: x: a number from 0 to 4294967295 is wanted here\n'
check 'play an argument that is too large' stops 'LOAD 0 4294967296\n' '' 'line 1: 4294967296: a number from 0 to 4294967295 is wanted here\n'
check 'play an argument too many' stops 'IDLE 1 2 3 4 5 6 7 8\n' '' 'line 1: 8: an operation has at most seven arguments\n'
check 'play a line that is too long' stops "RING 1\nIDLE$(blanks 1019) 7\n" '0 RING 1: 0\n' 'line 2: a line has at most 1024 bytes\n'

# Many more lines than fit any buffer.
long() {
  lengthened "$work/image"
  for _ in {1..100}; do cat "$work/lines"; done
}
for _ in {1..1000}; do echo 'LOOK 0'; done >"$work/lines"
many() { [ "$(long | program play | grep -c '^[0-3] LOOK 0: 0 ')" -eq 100000 ]; }
check 'play 100,000 lines' many

printf 'short' >"$work/image"
check 'play an image that is refused' stops 'IDLE\n' '' 'the image is refused with 20\n'
head -c 20000 /dev/zero >"$work/image"
check 'play an image that is too long' stops 'IDLE\n' '' 'the image is refused with 21\n'
exit $bad
