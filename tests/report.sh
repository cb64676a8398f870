#!/usr/bin/env bash
# The views `report` and `dot` of every image of the vectors. Of an accepted one: no line has more than 100 columns; the table of flows is the
# model's; each yes that is not from a domain to itself has a shortest chain of direct flows from the one domain to the other, each step one
# of document 03's cases, by what the model says that domains could hold and by the image's own sources; and the listed closed sets are
# closed, and as many as there are. Of a refused one: the model's number, and a sentence. Then the sentences themselves, on the worked
# example with one byte changed.
set -u
cd "$(dirname "$0")/.." || exit 2
. tests/cases.bash
out=$(mktemp) || exit 2
trap 'rm -f "$out"' EXIT

narrow() { ! grep -qE '.{101}' "$out"; }

# Reads the .hold file, the .flow file, the entries as numbers (a line of 12 to each), then the report.
reasoned() { # NAME
  od -An -v -tu1 -w1 "$1.image" | awk '
    { b[NR - 1] = $1 }
    END { at = 8 + int((b[1] + 3) / 4) * 4; for (; at < NR; at += 12) print b[at], b[at + 1], b[at + 8], b[at + 9] }' |
    awk '
      FILENAME == ARGV[1] && FNR > 1 { key = $2 " " $3; if (int($4 / 2) % 2) w[key " " $1] = 1; if ($4 % 2) r[key " " $1] = 1; next }
      FILENAME == ARGV[2] && FNR == 1 { size = $2; next }
      FILENAME == ARGV[2] { for (i = 1; i <= size; i++) flow[(FNR - 2) " " (i - 1)] = substr($0, i, 1) + 0; next }
      FILENAME == ARGV[3] { source[$3 " " $4 " " $1] = 1; next }
      function user(key, d) { return (key " " d in w) || (key " " d in r) }
      function carries(by, number, a, b) {
        if (by == "frame") return ("1 " number " " a in w) && ("1 " number " " b in r)
        if (by == "mailbox") return user("2 " number, a) && user("2 " number, b)
        if (by == "bell") return user("3 " number, a) && ("3 " number " " b in r)
        return (a " " number " " b in source)
      }
      /^$/ { part = "" }
      /^flow,/ { part = "flow"; next }
      /^closed sets:/ { part = "closed"; sets = $3 + 0; next }
      /^reasons,/ { part = "reasons"; next }
      part == "flow" && $2 ~ /yes|no/ { for (i = 0; i < size; i++) if (($(i + 2) == "yes") != flow[$1 " " i]) wrong = "table"; rows++ }
      part == "closed" && $1 != "around" { listed++ }
      part == "closed" && $1 != "none" && $1 != "around" {
        split("", set); for (i = 1; i <= NF; i++) set[$i] = 1
        for (a = 0; a < size; a++) for (i in set) if (flow[a " " i] && !(a in set)) wrong = "closed set"
      }
      part == "reasons" { text = text $0; if ($0 !~ /,$/) { chain(text); text = "" } }
      # direct flow over the object of a key of w or r
      function object(key,   f, by, a, b) {
        split(key, f, " "); if (f[1] " " f[2] in done) return
        done[f[1] " " f[2]] = 1; by = f[1] == 1 ? "frame" : f[1] == 2 ? "mailbox" : "bell"
        for (a = 0; a < size; a++) for (b = 0; b < size; b++) if (a != b && carries(by, f[2], a, b)) least[a " " b] = 1
      }
      function chain(text,   n, step, i, at, f) {
        sub(/^ */, "", text); from = to = text
        sub(/ .*/, "", from); sub(/^[0-9]+ to +/, "", to); sub(/:.*/, "", to)
        seen[from " " to] = 1
        sub(/^[^:]*: /, "", text); n = split(text, step, /, */); at = from
        for (i = 1; i <= n; i++) {
          split(step[i], f, " ")
          if (f[1] != at || f[2] != "->" || f[4] != "by") wrong = "step " step[i]
          if (!carries(f[5], f[5] == "REVOKE" ? f[8] : f[6], f[1], f[3])) wrong = "no case: " step[i]
          at = f[3]
        }
        if (at != to) wrong = "chain " text
        length_of[from " " to] = n
      }
      END {
        if (rows != size) wrong = "rows"
        if (listed && listed != sets) wrong = "closed sets listed"
        if (size <= 8) {
          for (set_of = 0; set_of < 2 ^ size; set_of++) {
            good = 1
            for (a = 0; a < size; a++) for (b = 0; b < size; b++)
              if (flow[a " " b] && int(set_of / 2 ^ b) % 2 && !(int(set_of / 2 ^ a) % 2)) good = 0
            count += good
          }
          if (count != sets) wrong = "number of closed sets"
        }
        for (a = 0; a < size; a++) for (b = 0; b < size; b++) {
          if (a != b && flow[a " " b] && !(a " " b in seen)) wrong = "no reason for " a " to " b
          if ((a " " b in seen) && !(a != b && flow[a " " b])) wrong = "a reason for " a " to " b
        }
        for (key in source) { split(key, f, " "); if (f[1] != f[3]) least[f[1] " " f[3]] = 1 }
        for (key in w) object(key)
        for (key in r) object(key)
        for (c = 0; c < size; c++) for (a = 0; a < size; a++) if (a " " c in least) for (b = 0; b < size; b++)
          if (c " " b in least && a != b) {
            n = least[a " " c] + least[c " " b]
            if (!(a " " b in least) || n < least[a " " b]) least[a " " b] = n
          }
        for (key in seen) if (length_of[key] != least[key]) wrong = "not the shortest chain: " key
        if (wrong) print wrong > "/dev/stderr"
        exit wrong != ""
      }' "$1.hold" "$1.flow" - "$out"
}

reported() { # NAME
  local verdict figure
  program inspect report <"$1.image" >"$out" || return 1
  read -r verdict figure <"$1.flow"
  [ "$(head -n 1 "$out")" = "$verdict $figure" ] && narrow || return 1
  if [ "$verdict" = accepted ]; then reasoned "$1"; else [ "$(wc -l <"$out")" -eq 2 ]; fi
}

drawn() { # NAME
  local verdict figure
  program inspect dot <"$1.image" >"$out" || return 1
  read -r verdict figure <"$1.flow"
  if [ "$verdict" = accepted ]; then
    [ "$(head -n 1 "$out")" = 'digraph image {' ] && [ "$(tail -n 1 "$out")" = '}' ]
  else
    [ "$(cat "$out")" = "$verdict $figure" ]
  fi
}

damaged() { # BYTE VALUE SENTENCE: why the worked example is refused with that byte in place of its own, or behind its last
  { head -c "$1" tests/vectors/image-1-0000.image && printf '%b' "\\0$(printf '%o' "$2")" &&
    tail -c "+$(($1 + 2))" tests/vectors/image-1-0000.image; } | program inspect report >"$out"
  [ "$(tail -n +2 "$out")" = "$3" ]
}

for image in tests/vectors/*.image; do
  name=${image%.image}
  check "report $(basename "$name")" reported "$name"
  check "dot $(basename "$name")" drawn "$name"
done
check '20' [ "$(program inspect report </dev/null)" = $'refused 20\nthere are 0 bytes, and the header has 8' ]
check '21: domains' damaged 0 17 'byte 0: D is 17, not 1 to 16'
check '21: turns' damaged 1 0 'byte 1: T is 0, not 1 to 64'
check '21: entries' damaged 2 5 'bytes 2 and 3: C is 1291, not 0 to 1024'
check '21: frames' damaged 4 2 'bytes 4 and 5: F is 528, not 1 to 256'
check '21: bytes 6 and 7' damaged 7 1 'bytes 6 and 7 are not 0'
check '22' damaged 148 0 'there are 149 bytes, and T 6 and C 11 give 148'
check '23: a turn' damaged 8 4 'byte 8: a turn names domain 4, and D is 4'
check '23: padding' damaged 14 1 'byte 14: the padding is 1, not 0'
check '24: domain' damaged 136 4 'entry 10, bytes 136 to 147: its domain is 4, and D is 4'
check '24: slot' damaged 17 64 'entry 0, bytes 16 to 27: its slot is 64, and the last is 63'
check '24: kind' damaged 18 4 'entry 0, bytes 16 to 27: its kind is 4, not 1 to 3'
check '24: rights' damaged 19 8 'entry 0, bytes 16 to 27: its rights are 8, not 0 to 7'
check '24: GRANT' damaged 19 7 'entry 0, bytes 16 to 27: it has GRANT, and is not for a mailbox'
check '24: a frame' damaged 21 16 'entry 0, bytes 16 to 27: it is for frame 16, and F is 16'
check '24: a bell' damaged 33 64 'entry 1, bytes 28 to 39: it is for bell 64, and the last is 63'
check '24: last bytes' damaged 27 1 'entry 0, bytes 16 to 27: its last two bytes are not 0'
check '25' damaged 29 0 'entry 1, bytes 28 to 39: slot 0 of domain 0 does not come after the entry before'
check '26: no entry' damaged 61 9 "entry 3, bytes 52 to 63: its source, slot 9 of domain 0, is no entry's place"
check '26: object' damaged 61 1 'entry 3, bytes 52 to 63: its source, slot 1 of domain 0, is for bell 1, and it is for frame 5'
check '26: rights' damaged 19 2 'entry 3, bytes 52 to 63: its source, slot 0 of domain 0, has rights -w-, and it has r--'
check '26: badge' damaged 23 9 'entry 3, bytes 52 to 63: its source, slot 0 of domain 0, has badge 9, and it has 0'
check '26: a circle' damaged 60 1 'entry 3, bytes 52 to 63: following sources from it comes back to it'
exit $bad
