#!/usr/bin/env bash
# ./mk as its users call it: what it prints, where, and with which exit status.
set -u
cd "$(dirname "$0")/.." || exit 2
. tests/cases.bash
out=$(mktemp -d) || exit 2
trap 'rm -rf "$out"' EXIT

# what is missing is built first, so that standard error has a tool's own words alone
for file in examples/worked.trace tests/vectors/trace-1-0000.trace; do ./mk replay "$file" >/dev/null 2>&1; done
./mk inspect matrix examples/worked.txt >/dev/null 2>&1

gives() { # STATUS COMMAND..: the exit status; standard output and standard error are kept
  local status=$1
  shift
  "$@" >"$out/out" 2>"$out/err"
  [ $? -eq "$status" ] || { cat "$out/err" >&2; return 1; }
}
silent() { [ ! -s "$out/$1" ]; } # nothing on standard output (out) or standard error (err)
says() { grep -qF -- "$2" "$out/$1"; }

no_command() { gives 2 ./mk && silent out && says err 'usage: ./mk'; }
help_asked() { gives 0 ./mk help && says out './mk COMMAND' && silent err; }
unknown() { gives 2 ./mk frobnicate && silent out && says err frobnicate; }
too_many() { gives 2 ./mk compose a b && silent out && gives 2 ./mk replay && gives 2 ./mk inspect matrix a b; }
no_file() { gives 1 ./mk compose "$out/none" && says err "$out/none" && gives 1 ./mk replay "$out/none" && gives 2 ./mk inspect "$out/none"; }

composed() { gives 0 ./mk compose examples/worked.txt && silent err && cmp -s "$out/out" <(tail -c +5 tests/vectors/trace-1-0000.trace | head -c 148); }
misspelt() { sed 's/give billing 0/give biling 0/' examples/worked.txt >"$out/bad.txt" && gives 1 ./mk compose "$out/bad.txt" && silent out && says err "line $(grep -n biling "$out/bad.txt" | cut -d: -f1): biling"; }

matrix_of_image() { gives 0 ./mk inspect matrix tests/vectors/image-1-0003.image && cmp -s "$out/out" tests/vectors/image-1-0003.flow; }
hold_of_input() { ./mk inspect hold <tests/vectors/image-1-0003.image >"$out/out" && cmp -s "$out/out" tests/vectors/image-1-0003.hold; }
matrix_of_text() { gives 0 ./mk inspect matrix examples/worked.txt && silent err && cmp -s "$out/out" crates/inspect/stdout; }
refused_image() { # each refusal: exit status 1, and the number
  local n name
  for n in 20 21 22 23 24 25 26; do
    name=$(grep -lx "refused $n" tests/vectors/*.flow | head -n 1)
    gives 1 ./mk inspect matrix "${name%.flow}.image" && says out "refused $n" && gives 1 ./mk inspect "${name%.flow}.image" && silent out && says err "$n" || return 1
  done
}
drawn() { gives 0 ./mk inspect dot examples/worked.txt && silent err && says out digraph; }
narrow() { ! awk 'length($0) > 100 { print FILENAME ": " $0; found = 1 } END { exit !found }' examples/*.report; }

played() { gives 0 ./mk replay examples/worked.trace && silent err && cmp -s "$out/out" examples/worked.answers; }
replayed() { gives 0 ./mk replay tests/vectors/trace-1-0000.trace && silent err && cmp -s "$out/out" tests/vectors/trace-1-0000.answers; }
no_operation() { { echo "# image: $PWD/examples/worked.txt" && echo 'STORE 0 7 1' && echo 'BREW 1'; } >"$out/bad.trace" && gives 1 ./mk replay "$out/bad.trace" && says err BREW; }
no_image() { echo 'STORE 0 7 1' >"$out/bare.trace" && gives 1 ./mk replay "$out/bare.trace" && says err image; }
refused_trace() { { printf '\0\0\0\3abc'; } >"$out/refused.trace" && gives 1 ./mk replay "$out/refused.trace" && says err 20; }
demonstrated() { gives 0 ./mk demo && says out '0 STORE 0 7 4711: 0' && says out '148 bytes'; }

check "mk without a command" no_command
check "mk help" help_asked
check "mk with an unknown command" unknown
check "mk with too many or too few words" too_many
check "mk with a file that isn't there" no_file
check "mk compose: the worked example" composed
check "mk compose: a misspelt word" misspelt
check "mk inspect matrix of an image" matrix_of_image
check "mk inspect hold of standard input" hold_of_input
check "mk inspect matrix of a text" matrix_of_text
check "mk inspect of refused images" refused_image
check "mk inspect dot" drawn
for report in examples/*.report; do
  text=${report%.report}.txt
  check "mk inspect report of $text" eval 'gives 0 ./mk inspect report "$text" && silent err && cmp "$out/out" "$report"'
done
check "reports stay within 100 columns" narrow
check "mk replay of a text" played
check "mk replay of a binary trace" replayed
check "mk replay: a line that is no operation" no_operation
check "mk replay: a text that names no image" no_image
check "mk replay: a refused image" refused_trace
check "mk demo" demonstrated
check "tools/cost of two commits" eval 'gives 2 tools/cost && { ! git rev-parse -q --verify HEAD~1 >/dev/null 2>&1 || gives 0 tools/cost HEAD~1 HEAD --no-seconds; }'
exit $bad
