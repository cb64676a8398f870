#!/bin/sh
# Meterkernel's tools. Exit status: 0; 1 where something was refused or an input has an error; 2 for bad usage. Messages go to standard
# error. Needs the Rattle kit's command rt on the PATH.
set -u
here=$(dirname "$(readlink -f "$0")")

help() {
  cat <<'END'
usage: ./mk COMMAND ..

  inspect [VIEW] [FILE]   look at a boot image (standard input where no FILE is named); VIEW is one of
                            report  sizes, turns, capabilities, who can reach whom and why (the default)
                            matrix  who can reach whom, as rows of 0 and 1
                            hold    what each domain could ever hold, a line for each triple
                            dot     domains, objects and flows as a graph for Graphviz
  compose FILE            the boot image that a text describes, to standard output (docs/IMAGES.md)
  replay FILE             the answers to a trace: a text gives a line for each turn, a binary trace the binary answers
  demo                    composes the worked example, inspects it and replays its 22 turns
  bench                   measures the kernel against the same kernel in C (docs/PERFORMANCE.md)
  cost A B                what changed between two commits, and what proving costs before and after
  test                    all tests, as the gate runs them
  help                    this text

A FILE whose name ends in .txt is composed first where an image is wanted.
Exit status: 0; 1 where something was refused or an input has an error; 2 for bad usage.
END
}

usage() { # MESSAGE
  echo "mk: $1; ./mk help says more" >&2
  exit 2
}

fail() { # MESSAGE
  echo "mk: $1" >&2
  exit 1
}

readable() { [ -r "$1" ] && [ ! -d "$1" ] || fail "cannot read $1"; }

# Proves and builds those programs that are missing or older than a source.
built() { # NAME..
  for program in "$@"; do
    "$here/tools/build" "$program" || fail "$program could not be built: rt check in crates/$program says why"
  done
}

run() { "$here/tools/program" "$@"; }

# What a program says on standard error is what went wrong.
checked() { # NAME [WORD..], standard input to standard output
  run "$@" 2>"$space/said"
  if [ -s "$space/said" ]; then
    cat "$space/said" >&2
    return 1
  fi
}

# An image from a file, composed first where its name ends in .txt.
image_of() { # FILE, to standard output
  readable "$1"
  case $1 in
    *.txt) built compose && checked compose <"$1" ;;
    *) cat "$1" ;;
  esac
}

inspect() {
  view=report
  case ${1-} in
    report | matrix | hold | dot)
      view=$1
      shift
      ;;
  esac
  [ $# -le 1 ] || usage "inspect takes a view and a file"
  if [ $# -eq 1 ]; then
    [ -e "$1" ] || usage "there is no view and no file $1"
    image_of "$1" >"$space/image" || exit 1
  else
    cat >"$space/image"
  fi
  built inspect
  checked inspect "$view" <"$space/image" >"$space/out" || exit 1
  case $view,$(head -n 1 "$space/out") in
    report,refused*)
      cat "$space/out" >&2
      exit 1
      ;;
    *,refused*)
      cat "$space/out"
      exit 1
      ;;
    *) cat "$space/out" ;;
  esac
}

compose() {
  [ $# -eq 1 ] || usage "compose takes a file"
  readable "$1"
  built compose
  checked compose <"$1" >"$space/image" || exit 1
  cat "$space/image"
}

number() { # N: as four bytes, big-endian
  printf "\\$(printf %03o $(($1 / 16777216 % 256)))\\$(printf %03o $(($1 / 65536 % 256)))\\$(printf %03o $(($1 / 256 % 256)))\\$(printf %03o $(($1 % 256)))"
}

replay() {
  [ $# -eq 1 ] || usage "replay takes a file"
  readable "$1"
  # a binary trace begins with the length of its image, whose first byte is 0
  if [ "$(head -c 1 "$1" | od -An -tu1 | tr -d ' ')" = 0 ]; then
    built replay
    run replay <"$1" >"$space/out"
    cat "$space/out"
    [ "$(head -c 4 "$space/out" | od -An -tu1 | tr -d ' ')" = 0000 ] || fail "the image is refused with $(head -c 4 "$space/out" | od -An -tu1 | awk '{ print $4 }')"
    return
  fi
  name=$(sed -n 's/^# *image: *\([^ ]*\) *$/\1/p' "$1" | head -n 1)
  [ -n "$name" ] || fail "$1 has no line '# image: FILE' that names its image"
  case $name in
    /*) ;;
    *) name=$(dirname "$1")/$name ;;
  esac
  image_of "$name" >"$space/image" || exit 1
  built play
  { number "$(wc -c <"$space/image")" && cat "$space/image" "$1"; } | checked play || exit 1
}

demo() {
  [ $# -eq 0 ] || usage "demo takes nothing"
  built compose inspect play
  echo "== examples/worked.txt, composed: $(compose "$here/examples/worked.txt" | wc -c) bytes"
  compose "$here/examples/worked.txt" | od -An -tx1 -v
  echo "== what it says"
  (inspect report "$here/examples/worked.txt") || exit 1
  echo "== its first 22 turns"
  replay "$here/examples/worked.trace"
}

space=$(mktemp -d) || exit 2
trap 'rm -rf "$space"' EXIT

[ $# -gt 0 ] || {
  help >&2
  exit 2
}
command=$1
shift
case $command in
  inspect | compose | replay | demo) "$command" "$@" ;;
  bench) "$here/bench/run" "$@" ;;
  cost) "$here/tools/cost" "$@" ;;
  test) "$here/tests/run" "$@" ;;
  help | --help | -h) help ;;
  *) usage "there is no command $command" ;;
esac
