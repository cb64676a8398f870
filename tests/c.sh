#!/usr/bin/env bash
# Links the static library from C, as a firmware would: the header in C99 and C++, every vector through its functions, memory and images
# of random words, and the program of docs/EMBEDDING.md. The kit's library is x86-64 code: on another processor the tests are built for
# x86-64 too and run under an emulator, with fewer random words.
set -u
cd "$(dirname "$0")/.." || exit 2
. tests/cases.bash
out=$(mktemp -d) || exit 2
library=crates/meterkernel/out/libmeterkernel.a
trap 'rm -rf "$out"' EXIT

if [ "$(uname -m)" = x86_64 ]; then
  compiler=(cc) symbols=nm turns=500000 images=2000000
else
  compiler=(x86_64-linux-gnu-gcc -static) symbols=x86_64-linux-gnu-nm turns=50000 images=100000
  command -v "${compiler[0]}" >/dev/null 2>&1 ||
    apt-get -qq install -y gcc-x86-64-linux-gnu libc6-dev-amd64-cross qemu-user >"$out/install" 2>&1 || cat "$out/install"
fi

build() { # NAME SOURCE..: strictly, as C99
  local name=$1
  shift
  "${compiler[@]}" -std=c99 -Wall -Wextra -Wpedantic -Werror -O2 -Iinclude -Itests/c -o "$out/$name" "$@" "$library"
}

run() { # NAME WORD..: natively, or under the emulator
  local name=$1 emulator=qemu-x86_64
  shift
  [ "$(uname -m)" != x86_64 ] || emulator=
  ${emulator:+"$emulator"} "$out/$name" "$@"
}

header_in_cxx() { printf '#include "meterkernel.h"\nint main() { return mk_words(1) == 0; }\n' | c++ -x c++ -std=c++11 -Wall -Wextra -Wpedantic -Werror -Iinclude -fsyntax-only -; }

# the C program of docs/EMBEDDING.md, and what the page says that it prints
fenced() { sed -n "/^\`\`\`$1\$/,/^\`\`\`\$/p" docs/EMBEDDING.md | sed '1d;$d'; }
page_runs() { fenced c >"$out/page.c" && fenced text >"$out/page.expected" && build page "$out/page.c" && run page >"$out/page.out" && cmp "$out/page.out" "$out/page.expected"; }

no_other_symbols() { # the library defines what the header names, and needs memcpy and memset alone
  cmp -s <("$symbols" -g --defined-only "$library" | sed -n 's/.* T //p' | sort) <(grep -oE '\bmk_[a-z_]+\(' include/meterkernel.h | tr -d '(' | sort -u) &&
    ! "$symbols" -u "$library" | sed -n 's/^ *U //p' | grep -vE '^(memcpy|memset|memmove)$'
}

library_built() { (cd crates/meterkernel && rt lib) >"$out/lib" 2>&1 && [ -s "$library" ] || { cat "$out/lib"; return 1; }; }

check "the static library" library_built
check "its symbols are those of the header" no_other_symbols
check "the header in C++" header_in_cxx
check "the vectors' program builds" build vectors tests/c/vectors.c tests/c/lent.c
run vectors tests/vectors || bad=1
check "the program of random words builds" build wild tests/c/wild.c tests/c/lent.c
run wild "${SEED:-1}" "$turns" "$images" || bad=1
if [ "$(uname -m)" = x86_64 ] && command -v valgrind >/dev/null 2>&1; then
  check "random words under valgrind" valgrind -q --error-exitcode=1 "$out/wild" 2 20000 10000
fi
check "the program of docs/EMBEDDING.md" page_runs
exit $bad
