# For the test scripts: cases, and running a program that rt built.

bad=0

check() { # NAME COMMAND..: a case that passes where the command succeeds
  local name=$1
  shift
  if "$@"; then echo "ok $name"; else
    echo "not ok $name"
    bad=1
  fi
}

program() { tools/program "$@"; } # NAME [WORD..]: a program that rt built
