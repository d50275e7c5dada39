# To be sourced: tests that are counted.
#   check NAME COMMAND...   runs the command as one test; what it printed is shown if it fails
#   show NAME COMMAND...    the same, and what it prints is shown in any case
#   all_checked             prints the last line, 'N passed, M failed', and gives the status
#   $work                   a folder for their files, which goes when the script ends
work=$(mktemp -d)
trap 'rm -rf "$work"' EXIT
passed=0
failed=0

check() {
  local name=$1
  shift
  "$@" >"$work/log" 2>&1
  count "$name" $? || tail -n 20 "$work/log"
}

show() {
  local name=$1
  shift
  "$@" 2>&1
  count "$name" $?
}

# One test with its status, which is given back.
count() {
  if [ "$2" -eq 0 ]; then
    passed=$((passed + 1))
    echo "ok: $1"
  else
    failed=$((failed + 1))
    echo "FAILED: $1"
  fi
  return "$2"
}

all_checked() {
  echo "$passed passed, $failed failed"
  [ "$failed" -eq 0 ]
}
