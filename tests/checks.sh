# Sourced by tests that try a command: each `check` is one test; `checked` prints 'N passed, M failed' and fails when any failed or none ran.
packages=$(tests/packages)
[ -z "$packages" ] || { echo "$0: these Debian packages are missing: $packages"; exit 2; }
passed=0
failed=0
work=$(mktemp -d)
trap 'rm -rf "$work"' EXIT

# check NAME COMMAND...: the command must succeed
check() {
  check_name=$1
  shift
  if "$@"; then
    passed=$((passed + 1))
  else
    failed=$((failed + 1))
    echo "FAILED: $check_name"
  fi
}

# ends STATUS COMMAND...: the command must end with this status; what it writes is kept in $work/out and $work/err
ends() {
  wanted=$1
  shift
  "$@" >"$work/out" 2>"$work/err"
  ended=$?
  [ "$ended" -eq "$wanted" ] && return
  echo "ended with $ended, not $wanted: $*"
  head -n 5 "$work/err"
  return 1
}

# says PATTERN: standard error of the last command has a line that matches; prints FILE: standard output is this file's bytes
says() { grep -qE -- "$1" "$work/err" || { echo "not said: $1"; head -n 5 "$work/err"; return 1; }; }
says_nothing() { [ ! -s "$work/err" ]; }
prints() { cmp -s "$work/out" "$1" || { head -n 5 "$work/out"; return 1; }; }
prints_nothing() { [ ! -s "$work/out" ]; }

checked() {
  echo "$passed passed, $failed failed"
  [ "$failed" -eq 0 ] && [ "$passed" -gt 0 ]
}
