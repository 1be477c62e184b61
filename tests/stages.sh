# Sourced by tests/run and .ci/run: stages that each end in 'N passed, M failed', and their sum.
log=$(mktemp)
trap 'rm -f "$log"' EXIT
total_passed=0
total_failed=0

# stage NAME COMMAND...: shows what it prints, and adds up its closing line
stage() {
  name=$1
  shift
  echo "== $name"
  "$@" 2>&1 | tee "$log"
  status=${PIPESTATUS[0]}
  counts=$(grep -E '^[0-9]+ passed, [0-9]+ failed$' "$log" | tail -n 1)
  [ -n "$counts" ] || { counts='0 passed, 1 failed'; echo "$name ended without its closing line"; }
  passed=${counts%% passed*}
  failed=${counts##*passed, }
  failed=${failed%% failed*}
  if [ "$status" -ne 0 ] && [ "$failed" -eq 0 ]; then
    failed=1
    echo "$name ended with status $status"
  fi
  [ "$passed" -gt 0 ] || failed=$((failed + 1))
  total_passed=$((total_passed + passed))
  total_failed=$((total_failed + failed))
}

# all_stages: the closing line of all; fails when anything failed or nothing ran
all_stages() {
  echo "$total_passed passed, $total_failed failed"
  [ "$total_failed" -eq 0 ] && [ "$total_passed" -gt 0 ]
}
