# Sourced by ./desk, ./install and tests/run, with `here` the repository and `fail`: builds what is missing or older than the sources. What is
# built and the logs stay in target/.
program=$here/target/bin/desk_main
library=$here/target/staticlib/libdesk.a
plan_rows=$here/target/bin/plan_rows

# older FILE SOURCE...: there is no FILE, or a source changed after it was made
older() {
  made=$1
  shift
  [ ! -e "$made" ] || [ -n "$(find "$@" -type f ! -path '*/must-fail/*' ! -path '*/out/*' -newer "$made" -print -quit)" ]
}

# the crates on which this one stands, and itself, a line for each
crates_below() {
  awk -F: -v name="$1" '
    function visit(crate, list, i, count) {
      if (seen[crate]++ || !(crate in below)) return
      print crate
      count = split(below[crate], list, " ")
      for (i = 1; i <= count; i++) visit(list[i])
    }
    /^[a-z]/ { split($1, head, " "); below[head[1]] = $2 }
    END { visit(name) }' "$here/crates.txt"
}

# stale FILE CRATE: FILE, made of this crate, is missing or older than a source
stale() {
  sources=("$here/crates.txt")
  while read -r crate; do sources+=("$here/crates/$crate"); done < <(crates_below "$2")
  older "$1" "${sources[@]}"
}

# rt_build WHAT FILE CRATE RT-COMMAND MADE: a line for each crate that is proved, with how many are left. rt leaves what it makes in the crate's
# out/MADE, and FILE is a copy of it. FILE gets the time at which it began, so that a source that changed meanwhile is newer. Of two that start at
# once the second waits.
rt_build() {
  command -v rt >/dev/null || fail "$1 is missing or older than its sources, and rt to build it, the command of the Rattle kit, isn't on the path"
  mkdir -p "$here/target" && exec 9>"$here/target/desk-build.lock" || fail "$here/target can't be written"
  ! command -v flock >/dev/null || flock 9
  log=$here/target/desk-build.log
  begun=$here/target/desk-build.begun
  all=$(crates_below "$3" | wc -l)
  if stale "$2" "$3"; then
    : >"$begun"
    (cd "$here/crates/$3" && rt "$4" </dev/null 2>&1 9>&-) | tee "$log" | while read -r what name rest; do
      case $what in
      crate) crate=${name%:} ;;
      logic=proved)
        # what a crate stands on is proved before it, or was earlier
        proved=$(printf '%s\n' "${proved:-}" "$(crates_below "$crate")" | sed '/^$/d' | sort -u)
        echo "desk: proved $crate, $((all - $(printf '%s\n' "$proved" | wc -l))) left" ;;
      esac
    done >&2
    [ "${PIPESTATUS[0]}" -eq 0 ] || { tail -n 5 "$log" >&2; fail "$1 could not be built; $log tells why"; }
    mkdir -p "$(dirname "$2")" && cp "$here/crates/$3/out/$5" "$2" || fail "$2 can't be written"
    touch -r "$begun" "$2"
  fi
  exec 9>&-
}

build_program() {
  stale "$program" desk_main || return 0
  if [ -e "$program" ]; then echo 'desk: its sources are newer than it, so it builds itself again (log: target/desk-build.log)'
  else echo 'desk: builds itself, proving each crate below it: some minutes the first time (log: target/desk-build.log)'
  fi >&2
  rt_build 'the program' "$program" desk_main run desk_main
}

build_library() {
  stale "$library" desk_c || return 0
  echo 'desk: builds its library (log: target/desk-build.log)' >&2
  rt_build 'the library' "$library" desk_c lib libdesk_c.a
}

# The program that shows what `read` and `write` do with a text.
build_text_program() {
  rt_build 'the program text_main' "$here/target/bin/text_main" text_main run text_main
}

# The helper of --explain: shows a question's plan and its rows by the library's own functions.
build_plan_rows() {
  build_library
  older "$plan_rows" "$library" "$here/include/desk.h" "$here/tools/explain/plan_rows.c" || return
  # shellcheck disable=SC2154 # x86-64.sh sets it
  command -v "$compiler" >/dev/null || fail "to show a plan it needs $compiler (the Debian packages $compiler_packages)"
  "$compiler" -O1 -std=c11 -I"$here/include" "$here/tools/explain/plan_rows.c" "$library" -o "$plan_rows" </dev/null 2>"$here/target/desk-build.log" ||
    { tail -n 5 "$here/target/desk-build.log" >&2; fail 'tools/explain/plan_rows.c could not be built'; }
}
