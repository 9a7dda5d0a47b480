#!/usr/bin/env bash
# All tests: proves every crate, tries the must-fail edits and looks through what is said of them, runs the page program, then the examples
# in C and Rust, the README's first command, the tests in Rust against the proved library and the page program, and those of the crate for
# Rust and of the commands, with the README's tour. The bench has to build.
# The last line is 'N passed, M failed', and the exit status is 0 only where M is 0.
set -u -o pipefail
cd "$(dirname "$0")" || exit 2

# The gate tests what this tree builds. By hand, these have the tests use another library or page program.
unset BALDUQEN_LIB BALDUQEN_PAGES

passed=0
failed=0

# Adds the sums of a step. A step that ends badly without naming a failure, or that passes fewer than it must, counts as one: what is lost
# without a word, as a file of tests or a crate, must not look like success. A floor is what there was when it was set; more needs no change.
# $1 name, $2 exit status, $3 passed, $4 failed, $5 the fewest that must pass
add() {
  local bad=$4
  if [ "$3" -lt "$5" ]; then printf '%s: %d passed, and %d must\n' "$1" "$3" "$5"; fi
  if [ "$bad" -eq 0 ] && { [ "$2" -ne 0 ] || [ "$3" -lt "$5" ]; }; then bad=1; fi
  passed=$((passed + $3))
  failed=$((failed + bad))
  printf '%s: %d passed, %d failed\n' "$1" "$3" "$bad"
}

# Adds a step that is one test: $1 name, $2 exit status
add_one() {
  add "$1" "$2" "$(($2 == 0))" 0 1
}

# Sums a field of every line of the log that matches: $1 log, $2 pattern with one group
sum() {
  sed -nE "s/$2/\\1/p" "$1" | awk '{ total += $1 } END { print total + 0 }'
}

# How many tests of a file passed: $1 cargo's log, $2 file
passed_of() {
  awk -v file="$2" '
    $1 == "Running" { running = $2 == "unittests" ? $3 : $2 }
    /^test result: / && running == file { total += $4 }
    END { print total + 0 }' "$1"
}

# The tests of a folder in Rust: $1 name and folder, then for each file of tests FILE=FLOOR
in_rust() {
  local name=$1 status file floor floors=0 short=0
  shift
  (cd "$name" && CARGO_TARGET_DIR="../target/$name" cargo test --release --offline --no-fail-fast) 2>&1 | tee "$log"
  status=$?
  for file in "$@"; do
    floor=${file#*=}
    file=${file%=*}
    floors=$((floors + floor))
    if [ "$(passed_of "$log" "$file")" -lt "$floor" ]; then
      printf '%s/%s: %d passed, and %d must\n' "$name" "$file" "$(passed_of "$log" "$file")" "$floor"
      short=1
    fi
  done
  add "$name" "$((status + short))" "$(sum "$log" '^test result: .* ([0-9]+) passed; .*')" \
    "$(sum "$log" '^test result: .* ([0-9]+) failed; .*')" "$floors"
}

log=$(mktemp)
trap 'rm -f "$log" "$log.last" "$log.edits"' EXIT

# Each crate and each refused edit counts as one. An edit that cannot be tried is bad, which by itself fails nothing there.
rt ci 2>&1 | tee "$log"
status=$?
if ! grep -q '^rt: ok; ' "$log" || grep -Eq '^rt: ok; .*, [0-9]+ bad(;|$)' "$log"; then status=1; fi
tail -n 1 "$log" > "$log.last"
add proofs "$status" "$(sum "$log.last" '^([0-9]+) passed, [0-9]+ failed$')" "$(sum "$log.last" '^[0-9]+ passed, ([0-9]+) failed$')" 176

# Each must-fail edit is refused for a fact that no longer holds.
tools/must-fail-logs.sh "$log" > "$log.edits"
status=$?
cat "$log.edits"
add edits "$status" "$((status == 0))" "$(wc -l < "$log.edits")" 1

tools/build-library.sh > "$log" 2>&1
status=$?
cat "$log"
add library "$status" "$([ -s target/staticlib/libembed.a ] && echo 1 || echo 0)" 0 1

# Of the C library it takes these two, and no more.
[ "$(nm -u target/staticlib/libembed.a | awk '$1 == "U" { print $2 }' | sort -u | xargs)" = 'memcpy memset' ]
add_one "names from outside" "$?"

# The library as a program in C uses it.
gcc -std=c11 -Wall -Wextra -Werror -Iinclude examples/case_e.c -o target/case_e target/staticlib/libembed.a &&
  target/case_e | diff - examples/case_e.out
add_one example "$?"

# The same in Rust.
(cd rust && CARGO_TARGET_DIR=../target/rust cargo run -q --release --offline --example case_e) | diff - examples/case_e.out
add_one "example in Rust" "$?"

# The README's first command: what it shows, and the picture.
./balduqen plan tools/samples/e.txt --svg target/e.svg | diff - tools/samples/e.plan && cmp target/e.svg docs/case-e.svg
add_one readme "$?"

(cd bench && CARGO_TARGET_DIR=../target/bench cargo build --release --offline)
add_one bench "$?"

in_rust rust tests/any_value.rs=4 tests/header.rs=4 tests/names.rs=3 tests/readme.rs=1 tests/results.rs=6 \
  tests/version.rs=2
in_rust tests tests/entries.rs=73 tests/guarded.rs=32 tests/library.rs=234 tests/model.rs=77 tests/next_page.rs=8 \
  tests/program.rs=19 tests/rule_sheet.rs=91 tests/sheet_reader.rs=9 tests/stack.rs=2 tests/threads.rs=1
in_rust tools src/lib.rs=78 tests/damaged.rs=4 tests/must_fail_logs.rs=3 tests/script.rs=5 tests/sessions.rs=17

echo "$passed passed, $failed failed"
[ "$failed" -eq 0 ]
