# shellcheck shell=bash disable=SC2154
# Compares what commands do with what they must do. tools/check_statuses and tools/check_scripts read this file, and have set
# `room` to a folder for files.
passed=0 failed=0

# Whether a file has these lines and nothing else; the difference is printed.
has() {
  diff <([ -z "$2" ] || echo "$2") "$1"
}

# Whether a file is like a pattern; else it is printed.
is_like() {
  # shellcheck disable=SC2053 # (it is a pattern)
  [[ $(cat "$1") == $2 ]] || { cat "$1" && return 1; }
}

# Runs a command, and compares its status, its output and its errors, by one of those two.
compare() {
  local by=$1 name=$2 status=$3 output=$4 errors=$5 got=0
  shift 5
  "$@" </dev/null >"$room/output" 2>"$room/errors" || got=$?
  if "$by" "$room/output" "$output" && "$by" "$room/errors" "$errors" && [ "$got" -eq "$status" ]; then
    passed=$((passed + 1))
    echo "ok: $name: $status"
  else
    failed=$((failed + 1))
    echo "FAILED: $name: status $got, where it must be $status"
  fi
}

expect() {
  compare has "$@"
}

expect_like() {
  compare is_like "$@"
}
