# shellcheck shell=bash disable=SC2154
# What a terminal shows of a run that goes on. A script stands in for the program. tools/check_scripts reads this file, and has
# `on_terminal` of tools/lib/views.sh.

# Two rounds: one at once, and one after a second. Then a line, a text and a status.
run_in_rounds() {
  echo 'round 0 of 1, 0 deliveries' >&2
  sleep 1.2
  echo 'round 1 of 1, 3 deliveries' >&2
  sleep 0.3
  echo 'output failed' >&2
  sleep 0.3
  echo text
  exit 3
}
export -f run_in_rounds

# The same at once.
run_at_once() {
  printf 'round %s of 1, %s deliveries\n' 0 0 1 3 >&2
}
export -f run_at_once

shown() {
  on_terminal python3 "$top/bin/lib/progress.py" bash -c "$1"
}

check_rounds() {
  local shown='round 1 of 1, 3 deliveries, 0 s left'
  expect 'a run on a terminal' 3 $'\r'"$shown"$'\r'"${shown//?/ }"$'\routput failed\r\ntext\r' '' shown run_in_rounds
  expect 'a short run on a terminal' 0 '' '' shown run_at_once
}
