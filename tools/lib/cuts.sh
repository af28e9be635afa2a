# shellcheck shell=bash disable=SC2154
# What --until leaves of a scenario. tools/check_scripts reads this file.

cut_at() {
  printf '%b' "$2" | python3 "$top/bin/lib/until.py" "$1"
}

with_options() {
  "$top/bin/gossip_sim" --print "$@" "$example"
}

check_cuts() {
  local tables list
  tables='rounds = 40 # the last\n[[do]]\nat = 30\n# why\nwhat = "x"\n\n# next\n[[ "do" ]]\nat = 20\n[[do]] # late\nat = 31\n[other]\nat = 50\n'
  list='do = [ # lines\n  { at = 1, hex = "]},[" }, # one\n  { at = 21, l = [1, {b = 2}], s = """\n]""" }, { at = 2 }\n]\nrounds = 40\n'
  expect 'a cut of tables' 0 $'rounds = 20 # the last\n# why\n\n# next\n[[ "do" ]]\nat = 20\n[other]\nat = 50' '' \
    cut_at 20 "$tables"
  expect 'a cut of a list' 0 $'do = [ # lines\n  { at = 1, hex = "]},[" }, # one\n   { at = 2 }\n]\nrounds = 20' '' cut_at 20 "$list"
  expect 'a cut of all of a list' 0 $'rounds = 1\ndo = [  ]' '' cut_at 1 'rounds = 9\ndo = [{at = 2}, {at = 3} ]\n'
  expect 'a cut of the end of a list' 0 $'rounds = 1\ndo = [{at = 1},]' '' cut_at 1 'rounds = 9\ndo = [{at = 1},{at = 3}]\n'
  expect 'a scenario that ends sooner' 0 $'rounds = 9\ndo = [{at = 8}]' '' cut_at 9 'rounds = 9\ndo = [{at = 8}]\n'
  expect 'lines, one without a round' 0 $'rounds = 1\n[[do]]\nat = "x"' '' cut_at 1 'rounds = 9\n[[do]]\nat = "x"\n'
  expect_like 'a cut of what is no TOML' 1 '' "edit refused: --until can't read the scenario as TOML 1.0: *" cut_at 1 'a = = 1\n'
  expect 'a cut at a time' 0 $'round_ms = 700\nrounds = 3' '' cut_at '2.1 s' 'round_ms = 700\nrounds = 9\n'
  expect 'a cut at no whole round' 1 '' \
    'edit refused: --until 150 s is no multiple of round_ms, which is 700; near it is 149800 ms' \
    cut_at '150 s' 'round_ms = 700\nrounds = 900\n'
  expect 'a cut that leaves nothing' 1 '' 'edit refused: --until 0 s leaves no round, and the first that it takes is 700 ms' \
    cut_at '0 s' 'round_ms = 700\nrounds = 900\n'
  expect 'a cut at a time without the length of a round' 0 'rounds = 9' '' cut_at 1s 'rounds = 9\n'
  expect 'a run that is cut' 64 '' \
    'gossip_sim: --until takes a round, from 1 to 999999, or a time, such as "150 s"; --help says more' with_options --until 0
  expect 'an example that is cut at a time' 0 "$(sed 's/^rounds = 10\b/rounds = 2/' "$example")" '' with_options --until '200 ms'
  expect 'a cut of an example' 0 "$(sed 's/^rounds = 10\b/rounds = 2/' "$example")" '' with_options --until=2
}
