# shellcheck shell=bash disable=SC2154
# What is kept of programs that are not proved. tools/check_scripts reads this file, and has a tree with stand-ins.

compiled() {
  sort "$room/compiled" 2>/dev/null
}

# Changes a file of the tree, and then gives what is compiled by a run.
compiled_after() {
  : >"$room/compiled"
  eval "$1"
  tried 0 >/dev/null 2>&1
  compiled
}

two_at_once() {
  : >"$room/compiled"
  echo '// two' >>"$room/tree/crates/gs_base/src/lib.rt"
  tried 0 >"$room/one" 2>/dev/null &
  tried 0 2>/dev/null
  wait $!
  cat "$room/one"
  compiled
}

# A run where no folder for programs can be made. (Who is root may write anywhere, so a file stands in its way.)
in_fixed_tree() {
  mv "$room/tree/out" "$room/out_before"
  : >"$room/tree/out"
  tried 0 2>/dev/null
  rm "$room/tree/out" && mv "$room/out_before" "$room/tree/out"
}

# How many programs are kept after ten versions.
kept_of_ten() {
  local it
  for it in {1..10}; do
    echo "// $it" >>"$room/tree/crates/gs_base/src/lib.rt"
    tried 0 >/dev/null 2>&1
  done
  find "$room/tree/out/unproved" -name 'gossip_sim-*' | wc -l
}

said_of_compiling() {
  eval "$1"
  tried "$2" 2>&1 >/dev/null | grep -v 'proved program\|told by'
}

# A name of many digits.
digits_of() {
  printf "%0$1d" 0
}

# Figures of many groups.
in_groups() {
  local it groups=()
  for ((it = 0; it < $1; it++)); do
    groups+=(--group "g$it=*")
  done
  in_tree tried=0 gossip_stats "${groups[@]}" "$example"
}

# A program is compiled for its sources, once.
# shellcheck disable=SC2016 # (`eval` expands the commands)
check_kept() {
  local base='$room/tree/crates/gs_base' said='gossip_sim: compiling gossip_sim without proof' usage
  usage='usage: gossip_stats [--large] [--progress] [--by PEERS|--rounds|--topics|--links] [--of PEERS] [--group NAME=PEERS].. [--csv|--json]'
  expect 'a second run of the same' 0 '' '' compiled_after :
  expect 'a run after a touch' 0 '' '' compiled_after "touch $base/src/lib.rt"
  expect 'a run after a change of tests' 0 '' '' compiled_after "echo '// a' >>$base/src/tests.rt"
  expect 'a run after a change' 0 gossip_sim '' compiled_after "cp $base/src/lib.rt $base/before; echo '// a' >>$base/src/lib.rt"
  expect 'a run after that is undone' 0 '' '' compiled_after "mv $base/before $base/src/lib.rt"
  expect 'a run after a change of crates.txt' 0 gossip_sim '' compiled_after 'echo "# a" >>"$room/tree/crates.txt"'
  expect 'a run after what is kept was deleted' 0 gossip_sim '' compiled_after 'rm -r "$room/tree/out/unproved"'
  expect 'two runs at once' 0 $'gossip_sim  scenario\ngossip_sim  scenario\ngossip_sim' '' two_at_once
  expect 'a run in a tree that can not be written to' 0 'gossip_sim  scenario' '' in_fixed_tree
  expect 'what is kept of ten versions' 0 8 '' kept_of_ten
  expect 'the last time' 0 "$said; the last time it took 71 seconds" '' \
    said_of_compiling "echo '// b' >>$base/src/lib.rt; echo 71 >\$room/tree/out/unproved/gossip_sim.seconds" 0
  expect 'sources that do not compile' 0 \
    "$said; the last time it took 71 seconds
cannot find value
gossip_sim: gossip_sim could not be compiled, as the lines above say" '' \
    said_of_compiling "echo '// c' >>$base/src/lib.rt; echo 71 >\$room/tree/out/unproved/gossip_sim.seconds" none
  : >"$room/compiled"
  expect 'two layouts, before anything is compiled' 64 '' "$usage" in_tree tried=0 gossip_stats --csv --json "$example"
  expect 'an option twice' 64 '' "$usage" in_tree tried=0 gossip_stats --rounds --csv --rounds "$example"
  expect 'two subjects' 64 '' "$usage" in_tree tried=0 gossip_stats --topics --links "$example"
  expect 'peers twice' 64 '' "$usage" in_tree tried=0 gossip_stats --of b --csv --of=b "$example"
  expect 'a group without its peers' 64 '' "$usage" in_tree tried=0 gossip_stats --group honest "$example"
  expect 'a group without a name' 64 '' "$usage" in_tree tried=0 gossip_stats --group '=b' "$example"
  expect 'a group with a name that can not be' 64 '' "$usage" in_tree tried=0 gossip_stats --group='a b=b' "$example"
  expect 'a group with a long name' 64 '' "$usage" in_tree tried=0 gossip_stats --group="$(digits_of 33)=b" "$example"
  expect 'two groups of a name' 64 '' "$usage" in_tree tried=0 gossip_stats --group a=b --group=a=c "$example"
  expect '17 groups' 64 '' "$usage" in_groups 17
  expect 'a wrong option, before anything is compiled' 64 '' 'gossip_sim: there is no option --csv; --help says which there are' \
    in_tree tried=0 gossip_sim --csv "$example"
  expect 'that nothing was compiled' 0 '' '' compiled
}
