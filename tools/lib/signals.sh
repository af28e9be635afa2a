# shellcheck shell=bash disable=SC2154
# Ends scripts by signals, while they compile, run, check and sweep. tools/check_scripts reads this file, and has a tree with
# stand-ins.

# How long the end of a script may take, in milliseconds. A busy machine may make it longer, so that it is tried some times.
longest_end=1000

# Prints the processes that have this word in their environment.
marked() {
  grep -lzsx "ENDED_BY=$1" /proc/[0-9]*/environ | cut -d/ -f3
}

# Starts a script of the tree, and ends it by a signal once a stand-in sleeps. Prints what then is left: processes, and what
# lies below $TMPDIR. The end took `took` milliseconds.
ended() {
  local signal=$1 status=0 child begun mark=$RANDOM.$RANDOM
  shift
  rm -f "$room/asleep"
  # `env` gives signals back their effect, which a shell takes from what it starts in the background.
  PATH="$room/fake/bin:$PATH" GUNTHARU_COMPILER="$room/fake/compiler" TMPDIR="$room/temporary" ENDED_BY=$mark \
    env --default-signal "$@" <"$example" >/dev/null 2>"$room/said_by_it" &
  child=$!
  for _ in {1..400}; do
    [ ! -e "$room/asleep" ] || break
    sleep 0.05
  done
  [ -e "$room/asleep" ] || { echo 'nothing sleeps' && cat "$room/said_by_it"; }
  begun=${EPOCHREALTIME/[.,]/}
  kill "-$signal" "$child"
  # (the shell reports a hangup)
  wait "$child" 2>/dev/null || status=$?
  took=$(((${EPOCHREALTIME/[.,]/} - begun) / 1000))
  for child in $(marked "$mark"); do
    echo "left: $(tr '\0' ' ' 2>/dev/null <"/proc/$child/cmdline")"
  done 2>/dev/null
  find "$room/temporary" -mindepth 1
  return "$status"
}

ended_soon() {
  local took status=0
  for _ in {1..6}; do
    status=0
    ended "$@" >"$room/left" || status=$?
    if [ "$took" -le "$longest_end" ] || [ -s "$room/left" ]; then
      break
    fi
  done
  cat "$room/left"
  [ "$took" -le "$longest_end" ] || echo "the end took $took milliseconds"
  return "$status"
}

# A script of the tree, ended by some signals.
check_end() {
  local name=$1 signal
  for signal in $2; do
    expect "$name, ended by $signal" "$((128 + $(kill -l "$signal")))" '' '' ended_soon "$signal" "${@:3}"
  done
}

# The library again, so that nothing is compiled of it.
change_library() {
  echo "// $RANDOM" >>"$room/tree/crates/gs_base/src/lib.rt"
}

# Those scripts that start others or make folders, and are not run under bin/lib/guard.
unguarded() {
  grep -L -d skip -e '^ *guarded\b' -e lib/runs.sh "$top"/{bin,tools}/* | xargs -r grep -lE '^#!.*bash|subprocess|tempfile'
  return 0
}

check_signals() {
  local bin=$room/tree/bin tools=$room/tree/tools
  expect 'scripts that no signal ends well' 0 '' '' unguarded
  rm -rf "$room"/tree/crates/*/out
  change_library
  check_end 'a run that compiles' 'INT TERM HUP' tried=slow "$bin/gossip_sim" --seed 2
  check_end 'a sweep that compiles' TERM tried=slow "$bin/sweep" --seeds 1..4 "$example"
  in_tree tried=0 build --unproved >/dev/null 2>&1
  check_end 'a run' 'INT TERM HUP' tried=long "$bin/gossip_sim"
  check_end 'a check' TERM tried=long "$bin/gossip_sim" --check
  check_end 'figures' INT tried=long "$bin/gossip_stats" --csv
  check_end 'a picture' HUP tried=long "$bin/gossip_picture"
  check_end 'a trace' TERM tried=long "$bin/gossip_trace"
  check_end 'scores' TERM tried=long "$bin/gossip_scores"
  check_end 'a page' INT tried=long "GUNTHARU_D3=$room/library" "$bin/gossip_view"
  check_end 'a sweep' 'INT TERM HUP' tried=long "$bin/sweep" --jobs 2 "$example"
  check_end 'a build' 'INT TERM' tried=slow "$bin/build"
  check_end 'a build to be measured' TERM tried=slow "$tools/profile_build" "$room/measured"
  echo 'fn one() {}' >"$room/tree/crates/gs_base/src/lib.rt"
  printf 'file: src/lib.rt\nold: one\nnew: two\n' >"$room/tree/crates/gs_base/mutants/a.edit"
  check_end 'wrong bodies' 'INT TERM' tried=slow "$tools/mutants" gs_base
  check_end 'wrong bodies at once' TERM tried=slow "$tools/mutants" --at-once gs_base
  check_end 'refused calls' TERM tried=slow "$tools/refuse_each" --in "$room/tree/crates"
}
