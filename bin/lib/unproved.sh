# shellcheck shell=bash disable=SC2154,SC2034
# Programs that are not proved yet. Each crate is compiled once for its sources and for the kit, and is kept in out/unproved,
# which may be deleted. Commands of one crate share its program. bin/lib/runs.sh and bin/lib/ready read this file. They set
# `top` to the repository's folder, `room` to one for files, `tool` to the name of the command and `what` to what it gives.
# They have `stop`, and use `path_of`, which shellcheck does not see.
kept=$top/out/unproved

# (tests have another compiler)
compiler=${GUNTHARU_COMPILER:-$top/bin/lib/compile}

# How many programs of a crate are kept.
most_kept=8

# By the names of commands: which are not proved, and where the program of each is.
declare -A is_unproved=() path_of=()

# The line that the kit has for `rt version`. (rt takes half a second to say it.)
kit_line() {
  local rt
  rt=$(readlink -f "$(command -v rt)")
  cat "${rt%/bin/rt}/KIT-ID" 2>/dev/null || rt version
}

# The sources that a program is compiled of, from the repository's folder. Specifications and tests are in no program.
sources_of() {
  local crate parts=()
  while read -r crate _; do
    parts+=("crates/$crate/src")
  done < <(crates_below "$1")
  printf '%s\n' crates.txt HANDLES bin/lib/compile bin/lib/bitcode.sh
  find "${parts[@]}" -type f -name '*.rt' "${no_tests[@]}"
}

# Prints where the unproved program of a crate is kept: another place for other sources or another kit.
place_of() {
  local hash
  hash=$(cd "$top" && { kit_line && sources_of "$1" | LC_ALL=C sort | xargs -d '\n' sha256sum; } 2>/dev/null | sha256sum)
  echo "$kept/$1-${hash:0:32}"
}

# Finds out which of these commands have no proved program, and says so: in a line, or as the end where none may be run
# unproved.
look_for() {
  local it crate lack lacks='' lacking_crates=()
  for crate in $(crates_of "$@"); do
    lack=$(lack_of "$crate")
    [ -n "$lack" ] || continue
    lacking_crates+=("$crate")
    lacks=${lacks:+$lacks, and }"$crate $lack"
  done
  for it; do
    path_of[$it]=$(program_of "$it")
    [[ " ${lacking_crates[*]} " != *" $(crate_of "$it") "* ]] || is_unproved[$it]=yes
  done
  [ -n "$lacks" ] || return 0
  [ -z "$is_strict" ] || stop 4 "$lacks: bin/build proves and builds it"
  command -v rt >/dev/null || stop 4 "$lacks, and there is no Rattle kit (rt) to run it unproved"
  lacking=$lacks
}

# Says which programs are not proved.
say_unproved() {
  [ -n "${lacking-}" ] || return 0
  echo "$tool: this $what does not come from a proved program: $lacking (bin/build proves it, in half an hour)" >&2
}

# Compiles a crate to where it is kept, where no other run has done so meanwhile. Where a source has changed since it began,
# or where it can't be kept, the program is only for this run.
compile() {
  local name=$1 place=$2 begun=$SECONDS made=$room/$1
  exec 8>"$kept/$name.lock"
  flock 8
  [ ! -x "$place" ] || return 0
  rm -f "$kept/.$name-"*
  "$compiler" "$name" "$made" >"$room/$name.said" 2>&1 || return
  [ "$(place_of "$name")" = "$place" ] || return 0
  cp "$made" "$kept/.${place##*/}" && mv "$kept/.${place##*/}" "$place" || return 0
  echo $((SECONDS - begun)) >"$kept/$name.seconds"
  find "$kept" -name "$name-*" -printf '%T@ %p\n' | sort -rn | cut -d' ' -f2- | tail -n "+$((most_kept + 1))" |
    xargs -r -d '\n' rm -f
}

# Says which crates are compiled, and how long that took the last time: on a terminal with the seconds that have gone by
# since, until the compilers have ended.
say_compiling() {
  local begun=$SECONDS it seconds last='' said='' line columns
  for it in "${missing[@]}"; do
    said=${said:+$said and }$it
    { read -r seconds <"$kept/$it.seconds"; } 2>/dev/null || continue
    last=$((seconds > ${last:-0} ? seconds : ${last:-0}))
  done
  said="compiling $said without proof"
  if [ -z "$last" ]; then
    said+=", which takes about a minute"
  else
    said+="; the last time it took $last seconds"
  fi
  [ -t 2 ] || { echo "$tool: $said" >&2 && return; }
  columns=$(tput cols 2>/dev/null || echo 80)
  while [ -n "$(jobs -rp)" ]; do
    line="$tool: $((SECONDS - begun)) s, $said"
    printf '\r\033[K%s' "${line:0:columns-1}" >&2
    sleep 0.5
  done
  printf '\r\033[K%s\n' "$tool: $((SECONDS - begun)) s, $said" >&2
}

# Has programs kept only for this run where they can't be kept in the repository.
choose_place() {
  local it
  ! { mkdir -p "$kept" 2>/dev/null && [ -w "$kept" ]; } || return 0
  kept=$room/unproved
  mkdir -p "$kept" || stop 4 "there is no place for programs: $kept"
  for it in "${missing[@]}"; do
    place_for[$it]=$kept/${place_for[$it]##*/}
  done
}

# Compiles the crates of those of these commands that are not proved and not kept, side by side.
compile_missing() {
  local it unproved=() missing=() compilers=()
  local -A place_for=()
  for it; do
    [ -z "${is_unproved[$it]-}" ] || unproved+=("$it")
  done
  for it in $(crates_of "${unproved[@]}"); do
    place_for[$it]=$(place_of "$it")
    if [ -x "${place_for[$it]}" ]; then
      # (the ones that were used last are kept)
      touch -c "${place_for[$it]}" 2>/dev/null
    else
      missing+=("$it")
    fi
  done
  [ ${#missing[@]} -eq 0 ] || compile_crates
  for it in "${unproved[@]}"; do
    path_of[$it]=${place_for[$(crate_of "$it")]}
  done
}

# Compiles the crates that are missing, and notes where their programs are.
compile_crates() {
  local it
  choose_place
  for it in "${missing[@]}"; do
    compile "$it" "${place_for[$it]}" &
    compilers+=($!)
  done
  say_compiling
  for it in "${missing[@]}"; do
    wait "${compilers[0]}" || { cat "$room/$it.said" >&2 && stop 4 "$it could not be compiled, as the lines above say"; }
    compilers=("${compilers[@]:1}")
    [ -x "${place_for[$it]}" ] || place_for[$it]=$room/$it
  done
}

# Ends where the unproved program of a command was ended by a check at run time, or by a bad access.
stop_at_fault() {
  case $2 in
    132 | 133 | 134 | 135 | 136 | 139)
      stop 5 "$1 met a fault (signal $(($2 - 128))): rt try in crates/$(crate_of "$1") says where"
      ;;
  esac
}
