# shellcheck shell=bash disable=SC2154
# Proves crates side by side. rt keeps others out of a crate's folder, and of those below it, while it works there. So each
# crate is proved in a tree of its own: $room/CRATE has the sources of it and of those below, and what was made of those.
# What the proof makes goes from there to the repository. bin/build reads this file, sets top and processors, and has `stop`.

# The trees lie on the repository's own disk, where rt and git look for nothing. A folder that is no clone has them elsewhere.
room=$top/.git/build

# What each crate uses, its work and that of the longest chain from its start to the end, and what has become of it.
declare -A uses=() work=() chain=() running=() jobs_of=() is_done=()
waiting=()

# (a line of progress on a terminal is written over)
say() {
  [ ! -t 2 ] || printf '\r\033[K' >&2
  echo "build: $1" >&2
}

# Says how far the work is: on a terminal always in the same line, else whenever something has become of a crate.
say_progress() {
  local name now="${#is_done[@]} of ${#uses[@]} crates done, $((SECONDS / 60)) min"
  for name in "${!running[@]}"; do
    now+="; $name"
    [ "${jobs_of[$name]}" -eq 1 ] || now+=" (${jobs_of[$name]} jobs)"
  done
  if [ -t 2 ]; then
    now="build: $now"
    printf '\r\033[K%s' "${now:0:$(tput cols 2>/dev/null || echo 80)-1}" >&2
  elif [ $# -gt 0 ]; then
    say "$1. $now"
  fi
}

# Adds a crate, and those below it, to the chains that end with what stands above it.
measure() {
  local name=$1 length=$(($2 + work[$1])) used
  [ "$length" -le "$all_work" ] || stop 4 "crates.txt has $name below itself"
  [ "${chain[$name]:-0}" -lt "$length" ] || return 0
  chain[$name]=$length
  for used in ${uses[$name]}; do
    [ -z "${uses[$used]+listed}" ] || measure "$used" "$length"
  done
}

# Finds out which crates are to be proved, and puts first those with the longest chain.
plan() {
  local name used all_work=0
  while read -r name used; do
    uses[$name]=$used
    # A check's work goes by its lines of code, and by what each check does.
    work[$name]=$(cd "$top/crates/$name" && find src -name '*.rt' "${no_tests[@]}" -exec cat {} + | awk 'END { print NR + 300 }')
    all_work=$((all_work + work[$name]))
  done < <(crates_below "$@")
  for name; do
    measure "$name" 0
  done
  mapfile -t waiting < <(for name in "${!chain[@]}"; do echo "${chain[$name]} $name"; done | sort -k1,1nr -k2 | cut -d' ' -f2)
}

is_program() {
  [ -f "$top/crates/$1/src/main.rt" ]
}

is_ready() {
  local used
  for used in ${uses[$1]}; do
    [ -z "${uses[$used]+listed}" ] || [ -n "${is_done[$used]-}" ] || return 1
  done
}

# Prints how many jobs the first of some crates gets, which can all start now: 0 where there is no room for it. More jobs end
# one sooner but are more work in all (four take 1.7 times what one does). So only the crate with the longest chain gets
# more than one: those that the others which will start now leave free.
share() {
  local free=$processors room_for=$((at_once - ${#running[@]})) others=$(($# - 1)) has_longest=yes name jobs
  for name in "${!running[@]}"; do
    free=$((free - jobs_of[$name]))
    [ "${chain[$name]}" -le "${chain[$1]}" ] || has_longest=
  done
  others=$((others < room_for - 1 ? others : room_for - 1))
  jobs=$((free - others < 4 ? free - others : 4))
  if [ "$free" -le 0 ] || [ "$room_for" -le 0 ]; then
    echo 0
  elif [ -z "$has_longest" ] || [ "$jobs" -lt 1 ]; then
    echo 1
  else
    echo "$jobs"
  fi
}

# Gives a tree what was made of a crate, by second names for its files where that can be: rt replaces these files, and
# writes into none.
give() {
  local from=$top/crates/$1/out/rlib to=$room/$2/crates/$1/out
  [ -d "$from" ] || return 0
  mkdir -p "$to"
  cp -rl "$from" "$to" 2>/dev/null || { rm -rf "$to/rlib" && cp -r "$from" "$to"; }
}

# Makes the tree of a crate, and moves there what an earlier check kept, unless another rt works with that.
plant() {
  local tree=$room/$1/crates out=$top/crates/$1/out name
  mkdir -p "$tree/$1/out" "$out"
  while read -r name _; do
    cp -r "$room/sources/$name" "$tree"
    give "$name" "$1"
    grep -E "^$name([[:space:]:]|\$)" "$top/crates.txt" >>"$room/$1/crates.txt"
  done < <(crates_below "$1")
  # (rt only runs a program that is still what its stamp says)
  for name in "$out/$1" "$out/$1".{o,stamp}; do
    [ ! -f "$name" ] || cp -p "$name" "$tree/$1/out"
  done
  [ ! -d "$out/incremental" ] || flock --nonblock "$top/crates/$1" mv "$out/incremental" "$tree/$1/out"
}

# Starts the proof of a crate, with this many jobs. A program is then run on its own input.
start() {
  local name=$1 words=(lib --jobs "$2") crate=$top/crates/$1 input=/dev/null output args=()
  plant "$name"
  output=$crate/out/build.log
  if is_program "$name"; then
    output=$room/$name/output
    [ ! -f "$crate/stdin" ] || input=$crate/stdin
    [ ! -f "$crate/args" ] || mapfile -t args <"$crate/args"
    words=(run --jobs "$2" -- "${args[@]}")
  fi
  : >"$crate/out/build.log"
  (
    cd "$room/$name/crates/$name" || exit 1
    # (the lock on bin/build is not for what may outlive it)
    exec rt "${words[@]}" 9<&-
  ) <"$input" >>"$output" 2>>"$crate/out/build.log" &
  running[$name]=$! jobs_of[$name]=$2
}

# Moves to the repository what a check kept and, where the crate is proved, what was made of it. That comes by one renaming,
# so no half of it is taken for a whole.
take() {
  local from=$room/$1/crates/$1/out to=$top/crates/$1/out it
  (
    flock --timeout "$3" 8 || exit 1
    if [ -d "$from/incremental" ]; then
      rm -rf "$to/incremental" && mv "$from/incremental" "$to" || exit 1
    fi
    [ "$2" = proved ] || exit 0
    touch -c -r "$room/mark" "$from/$1"
    for it in rlib "$1.o" "$1.stamp" "$1"; do
      [ -e "$from/$it" ] || continue
      rm -rf "$to/coming" && mv "$from/$it" "$to/coming" && rm -rf "${to:?}/$it" && mv "$to/coming" "$to/$it" || exit 1
    done
  ) 8<"$top/crates/$1" && rm -rf "${room:?}/$1"
}

# Whether a program prints what it must of its own input.
does_what_it_must() {
  local wanted=$top/crates/$1/stdout
  [ -f "$wanted" ] || wanted=/dev/null
  ! is_program "$1" || cmp -s "$room/$1/output" "$wanted"
}

# Ends the build where a crate is not proved, or its program is wrong. What its check kept is kept.
give_up() {
  take "$1" unproved 10
  tail -n 20 "$top/crates/$1/out/build.log" >&2
  stop 4 "$1 $2; the log is crates/$1/out/build.log"
}

# Takes what the proofs that have ended made.
take_ended() {
  local name status
  for name in "${!running[@]}"; do
    ! kill -0 "${running[$name]}" 2>/dev/null || continue
    status=0
    wait "${running[$name]}" || status=$?
    unset "running[$name]"
    [ "$status" -eq 0 ] || give_up "$name" "is not proved (status $status)"
    does_what_it_must "$name" || give_up "$name" 'does not print what its file stdout has'
    take "$name" proved 3600 || give_up "$name" 'is proved, and could not be moved to its folder'
    is_done[$name]=yes
    say_progress "$name is proved"
  done
}

start_ready() {
  local name ready=() left=() at jobs
  for name in "${waiting[@]}"; do
    ! is_ready "$name" || ready+=("$name")
  done
  for at in "${!ready[@]}"; do
    jobs=$(share "${ready[@]:at}")
    [ "$jobs" -eq 0 ] || start "${ready[at]}" "$jobs"
  done
  for name in "${waiting[@]}"; do
    [ -n "${running[$name]+started}" ] || left+=("$name")
  done
  waiting=("${left[@]}")
}

# Ends what still runs, and keeps what it has done so far.
end_all() {
  trap '' INT TERM HUP
  local name
  [ ${#running[@]} -eq 0 ] || kill "${running[@]}" 2>/dev/null
  for name in "${!running[@]}"; do
    wait "${running[$name]}" 2>/dev/null
  done
  for name in "${!running[@]}"; do
    take "$name" unproved 10
  done
  rm -rf "$room"
}

# Makes the room again. What a run that was killed kept goes to its crate first. The sources are read once, so a change that
# is made meanwhile leaves the program older than it.
open_room() {
  local kept name part
  [ -d "$top/.git" ] || room=$(mktemp -d "${TMPDIR:-/tmp}/build.XXXXXXXX") || stop 4 'there is no place for the work'
  for kept in "$room"/*/crates/*/out/incremental; do
    name=$(basename "${kept%/out/incremental}")
    [ -d "$top/crates/$name/out/incremental" ] || take "$name" unproved 10
  done
  rm -rf "$room"
  { mkdir -p "$room" && touch "$room/mark"; } || stop 4 "there is no place for the work: $room"
  for name in "${!uses[@]}"; do
    mkdir -p "$room/sources/$name"
    for part in src specs proofs; do
      [ ! -d "$top/crates/$name/$part" ] || cp -r "$top/crates/$name/$part" "$room/sources/$name"
    done
  done
}

# Proves these programs and what is below them, and builds them.
build_all() {
  local gigabytes limit at_once
  # A check of a large crate takes up to 5 GB, with four jobs too.
  gigabytes=$(awk '/^MemAvailable:/ { print int($2 / 1048576) }' /proc/meminfo)
  limit=$(cat /sys/fs/cgroup/memory.max 2>/dev/null)
  [[ ! $limit =~ ^[0-9]+$ ]] || gigabytes=$((limit >> 30 < gigabytes ? limit >> 30 : gigabytes))
  at_once=$((gigabytes >= 10 ? gigabytes / 5 : 1))
  plan "$@"
  say "proving ${#uses[@]} crates, or seeing that they are proved, on $processors processors"
  open_room
  trap end_all EXIT
  trap 'say "interrupted; bin/build goes on from here" && exit 1' INT TERM HUP
  while [ ${#is_done[@]} -lt ${#uses[@]} ]; do
    start_ready
    sleep 0.5
    take_ended
    say_progress
  done
}
