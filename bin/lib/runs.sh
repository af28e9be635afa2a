# shellcheck shell=bash disable=SC2154,SC2034
# What bin/gossip_sim, gossip_stats, gossip_picture, gossip_trace, gossip_scores and gossip_view have in common: the options
# of a run, its input, and the program, proved or not. Each of them sets `top` to the repository's folder, `tool` to its own
# name, `program` to the name of the command that it runs (none where the scenario is printed) and `what` to what that
# prints. Each has `usage`, and `take_option` for the options of its own.
# shellcheck source-path=SCRIPTDIR
# shellcheck source=crates.sh
. "$top/bin/lib/crates.sh"
# shellcheck source=guarded.sh
. "$top/bin/lib/guarded.sh"
# shellcheck source=unproved.sh
. "$top/bin/lib/unproved.sh"
# shellcheck source=descriptions.sh
. "$top/bin/lib/descriptions.sh"

# What --help says about these options and about the statuses. The word says what is printed with status 0.
print_options() {
  cat <<END
  --workers N       runs the scenario with N worker threads instead of its own,
  --capacity N      with links of N places,
  --seed N          with this seed,
  --set KEY=VALUE   with another value of any key, written as in TOML, such as params.flood_publish=false;
                    these four can be repeated
  --until ROUND     up to this round, or to a time, such as "150 s": the scenario is cut there, and later lines are left out
  --large           takes up to 4,096 peers and 64 MiB, instead of 64 peers and 8 MiB
  --words           says why a scenario is refused, and in which line, in words on standard error, as on a terminal
END
  [ -z "${can_progress-}" ] || cat <<'END'
  --progress        writes a line about each round to standard error. On a terminal such a run shows how far it is anyway
END
  cat <<END
  --proved          runs only proved programs
  --help, -h        prints this
  --version, -V     prints the commit and the Rattle kit
  --                ends the options

A program that is not proved yet is compiled, with checks at run time, in about a minute, once for its sources. Standard
error says so. bin/build proves and builds the program; bin/build --unproved only compiles it.

Status: 0 $1; 1 the scenario is refused, or can't be changed so; 2 it ran
out of memory, or no thread started; 3 input or output failed; 4 the program is not built, with --proved, or can't be
compiled; 5 an unproved run met a fault; 64 the arguments are wrong; 66 FILE can't be read; 128 and a signal's number
where one ended it.
END
}

# Says why there is nothing to run, and ends with a status.
stop() {
  echo "$tool: $2" >&2
  exit "$1"
}

# Ends as the program does where a read or a write failed.
fail() {
  echo "$1" >&2
  exit 3
}

version() {
  local commit kit
  commit=$(git -C "$top" describe --always --dirty --abbrev=12 --exclude='*' 2>/dev/null) || commit=unknown
  kit=$(rt version 2>/dev/null) || kit='no Rattle kit (rt) found'
  echo "$tool commit $commit, $kit"
}

words=("$@") arguments=() edits=() files=() is_strict='' has_words='' has_progress='' until='' large=()

change() {
  [[ $1 == *=* ]] || stop 64 "--set takes KEY=VALUE, not $1; --help says more"
  edits+=("$1")
}

cut_at() {
  local when='^([1-9][0-9]{0,5}|[0-9]{1,9}(\.[0-9]{1,9})? ?(ms|s|min|h))$'
  [[ $1 =~ $when ]] || stop 64 '--until takes a round, from 1 to 999999, or a time, such as "150 s"; --help says more'
  until=$1
}

# Stops where nothing stands after an option that takes a value.
want_value() {
  [ $# -ge 2 ] || stop 64 "$1 takes a value; --help says more"
}

# Reads the arguments. `take_option` is given those that are left, sets `taken` to how many words its option has, and fails
# where there is no such option.
parse() {
  while [ $# -gt 0 ]; do
    taken=1
    case $1 in
      --help | -h) usage && exit ;;
      --version | -V) version && exit ;;
      --words) has_words=yes ;;
      --progress)
        [ -n "${can_progress-}" ] || stop 64 'there is no option --progress; --help says which there are'
        has_progress=yes
        ;;
      --proved) is_strict=yes ;;
      --large) large=(--large) ;;
      --workers=* | --capacity=* | --seed=*) edits+=("${1#--}") ;;
      --set=*) change "${1#--set=}" ;;
      --until=*) cut_at "${1#--until=}" ;;
      --workers | --capacity | --seed | --set | --until)
        want_value "$@"
        case $1 in
          --set) change "$2" ;;
          --until) cut_at "$2" ;;
          *) edits+=("${1#--}=$2") ;;
        esac
        taken=2
        ;;
      --) files+=("${@:2}") && break ;;
      -?*) take_option "$@" || stop 64 "there is no option $1; --help says which there are" ;;
      *) files+=("$1") ;;
    esac
    shift "$taken"
  done
  [ ${#files[@]} -le 1 ] || stop 64 "one scenario at a time, not ${#files[@]}; --help says more"
}

# Makes a file the standard input.
open_input() {
  [ "$1" != - ] || return 0
  [ -e "$1" ] || stop 66 "there is no file $1"
  [ ! -d "$1" ] || stop 66 "$1 is a folder, not a scenario"
  { exec <"$1"; } 2>/dev/null || stop 66 "$1 can't be read"
}

# The links of many peers take much memory, which is there faster in pages of 2 MiB (glibc 2.35 and later).
tunables=${GLIBC_TUNABLES-glibc.malloc.hugetlb=1:glibc.malloc.top_pad=67108864}

# Runs a command on standard input, proved or not. `shower` is what shows how far it is.
shower=()
call() {
  local status=0 word
  word=$(word_of "$1")
  GLIBC_TUNABLES=$tunables "${shower[@]}" "${path_of[$1]}" ${word:+"$word"} "${@:2}" || status=$?
  [ -z "${is_unproved[$1]-}" ] || stop_at_fault "$1" "$status"
  return "$status"
}

# Runs `program` with `arguments`. If it can write how far its run is, that is shown where standard error is a terminal, and
# written elsewhere only if it is asked for.
call_shown() {
  local options=("${large[@]}") shower=()
  if [ -n "${can_progress-}" ] && [ -t 2 ] && command -v python3 >/dev/null; then
    options+=(--progress) shower=(python3 "$top/bin/lib/progress.py")
  elif [ -n "$has_progress" ]; then
    options+=(--progress)
  fi
  call "$program" "${options[@]}" "${arguments[@]}"
}

# Copies standard input, so that it can be read again, up to one byte more than it may have. A program refuses that itself,
# but a change or a cut could make it shorter.
keep_input() {
  local longest=8388608
  [ ${#large[@]} -eq 0 ] || longest=67108864
  scenario=$room/input
  head -c $((longest + 1)) >"$scenario" 2>/dev/null || fail 'input failed'
  [ ${#edits[@]} -gt 0 ] || [ -n "$until" ] || return 0
  if [ "$(stat -c %s "$scenario")" -gt "$longest" ]; then
    echo "edit refused: the scenario has more than $longest bytes" >&2
    exit 1
  fi
}

change_input() {
  call gossip_edit "${edits[@]}" <"$scenario" >"$room/changed" || exit
  scenario=$room/changed
}

# Cuts the scenario at a round.
cut_input() {
  python3 "$top/bin/lib/until.py" "$until" <"$scenario" >"$room/cut" || exit
  scenario=$room/cut
}

# Whether the input is the scenario that is run. Else `prepare_scenario` makes it.
is_as_it_comes() {
  [ ${#edits[@]} -eq 0 ] && [ -z "$until" ] && ! { [ -f /dev/stdin ] && has_header /dev/stdin; }
}

# Makes the scenario that is run: a copy of the input, with the changes that the options make. It is standard input then.
prepare_scenario() {
  keep_input
  [ ${#edits[@]} -eq 0 ] || change_input
  [ -z "$until" ] || cut_input
  exec <"$scenario"
}

# Prints the lines of the scenario to which the answer of gossip_check points, or its warnings.
point() {
  local origin=
  command -v python3 >/dev/null || return 0
  ! is_description "${files[0]--}" || origin=${files[0]}
  python3 "$top/bin/lib/point.py" "$1" "$room/answer" "$scenario" "$room/input" "$origin" "$until" "${edits[@]}"
}

# Says why the scenario was refused. The first line of gossip_check is what the program has said.
print_words() {
  # (it is the program that has just run)
  path_of[gossip_check]=${path_of[$program]} is_unproved[gossip_check]=${is_unproved[$program]-}
  call gossip_check "${large[@]}" <"$scenario" >"$room/answer"
  tail -n +2 "$room/answer" >&2
  point refusal >&2
}

# Prints the answer of gossip_check, and to which lines it points; or warns of what can be run. Ends with its status.
print_answer() {
  local status=0
  call gossip_check "${large[@]}" >"$room/answer" || status=$?
  : >"$room/lines"
  [ "$status" -ne 1 ] || point refusal >"$room/lines"
  cat "$room/answer" "$room/lines" 2>/dev/null || fail 'output failed'
  [ "$status" -ne 0 ] || point warnings >&2
  if [ "$status" -eq 1 ]; then
    echo "$tool: this is the first fault, and there may be more" >&2
    say_unexpanded "${files[0]--}"
  fi
  exit "$status"
}

# Makes these commands and the scenario ready, in a folder of its own. The scenario is standard input then.
make_ready() {
  guarded "${words[@]}"
  room=$TMPDIR
  # (what is wrong with a description is said before anything is compiled)
  ! is_description "${files[0]--}" || expand "${files[0]}"
  say_unproved
  compile_missing "$@"
  say_reading
  prepare_scenario
}

# Says about a refused scenario, after the program, what more is known.
explain_refusal() {
  [ -z "$has_words" ] || print_words
  say_unexpanded "${files[0]--}"
}

# Runs `program` with `arguments` on the scenario as the options change it, and ends with its status.
run_changed() {
  local commands=() status=0 word
  open_input "${files[0]--}"
  [ ${#edits[@]} -eq 0 ] || commands=(gossip_edit)
  [ -z "$program" ] || commands+=("$program")
  look_for "${commands[@]}"
  # Nothing is left to do after a program that is proved and whose refusal needs no words.
  if [ ${#is_unproved[@]} -eq 0 ] && [ -z "$has_words" ] && is_as_it_comes; then
    say_reading
    word=$(word_of "$program")
    GLIBC_TUNABLES=$tunables exec "${path_of[$program]}" ${word:+"$word"} "${large[@]}" ${has_progress:+--progress} \
      "${arguments[@]}"
  fi
  make_ready "${commands[@]}"
  if [ -z "$program" ]; then
    cat "$scenario" 2>/dev/null || fail 'output failed'
    exit
  fi
  [ "$program" != gossip_check ] || print_answer
  call_shown || status=$?
  [ "$status" -ne 1 ] || explain_refusal
  exit "$status"
}

say_reading() {
  if [ "${files[0]--}" = - ] && [ -t 0 ]; then
    echo "$tool: reading the scenario from the terminal; end it with Ctrl-D" >&2
  fi
}
