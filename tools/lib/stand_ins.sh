# shellcheck shell=bash disable=SC2154
# A tree where nothing is proved, with scripts that stand in for rt and for the compiler. tools/check_scripts reads this file.
# It sets `top` to the repository's folder, `room` to one for files and `example` to a scenario, and has `expect` and
# `expect_like`.

# A stand-in for the compiler: it makes a program which prints the name of the command and what that is given, and ends as
# $tried says. What it compiles is noted in $room/compiled. With $tried of none, there is no program.
make_compiler() {
  cat >"$room/fake/compiler" <<END
#!/bin/sh
echo "\$1" >>"$room/compiled"
[ "\$tried" != none ] || { echo 'cannot find value' && exit 1; }
[ "\$tried" != slow ] || { touch "$room/asleep" && exec sleep 600; }
cat >"\$2" <<'PROGRAM'
#!/bin/sh
name=gossip_sim
case \${1-} in
  stats | trace | scores | picture | check | edit) name=gossip_\$1 && shift ;;
esac
[ "\$tried" != fault ] || kill -ILL \$\$
[ "\$name" != gossip_check ] || [ -z "\${answer-}" ] || { printf '%b' "\$answer" && exit "\$tried"; }
[ "\$tried" != long ] || { touch "$room/asleep" && exec sleep 600; }
echo "\$name \$* \$(cat)" 2>/dev/null || { echo 'output failed' >&2 && exit 3; }
[ "\$name" != gossip_check ] || echo 'in words'
echo "told by \$name" >&2
exit "\$tried"
PROGRAM
chmod +x "\$2"
END
  chmod +x "$room/fake/compiler"
}

# A stand-in for rt: it proves what $unproved does not name, at once or, where $tried is slow, never.
make_rt() {
  echo 'a kit' >"$room/fake/KIT-ID"
  cat >"$room/fake/bin/rt" <<END
#!/bin/sh
name=\$(basename "\$PWD")
echo "proving \$name" >&2
[ "\$name" != "\${unproved-}" ] || exit 1
[ "\${tried-}" != slow ] || { touch "$room/asleep" && exec sleep 600; }
mkdir -p out/rlib && touch out/rlib/stamp
[ "\$1" = lib ] || { echo text && printf '#!/bin/sh\necho "proved: \$(cat)"\n' >"out/\$name" && chmod +x "out/\$name"; }
END
  chmod +x "$room/fake/bin/rt"
}

# A tree with nothing built, whose program stands above one library. (The scripts of tools/ are tried there by signals.)
make_tree() {
  mkdir -p "$room/fake/bin" "$room/temporary" "$room/tree/crates"/{gossip_sim/src,gs_base/{src,mutants}}
  cp -r "$top/bin" "$top/tools" "$room/tree"
  touch "$room/tree/crates"/{gossip_sim/src/{tests,main},gs_base/src/{tests,lib}}.rt
  echo text >"$room/tree/crates/gossip_sim/stdout"
  printf 'gs_base:\ngossip_sim: gs_base\n' >"$room/tree/crates.txt"
  mkdir "$room/tree/crates/gs_refusals"
  printf 'right\n' >"$room/tree/crates/gs_refusals/stdout"
  cp /bin/true "$room/tree/crates/gs_refusals/gs_refusals"
  echo 'Handles allowed: none.' >"$room/tree/HANDLES"
  make_compiler
  make_rt
}

# Runs a script of the tree, with a word for the stand-ins.
in_tree() {
  env PATH="$room/fake/bin:$PATH" GUNTHARU_COMPILER="$room/fake/compiler" TMPDIR="$room/temporary" "$1" "$room/tree/bin/$2" "${@:3}"
}

tried() {
  echo scenario | in_tree "tried=$1" gossip_sim "${@:2}"
}

# On a terminal, which is standard input, output and error.
tried_on_terminal() {
  echo scenario >"$room/scenario"
  PATH="$room/fake/bin:$PATH" GUNTHARU_COMPILER="$room/fake/compiler" TMPDIR="$room/temporary" tried=0 \
    on_terminal "$room/tree/bin/gossip_sim" "$@" "$room/scenario"
}

tried_figures() {
  echo scenario | in_tree tried=0 gossip_stats "$@"
}

tried_picture() {
  echo scenario | in_tree tried=0 gossip_picture "$@"
}

tried_trace() {
  echo scenario | in_tree tried=0 gossip_trace "$@"
}

tried_scores() {
  echo scenario | in_tree tried=0 gossip_scores "$@"
}

# A change of a scenario that has a byte too many.
changed_long() {
  head -c 8388609 /dev/zero | tr '\0' '#' | in_tree tried=0 gossip_sim "${@:---seed=2}" 2>&1 >/dev/null | grep refused >&2
  return "${PIPESTATUS[2]}"
}

tried_to_closed_output() {
  tried 0 >&-
}

tried_from_closed_input() {
  in_tree tried=0 gossip_sim <&-
}

# A scenario, and the answer that the stand-in for gossip_check gives to it.
answered() {
  printf '%b' "$2" | answer=$1 in_tree tried=1 "${@:3}"
}

# A description on standard input, from a pipe.
piped_description() {
  printf '[[group]]\n' | answer='27 group\nin words\n' in_tree "tried=$1" "${@:2}"
}

# And from a file, by a proved program, with nothing that reads it twice.
description_in_file() {
  printf '[[group]]\n' >"$room/described"
  in_tree tried=1 "$@" <"$room/described"
}

# What bin/gossip_sim says where the program is not proved.
unproved() {
  echo "gossip_sim: this $1 does not come from a proved program: gossip_sim is not built (bin/build proves it, in half an hour)"
}

compiling() {
  echo "$1: compiling gossip_sim without proof, which takes about a minute"
}

# What is run where nothing is proved.
check_unproved() {
  local said usage
  said=$(unproved report)
  expect 'a report without proof' 0 'gossip_sim  scenario' "$said"$'\n'"$(compiling gossip_sim)"$'\ntold by gossip_sim' tried 0
  expect 'a status without proof' 2 'gossip_sim  scenario' "$said"$'\ntold by gossip_sim' tried 2
  expect 'words without proof' 1 'gossip_sim  scenario' "$said"$'\ntold by gossip_sim\ntold by gossip_check\nin words' \
    tried 1 --words
  expect 'an answer without proof' 0 $'gossip_check  scenario\nin words' \
    "$(unproved answer)"$'\ntold by gossip_check\nwarning: this is no TOML 1.0, so there are no other warnings' \
    tried 0 --check
  expect 'a change without proof' 0 'gossip_sim  gossip_edit seed=2 scenario' \
    "$said"$'\ntold by gossip_edit\ntold by gossip_sim' tried 0 --seed 2
  expect 'a print without proof' 64 '' "$(unproved scenario)"$'\ntold by gossip_edit' \
    tried 64 --print --seed 2
  expect 'a printed change without proof' 0 'gossip_edit seed=2 scenario' \
    "$(unproved scenario)"$'\ntold by gossip_edit' tried 0 --print --seed 2
  expect 'a direct run without proof' 0 'gossip_sim --direct scenario' "$said"$'\ntold by gossip_sim' tried 0 --direct
  expect 'a direct run with the rounds' 0 'gossip_sim --progress --direct scenario' "$said"$'\ntold by gossip_sim' \
    tried 0 --progress --direct
  expect 'rounds of a run over links' 64 '' \
    'gossip_sim: --progress goes with --direct, since a run over links writes no such lines; --help says more' tried 0 --progress
  expect 'a direct check' 64 '' 'gossip_sim: --direct and --progress go with a run, not with --check or --print; --help says more' \
    tried 0 --direct --check
  expect 'rounds of a check' 64 '' \
    'gossip_sim: --direct and --progress go with a run, not with --check or --print; --help says more' tried 0 --check --progress
  expect_like 'a run over links on a terminal' 0 '*gossip_sim  scenario*' '' tried_on_terminal
  expect_like 'a direct run on a terminal' 0 '*gossip_sim --progress --direct scenario*' '' tried_on_terminal --direct
  expect 'a large run' 0 'gossip_sim --large --direct scenario' "$said"$'\ntold by gossip_sim' tried 0 --direct --large
  expect 'a large run over links' 64 '' \
    'gossip_sim: --large goes with --direct, since a run over links has at most 64 peers; --help says more' tried 0 --large
  expect_like 'a large check' 0 'gossip_check --large scenario*' '*told by gossip_check*' tried 0 --large --check
  expect_like 'large figures' 0 'gossip_stats --large --csv scenario' '*told by gossip_stats' tried_figures --csv --large
  expect_like 'a large trace' 0 'gossip_trace --large --peer b scenario' '*told by gossip_trace' tried_trace --large --peer b
  expect_like 'large scores' 0 'gossip_scores --large scenario' '*told by gossip_scores' tried_scores --large
  expect_like 'a large picture' 0 'gossip_picture --large --topic news scenario' '*told by gossip_picture' tried_picture --topic news --large
  expect_like 'a long scenario that is changed' 1 '' 'edit refused: the scenario has more than 8388608 bytes' changed_long
  expect_like 'a long scenario that is cut' 1 '' 'edit refused: the scenario has more than 8388608 bytes' changed_long --until 3
  expect_like 'figures without proof' 0 'gossip_stats --csv scenario' \
    'gossip_stats: this set of figures does not come from a proved program: gossip_sim is not built*told by gossip_stats' \
    tried_figures --csv
  expect_like 'a trace without proof' 0 'gossip_trace  scenario' \
    'gossip_trace: this trace does not come from a proved program: gossip_sim is not built*told by gossip_trace' \
    tried_trace
  expect_like 'some lines of a trace' 0 'gossip_trace --peer b --rounds 2..3 --events graft,prune --topic news scenario' '*' \
    tried_trace --peer b --rounds=2..3 --events graft,prune --topic news
  expect_like 'lines of a word that is no event' 0 'gossip_trace --events publised,refused scenario' \
    'gossip_trace: no line has the event publised; --help lists them
*gossip_sim is not built*' tried_trace --events publised,refused
  usage='usage: gossip_trace [--large] [--progress] [--peer NAME] [--topic TOPIC] [--rounds A..B] [--events A,B,..]'
  expect 'a trace of two peers' 64 '' "$usage" tried_trace --peer b --peer c
  expect 'a trace of rounds that are none' 64 '' "$usage" tried_trace --rounds 3..2
  expect 'a trace of a round without an end' 64 '' "$usage" tried_trace --rounds 3
  expect 'a trace of no peer' 64 '' 'gossip_trace: --peer takes a value; --help says more' tried_trace --peer
  expect_like 'scores without proof' 0 'gossip_scores  scenario' \
    'gossip_scores: this set of scores does not come from a proved program: gossip_sim is not built*told by gossip_scores' \
    tried_scores
  expect_like 'some scores' 0 'gossip_scores --peer b --neighbour s --rounds 2..3 --format csv scenario' '*' \
    tried_scores --peer b --neighbour=s --rounds 2..3 --format=csv
  expect_like 'a summary of scores' 0 'gossip_scores --peer b --summary scenario' '*' tried_scores --peer b --summary
  usage='usage: gossip_scores [--large] [--progress] [--peer NAME] [--neighbour NAME] [--rounds A..B] [--format json|csv | --summary]'
  expect 'a summary with a format' 64 '' "$usage" tried_scores --summary --format csv
  expect 'a format with a summary' 64 '' "$usage" tried_scores --format=csv --peer b --summary
  expect 'two summaries' 64 '' "$usage" tried_scores --summary --summary
  expect 'scores of two neighbours' 64 '' "$usage" tried_scores --neighbour b --neighbour c
  expect 'scores of rounds that are none' 64 '' "$usage" tried_scores --rounds 3..2
  expect 'scores in no format' 64 '' "$usage" tried_scores --format xml
  expect 'scores of no neighbour' 64 '' 'gossip_scores: --neighbour takes a value; --help says more' tried_scores --neighbour
  expect_like 'figures among some' 0 'gossip_stats --by h* --of h1,x --json scenario' '*' \
    tried_figures --by 'h*' --of=h1,x --json
  expect_like 'figures of groups' 0 'gossip_stats --group honest=h* --group x=x=y --rounds scenario' '*' \
    tried_figures --group 'honest=h*' --group=x=x=y --rounds
  expect_like 'figures of nobody' 0 'gossip_stats --by  --group none= scenario' '*' tried_figures --by '' --group none=
  expect 'figures of no value' 64 '' 'gossip_stats: --of takes a value; --help says more' tried_figures --of
  expect 'figures of no group' 64 '' 'gossip_stats: --group takes a value; --help says more' tried_figures --csv --group
  expect_like 'a picture without proof' 0 'gossip_picture --topic news scenario' \
    'gossip_picture: this picture does not come from a proved program: gossip_sim is not built*told by gossip_picture' \
    tried_picture --topic news
  expect_like 'an unproved run that meets a fault' 5 '' \
    "$said*gossip_sim met a fault (signal 4): rt try in crates/gossip_sim says where" tried fault
  expect_like 'unproved figures that meet a fault' 5 '' \
    '*gossip_stats: gossip_stats met a fault (signal 4): rt try in crates/gossip_sim says where' in_tree tried=fault gossip_stats "$example"
  expect 'a closed output without proof' 3 '' "$said"$'\noutput failed' tried_to_closed_output
  expect 'a closed input without proof' 3 '' "$said"$'\ninput failed' tried_from_closed_input
  expect 'nothing proved to run' 4 '' "gossip_sim: gossip_sim is not built: bin/build proves and builds it" tried 0 --proved
  expect 'nothing proved to sweep' 4 '' \
    'sweep: gossip_sim is not built: bin/build proves and builds it' \
    in_tree tried=0 sweep --proved "$example"
  expect_like 'a sweep without proof' 1 $'seed,status,message,proved,*\n1,5,told by gossip_edit,no,*' \
    'sweep: this sweep does not come from a proved program: gossip_sim is not built*1 of 1 runs *' \
    in_tree tried=5 sweep --seeds 1 "$example"
}

# Descriptions where nothing is proved: on standard input, which are named, and a file that is refused.
check_descriptions() {
  local said
  said='*in words*: this looks like a description, and from standard input or a pipe none is read: bin/scenario - | bin/'
  expect_like 'a description from a pipe' 1 '*' "${said#\*in words}gossip_sim" piped_description 1 gossip_sim
  expect_like 'its words' 1 '*' "${said}gossip_sim" piped_description 1 gossip_sim --words
  expect_like 'its check' 1 '27 group*' "*there may be more*${said#\*in words}gossip_sim" piped_description 1 gossip_sim --check -
  expect_like 'its figures' 1 '*' "${said#\*in words}gossip_stats" piped_description 1 gossip_stats
  printf '[[group]]\nprefx = "a"\n' >"$room/misspelt"
  expect 'a description that is refused before anything is compiled' 1 '' \
    "scenario: $room/misspelt:2: [[group]] 1: prefx: \"prefx\" is not known here; the nearest is prefix
scenario: $room/misspelt was not read to its end, so there may be more faults" in_tree tried=none gossip_sim "$room/misspelt"
  expect_like 'a description as standard input' 1 '*' "${said#\*in words}gossip_sim" description_in_file gossip_sim
}

# bin/build --unproved, twice.
check_compiled() {
  local said='build: compiled without proof, or proved before: gossip_sim'
  rm -rf "$room/tree/out/unproved"
  expect 'a build without proof' 0 '' "$(compiling build)"$'\n'"$said" in_tree tried=0 build --unproved
  expect 'a build without proof again' 0 '' "$said" in_tree tried=none build --unproved
  expect 'a run of what was so built' 0 'gossip_sim  scenario' "$(unproved report)"$'\ntold by gossip_sim' tried 0
  rm -rf "$room/tree/out/unproved"
  expect 'a build without proof by the names of commands' 0 '' "$(compiling build)"$'\n'"$said" \
    in_tree tried=0 build --unproved gossip_check gossip_edit
  rm -rf "$room/tree/out/unproved"
  expect_like 'a build without proof that fails' 4 '' '*build: gossip_sim could not be compiled, as the lines above say' \
    in_tree tried=none build --unproved gossip_edit
  expect 'a build without proof by jobs' 64 '' 'build: --jobs and --unproved do not go together; --help says more' \
    in_tree tried=0 build --jobs 2 --unproved
}

# bin/build, and what is run of what it built.
check_build() {
  local place=$room/tree/crates said
  expect 'a program that is not there' 64 '' 'build: there is no program gs_base in crates.txt' in_tree unproved= build gs_base
  expect_like 'a proof that fails' 4 '' '*proving gs_base*gs_base is not proved*the log is crates/gs_base/out/build.log' \
    in_tree unproved=gs_base build
  expect 'a command that is no word of the program' 64 '' 'build: there is no program gossip_view in crates.txt' \
    in_tree unproved= build gossip_view
  expect_like 'a build' 0 '' '*proved and built: gossip_sim' in_tree unproved= build
  expect 'a build where all stands' 0 '' 'build: proved and built: gossip_sim' in_tree unproved=gs_base build gossip_sim
  expect 'a build by the name of a command where all stands' 0 '' 'build: proved and built: gossip_sim' \
    in_tree unproved=gs_base build gossip_stats
  touch "$place/gs_base/src/tests.rt"
  expect 'a run of what was built' 0 'proved: scenario' '' tried none
  expect_like 'a check of what was built' 0 'proved: scenario' 'warning: *' tried none --check --proved
  touch "$place/gs_base/src/lib.rt"
  said='gossip_sim is older than crates/gs_base/src/lib.rt'
  expect 'a program that is too old' 4 '' "gossip_sim: $said: bin/build proves and builds it" tried none --proved
  expect_like 'an unproved run instead of it' 0 'gossip_sim  scenario' "*a proved program: $said*" tried 0
  # shellcheck disable=SC2016 # (it is a script)
  printf '#!/bin/sh\n[ "${1-}" != check ] || printf "28 seed\\nin words\\n"\nexit 1\n' >"$place/gossip_sim/out/gossip_sim"
  expect 'words of what was built' 1 '' 'in words' tried none --words
  said='this looks like a description, and from standard input or a pipe none is read: bin/scenario - | bin/gossip_sim'
  expect 'a description as the input of what was built' 1 '' "gossip_sim: $said" description_in_file gossip_sim
}
