# shellcheck shell=bash disable=SC2154
# Runs bin/sweep on tiny scenarios. tools/check_statuses reads this file, and so does tools/check_scripts for what needs no
# proved program. They set `top` to the repository's folder and `room` to one for files, and have `expect` and `expect_like`.

# Three peers, all joined, who subscribe in round 0. At the heartbeat in round 10 each grafts the two others. In round 12 `a`
# publishes.
three_peers() {
  cat <<'END'
round_ms = 100
rounds = 15
workers = 1
capacity = 8
seed = 1
topic = [{ name = "news" }]
peer = [{ name = "a" }, { name = "b" }, { name = "c" }]
dial = [{ from = "a", to = "b" }, { from = "b", to = "c" }, { from = "c", to = "a" }]
do = [
  { at = 0, peer = "a", what = "subscribe", topic = "news" },
  { at = 0, peer = "b", what = "subscribe", topic = "news" },
  { at = 0, peer = "c", what = "subscribe", topic = "news" },
  { at = 12, peer = "a", what = "publish", topic = "news", hex = "01" },
]
END
}

own_columns=status,message,proved,messages,pairs,reached,missed,first_round,median_round,round_90,round_99,last_round

# The columns that gossip_stats has for peers.
of_peers() {
  "$top/bin/gossip_stats" --csv "$room/sweeps/three.toml" | sed -n 's/^peer,//p'
}

# Those that `three_rows` has.
some_columns=$own_columns,rpcs_heard,bytes_heard,new,duplicates,graft_heard,rpcs_sent,bytes_sent,messages_pushed,graft_sent
some_columns+=,refused_lines,smallest_mesh,largest_mesh,lowest_score,highest_score

# Subscriptions and GRAFTs are six RPCs each, two for each pair. The payload goes to `b` and `c`, and each of them, who has
# it by then, gets it once more of the other: four RPCs. Without GRAFTs nobody passes it on. There is no round 12 where
# rounds end with 11. The frame of a subscription is 11 bytes long, and so is that of a GRAFT; that of the payload is
# 12.
three_rows() {
  cat <<END
rounds,params.heartbeat_ms,$some_columns
15,1000,0,,yes,1,2,2,0,1,1,1,1,1,16,180,2,2,6,16,180,4,6,0,2,2,0.000000,0.000000
15,2000,0,,yes,1,2,2,0,1,1,1,1,1,8,90,2,0,0,8,90,2,0,0,0,0,0.000000,0.000000
11,1000,1,scenario refused: 29 do[3].at,yes$no_figures
11,2000,1,scenario refused: 29 do[3].at,yes$no_figures
END
}
no_figures=,,,,,,,,,,,,,,,,,,,,,,,

in_sweeps() {
  (cd "$room/sweeps" && "$top/bin/sweep" "$@")
}

# The commands of a sweep, each run by itself.
one_by_one() {
  in_sweeps --list "$@" | sh
}

# The rows that are kept, each with the number that its file has on the disk.
kept() {
  find "$room/sweeps/rows" -name '*.csv' -printf '%i %f\n' | sort
}

long_sweep() {
  "$@" "$top/bin/sweep" --jobs 1 --into "$room/sweeps/rows" --seeds 1..8 --set rounds=60000 "$room/sweeps/three.toml"
}

# A sweep of long runs, one at a time, that gets a signal once another row is kept. It tells whether a run goes on then.
# `env` gives signals back their effect, which a shell takes from what it starts in the background.
interrupted() {
  local status=0 before child
  before=$(kept | wc -l)
  long_sweep exec env --default-signal "SWEEP_OF=$room" >"$room/front" &
  child=$!
  while [ "$(kept | wc -l)" -eq "$before" ] && kill -0 "$child"; do
    sleep 0.02
  done
  kill "-$1" "$child"
  wait "$child" || status=$?
  ! grep -qlsz "^SWEEP_OF=$room\$" /proc/[0-9]*/environ || echo 'a run goes on'
  return "$status"
}

# Takes the sweep up again, and tells which rows that were kept are made again.
taken_up() {
  kept >"$room/before"
  long_sweep env
  kept | comm -23 "$room/before" -
}

# The command of one run.
listed() {
  echo "$top/bin/sweep --no-header --jobs 1 --set seed=$1 --columns new --peer=a --into=$room/sweeps/rows --" \
    "$room/sweeps/three.toml"
}

# The payload goes from `a` to both members of `bc`, and of their meshes each has a place for `a` once there was a heartbeat.
# No message goes from `bc` to `a`, so there is no share.
group_columns=messages,a_to_bc_pairs,a_to_bc_reached,bc_to_a_pairs,bc_to_a_mesh_members,bc_to_a_mesh_places
group_columns+=,a_to_bc_share,bc_to_a_share,a_to_bc_lowest_at_ms
group_rows() {
  echo "params.heartbeat_ms,$group_columns"
  echo 1000,1,2,2,0,2,4,100.00,,1000
  echo 2000,1,2,2,0,0,0,100.00,,1000
}

check_sweep_rows() {
  local three=three.toml groups=(--group 'a=a' --group 'bc=b*,c')
  expect 'a sweep' 1 "$(three_rows)" \
    'sweep: 2 of 4 runs failed, first rounds=11 params.heartbeat_ms=1000: scenario refused: 29 do[3].at' \
    in_sweeps --set rounds=15,11 --set params.heartbeat_ms=1000,2000 --columns "$some_columns" "$three"
  expect 'a sweep with all columns' 0 "$(in_sweeps --columns "$own_columns,$(of_peers)" "$three")" '' in_sweeps "$three"
  expect 'a sweep of nothing' 0 $'new,duplicates\n2,2' '' in_sweeps --columns new,duplicates "$three"
  expect 'a sweep of a peer' 0 $'seed,messages,messages_pushed,new\n1,1,2,0\n2,1,2,0' '' \
    in_sweeps --seeds 1..2 --peer a --columns messages,messages_pushed,new "$three"
  expect 'a sweep of a peer that publishes nothing' 0 $'messages,pairs,last_round,new\n0,0,,1' '' \
    in_sweeps --peer b --columns messages,pairs,last_round,new "$three"
  expect 'a sweep of a group' 0 $'messages,messages_pushed,new\n1,2,0' '' \
    in_sweeps --peer '(a)' --group a=a --columns messages,messages_pushed,new "$three"
  expect 'a sweep of a group that publishes nothing' 0 $'messages,pairs,new\n0,0,2' '' \
    in_sweeps --group bc=b,c --peer='(bc)' --columns messages,pairs,new "$three"
  expect 'a sweep of all peers' 0 $'messages,pairs,new\n1,2,2' '' in_sweeps --peer '(all)' --columns messages,pairs,new "$three"
  expect 'a sweep of a peer that is not there' 1 $'message\nthe scenario has no peer d' \
    'sweep: 1 of 1 runs failed, first the one: the scenario has no peer d' \
    in_sweeps --columns message --peer d "$three"
  expect 'a sweep of a peer that is left out' 1 $'message\n"the scenario has no peer a, or --of leaves it out"' \
    'sweep: 1 of 1 runs failed, first the one: the scenario has no peer a, or --of leaves it out' \
    in_sweeps --columns message --peer a --of b,c "$three"
  expect 'a sweep by some, of others' 0 $'messages,pairs,new\n0,0,1' '' \
    in_sweeps --by 'b,c' --of c --columns messages,pairs,new "$three"
  expect 'a sweep of nobody' 0 $'messages,pairs,new\n1,0,' '' \
    in_sweeps --of nobody --columns messages,pairs,new "$three"
  expect 'a sweep of groups' 0 "$(group_rows)" '' in_sweeps --set params.heartbeat_ms=1000,2000 "${groups[@]}" \
    --columns "$group_columns" "$three"
  expect 'a sweep of a cut scenario' 0 $'seed,messages,new\n1,0,0\n2,0,0' '' \
    in_sweeps --seeds 1..2 --until 11 --columns messages,new "$three"
  expect 'values with commas' 0 $'topic.0.reject,rejected,new\n"[""01"", ""02""]",2,0\n[],0,2' '' \
    in_sweeps --set 'topic.0.reject=["01", "02"],[]' --columns rejected,new "$three"
  expect 'a list of commands' 0 "$(listed 7)"$'\n'"$(listed 8)" '' \
    in_sweeps --list --seeds 7..8 --columns new --peer a --into rows "$three"
  expect 'the commands one by one' 0 "$(three_rows | sed -n 2,3p)" '' \
    one_by_one --set rounds=15 --set params.heartbeat_ms=1000,2000 --columns "$some_columns" "$three"
  expect 'the commands for groups one by one' 0 "$(group_rows | tail -n +2)" '' \
    one_by_one --set params.heartbeat_ms=1000,2000 "${groups[@]}" --columns "$group_columns" "$three"
}

check_sweep_folder() {
  local rows said="of 8 rows are in $room/sweeps/rows; the same command goes on from there"
  rows=$("$top/bin/sweep" --seeds 1..8 --set rounds=60000 "$room/sweeps/three.toml")
  mkdir "$room/sweeps/rows"
  expect_like 'a sweep that is ended' 143 '' "sweep: interrupted; [1-6] $said" interrupted TERM
  expect_like 'a sweep that is interrupted' 130 '' "sweep: interrupted; [2-7] $said" interrupted INT
  expect 'the rows before that' 0 "$(head -n "$(wc -l <"$room/front")" <<<"$rows")" '' cat "$room/front"
  expect 'a sweep that is taken up again' 0 "$rows" '' taken_up
}

# Puts another number in the column `new` of the row that is kept.
change_kept() {
  python3 - "$1" "$room/sweeps/few"/*.csv <<'PY'
import csv, sys
with open(sys.argv[2], newline="") as it:
    header, row = csv.reader(it)
row[header.index("new")] = sys.argv[1]
with open(sys.argv[2], "w", newline="") as it:
    csv.writer(it, lineterminator="\n").writerows([header, row])
PY
}

# A kept row is taken as it is. One that is not whole, or of a scenario that has changed since, is made again.
check_kept_rows() {
  local few=(--into few --columns new one.toml)
  cp "$room/sweeps/three.toml" "$room/sweeps/one.toml"
  expect 'a row to keep' 0 $'new\n2' '' in_sweeps "${few[@]}"
  change_kept 99
  expect 'a row that is kept' 0 $'new\n99' '' in_sweeps "${few[@]}"
  truncate -s -20 "$room/sweeps/few"/*.csv
  expect 'half a row' 0 $'new\n2' '' in_sweeps "${few[@]}"
  sed -i 's/^rounds.*/rounds = 12/' "$room/sweeps/one.toml"
  expect 'a row of a changed scenario' 0 $'new\n0' '' in_sweeps "${few[@]}"
}

refused_sweep() {
  local name=$1 why=$2
  shift 2
  expect "$name" 64 '' "sweep: $why; --help says more" in_sweeps "$@"
}

check_sweep_arguments() {
  local many=()
  mapfile -t many < <(printf -- '--group=g%d=a\n' {1..17})
  expect_like 'help for sweeps' 0 'Runs a scenario *Status*' '' in_sweeps --help
  refused_sweep 'a sweep of no file' 'a sweep is of one scenario, not of 0'
  refused_sweep 'a sweep of two files' 'a sweep is of one scenario, not of 2' three.toml three.toml
  refused_sweep 'an unknown option of a sweep' 'there is no option --speed' --speed three.toml
  refused_sweep 'an option of a sweep without its value' '--seeds takes a value' three.toml --seeds
  refused_sweep 'an option of a sweep twice' '--jobs stands there twice' --jobs 1 --jobs=2 three.toml
  refused_sweep 'a key without values' '--set takes KEY=VALUES, not seed' --set seed three.toml
  refused_sweep 'a key that is set twice' 'seed is set twice' --seeds 1 --set seed=2 three.toml
  refused_sweep 'an empty value' 'seed has an empty value' --seeds 1,,2 three.toml
  refused_sweep 'a range that falls' 'seed goes from 3 to 1, which is less' --seeds 3..1 three.toml
  refused_sweep 'too many runs' 'a sweep has at most 1,000,000 runs, not 1,002,001' \
    --seeds 1..1001 --set a=1..1001 three.toml
  refused_sweep 'an unknown column' 'there is no column old' --columns new,old three.toml
  refused_sweep 'no round to cut at' '--until takes a round, from 1 to 999999, or a time, such as "150 s"' --until 0 three.toml
  refused_sweep 'a group without peers' \
    '--group takes NAME=PEERS, where NAME has 1 to 32 letters, digits, _ and -, not a' --group a three.toml
  refused_sweep 'a group twice' 'there are two groups a' --group a=a --group a=b three.toml
  refused_sweep 'a group of the name of all' 'all is all peers, and no name of a group' --group all=a three.toml
  refused_sweep 'too many groups' 'there are at most 16 groups, not 17' \
    "${many[@]}" three.toml
  refused_sweep 'two columns of one name' 'two pairs of groups have columns a_to_b_to_c' \
    --group a=a --group b_to_c=b --group a_to_b=c --group c=a three.toml
  refused_sweep 'messages of a peer and by others' \
    '--peer NAME has the messages that NAME published, so there is no place for --by' --peer a --by b three.toml
  refused_sweep 'no jobs' '--jobs takes a number from 1 to 9999' --jobs 0 three.toml
  expect 'a sweep of a file that is not there' 66 '' 'sweep: there is no file none.toml' in_sweeps none.toml
  expect 'a sweep of a folder' 66 '' 'sweep: . is a folder, not a scenario' in_sweeps .
  expect 'rows in a file' 3 '' "sweep: three.toml can't be a folder of rows: File exists" \
    in_sweeps --into three.toml three.toml
  expect 'rows that can not be written' 3 '' 'sweep: output failed' to_full_device_of in_sweeps three.toml
}

# Rows that are joined, of true programs. Each seed gives the figures that `three_rows` has. Two runs with 2 duplicates and
# with none have a mean of 1, and a deviation that is the root of 2: divided by the root of the number of runs it is 1.
check_joined_rows() {
  local beats=(--set 'params.heartbeat_ms=1000,2000') columns=(--columns duplicates three.toml) header rows
  header=runs,failed,duplicates_mean,duplicates_lowest,duplicates_highest,duplicates_interval
  rows=$'1000,2,0,2.000000,2,2,0.000000\n2000,2,0,0.000000,0,0,0.000000'
  expect 'rows over seeds' 0 "params.heartbeat_ms,$header"$'\n'"$rows" '' \
    in_sweeps "${beats[@]}" --seeds 1..2 --over seed "${columns[@]}"
  expect 'rows over seeds without a header' 0 "$rows" '' \
    in_sweeps --no-header "${beats[@]}" --seeds 1..2 --over seed "${columns[@]}"
  rows=$'1,2,0,1.000000,0,2,12.706000\n2,2,0,1.000000,0,2,12.706000'
  expect 'rows over another key' 0 "seed,$header"$'\n'"$rows" '' \
    in_sweeps "${beats[@]}" --seeds 1..2 --over params.heartbeat_ms "${columns[@]}"
  expect 'rows over all keys' 0 $'runs  failed       duplicates\n   2       0  1 ± 13 (0 to 2)' '' \
    in_sweeps "${beats[@]}" --over params.heartbeat_ms --table "${columns[@]}"
  expect 'joined rows of a peer, cut' 0 $'runs  failed        messages\n   2       0  0 ± 0 (0 to 0)' '' \
    in_sweeps --seeds 1..2 --over seed --peer a --until 11 --columns messages --table three.toml
  expect 'joined rows of nobody' 0 $'runs  failed           pairs  new\n   2       0  0 ± 0 (0 to 0)    -' '' \
    in_sweeps --seeds 1..2 --over seed --of nobody --columns pairs,new --table three.toml
  expect 'a list of commands for joined rows' 0 "$(in_sweeps --list --seeds 1..2 "${columns[@]}")" '' \
    in_sweeps --list --seeds 1..2 --over seed --table "${columns[@]}"
  expect 'joined rows to a closed output' 3 '' 'sweep: output failed' \
    to_closed_output_of in_sweeps --seeds 1..2 --over seed three.toml
}

# Rows over networks. A peer publishes once a second, from 0 to 2 seconds.
check_rows_over_networks() {
  local networks=(--networks '4,5' --columns messages --table ring.toml) rows
  cat >"$room/sweeps/ring.toml" <<'END'
until = "2 s"
[network]
kind = "ring"
[[topic]]
name = "news"
[[group]]
prefix = "n"
count = 4
[[load]]
peer = "n"
every = "1 s"
END
  rows=$'1        2       0  3 ± 0 (3 to 3)\n2        2       0  3 ± 0 (3 to 3)'
  expect 'rows over networks' 0 $'seed  runs  failed        messages\n'"$rows" '' \
    in_sweeps --seeds 1..2 --over network "${networks[@]}"
  expect 'rows over seeds and networks' 0 $'runs  failed        messages\n   4       0  3 ± 0 (3 to 3)' '' \
    in_sweeps --seeds 1..2 --over seed,network "${networks[@]}"
}

to_closed_output_of() {
  "$@" >&-
}

to_full_device_of() {
  "$@" >/dev/full
}

check_sweeps() {
  mkdir "$room/sweeps"
  three_peers >"$room/sweeps/three.toml"
  check_sweep_rows
  check_joined_rows
  check_rows_over_networks
  check_kept_rows
  check_sweep_folder
  check_sweep_arguments
}

# A tree with a stand-in for the program. As gossip_edit it prints the settings of a run in order. As gossip_stats it has
# figures for them in a file, or none: a line has `new` and `lowest_score`, which may be left out. The first line is for the
# scenario by which a sweep learns of columns. That ends with a peer.
make_stand_in_for_sweeps() {
  local place=$room/joined/crates/gossip_sim/out
  mkdir -p "$place"
  cp -r "$top/bin" "$room/joined"
  echo 'gossip_sim:' >"$room/joined/crates.txt"
  touch "$room/joined/it.toml"
  cat >"$room/joined/figures" <<'END'
peer = [{ name = "a" }]: 0 0.000000
d=4 seed=1: 1 -0.000001
d=4 seed=2: 2 0.000000
d=4 seed=3: 6 0.000000
d=6 seed=1: 30 -80.000000
d=6 seed=3: 31 -60.500000
d=7 seed=1: 5 -1.500000
d=7 seed=2: 5
d=7 seed=3: 5 -80.000000
d=8 seed=2: 5
END
  cat >"$place/gossip_sim" <<END
#!/bin/sh
[ "\$1" != edit ] || { shift && printf '%s\n' "\$@" | sort | xargs && exit; }
figures=\$(grep -F "\$(tail -n 1):" "$room/joined/figures") || { echo 'none of that' >&2 && exit 1; }
set -- \${figures##*:}
printf '{"messages":[],"within":[{"outcome":"missed","pairs":0}],"parts":[{"pairs":0}],'
printf '"peers":[{"peer":"(all)","new":%s,"lowest_score":%s}]}\n' "\$1" "\${2-null}"
END
  chmod +x "$place/gossip_sim"
}

in_joined() {
  (cd "$room/joined" && bin/sweep "$@")
}

# A sweep with it over seeds, of all columns that it has figures for.
with_stand_in() {
  in_joined --columns new,lowest_score,proved --over seed "$@" it.toml
}

# For 1, 2 and 6 the mean is 3, and the squares of the deviations 2, 1 and 3 are 14 in all: the interval is 4.303 times the
# root of 7/3. Of scores of -1, 0 and 0 millionths it is 4.303/3 millionths. For two runs it is 12.706 times half of what
# they differ by: 1, and 19.5.
joined_rows() {
  local of_new=new_mean,new_lowest,new_highest,new_interval it=lowest_score
  cat <<END
d,runs,failed,$of_new,${it}_mean,${it}_lowest,${it}_highest,${it}_interval,proved
4,3,0,3.000000,1,6,6.572941,0.000000,-0.000001,0.000000,0.000001,yes
6,2,1,30.500000,30,31,6.353000,-70.250000,-80.000000,-60.500000,123.883500,yes
7,3,0,5.000000,5,5,0.000000,,-80.000000,-1.500000,,yes
8,1,2,5.000000,5,5,,,,,,yes
9,0,3,,,,,,,,,yes
END
}

joined_table() {
  cat <<'END'
d  runs  failed                    new                          lowest_score  proved
4     3       0     3.0 ± 6.6 (1 to 6)  0.000000 ± 0.000001 (-0.000001 to 0)     yes
6     2       1  30.5 ± 6.4 (30 to 31)              -70 ± 124 (-80 to -60.5)     yes
7     3       0         5 ± 0 (5 to 5)               none in 1 (-80 to -1.5)     yes
8     1       2                      5                                     -     yes
9     0       3                      -                                     -     yes
END
}

# Prints the degrees of freedom whose point is wrong, and then the points of some others. A point is right where the area
# below Student's t out to half of its last digit less is below 95 %, and out to as much more above it (by Simpson's rule).
t_points() {
  (cd "$top/bin/lib" && python3 -B) <<'END'
from math import exp, lgamma, pi, sqrt
from sweep_joined import T_POINTS, t_point

def area(end, freedom, parts=1000):
    scale = exp(lgamma((freedom + 1) / 2) - lgamma(freedom / 2)) / sqrt(freedom * pi)
    heights = [(1 + (end * it / parts) ** 2 / freedom) ** (-(freedom + 1) / 2) for it in range(parts + 1)]
    return 2 * scale * end / parts / 3 * (heights[0] + 4 * sum(heights[1::2]) + 2 * sum(heights[2:-1:2]) + heights[-1])

print(*[it for it in T_POINTS if not area(t_point(it) - 0.0005, it) < 0.95 < area(t_point(it) + 0.0005, it)])
print(*map(t_point, (1, 2, 30, 39, 40, 4999, 5000, 999999)))
END
}

refused_joined() {
  expect "$1" 64 '' "sweep: $2; --help says more" "${@:3}"
}

check_joined_arguments() {
  local why='--over takes keys that are swept, and'
  refused_joined 'rows over a key that is not swept' "$why seed is not" with_stand_in --set d=4
  refused_joined 'rows over no key' "$why an empty one is not" in_joined --seeds 1 --over= it.toml
  refused_joined 'rows over a key twice' '--over has d twice' in_joined --set d=4 --over d,d it.toml
  refused_joined 'a run twice' '--over joins different runs, and seed has 3 twice' with_stand_in --seeds 1..4,3
  refused_joined 'a setting twice' '--over joins different runs, and d has 4 twice' with_stand_in --seeds 1 --set d=4,5,4
  refused_joined 'how a joined run ended' 'status is of one run: with --over, runs and failed say how many have figures' \
    in_joined --seeds 1 --over seed --columns new,status it.toml
  refused_joined 'an unknown column of joined rows' 'there is no column runs' \
    in_joined --seeds 1 --over seed --columns runs it.toml
  refused_joined 'a table of single runs' '--table goes with --over' in_joined --table it.toml
}

# What runs give together, where some fail, and some lack a number. Of two rows that are kept it says that their programs
# were not proved.
check_joined() {
  local said='sweep: 6 of 15 runs failed, first d=6 seed=2: none of that' all=(--set 'd=4,6,7,8,9' --seeds 1..3)
  make_stand_in_for_sweeps
  expect 'points of Student'"'"'s t' 0 $'\n12.706 4.303 2.042 2.042 2.021 1.984 1.96 1.96' '' t_points
  expect 'rows that are joined' 1 "$(joined_rows)" "$said" with_stand_in "${all[@]}"
  expect 'rows that are joined over the first key' 1 "$(joined_rows)" "${said/d=6 seed=2/seed=1 d=8}" \
    with_stand_in --seeds 1..3 --set d=4,6,7,8,9
  expect 'a table of joined rows' 1 "$(joined_table)" "$said" with_stand_in --table "${all[@]}"
  expect 'rows to keep, and to join' 1 "$(joined_rows)" "$said" with_stand_in --into rows "${all[@]}"
  sed -i 's/^4,2,0,,yes/4,2,0,,no/; s/^8,3,1,\(.*\),yes/8,3,1,\1,no/' "$room/joined/rows"/*.csv
  expect 'rows with few that are proved' 1 "$(joined_rows | sed '/^[48]/s/yes/mixed/')" "$said" \
    with_stand_in --into rows "${all[@]}"
  check_joined_arguments
}
