# shellcheck shell=bash disable=SC2154
# Runs bin/gossip_stats and bin/gossip_picture. tools/check_statuses reads this file. It sets `top` to the repository's
# folder, `room` to one for files and `example` to a scenario, and has `expect`, `expect_like` and `program`.

stats() {
  "$top/bin/gossip_stats" --proved "$@"
}

draw() {
  "$top/bin/gossip_picture" --proved "$@"
}

stats_of_input() {
  stats "$@" <"$example"
}

# The program's own command, over the example.
program_of_figures() {
  program stats "$@" <"$example"
}

# Prints what is counted in one row for all peers, and otherwise in all rows of each round, and of each link.
sums_of() {
  stats --csv "$1" >"$room/figures.csv" && stats --csv --rounds "$1" >"$room/rounds.csv" \
    && stats --csv --links "$1" >"$room/links.csv" || return
  python3 - "$room/figures.csv" "$room/rounds.csv" "$room/links.csv" <<'END'
import csv, sys
labels = "peer", "round", "from", "to", "smallest_mesh", "largest_mesh", "lowest_score"
def rows_in(path, first):
    with open(path, newline="") as file:
        table, = (it for it in file.read().split("\n\n") if it.startswith(first + ","))
    return list(csv.DictReader(table.splitlines()))
run, = (row for row in rows_in(sys.argv[1], "peer") if row["peer"] == "(all)")
for path, first in (sys.argv[2], "round"), (sys.argv[3], "from"):
    rows = rows_in(path, first)
    names = [it for it in rows[0] if it in run and it not in labels]
    if len(names) < 40:
        print("only", len(names), "columns by", first)
    for it in names:
        if sum(int(row[it]) for row in rows) != int(run[it]):
            print(it, "by", first)
END
}

# How their options and FILE are read. What they print of the example is compared with files of tools/lib.
check_figures() {
  local figures picture file rounds usage more='--help says more'
  figures=$(cat "$top/tools/lib/two_subscribers.stats")
  picture=$(cat "$top/tools/lib/two_subscribers.svg")
  expect 'figures of a file' 0 "$figures" '' stats "$example"
  expect 'figures of standard input' 0 "$figures" '' stats_of_input
  expect 'figures of a changed scenario' 0 "$figures" '' stats --workers 1 --set rounds=10 "$example"
  rounds=$(printf 'round %s of 10, %s deliveries\n' 0 0 1 0 2 1 3 2 4 2 5 2 6 2 7 2 8 2 9 2 10 2)
  expect 'figures with the rounds' 0 "$figures" "$rounds" stats --progress "$example"
  expect 'figures with the rounds, by the program' 0 "$figures" "$rounds" program_of_figures --progress
  expect_like 'figures as CSV' 0 '*,*,*' '' stats --csv "$example"
  expect_like 'figures of rounds as JSON' 0 '{*"rounds":[[]*"round":10,*' '' stats --json --rounds "$example"
  expect_like 'figures of topics' 0 '*news *' '' stats --topics "$example"
  expect_like 'figures of links as CSV' 0 'from,to,*"a","b",*"b","a",*' '' stats --csv --links "$example"
  expect_like 'figures of groups' 0 '*(first)*(rest)*(all)*first *rest *' '' \
    stats --group first=a --group='rest=*' "$example"
  expect_like 'figures by and of some' 0 '*"publisher":"a",*"peer":"b",*' '' stats --by a --of=b --json "$example"
  for file in "$top"/examples/book/*.toml; do
    expect "the sums over rounds and links of $(basename "$file" .toml)" 0 '' '' sums_of "$file"
  done
  expect 'figures of nothing' 1 '' 'scenario refused: 28 round_ms' stats /dev/null
  usage='usage: gossip_stats [--large] [--progress] [--by PEERS|--rounds|--topics|--links] [--of PEERS] [--group NAME=PEERS].. [--csv|--json]'
  expect 'rounds before the limits, by the program' 0 "$figures" "$rounds" program_of_figures --progress --large
  expect 'two forms of figures' 64 '' "$usage" stats --csv --json "$example"
  expect 'publishers of no message' 64 '' 'gossip_stats: --rounds has no messages, so there is no place for --by; --help says more' \
    stats --by a --rounds "$example"
  expect 'groups of links' 64 '' 'gossip_stats: --links has no groups, so there is no place for --group; --help says more' \
    stats --links --group one=a "$example"
  expect 'a group of the name of all' 64 '' "$usage" stats --group all=a "$example"
  expect 'publishers of no message, by the program' 64 '' "$usage" program stats --by a --topics
  expect 'arguments of the program that figures are of' 64 '' "$usage" program stats --group a
  expect 'figures of no such file' 66 '' "gossip_stats: there is no file $room/none" stats "$room/none"
  expect 'an option that figures do not have' 64 '' \
    'gossip_stats: there is no option --check; --help says which there are' stats --check "$example"
  expect_like 'help on figures' 0 'Runs *--group*--rounds*Status*' '' stats --help
  expect 'a picture of a file' 0 "$picture" '' draw "$example"
  expect 'a picture of a topic' 0 "$picture" '' draw --topic news "$example"
  expect 'a picture of the same topic' 0 "$picture" '' draw --topic=news --seed 2 "$example"
  expect 'a picture of a topic without its name' 64 '' "gossip_picture: --topic takes a value; $more" draw "$example" --topic
  expect_like 'help on pictures' 0 'Runs *--topic*Status*' '' draw --help
}
