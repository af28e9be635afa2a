# shellcheck shell=bash disable=SC2154,SC2016
# To which lines of a scenario the words of a refusal point, and what --check warns of. tools/check_scripts reads this file.
# It sets `top` to the repository's folder and `room` to one for files, and has `expect` and `expect_like`. For
# `check_pointing` it has the tree of tools/lib/stand_ins.sh.

# pointed ANSWER SCENARIO [CHANGE..]: what is said in addition to an answer. $given is what was changed, and $until where it was cut.
pointed() {
  printf '%b' "$1" >"$room/answer"
  printf '%b' "$2" >"$room/scenario"
  printf '%b' "${given-$2}" >"$room/given"
  python3 "$top/bin/lib/point.py" "${kind-refusal}" "$room/answer" "$room/scenario" "$room/given" "${origin-}" \
    "${until-}" "${@:3}"
}

# described ANSWER DESCRIPTION [CHANGE..]: the same of a description, and of its plain scenario.
described() {
  local origin=$room/it.toml given
  printf '%b' "$2" >"$origin"
  given=$("$top/bin/scenario" "$origin" 2>/dev/null) && pointed "$1" "${changed:-$given}" "${@:3}"
}

points_in_description() {
  expect "$1" 0 "$2" '' described "${@:3}"
}

points() {
  expect "$1" 0 "$2" '' pointed "${@:3}"
}

check_places() {
  local lines='rounds = 9\n[[do]]\nat = 1 # one\n[[ "do" ]]\n\n"a\\u0074" = 10\n' zeros
  points 'the line of a key' $'do[1].at, line 6: "a\\u0074" = 10\nrounds, line 1: rounds = 9' '29 do[1].at\n' "$lines"
  points 'a line without its comment' 'do[0].at, line 3: at = 1' '30 do[0].at\n' "$lines"
  points 'the line of a header' 'do[1], line 4: [[ "do" ]]' '31 do[1]\n' "$lines"
  points 'the header of a missing key' 'do[1], line 4: [[ "do" ]]' '28 do[1].what\n' "$lines"
  points 'the line of a list' 'do, line 2: [[do]]' '29 do\n' "$lines"
  points 'an inline table' 'do[1].at, line 3: { l = "]},{", at = 2 },' '30 do[1].at\n' \
    'do = [\n{ at = 1 }, # }\n{ l = "]},{", at = 2 },\n"x"]'
  points 'an element that is no table' 'do[2], line 3: "x"]' '29 do[2]\n' 'do = [\n{ at = 1 }, { at = 2 },\n"x"]'
  points 'a dotted key' 'params.d, line 2: params . d = 0x9' '29 params.d\n' 'seed = 1\nparams . d = 0x9'
  points 'a missing key of a table without a header' '' '28 params.d\n' 'params.e = 1\n'
  points 'a table in a table' 'params.x, line 3: [params.x]' '27 params.x\n' '[params]\nd = 1\n[params.x]\ny = 1'
  points 'a key that looks like a place' 'do[0].at, line 2: "do[0].at" = 1' \
    '27 do[0].at\n`do[0].at` is no key of the top table\n' 'seed = 1\n"do[0].at" = 1\n[[do]]\nat = 3'
  points 'a key with control characters' '' '27 a\\x0ab\n' '"a\\nb" = 1\n'
  points 'a mark of byte order, and CR' 'do[0].at, line 3: at = 1' '30 do[0].at\n' '\xef\xbb\xbfseed = 1\r\n[[do]]\r\nat = 1\r\n'
  printf -v zeros '%0200d' 0
  points 'a line that is long' "do[0].at, line 1: at = 1, hex = \"${zeros:0:85}.." '30 do[0].at\n' \
    "do = [{ what = \"x\", at = 1, hex = \"$zeros\" }]\n"
  points 'what only TOML 1.1 has' '' '29 seed\n' 'seed = "x"\na = {b = 1,}\n'
  points 'a text of several lines' 'seed, line 1: seed = """]' '29 seed\n' 'seed = """]\n[[do]]\n"""\n[params]\n'
  points 'an input that is too long' '' '29 input\n' 'seed = 1\n'
  points 'an answer of another kind' '' 'scenario\nin words\n' 'seed = 1\n'
}

check_refusals() {
  local check='1\n`params.d_low` is 7: it must not be above `d`, which is 6\n' no_toml='26\nTOML parse error at line'
  points 'a check, and its keys' $'params.d_low, line 2: d_low = 7\nparams.d, line 3: d = 6' "$check" '[params]\nd_low = 7\nd = 6\n'
  points 'a check of a default' $'params, line 1: [params]\nparams.d, line 2: d = 6' "$check" '[params]\nd = 6\n'
  points 'no multiple' $'params.decay_ms, line 3: decay_ms = 250\nround_ms, line 1: round_ms = 100' \
    '29 params.decay_ms\n`params.decay_ms` is 250: it must be a multiple of `round_ms`, which is 100\n' \
    'round_ms = 100\n[params]\ndecay_ms = 250\n'
  points 'no TOML' 'line 2: a = = 1' "$no_toml 2, column 5\nkey\n" 'b = 1\n a = = 1 \n'
  points 'no TOML at its end' '' "$no_toml 3, column 1\nkey\n" 'b = 1\na = [\n'
  points 'no UTF-8' '' "$no_toml 1, column 1\nkey\n" 'a = \xff\n'
  points 'a missing key of the top table' 'seed goes above the first header, line 2: [params]' '28 seed\n' '\n[params]\nd = 1\n'
  points 'a key below a header' $'seed goes above the first header, line 1: [params]\nparams.seed, line 2: seed = 1' \
    '28 seed\n' '[params]\nseed = 1\n'
  points 'a missing list' '' '28 topic\n' '[params]\nseed = 1\n'
  points 'a missing key where there is no header' '' '28 seed\n' 'rounds = 1\n'
  points 'a second name' $'peer[2].name, line 6: name = "a"\npeer[0].name, line 2: name = "a"' '31 peer[2].name\n' \
    '[[peer]]\nname = "a"\n[[peer]]\nname = "b"\n[[peer]]\nname = "a"\n'
  points 'a second dial' $'dial[1], line 3: {from = "b", to = "a"}]\ndial[0], line 2: {from = "a", to = "b"},' '31 dial[1]\n' \
    'dial = [\n{from = "a", to = "b"},\n{from = "b", to = "a"}]\n'
}

# What is changed before it is checked.
check_changed() {
  local given='[params]\nd = 6\ne = 5\n[[do]]\nat = 9\n[[do]]\nat = 1\npeer = "x"\n' shown origin until
  shown='of the changed scenario (bin/gossip_sim --print shows it)'
  points 'a change' 'params.d, by the change params.d=70' '29 params.d\n' '[params]\nd = 70\n' seed=1 params.d=70 seed=2
  points 'a change of what lies above' 'do[0].at, by the change do=[{at=3}]' '29 do[0].at\n' 'do = [{at = 3}]' 'do=[{at=3}]'
  points 'a change of an element' 'do[0], by the change do.0.at=3' '31 do[0]\n' 'do = [{at = 3}]' do.0.at=3
  points 'a line that stays' 'params.e, line 3: e = 5' '29 params.e\n' 'seed = 2\n\n[params]\ne = 5\nd = 6\n' seed=2
  points 'a table that stays' 'params, line 1: [params]' '28 params.f\n' '[params]\ne = 5\nd = 7\n' params.d=7
  until=3
  points 'a line of a cut' "do[0].peer, line 3 $shown: peer = \"x\"" '30 do[0].peer\n' '[[do]]\nat = 1\npeer = "x"\n' do.0.peer=1
  points 'a parameter with a cut' 'params.e, line 3: e = 5' '29 params.e\n' '[params]\nd = 6\ne = 5\n'
}

# Lines of a description: of keys that are handed through, and of what gave lines of the plain scenario.
check_described() {
  local text more printed='of what bin/scenario prints' changed kind
  text='until = "2 s"\n[params]\nd = 6\n[[topic]]\nname = "news"\nw4 = -9000\n[[peer]]\nname = "a"\n[[group]]\nprefix = "b"\n'
  text+='[[load]]\npeer = "b"\nat = "1 s"\n[[do]]\nat = "500 ms"\npeer = "a"\nwhat = "subscribe"\ntopic = "news"\n'
  points_in_description 'a parameter of a description' 'params.d, line 3: d = 6' '29 params.d\n' "$text"
  points_in_description 'a topic of a description' 'topic[0].w4, line 6: w4 = -9000' '29 topic[0].w4\n' "$text"
  points_in_description 'a peer of a description' 'peer[0].name, line 8: name = "a"' '31 peer[0].name\n' "$text"
  points_in_description 'a peer of a group' \
    "peer[1].name, line 10: prefix = \"b\", which gives line 12 $printed: { name = \"b\" }," '31 peer[1].name\n' "$text"
  points_in_description 'a line of a description' 'do[1].at, line 15: at = "500 ms"' '30 do[1].at\n' "$text"
  more=$(described '30 do[2].at\n' "$text")
  points_in_description 'a line of a load' \
    "do[2].at, line 11: [[load]], which gives line 18 $printed: ${more##*"$printed": }" '30 do[2].at\n' "$text"
  points_in_description 'the end of a description' "rounds, line 1: until = \"2 s\", which gives line 5 $printed: rounds = 20" \
    '29 rounds\n' "$text"
  points_in_description 'what a description leaves out' "capacity, line 7 $printed: capacity = 64" '29 capacity\n' "$text"
  points_in_description 'a parameter by name' \
    "params.d_low, line 1: params_from = \"filecoin\", which gives line 23 $printed: d_low = 6" \
    '29 params.d_low\n' "params_from = \"filecoin\"\n${text//news/msgs}"
  changed='[params]\nd = 7\n'
  points_in_description 'a change of a description' 'params.d, by the change params.d=7' '29 params.d\n' "$text" params.d=7
}

# Prints the keys and names of docs/COVERAGE.md whose hint is another one.
other_hints() {
  python3 -B - "$top" <<'END'
import re, sys
sys.path.insert(0, f"{sys.argv[1]}/bin/lib")
from hints import go_hint
with open(f"{sys.argv[1]}/docs/COVERAGE.md", encoding="utf-8") as file:
    table = file.read().split("| here | go-libp2p-pubsub |\n")[1].split("\n\n")[0]
count = 0
for row in table.splitlines():
    here, there = (re.findall("`([^`]+)`", it) for it in row.split("|")[1:3])
    for key, name in zip(here, there):
        if name.startswith(".."):
            name = re.sub("(Weight|Threshold)$", name[2:], there[0])
        # (the values of a list, and validators, are no names of keys)
        if re.fullmatch("[a-z_0-9]+", key) and not name.startswith("Validation"):
            count += 1
            if f"{name} is {key} of " not in (go_hint(name) or ""):
                print(key, name, go_hint(name))
print(count > 40)
END
}

check_hints() {
  points "go-libp2p's name" $'params.Dlo, line 2: Dlo = 5\ngo-libp2p\'s Dlo is d_low of [params] here' \
    '27 params.Dlo\n' '[params]\nDlo = 5\n'
  points "go-libp2p's name of what has no counterpart" \
    $'params.prune_peers, line 2: prune_peers = 5\ngo-libp2p\'s PrunePeers has no counterpart here: there is no peer exchange' \
    '27 params.prune_peers\n' '[params]\nprune_peers = 5\n'
  points "an object of go-libp2p's" \
    $'GossipSubParams, line 1: [GossipSubParams]\ngo-libp2p\'s names go into a .json file, which a description takes: params_from = "FILE.json"' \
    '27 GossipSubParams\n`GossipSubParams` is no key of the top table\n' '[GossipSubParams]\nD = 5\n'
  expect "go-libp2p's names in docs/COVERAGE.md" 0 True '' other_hints
  points 'a key of another table' $'d, by the change d=8\nd is a key of [params]: params.d?' \
    '27 d\n`d` is no key of the top table\n' 'd = 8\n' d=8
  points 'a key of topics' $'params.w4, line 2: w4 = 1\nw4 is a key of each [[topic]]: topic.0.w4?' \
    '27 params.w4\n' '[params]\nw4 = 1\n'
  points 'millionths' $'params.gossip_factor, line 2: gossip_factor = 0.25\nin millionths: 250000' '29 params.gossip_factor\n' \
    '[params]\ngossip_factor = 0.25 # a part\n'
  points 'a number that counts no millionths' $'params.d, line 2: d = 6.0\nwrite 6' '29 params.d\n' '[params]\nd = 6.0\n'
  points 'a threshold that is not in millionths' $'params.graylist_threshold, line 2: graylist_threshold = -16000
in millionths, -16000 is -16000000000' \
    '3\n`params.graylist_threshold` is -16000: it must not be above `publish_threshold`, which is -50000000\n' \
    '[params]\ngraylist_threshold = -16000\n'
  points 'a threshold in millionths' 'params.graylist_threshold, line 2: graylist_threshold = -1_600_000' \
    '3\n`params.graylist_threshold` is -1600000: it must not be above `publish_threshold`, which is -50000000\n' \
    '[params]\ngraylist_threshold = -1_600_000\n'
  points 'a number with a unit' $'params.heartbeat_ms, line 2: heartbeat_ms = "0.7 s"\nwrite 700, in milliseconds' \
    '29 params.heartbeat_ms\n' '[params]\nheartbeat_ms = "0.7 s"\n'
  points 'other faults of the same kind' "params.D, line 2: D = 8
go-libp2p's D is d of [params] here
also topic[0].w_4, line 6: w_4 = 1: \"w_4\" is not known here; the nearest is w4
also do[0].topik, line 9: topik = \"a\": \"topik\" is not known here; the nearest is topic
also params.d_low, line 3: d_low = 6.0: 6.0 must be a whole number; write 6" \
    '27 params.D\n' '[params]\nD = 8\nd_low = 6.0\n[[topic]]\nname = "a"\nw_4 = 1\n[[do]]\nwhat = "publish"\ntopik = "a"\n'
  expect_like 'many other faults' 0 '*also 3 more of this kind' '' pointed '27 a\n`a` is no key of the top table\n' \
    "a = 1\n$(printf 'a%d = 1\\n' {1..23})"
  points 'a number without an end' 'params.w5, line 2: w5 = inf' '29 params.w5\n' '[params]\nw5 = inf\n'
}

# warns NAME WARNINGS LINES: what is warned of the lines of two peers, on two topics.
warns() {
  expect "$1" 0 "$2" '' pointed '' "round_ms = 100\nrounds = 9\ntopic = [{name = \"t\"}, {name = \"u\"$weights}]
peer = [{name = \"a\"}, {name = \"b\"}, {name = \"c\"}]\ndial = [{from = \"a\", to = \"b\"}, $dial]\n${3-}"
}

# A line of the script: its round, its peer, what it does, and on which topic.
does() {
  printf '[[do]]\nat = %s\npeer = "%s"\nwhat = "%s"\ntopic = "%s"\n' "$@"
}

check_warnings() {
  local kind=warnings weights='' dial='{from = "c", to = "a"}' others weightless
  local late='P3 counts no further delivery of a later round' nobody='this publication reaches nobody: no'
  local named='peer = [{name = "a"}, {name = "b"}, {name = "c"}]' at='do[1].topic, line 15: topic = "t"'
  local listed='line 3: topic = [{name = "t"}, {name = "u"'
  others=$(does 4 b subscribe t)
  warns 'no doubt' '' "$others\n$(does 8 a publish t)"
  warns 'a subscriber that comes later' '' "$others\n$(does 1 a publish t)"
  warns 'a subscriber that leaves in that round' '' "$others\n$(does 5 a publish t)\n$(does 5 b unsubscribe t)"
  warns 'a subscriber that has left' "warning: $at: $nobody other peer is on the topic then or later" \
    "$others\n$(does 6 a publish t)\n$(does 5 b unsubscribe t)"
  warns 'a publication on another topic' "warning: ${at/t\"/u\"}: $nobody other peer is on the topic then or later" \
    "$others\n$(does 6 a publish u)"
  warns 'a publication to no neighbour' "warning: $at: $nobody neighbour of c is on the topic then or later" \
    "$others\n$(does 6 c publish t)"
  warns 'a publication to itself' "warning: $at: $nobody other peer is on the topic then or later" \
    "$(does 1 a subscribe t)\n$(does 6 a publish t)"
  warns 'a publication of the last round' \
    'warning: do[1].at, line 12: at = 9: a publication of the last round reaches no other peer' "$others\n$(does 9 a publish t)"
  dial=''
  warns 'a peer without neighbours' \
    "warning: peer[2].name, line 4: $named: no dial joins this peer to another, so it has no neighbour"
  dial='{from = "c", to = "a"}' weights=', w3 = -2000, p3_threshold = 9000'
  warns 'a default window below a round' \
    "warning: topic[1], $listed$weights}]: p3_window_ms is left out, which means 10, and that is below round_ms, which is 100: $late"
  weights=', w3b = -2000, p3_threshold = 9000, p3_window_ms = 99'
  warns 'a window below a round' \
    "warning: topic[1].p3_window_ms, $listed$weights}]: it is below round_ms, which is 100: $late"
  weights=', w3 = -2000, p3_threshold = 9000, p3_window_ms = 100' && warns 'a window of a round' ''
  weights=', w3 = -2000' && warns 'a window that nothing is missing in' ''
  weights=', w3 = -2000, p3_threshold = 9000, topic_weight = 0' && warns 'a window of a topic without weight' ''
  weights='' weightless='all weights are 0, so each score is 0 and this threshold does nothing'
  warns 'thresholds without weights' \
    "warning: params.gossip_threshold, line 9: gossip_threshold = -5000: $weightless" \
    '[params]\nw6 = 0\nw7 = 0\ngossip_threshold = -5000\ngraylist_threshold = -80_000_000'
  warns 'thresholds with a weight' '' '[params]\nw6 = 0\ngossip_threshold = -5000\n'
  warns 'thresholds with values' '' '[params]\nw6 = 0\nw7 = 0\ngossip_threshold = -5000\n[[app]]\nvalue = 1000\n'
  expect_like 'many doubts' 0 '*warning: there are 10 more warnings' '' pointed '' \
    "round_ms = 1\nrounds = 1\ntopic = []\npeer = [$(printf '{name = "%s"},' {1..60})]\n"
  points 'warnings of TOML 1.1' 'warning: this is no TOML 1.0, so there are no other warnings' '' 'a = {b = 1,}\n'
}

# Warnings of numbers: those that may be meant in ones, not in millionths, and shared addresses that cost nothing.
check_numbers() {
  local kind=warnings so='it counts millionths, so it is' peers most least
  points 'numbers that are not in millionths' "warning: params.w7, line 2: params.w7 = -16: $so -0.000016; for -16 write -16000000
warning: topic[0].topic_weight, line 5: topic_weight = 999: $so 0.000999; for 999 write 999000000
warning: topic[0].w1, line 6: w1 = 99: $so 0.000099; for 99 write 99000000
warning: app[0].value, line 11: value = 2: $so 0.000002; for 2 write 2000000" \
    '' 'round_ms = 100\nparams.w7 = -16\npeer = []\n[[topic]]\ntopic_weight = 999\nw1 = 99\nw2 = 0\n[[topic]]\nname = "a"
[[app]]\nvalue = 2\n'
  points 'numbers that may be in millionths' '' '' \
    'round_ms = 100\npeer = []\n[params]\ndecay_to_zero = 9\nd = 6\np7_decay = 1\n[[topic]]\nw1 = 100\nw4 = -1000\nw2 = 0\n'
  peers='rounds = 9\nround_ms = 100\ntopic = []\ndial = [{from = "a", to = "b"}, {from = "c", to = "a"}]
peer = [{name = "a"}, {name = "b", address = "x"}, {name = "c", address = "x"}]\n'
  points 'an address of two, which cost' '' '' "$peers"
  most='no peer has more than 2 neighbours at one address, and p6_threshold is 2'
  most+=', so shared addresses cost nothing and w6 has no effect'
  points 'an address of two, which cost nothing' "warning: params.p6_threshold, line 6: params.p6_threshold = 2: $most" '' \
    "${peers}params.p6_threshold = 2\n"
  least=${most//2/1}
  least=${least/neighbours/neighbour}
  points 'addresses that cost nothing by default' \
    "warning: peer[1].address, line 5: peer = [{name = \"a\"}, {name = \"b\", address = \"x\"}, {name = \"c\", address = \"x\"}]: $least" \
    '' "${peers/, to = \"a\"/, to = \"b\"}"
  points 'addresses without w6' '' '' "${peers}params.p6_threshold = 2\nparams.w6 = 0\n"
}

# What the commands say, whose program is the stand-in.
check_pointing() {
  local first said scenario='seed = 1\n[params]\nd = 70\n' words='29 params.d\nin words\n'
  first=$(unproved answer)$'\ngossip_sim: this is the first fault, and there may be more'
  said=$'told by gossip_sim\nin words\nparams.d, line 3: d = 70'
  expect_like 'words that point' 1 'gossip_sim  seed = 1*' "*$said" answered "$words" "$scenario" gossip_sim --words
  expect_like 'figures that are refused' 1 'gossip_stats  seed = 1*' "*${said/sim/stats}" \
    answered "$words" "$scenario" gossip_stats --words
  expect_like 'a picture that is refused' 1 'gossip_picture  seed = 1*' "*${said/sim/picture}" \
    answered "$words" "$scenario" gossip_picture --words
  expect_like 'a refusal without words' 1 'gossip_sim  seed = 1*' '*told by gossip_sim' answered "$words" "$scenario" gossip_sim
  expect 'a check that points' 1 $'29 params.d\nin words\nparams.d, line 3: d = 70' "$first" \
    answered "$words" "$scenario" gossip_sim --check
  expect 'a check of a cut' 1 \
    $'29 rounds\nrounds, line 1 of the changed scenario (bin/gossip_sim --print shows it): rounds = 5' \
    "$first" answered '29 rounds\n' 'rounds = 9\n' gossip_sim --check --until 5
}

check_points() {
  check_places
  check_refusals
  check_changed
  check_described
  check_hints
  check_warnings
  check_numbers
}
