# shellcheck shell=bash disable=SC2154
# What bin/gossip_view takes and refuses, where a script stands in for the program, and what a page shows for given lines. The lists of
# numbers are worked out by hand from bin/lib/view_events.py. tools/check_scripts reads this file.

tried_view() {
  echo scenario | GUNTHARU_D3=$room/library in_tree tried=0 gossip_view "$@"
}

# What a page would show for these lines, and for a part of them. `rules` is a scenario, and `shown` has what is printed.
rules='' shown=(meshes subscribed lost figures events)
run_of() {
  local rounds=$1 only=$2
  shift 2
  printf '%s\n' "$@" | python3 -c '
import sys
sys.dont_write_bytecode = True
sys.path.insert(0, sys.argv[1])
from view import run_of
from view_messages import rules_of
rounds = tuple(map(int, sys.argv[2].split(".."))) if sys.argv[2] else None
run = run_of(sys.stdin, rounds, sys.argv[3] or None, rules_of(sys.argv[4])).data()
for it in sys.argv[5:]:
    print(it, run[it])
' "$top/bin/lib" "$rounds" "$only" "$rules" "${shown[@]}"
}

made_view() {
  printf '%s\n' "${@:4}" | python3 "$top/bin/lib/view.py" run "$1" "$2" "$3" '' '' "$room/page"
}

check_views() {
  local usage='gossip_view: --rounds takes A..B, from the first round to the last one, not'
  mkdir "$room/library" && touch "$room/library"/{d3.min.js,copyright}
  expect 'a page of rounds that are none' 64 '' "$usage 3..2; --help says more" tried_view --rounds 3..2
  expect 'a page of a round without an end' 64 '' "$usage 3; --help says more" tried_view --rounds=3
  expect 'a page of no rounds' 64 '' 'gossip_view: --rounds takes a value; --help says more' tried_view --rounds
  expect 'a page of rounds twice' 64 '' 'gossip_view: --rounds stands there twice; --help says more' \
    tried_view --rounds 1..2 --rounds 1..2
  expect 'a page of two peers' 64 '' 'gossip_view: --peer stands there twice; --help says more' tried_view --peer a --peer=b
  expect 'a page of a peer without a name' 64 '' 'gossip_view: --peer takes a name; --help says more' tried_view --peer=
  expect 'a page of a topic' 64 '' 'gossip_view: there is no option --topic; --help says which there are' tried_view --topic news
  expect 'a page of two runs' 64 '' 'gossip_view: one scenario at a time, not 2; --help says more' tried_view a b
  expect 'a page of a file that is not there' 66 '' "gossip_view: there is no file $room/none" tried_view "$room/none"
  expect_like 'a page on a terminal' 64 '*gossip_view: a page is for a browser, and not for a terminal: *' '' \
    on_terminal "$top/bin/gossip_view" "$example"
  expect 'a page without the library' 4 '' "gossip_view: $room/lost/d3.min.js can't be read; apt-get install libjs-d3 brings it" \
    env "GUNTHARU_D3=$room/lost" "$top/bin/gossip_view" "$example"
  expect_like 'a page with --proved' 4 '' 'gossip_view: gossip_sim is not built: bin/build proves and builds it' \
    tried_view --proved
  expect_like 'a page of lines that are none of a trace' 3 '' \
    'gossip_view: this page does not come from a proved program: gossip_sim is not built*told by gossip_trace
gossip_view: line 1 of the trace: *' tried_view
  expect_like 'a page of a scenario that is refused' 1 '' '*told by gossip_*' refused_view
  check_pages
  check_messages
  check_scores
}

# Runs a command on a terminal.
on_terminal() {
  python3 -c 'import os, pty, sys; sys.exit(os.waitstatus_to_exitcode(pty.spawn(sys.argv[1:])))' "$@"
}

refused_view() {
  echo scenario | GUNTHARU_D3=$room/library in_tree tried=1 gossip_view
}

# Two peers: b joins the mesh of a, and sends it a message twice, a GRAFT that is refused, and an RPC that is not heard.
check_pages() {
  local head='{"peers":["a","b"],"round_ms":100,"last_round":2,"dials":[{"from":"a","to":"b"}]}' id
  local message='{"from":null,"data":"616263","seqno":null,"topic":"news","signature":null,"key":null}' rest lines
  local rpc='{"subscriptions":[],"publish":['$message'],"control":null}'
  id=$(printf 'ab%.0s' {1..32})
  rest='"sent":[],"delivered":[],"promise":null,"marks":['
  lines=(
    '{"round":0,"at":0,"peer":"a","event":"subscribe","topic":"news",'"$rest"'{"mark":"grafted","peer":"b","topic":"news"}]}'
    '{"round":0,"at":0,"peer":"a","event":"round_end","number":0,'"$rest"']}'
    '{"round":1,"at":100,"peer":"a","event":"heard","from":"b","rpc":'"$rpc,$rest"']}'
    '{"round":1,"at":100,"peer":"a","event":"message","from":"b","part":'"$message"',"id":"'"$id"'","sent":[],"delivered":[{"topic":"news","data":"616263","id":"'"$id"'"}],"promise":null,"marks":[{"mark":"seen","id":"'"$id"'","verdict":"accept"},{"mark":"first","peer":"b","topic":"news","id":"'"$id"'"}]}'
    '{"round":1,"at":100,"peer":"a","event":"message","from":"b","part":'"$message"',"id":"'"$id"'",'"$rest"']}'
    '{"round":1,"at":100,"peer":"a","event":"graft","from":"b","part":{"topicID":"sport"},'"$rest"'],"fell_away":[{"what":"graft","from":"b","topic":"sport","why":"backoff"}]}'
    '{"round":1,"at":100,"peer":"a","event":"round_end","number":1,'"$rest"']}'
    '{"round":2,"at":200,"peer":"a","event":"heard","from":"b","rpc":'"$rpc,$rest"'],"fell_away":[{"what":"graylisted","from":"b"}]}'
    '{"round":2,"at":200,"peer":"a","event":"gone","from":"b",'"$rest"'{"mark":"pruned","peer":"b","topic":"news"}]}'
    '{"round":2,"at":200,"peer":"a","event":"round_end","number":2,'"$rest"']}'
  )
  expect 'what a page shows about a trace' 0 "meshes [[0, 1, 0, 0, 2]]
subscribed [[0, 0, 0, 3]]
lost [[0, 1, 2, 3]]
figures [[0, 0, 0, 0, 0, 0, 0, 1, 1], [1, 1, 1, 0, 0, 0, 0, 1, 1], [0, 0, 0, 0, 0, 0, 0, 0, 0]]
events [[[0, 14, -1, 0, -1, -1, [[0, 1, 0]]]], [[0, 3, 1, 0, 0, 0], [0, 3, 1, 0, 0, 1], [0, 6, 1, 1, -1, 0, [[20, 1, 1, 0]]]], [[0, 0, 1, -1, -1, -1, [[17, 0, 1], [18, 1]]], [0, 19, 1, -1, -1, -1, [[1, 1, 0]]]]]" \
    '' run_of '' '' "$head" "${lines[@]}"
  expect 'what a page shows about a round' 0 "meshes [[0, 1, 0, 0, 2]]
subscribed [[0, 0, 0, 3]]
lost [[0, 1, 2, 3]]
figures [[0, 0, 0, 0, 0, 0, 0, 0, 0]]
events [[[0, 0, 1, -1, -1, -1, [[17, 0, 1], [18, 1]]], [0, 19, 1, -1, -1, -1, [[1, 1, 0]]]]]" '' run_of 2..9 '' "$head" "${lines[@]}"
  expect 'what a page shows about a peer: what others heard of it' 0 "meshes [[0, 1, 0, 0, 2]]
subscribed [[0, 0, 0, 3]]
lost [[0, 1, 2, 3]]
figures [[0, 0, 0, 0, 0, 0, 0, 1, 1], [1, 1, 1, 0, 0, 0, 0, 1, 1], [0, 0, 0, 0, 0, 0, 0, 0, 0]]
events [[], [[0, 3, 1, 0, 0, 0], [0, 3, 1, 0, 0, 1]], []]" '' run_of '' b "$head" "${lines[@]}"
  expect 'a page of a peer that is not there' 64 '' 'gossip_view: the run has no peer c' made_view '' c '' "$head"
  expect 'a page of rounds after the last one' 64 '' 'gossip_view: the last round is 2, before those of --rounds' \
    made_view 3..4 '' '' "$head"
  expect 'a page of a trace that ends at once' 65 '' 'gossip_view: the trace has no line' no_lines
}

# What a page shows about messages, and about what became of them. b and c are on the topic from round 0 on, and c hangs up on its only
# neighbour in round 1. In round 1 a publishes 01, which b has in round 2. In round 2 it publishes ff, which b ignores, and
# ignores again. In round 5 it publishes 01 once more, which it has forgotten, and b has not.
check_messages() {
  local head='{"peers":["a","b","c"],"round_ms":100,"last_round":6,"dials":[{"from":"a","to":"b"},{"from":"b","to":"c"}]}'
  local nothing='"sent":[],"delivered":[],"promise":null,"marks":[]' one=aa other=bb lines shown=(figures publications) rules=$room/rules
  lines=("$head" "$(subscribes 0 b)" "$(subscribes 0 c)" "$(subscribes 1 a)" "$(publishes 1 $one 01 a)"
    '{"round":1,"at":100,"peer":"c","event":"hang_up","to":"b",'"$nothing"'}' "$(handles 2 $one 01 b accept)"
    "$(publishes 2 $other ff a)" "$(handles 3 $other ff b ignore)" "$(handles 4 $other ff b)" "$(publishes 5 $one 01 a)")
  printf '%s\n' 'params = { seen_ttl_ms = 400 }' 'topic = [{ name = "t", ignore = ["F"] }]' >"$rules"
  expect 'what a page shows about messages' 0 "figures [[0, 0, 0, 0, 0, 0, 0, None, None], [0, 0, 0, 0, 0, 0, 0, None, None], [1, 1, 0, 0, 0, 0, 0, None, None], [0, 0, 0, 1, 0, 0, 0, None, None], [0, 0, 0, 1, 0, 0, 0, None, None], [0, 0, 0, 0, 0, 0, 0, None, None], [0, 0, 0, 0, 0, 0, 0, None, None]]
publications [[0, 0, 1, 'accept', [0], [1, 2], [(0, 1), (1, 2)]], [0, 1, 2, 'ignore', [0], [1], [(0, 2)]], [0, 0, 5, 'accept', [0], [1], [(0, 5), (1, 5)]]]" \
    '' run_of '' '' "${lines[@]}"
  expect 'what a page of one round shows about messages' 0 "figures [[0, 0, 0, 0, 0, 0, 0, None, None]]
publications [[0, 0, 5, 'accept', [0], [1], [(0, 5), (1, 5)]]]" '' run_of 5..5 '' "${lines[@]}"
  expect 'what a page of one peer shows about messages' 0 "figures [[0, 0, 0, 0, 0, 0, 0, None, None]]
publications None" '' run_of 5..5 a "${lines[@]}"
  echo 'params =' >"$rules"
  expect 'what a page shows about messages where it can not read the rules' 0 "figures [[0, 0, 0, 0, 0, 0, 0, None, None]]
publications None" '' run_of 5..5 '' "${lines[@]}"
}

# Lines of a trace: a peer comes onto the topic, publishes on it, or handles a message of a.
subscribes() {
  echo '{"round":'"$1"',"at":'"$(($1 * 100))"',"peer":"'"$2"'","event":"subscribe","topic":"t","sent":[],"delivered":[],"promise":null,"marks":[]}'
}

publishes() {
  local mark='{"mark":"seen","id":"'$2'","verdict":"accept"}'
  echo '{"round":'"$1"',"at":'"$(($1 * 100))"',"peer":"'"$4"'","event":"publish","topic":"t","data":"'"$3"'","id":"'"$2"'","sent":[],"delivered":[],"promise":null,"marks":['"$mark"']}'
}

handles() {
  local part='{"from":null,"data":"'$3'","seqno":null,"topic":"t","signature":null,"key":null}' marks='' delivered=''
  [ -z "${5-}" ] || marks='{"mark":"seen","id":"'$2'","verdict":"'$5'"}'
  if [ "${5-}" = accept ]; then
    delivered='{"topic":"t","data":"'$3'","id":"'$2'"}'
    marks+=',{"mark":"first","peer":"a","topic":"t","id":"'$2'"}'
  fi
  echo '{"round":'"$1"',"at":'"$(($1 * 100))"',"peer":"'"$4"'","event":"message","from":"a","part":'"$part"',"id":"'"$2"'","sent":[],"delivered":['"$delivered"'],"promise":null,"marks":['"$marks"']}'
}

# What a page shows about these lines of scores.
scores_of() {
  printf '%s\n' "${@:2}" >"$room/scores"
  python3 -c '
import sys
sys.dont_write_bytecode = True
sys.path.insert(0, sys.argv[1])
from view import scores_of
from view_events import Events
for key, it in scores_of(sys.argv[2], Events(["a", "b"]), sys.argv[3] or None).items():
    print(key, it)
' "$top/bin/lib" "$room/scores" "$1"
}

# A score that stays the same is kept once. One of -90 has three invalid messages, squared and weighed by -10, and 0.01 of P1.
check_scores() {
  local head none topics rest line
  head='{"peers":["a","b"],"round_ms":100,"last_round":2,"thresholds":{"gossip_threshold":-10.000000,"publish_threshold":-50.000000,"graylist_threshold":-80.000000}}'
  none='{"counted":0.000000,"weighed":0.000000}'
  topics='{"topic":"news","time_in_mesh":{"counted":1.000000,"weighed":0.010000},"first_message_deliveries":'$none
  topics+=',"mesh_message_deliveries":'$none',"mesh_failure_penalty":'$none
  topics+=',"invalid_message_deliveries":{"counted":3.000000,"weighed":-90.000000},"topic_score":-89.990000}'
  rest='"app_specific_score":'$none',"ip_colocation_factor":{"neighbours":1,"weighed":0.000000},"behaviour_penalty":'$none'}'
  line='"neighbour":"b","score":0.000000,"topics":[],"topic_sum":0.000000,"capped_topic_sum":0.000000,'$rest
  expect 'what a page shows about scores' 0 "thresholds [-10, -50, -80]
bodies [[0, 0, 0, 0, 0, 1, 0, 0, 0, []], [-89.99, -89.99, -89.99, 0, 0, 1, 0, 0, 0, [[0, -89.99, 1, 0.01, 0, 0, 0, 0, 0, 0, 3, -90]]]]
pairs [[0, 1, [0, 0, 0, 2, 1, 1]]]" '' scores_of '' "$head" '{"round":0,"at":0,"peer":"a","event":"heartbeat",'"$line" \
    '{"round":1,"at":100,"peer":"a","event":"heartbeat",'"$line" \
    '{"round":2,"at":200,"peer":"a","event":"decay","neighbour":"b","score":-89.990000,"topics":['"$topics"'],"topic_sum":-89.990000,"capped_topic_sum":-89.990000,'"$rest"
  expect 'what a page of another peer shows about scores' 0 'thresholds [-10, -50, -80]
bodies [[0]]
pairs [[0, 1, [0, 0, 0]]]' '' scores_of c "$head" '{"round":0,"at":0,"peer":"a","event":"heartbeat",'"$line"
}

no_lines() {
  python3 "$top/bin/lib/view.py" run '' '' '' '' '' "$room/page"
}
