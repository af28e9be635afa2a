# shellcheck shell=bash disable=SC2154
# What bin/libp2p_trace makes of the lines of a trace, and what it refuses. tools/check_scripts reads this file. The events of
# three entries are worked out from the fields of go-libp2p-pubsub's trace.proto: YQ== is a in base64, Yg== is b, and
# ungWv48Bz+pBQUDeXa4iI7ADYaOWF3qctBD/YfIAFa0= the SHA-256 of abc (FIPS 180-4).

as_libp2p() {
  printf '%s\n' "$@" | "$top/bin/libp2p_trace"
}

# The same of the lines of a run of one round of a and b, where each ends it and shuts down.
as_run() {
  local peer nothing='"sent":[],"delivered":[],"promise":null,"marks":[]' ends=()
  for peer in a b; do
    ends+=('{"round":0,"at":0,"peer":"'"$peer"'","event":"round_end","number":0,'"$nothing"'}')
    ends+=('{"round":0,"at":0,"peer":"'"$peer"'","event":"shut",'"$nothing"'}')
  done
  as_libp2p '{"peers":["a","b"],"round_ms":100,"last_round":0}' "$@" "${ends[@]}"
}

check_traces() {
  local head='{"peers":["a","b"],"round_ms":100,"last_round":0}' id='ungWv48Bz+pBQUDeXa4iI7ADYaOWF3qctBD/YfIAFa0='
  local hex=ba7816bf8f01cfea414140de5dae2223b00361a396177a9cb410ff61f20015ad nothing='"delivered":[],"promise":null'
  local message='{"from":null,"data":"616263","seqno":null,"topic":"news","signature":null,"key":null}'
  local part lacks='libp2p_trace: this is not a whole trace, and gives too few events'
  local rpc='{"subscriptions":[],"publish":['$message'],"control":null}'
  expect 'no events' 0 '' '' as_run
  expect 'a topic that is joined' 0 '{"type":9,"peerID":"YQ==","timestamp":100000000,"join":{"topic":"news"}}' '' as_run \
    '{"round":1,"at":100,"peer":"a","event":"subscribe","topic":"news","sent":[],'"$nothing"',"marks":[]}'
  expect 'a topic that is no ASCII' 0 '{"type":9,"peerID":"YQ==","timestamp":0,"join":{"topic":"\u00e9\ufffd"}}' '' as_run \
    '{"round":0,"at":0,"peer":"a","event":"subscribe","topic":"\u00c3\u00a9\u00ff","sent":[],'"$nothing"',"marks":[]}'
  expect 'what is sent in a round goes out at its end' 0 \
    '{"type":0,"peerID":"YQ==","timestamp":100000000,"publishMessage":{"messageID":"'"$id"'","topic":"news"}}
{"type":11,"peerID":"YQ==","timestamp":100000000,"graft":{"peerID":"Yg==","topic":"news"}}
{"type":7,"peerID":"YQ==","timestamp":0,"sendRPC":{"sendTo":"Yg==","meta":{"messages":[{"messageID":"'"$id"'","topic":"news"}]}}}' \
    '' as_run \
    '{"round":1,"at":100,"peer":"a","event":"publish","topic":"news","data":"616263","id":"'$hex'","sent":[{"to":"b","rpc":'"$rpc"'}],'"$nothing"',"marks":[{"mark":"grafted","peer":"b","topic":"news"}]}'
  expect 'a message that is rejected' 0 \
    '{"type":1,"peerID":"YQ==","timestamp":100000000,"rejectMessage":{"messageID":"'"$id"'","receivedFrom":"Yg==","reason":"validation failed","topic":"news"}}' \
    '' as_run \
    '{"round":1,"at":100,"peer":"a","event":"message","from":"b","part":'"$message"',"id":"'$hex'","sent":[],'"$nothing"',"marks":[{"mark":"invalid","peer":"b","topic":"news"},{"mark":"seen","id":"'$hex'","verdict":"reject"}]}'
  for part in '"from":null' '"seqno":null' '"key":null'; do
    expect_like "a message with ${part%:*}" 0 '*"reason":"unexpected auth info"*' '' as_run \
      '{"round":0,"at":0,"peer":"a","event":"message","from":"b","part":'"${message/"$part"/${part%null}\"00\"}"',"id":"'$hex'","sent":[],'"$nothing"',"marks":[{"mark":"invalid","peer":"b","topic":"news"}]}'
  done
  expect_like 'a message with a signature and an author' 0 '*"reason":"unexpected signature"*' '' as_run \
    '{"round":0,"at":0,"peer":"a","event":"message","from":"b","part":{"from":"62","data":"616263","seqno":null,"topic":"news","signature":"00","key":null},"id":"'$hex'","sent":[],'"$nothing"',"marks":[{"mark":"invalid","peer":"b","topic":"news"}]}'
  expect 'a trace without lines of its peers' 1 '' "$lacks: a ends 0 rounds of 1" as_libp2p "$head"
  expect 'a trace without the shutdown of a peer' 1 '' "$lacks: a does not shut down" as_libp2p "$head" \
    '{"round":0,"at":0,"peer":"a","event":"round_end","number":0,"sent":[],'"$nothing"',"marks":[]}'
  expect 'no trace' 1 '' "$lacks: it has no line" "$top/bin/libp2p_trace" /dev/null
  expect_like 'a line that is none of a trace' 1 '' 'libp2p_trace: line 2 is no line of a trace: *' as_libp2p "$head" '{}'
  expect 'a trace that is not there' 66 '' "libp2p_trace: $room/none can't be read: No such file or directory" \
    "$top/bin/libp2p_trace" "$room/none"
  expect 'two traces' 64 '' 'libp2p_trace: it takes one file; --help says more' "$top/bin/libp2p_trace" a b
}
