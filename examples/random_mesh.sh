#!/usr/bin/env bash
# Prints a scenario to measure with: PEERS peers (64) in a ring, with random dials beside it until each has DEGREE
# neighbours (10) or there is nobody left to dial, all subscribed to one topic, and MESSAGES messages (1,000) of BYTES
# bytes (100), distinct where those are 4 or more, by random peers, spread evenly over the rounds from 6 to ROUNDS (200)
# less 10. Publications go to meshes, a round lasts 100 milliseconds, and a heartbeat comes each second. The peers run on
# WORKERS threads (1), over links of CAPACITY places (64). The same arguments, SEED (7) among them, print the same text.
#
#   examples/random_mesh.sh 16 10 1000 100 200 1 64 7 > random_mesh.toml
#   time bin/gossip_sim < random_mesh.toml | wc -l
set -eu
exec awk -v peers="${1:-64}" -v degree="${2:-10}" -v messages="${3:-1000}" -v bytes="${4:-100}" -v rounds="${5:-200}" \
  -v workers="${6:-1}" -v capacity="${7:-64}" -v seed="${8:-7}" '
# a number below n, by a generator whose numbers every awk has exactly
function below(n) {
  state = (state * 16807) % 2147483647
  return state % n
}
function dial(p, q) {
  near[p, q] = near[q, p] = 1
  count[p]++
  count[q]++
  if (below(2)) printf "[[dial]]\nfrom = \"p%d\"\nto = \"p%d\"\n", p, q
  else printf "[[dial]]\nfrom = \"p%d\"\nto = \"p%d\"\n", q, p
}
# the other peer with the fewest neighbours that p may still dial, from a random place on; -1 where there is none
function partner(p,   first, found, i, q) {
  first = below(peers)
  found = -1
  for (i = 0; i < peers; i++) {
    q = (first + i) % peers
    if (q != p && !((p, q) in near) && count[q] < degree && (found < 0 || count[q] < count[found])) found = q
  }
  return found
}
BEGIN {
  state = seed % 2147483646 + 1
  printf "round_ms = 100\nrounds = %d\nworkers = %d\ncapacity = %d\nseed = %d\n", rounds, workers, capacity, seed
  printf "\n[params]\nflood_publish = false\n\n[[topic]]\nname = \"news\"\n\n"
  for (p = 0; p < peers; p++) printf "[[peer]]\nname = \"p%d\"\n", p
  for (p = 0; p + 1 < peers; p++) dial(p, p + 1)
  if (peers > 2) dial(peers - 1, 0)
  for (p = 0; p < peers; p++)
    while (count[p] < degree && (q = partner(p)) >= 0) dial(p, q)
  for (p = 0; p < peers; p++) printf "[[do]]\nat = 0\npeer = \"p%d\"\nwhat = \"subscribe\"\ntopic = \"news\"\n", p
  last = rounds - 10 > 6 ? rounds - 10 : 6
  for (m = 0; m < messages; m++) {
    printf "[[do]]\nat = %d\npeer = \"p%d\"\nwhat = \"publish\"\ntopic = \"news\"\nhex = \"", \
      6 + int(m * (last - 5) / messages), below(peers)
    for (i = 0; i < bytes; i++) printf "%02x", i < 4 ? int(m / 256 ^ (3 - i)) % 256 : below(256)
    printf "\"\n"
  }
}'
