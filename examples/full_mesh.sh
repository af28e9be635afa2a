#!/usr/bin/env bash
# Prints a scenario to measure with: PEERS peers (64), each two joined by a dial, all subscribed to one topic, and
# MESSAGES messages (1,000) of 100 bytes, ten in a round, published by each peer in turn. The peers run on WORKERS
# threads (1), over links of CAPACITY places (1,024).
#
#   examples/full_mesh.sh 64 1000 4 1024 > full_mesh.toml
#   time bin/gossip_sim < full_mesh.toml | wc -l
set -eu
exec awk -v peers="${1:-64}" -v messages="${2:-1000}" -v workers="${3:-1}" -v capacity="${4:-1024}" 'BEGIN {
  printf "round_ms = 100\nrounds = %d\nworkers = %d\ncapacity = %d\nseed = 1\n\n", int(messages / 10) + 5, workers, capacity
  printf "[[topic]]\nname = \"news\"\n\n"
  for (p = 0; p < peers; p++) printf "[[peer]]\nname = \"p%d\"\n", p
  for (p = 0; p < peers; p++) for (q = p + 1; q < peers; q++) printf "[[dial]]\nfrom = \"p%d\"\nto = \"p%d\"\n", p, q
  for (p = 0; p < peers; p++) printf "[[do]]\nwhat = \"subscribe\"\nat = 0\npeer = \"p%d\"\ntopic = \"news\"\n", p
  for (m = 0; m < messages; m++) {
    printf "[[do]]\nwhat = \"publish\"\nat = %d\npeer = \"p%d\"\ntopic = \"news\"\nhex = \"%0200x\"\n", 2 + int(m / 10), m % peers, m
  }
}'
