# shellcheck shell=bash disable=SC2154
# Scenarios with many neighbours, and what is printed of them. tools/check_statuses reads this file, sets `top` to the
# repository's folder, and has `expect`.

# neighbours WHO PEERS BYTES WORKERS: peers that all subscribe in round 0, each publish BYTES bytes in round 2, and
# end before a heartbeat. Each is joined to each where WHO is `all`, else the first to all others.
neighbours() {
  awk -v who="$1" -v peers="$2" -v bytes="$3" -v workers="$4" -v capacity=1 '
  function dial(p, q) { printf "[[dial]]\nfrom = \"p%d\"\nto = \"p%d\"\n", p, q }
  BEGIN {
    printf "round_ms = 100\nrounds = 6\nworkers = %d\ncapacity = %d\nseed = 1\n", workers, capacity
    printf "[[topic]]\nname = \"news\"\n"
    for (p = 0; p < peers; p++) printf "[[peer]]\nname = \"p%d\"\n", p
    for (p = 0; p < peers; p++)
      for (q = p + 1; q < peers; q++)
        if (p == 0 || who == "all") dial(p, q)
    for (p = 0; p < peers; p++) {
      printf "[[do]]\nat = 0\npeer = \"p%d\"\nwhat = \"subscribe\"\ntopic = \"news\"\n", p
      printf "[[do]]\nat = 2\npeer = \"p%d\"\nwhat = \"publish\"\ntopic = \"news\"\n", p
      printf "hex = \"%0*x\"\n", 2 * bytes, p
    }
  }'
}

# neighbours_report WHO PEERS BYTES: by `flood_publish` each message goes to every neighbour of its peer. They deliver it
# in the next round, in the order of the neighbours. No mesh has members yet, so nobody passes it on.
neighbours_report() {
  awk -v who="$1" -v peers="$2" -v bytes="$3" '
  function joins(p, q) { return p != q && (who == "all" || p == 0 || q == 0) }
  function deliver(p, moment, q) { printf "delivered p%d %d news %0*x\n", p, moment, 2 * bytes, q }
  BEGIN {
    for (p = 0; p < peers; p++) {
      deliver(p, 200, p)
      for (q = 0; q < peers; q++) if (joins(p, q)) deliver(p, 300, q)
    }
    for (p = 0; p < peers; p++)
      for (q = 0; q < peers; q++)
        if (joins(p, q) && ++links) printf "score p%d p%d 0.000000\n", p, q
    printf "links %d settled\n", links
  }'
}

# A run of them, which has to end.
among() {
  neighbours "$@" | timeout 60 env --default-signal=PIPE "$top/bin/gossip_sim" --proved
}

# Runs with many neighbours over links of one place. They do not end where a peer is never due, or waits for the wrong
# neighbour.
check_neighbours() {
  local workers who peers bytes name
  for workers in 1 3; do
    while read -r who peers bytes name; do
      expect "$name, $workers workers" 0 "$(neighbours_report "$who" "$peers" "$bytes")" '' \
        among "$who" "$peers" "$bytes" "$workers"
    done <<'END'
all 20 1 20 peers, each joined to each
all 12 300 12 peers that send much
hub 18 1 17 neighbours of a peer
hub 34 1 33 neighbours of a peer
END
  done
}
