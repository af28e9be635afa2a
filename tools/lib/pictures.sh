# shellcheck shell=bash disable=SC2154
# Runs the program's command `picture`. tools/check_statuses reads this file. It sets `top` to the repository's folder, `room`
# to one for files and `example` to a scenario, and has `expect` and `program`.

picture() {
  program picture "$@"
}

picture_of() {
  picture "${@:2}" <"$1"
}

picture_of_folder() {
  picture </
}

picture_to_full_device() {
  picture <"$example" >/dev/full
}

picture_of_nothing() {
  picture <<<''
}

# Draws a scenario, and prints what a strict parser of XML finds in it: how many peers, and their names' longest.
parts_of_picture() {
  picture_of "$@" >"$room/picture.svg" || return
  python3 - "$room/picture.svg" <<'END'
import sys, xml.etree.ElementTree as tree
root = tree.parse(sys.argv[1]).getroot()
names = [it.text or "" for it in root.iter("{http://www.w3.org/2000/svg}text") if it.get("class", "").startswith("name")]
titles = [it.text or "" for it in root.iter("{http://www.w3.org/2000/svg}text") if it.get("class", "").startswith("title")]
print(root.tag, len(names), "peers, names of", max(map(len, names)), "letters,", "".join(titles))
END
}

# Draws a scenario, and prints what such a parser reads above the discs of the legend and above the chart.
heads_of_picture() {
  picture_of "$@" >"$room/picture.svg" || return
  python3 - "$room/picture.svg" <<'END'
import sys, xml.etree.ElementTree as tree
root = tree.parse(sys.argv[1]).getroot()
print(*(it.text or "" for it in root.iter("{http://www.w3.org/2000/svg}text") if it.get("class", "") == "head"), sep="\n")
END
}

# Scenarios of one peer, and of 64 with names of 32 letters.
with_peers() {
  local peer
  sed '/^\[\[peer\]\]/,$d' "$example"
  for ((peer = 0; peer < $1; peer++)); do
    printf '[[peer]]\nname = "%s%02d"\n' "$(printf '%030d' 0 | tr 0 n)" "$peer"
  done
}

# Statuses, what a strict parser reads, and the pictures of the book.
check_pictures() {
  local file name many svg='{http://www.w3.org/2000/svg}svg' usage='usage: gossip_picture [--large] [--progress] [--of PEERS] [--topic TOPIC]'
  local disc='Each disc is a peer, by the lowest score that a neighbour' gives='gives it at the end' share='Share of the subscribers'
  expect 'two topics to draw' 64 '' "$usage" picture_of "$example" --topic news --topic olds
  expect 'a topic to draw without its option' 64 '' "$usage" picture_of "$example" news
  expect 'no peers to draw by' 64 '' "$usage" picture_of "$example" --of
  expect 'two choices of peers to draw by' 64 '' "$usage" picture_of "$example" --of a --of b
  expect 'no scenario to draw' 1 '' 'scenario refused: 28 round_ms' picture_of_nothing
  expect 'a folder to draw' 3 '' 'input failed' picture_of_folder
  expect 'a picture on a full device' 3 '' 'output failed' picture_to_full_device
  expect 'a picture of two peers' 0 "$svg 2 peers, names of 1 letters, Topic news" '' parts_of_picture "$example"
  expect 'a picture of a topic with markup' 0 "$svg 2 peers, names of 1 letters, Topic <a & \"b'\\xc3\\xa9>" '' \
    parts_of_picture "$example" --topic "<a & \"b'é>"
  expect 'whose scores a picture has' 0 "$disc $gives"$'\n'"$share that each message reached" '' heads_of_picture "$example"
  expect 'whose scores a picture by one peer has' 0 \
    "$disc among a,<&'\"> $gives"$'\n'"$share among a,<&'\"> that each message reached" '' \
    heads_of_picture "$example" --topic news --of "a,<&'\">"
  for many in 1 16 64; do
    with_peers "$many" >"$room/peers.toml"
    expect "a picture of an empty run of $many" 0 "$svg $many peers, names of 32 letters, Topic " '' \
      parts_of_picture "$room/peers.toml"
  done
  "$top/examples/random_mesh.sh" 64 10 20 100 60 1 >"$room/mesh.toml"
  expect 'a picture of 64 peers' 0 "$svg 64 peers, names of 3 letters, Topic news" '' parts_of_picture "$room/mesh.toml"
  for file in "$top"/examples/book/*.toml; do
    name=$(basename "$file" .toml)
    expect "the picture of $name" 0 "$(cat "$top/docs/pictures/$name.svg")" '' picture_of "$file"
    expect "that the book shows the picture of $name" 0 "(pictures/$name.svg)" '' \
      grep -ohm 1 "(pictures/$name.svg)" "$top/docs/BOOK.md"
  done
}
