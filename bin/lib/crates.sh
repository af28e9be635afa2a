# shellcheck shell=bash disable=SC2154
# What crates.txt says, and whether a proved program stands. Scripts of bin/ read this file, once they have set `top` to
# the repository's folder. A command such as gossip_stats is a word of the one program gossip_sim. Functions here take the
# names of commands and of crates.

# Prints the crate whose program has a command. Another name is that of a crate.
crate_of() {
  case $1 in
    gossip_stats | gossip_trace | gossip_scores | gossip_picture | gossip_check | gossip_edit) echo gossip_sim ;;
    *) echo "$1" ;;
  esac
}

# Prints the word by which the program knows a command, and nothing where there is none.
word_of() {
  [ "$(crate_of "$1")" = "$1" ] || echo "${1#gossip_}"
}

# Prints the crates of these names, each once.
crates_of() {
  local it
  for it; do
    crate_of "$it"
  done | awk '!seen[$0]++'
}

# Prints a line for each of these crates, and for those of this repository below them: its name, and what it uses.
crates_below() {
  awk -v wanted="$*" '
    { sub(/#.*/, ""); gsub(/,/, " ") }
    NF { name = $1; sub(/:.*/, "", name); sub(/^[^:]*:?/, ""); uses[name] = $0 }
    END {
      count = split(wanted, found)
      for (i = 1; i <= count; i++) seen[found[i]]
      for (i = 1; i <= count; i++) {
        if (!(found[i] in uses)) continue # the kit has it
        print found[i], uses[found[i]]
        used = split(uses[found[i]], names)
        for (j = 1; j <= used; j++) if (!(names[j] in seen)) { seen[names[j]]; found[++count] = names[j] }
      }
    }' "$top/crates.txt"
}

program_of() {
  local crate
  crate=$(crate_of "$1")
  echo "$top/crates/$crate/out/$crate"
}

# Prints crates.txt, or a source of a crate or of those below it, that is newer than a file, if there is one. Further words
# go to `find`.
newer_source() {
  local file=$1 crate part places=(crates.txt)
  while read -r crate _; do
    for part in src specs proofs; do
      [ ! -d "$top/crates/$crate/$part" ] || places+=("crates/$crate/$part")
    done
  done < <(crates_below "$2")
  shift 2
  (cd "$top" && find "${places[@]}" "$@" -type f \( -name '*.rt' -o -name '*.antt' -o -name crates.txt \) \
    -newer "$file" -print -quit)
}

# (what `find` is to leave out where tests do not count)
no_tests=(! -path '*/tests/*' ! -name tests.rt)

# Says why the proved program of a name can't be used, and nothing where it can. There are no tests in a program, so it is
# not older for them.
lack_of() {
  local program newer
  program=$(program_of "$1")
  if [ ! -x "$program" ]; then
    echo 'is not built'
  else
    newer=$(newer_source "$program" "$(crate_of "$1")" "${no_tests[@]}")
    [ -z "$newer" ] || echo "is older than $newer"
  fi
}
