# shellcheck shell=bash disable=SC2154
# Descriptions instead of scenarios. bin/lib/runs.sh reads this file, and sets `top` to the repository's folder.

# Whether a file has a header that only descriptions have, of those that are given.
has_header() {
  grep -qE '^[[:space:]]*\[\[?[[:space:]]*(network|group|load|attack|send|partition)[[:space:]]*\]' -- "$1" 2>/dev/null
}

# Whether a file is a description. Standard input and pipes can't be read twice, and are not looked at.
is_description() {
  [ "$1" != - ] && [ -f "$1" ] && has_header "$1"
}

# Says that a refused input which is no file looks like a description. A file that is one was expanded before.
say_unexpanded() {
  local why='this looks like a description, and from standard input or a pipe none is read'
  if ! is_description "$1" && has_header "$room/input"; then
    echo "$tool: $why: bin/scenario - | bin/$tool" >&2
  fi
}

# Refuses changes of keys that only descriptions have: they are expanded before any change is made.
refuse_edits() {
  local it key part why='is a key of the description, which is expanded before --set'
  for it in "${edits[@]}"; do
    key=${it%%=*} part=${it%%[.=]*}
    case $part in
      network | group | load | attack | send | partition | params_from | until)
        stop 64 "$key: $part $why; change it in $1, or take seeds of the network by bin/sweep --networks"
        ;;
    esac
  done
}

# Makes the plain scenario of a description the standard input, or ends as bin/scenario does.
expand() {
  local plain
  refuse_edits "$1"
  plain=$("$top/bin/scenario" "${large[@]}" -- "$1") || exit
  exec <<<"$plain"
}
