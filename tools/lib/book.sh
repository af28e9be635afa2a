# shellcheck shell=bash disable=SC2154
# Runs the commands of docs/BOOK.md, and looks at the book's descriptions. tools/check_statuses reads this file. It sets `top`
# to the repository's folder and `room` to one for files, and has `expect`, `draw` and `sums_of`.

# Puts the commands of a page into files N.command, and what each prints into N.output. A script in Python goes into a file
# of the name that stands after `python`.
split_page() {
  awk -v room="$2" '
    /^```/ { is_code = !is_code; is_script = is_code && $1 == "```python"; file = is_script ? room "/" $2 : ""; next }
    is_code && !is_script && /^\$ / {
      file = sprintf("%s/%03d", room, ++many)
      printf "%s\n", substr($0, 3) >(file ".command")
      file = file ".output"
      printf "" >file
      next
    }
    is_code && file != "" { print >file }' "$1"
}

# Runs a command of the page. Files that it makes are there for those after it.
in_book() {
  (cd "$room/book" && bash -c "$1")
}

# Whether the page has the picture of a name.
shows_picture() {
  grep -ohm 1 "(pictures/$1.svg)" "$top/docs/BOOK.md"
}

# What bin/scenario makes of a description, into a file. Standard error names the parameters that have no counterpart here.
to_plain() {
  "$top/bin/scenario" "$1" 2>/dev/null >"$2"
}

# Looks at a description as tools/check_statuses does at plain scenarios: at the sums over its rounds and links, and at its
# picture where the page has one.
check_description() {
  local name plain=$room/plain.toml
  name=$(basename "$1" .toml)
  expect "the plain scenario of $name" 0 '' '' to_plain "$1" "$plain"
  expect "the sums over rounds and links of $name" 0 '' '' sums_of "$plain"
  ! shows_picture "$name" >/dev/null ||
    expect "the picture of $name" 0 "$(cat "$top/docs/pictures/$name.svg")" '' draw "$plain"
}

# Each command prints what the page says, each scenario of the book is run by some, and each picture is shown.
check_book() {
  local file name
  mkdir "$room/book"
  ln -s "$top/bin" "$top/examples" "$top/crates" "$room/book"
  split_page "$top/docs/BOOK.md" "$room/book"
  for file in "$room/book"/*.command; do
    expect "what the book shows for $(cat "$file")" 0 "$(cat "${file%.command}.output")" '' in_book "$(cat "$file")"
  done
  cat "$room/book"/*.command >"$room/book/all"
  for file in "$top"/examples/book/*.toml "$top"/examples/book/descriptions/*.toml; do
    name=${file#"$top"/}
    expect "that the book runs $name" 0 "$name" '' grep -ohm 1 "$name" "$room/book/all"
  done
  for file in "$top"/examples/book/descriptions/*.toml; do
    check_description "$file"
  done
  for file in "$top"/docs/pictures/*.svg; do
    name=$(basename "$file" .svg)
    expect "that the book has a place for the picture of $name" 0 "(pictures/$name.svg)" '' shows_picture "$name"
  done
}
