# Prints what the parts of pages (as pages.awk prints them) name of the repository, one a line. A line has four columns, with
# tabs between: FILE:LINE, what it is, what stands there, and what is to be looked for. It is a `name` or a `path`. It is
# `elsewhere` where go-libp2p has the name, and `absent` where docs/DECISIONS.md says that it is not here.
# A name has a `_`, a `::`, or a small letter and then a capital, and stands between backquotes.

BEGIN { FS = "\t" }

function is_path(word) {
  return word ~ /^((crates|bin|tools|docs|examples|src|specs|proofs|must-fail|mutants)\/|\.ci)/
}

# The names in a word: each part of `Topics::graft` is one.
function print_names(word,   pieces, parts, count, many, i, j) {
  count = split(word, pieces, /[^A-Za-z0-9_:]+/)
  for (i = 1; i <= count; i++) {
    if (pieces[i] !~ /_|::|[a-z0-9][A-Z]/) continue
    many = split(pieces[i], parts, /:+/)
    for (j = 1; j <= many; j++) if (parts[j] ~ /^[A-Za-z]./) print $1 "\t" kind "\t" pieces[i] "\t" parts[j]
  }
}

# What a text names. Outside backquotes that is only what lies in a folder.
function print_words(text, is_code,   words, count, i) {
  count = split(text, words, /[^A-Za-z0-9_:.\/*~-]+/)
  for (i = 1; i <= count; i++) {
    sub(/[.:-]+$/, "", words[i])
    if (is_path(words[i])) print $1 "\tpath\t" words[i] "\t" words[i]
    # (an option, or a part of a name)
    else if (is_code && words[i] !~ /^-|\*|\.\.|~/) print_names(words[i])
  }
}

{
  is_table = $1 ~ /^docs\/COVERAGE\.md:/ && $3 ~ /go-libp2p/
  kind = is_table || $1 ~ /^docs\/COVERAGE\.md:/ && $4 ~ /^These have no counterpart/ ? "elsewhere" : "name"
  if ($1 ~ /^docs\/DECISIONS\.md:/ && $3 == "looked for") kind = "absent"
  count = split($4, spans, "`")
  for (n = 1; n <= count; n++) print_words(spans[n], n % 2 == 0)
}
