# shellcheck shell=bash disable=SC2154
# Tries wrong bodies of a crate by a stand-in for rt, and notes them for the page that tools/status makes. tools/check_scripts
# reads this file. It sets `top` to the repository's folder and `room` to one for files, and has `expect` and `expect_like`.

# A stand-in for rt: to it a body is wrong that has the word `wrong`, and one with `gone` took away what a proof names. With
# `goal` a goal is open, too, and with `lemma` a lemma fails. It says so as rt does.
make_judge() {
  mkdir -p "$room/judge"
  cat >"$room/judge/rt" <<'JUDGE'
#!/bin/bash
if [ "$1" = must-fail ]; then
  for it in "crates/$2/must-fail"/*.edit; do
    said='NOT REFUSED: the crate is still proved'
    ! grep -q '^new:.*wrong' "$it" || said='refused, as it must be: a goal is open'
    echo "rt: must-fail $2/$(basename "$it"): $said"
  done
  exit
fi
files='src/lib.rt src/part.rt specs/Sizes.antt'
[[ $* != *--test* ]] || files=src/tests.rt
# shellcheck disable=SC2086 # (they are words)
! grep -l 'no code' $files || exit 1
# shellcheck disable=SC2086
awk -v only="$(grep -oP '(?<=--only )\S+' <<<"$*")" '
  BEGIN { count = split(only, wanted) }
  function is_asked(it) {
    for (it in wanted) if (wanted[it] == path || "one::" wanted[it] == module) return 1
    return !count
  }
  FNR == 1 {
    module = path = FILENAME
    gsub(/^.*\/|\..*$/, "", module)
    module = module == "lib" ? "one" : "one::" module
  }
  match($0, /fn [a-z]+/) { path = module "::" substr($0, RSTART + 3, RLENGTH - 3); said[path] = "proved" }
  /wrong/ { said[path] = "no proof" }
  /gone/ { said[path] = "not proved"; split(path, part, "::"); gone["proofs/" part[2] "/" part[3]] }
  /gone.*goal/ { goal[path] }
  /gone.*lemma/ { lemma = 1 }
  /waits/ && said["one::first"] == "no proof" { said[path] = "no proof: it calls `first`" }
  is_asked() { asked[path] }
  END {
    for (it in gone) print "./" it "/Answers.antt:1:1: error: record `c`\n  has no field `x`"
    if (lemma) print "./proofs/Lemmas.antt:1:1: error: the two types differ"
    for (path in goal) print "note: src/part.rt:1:1: it is not proved that what the function ensures holds"
    for (path in asked) { print "fn " path ": " said[path]; many++; bad += said[path] ~ /^no/ }
    print "only=" many " proved=" many - bad
    print "logic=" (bad ? "not-proved" : "proved")
    exit bad > 0
  }' $files
JUDGE
  chmod +x "$room/judge/rt"
}

# Puts a wrong body into the crate: its name, the file, the old text and the new one.
put_body() {
  printf 'file: %s\nold: %s\nnew: %s\n' "${@:2}" >"$room/bodies/crates/one/mutants/$1.edit"
}

# A tree with a crate of five functions and a definition. Of its wrong bodies one means what stood there before.
make_bodies() {
  local place=$room/bodies/crates/one
  mkdir -p "$place"/{src,specs,mutants} "$room/bodies/crates/two/src"
  mkdir -p "$place/must-fail" "$room/bodies/docs"
  cp -r "$top/bin" "$top/tools" "$room/bodies"
  : >"$room/bodies/tools/lib/ledger.txt"
  printf 'one:\ntwo: one\n' >"$room/bodies/crates.txt"
  printf 'fn first() { 1 }\nfn second() { 2 }\n' >"$place/src/lib.rt"
  printf 'pub fn third() {\n    3\n}\npub fn fourth() { 4 }\n' >"$place/src/part.rt"
  echo 'fn tested() { 5 }' >"$place/src/tests.rt"
  echo 'size = 6' >"$place/specs/Sizes.antt"
  put_body wrong_first src/lib.rt '{ 1 }' '{ wrong }'
  put_body wrong_again src/lib.rt 'first() { 1 }' 'first() { 1 + wrong }'
  put_body wrong_size specs/Sizes.antt 'size = 6' 'size = wrong'
  put_body same_second src/lib.rt '{ 2 }' '{ 1 + 1 }'
  put_body wrong_third src/part.rt '    3' '    wrong'
  put_body waiting_fourth src/part.rt '{ 4 }' '{ waits }'
  put_body wrong_test src/tests.rt '{ 5 }' '{ wrong }'
}

bodies() {
  env PATH="$room/judge:$PATH" TMPDIR="$room/temporary" "$room/bodies/tools/mutants" "$@"
}

# How they are tried: one by one, by their modules, and many at a time.
check_ways() {
  local begun='mutants: copying the repository
mutants: one: proving it as it is'
  local counted='mutants: not refused:
  one/same_second.edit
  one/waiting_fourth.edit
5 refused, 2 not refused'
  expect 'wrong bodies one by one' 1 "$begun
mutants: one/wrong_test.edit: refused by its module
mutants: one: trying its edits (6)
one/same_second.edit: NOT REFUSED: the crate is still proved
one/waiting_fourth.edit: NOT REFUSED: the crate is still proved
one/wrong_again.edit: refused, as it must be: a goal is open
one/wrong_first.edit: refused, as it must be: a goal is open
one/wrong_size.edit: refused, as it must be: a goal is open
one/wrong_third.edit: refused, as it must be: a goal is open
$counted" '' bodies
  expect 'wrong bodies by their modules' 0 "$begun
mutants: one/wrong_test.edit: refused by its module
mutants: one/wrong_third.edit: refused by its module
2 refused, 0 not refused" '' bodies --narrow --only '_t' one
  expect_like 'a sample of wrong bodies' 1 'mutants: trying these, and again by: tools/mutants --sample 2 --by a
  one/*mutants: copying the repository
mutants: not kept, so proved again: one
*one/wrong_third.edit: refused by its module*
1 refused, 1 not refused' '' bodies --sample 2 --by a one
  expect_like 'a sample that is refused' 0 '*one/wrong_third.edit: refused by its module
1 refused, 0 not refused' '' bodies --sample 1 --by a one
  expect 'wrong bodies at once' 1 "$begun
mutants: one/wrong_test.edit: refused by its module
mutants: one: trying its edits (6) in 3 checks
mutants: one/same_second.edit: NOT REFUSED
mutants: one/wrong_again.edit: refused
mutants: one/wrong_third.edit: refused
mutants: one/wrong_first.edit: refused
mutants: one/waiting_fourth.edit: NOT REFUSED
mutants: one/wrong_size.edit: refused
$counted" '' bodies --at-once one
}

# A wrong body that is refused only because a proof names what it took away.
check_names() {
  local told='mutants: refused only because a proof file names what the edit took away (change a value, keep the names):
  one/gone_fourth.edit
1 refused, 0 not refused'
  put_body gone_fourth src/part.rt '{ 4 }' '{ gone }'
  expect_like 'a wrong body without names, at once' 0 "*mutants: one/gone_fourth.edit: refused only by names
$told" '' bodies --at-once --only gone one
  expect_like 'a wrong body without names, by its module' 0 "*$told" '' bodies --narrow --only gone one
  local it
  for it in goal lemma; do
    put_body gone_fourth src/part.rt '{ 4 }' "{ gone $it }"
    expect_like "a wrong body without names, and a $it" 0 '*mutants: one/gone_fourth.edit: refused
1 refused, 0 not refused' '' bodies --at-once --only gone one
  done
  rm "$room/bodies/crates/one/mutants/gone_fourth.edit"
}

# What is noted of those that are tried. A second try takes the place of the first.
check_notes() {
  local ledger=$room/bodies/tools/lib/ledger.txt
  expect_like 'wrong bodies that are noted' 1 '*5 refused, 2 not refused' '' bodies --note --at-once one
  expect 'wrong bodies that were all tried' 2 '' 'mutants: there is no edit to try that was not tried here' \
    bodies --untried --at-once one
  expect_like 'a wrong body that is noted again' 0 '*1 refused, 0 not refused' '' bodies --note --narrow --only third one
  expect_like 'what is noted' 0 '# *
one/same_second.edit ???????????????? none at-once let-through
one/waiting_fourth.edit ???????????????? none at-once let-through
one/wrong_again.edit ???????????????? none at-once refused
one/wrong_first.edit ???????????????? none at-once refused
one/wrong_size.edit ???????????????? none at-once refused
one/wrong_test.edit ???????????????? none module refused
one/wrong_third.edit ???????????????? none module refused' '' cat "$ledger"
  sed -i 's/none module/none by-name/' "$ledger"
  expect_like 'a ledger that can not be read' 2 '' 'mutants: tools/lib/ledger.txt: this is no note*: one/wrong_test*' \
    bodies --note one
  sed -i 's/by-name/module/; /wrong_test/d' "$ledger"
  expect 'the wrong body that is left' 0 'mutants: copying the repository
mutants: one: proving it as it is
mutants: one/wrong_test.edit: refused by its module
1 refused, 0 not refused' '' bodies --untried --at-once
}

# What a gate prints, up to a line of a check.
gate_output() {
  sed "/$1/q" <<'OUTPUT'
the gate of 12345678, with a kit
7 apply, 0 do not
0 faults
12 scripts, 0 faults
rt: one proved
rt: ok; handles allowed: Wait; done in this run: 1 of the 4 proofs (of crates and of their tests); the others are kept
9 passed, 0 failed
45 passed, 0 failed
44 passed, 0 failed
ok: a case: 0
8 passed, 0 failed
7 passed, 0 failed
6 passed, 0 failed
5 scenarios by both engines, 5 of them reported, 0 differ
20 deliveries, 2 limits and 12 discs, 0 differ
4 traces, 44 lines, 444 figures, 0 differ
3 pages, 33 rounds, 0 differ
2 right, 0 wrong, in 22 seconds
1 refused, 0 not refused
OUTPUT
  echo 'the gate took 1 minutes and 2 seconds, 3 tasks at once'
}

status() {
  "$room/bodies/tools/status" "$@"
}

# The page on the last gate and on what is noted: of a text that has changed only in comments, and of one that has changed.
check_status() {
  # shellcheck disable=SC2016 # (the quotes are those of the page)
  local lines='`rt ci`|9 passed, 0 failed|' part=$room/bodies/crates/one/src/part.rt page=$room/bodies/docs/STATUS.md
  gate_output none >"$room/gate"
  expect 'a gate that is kept' 0 '' '' status --gate "$room/gate"
  expect_like 'the page on it' 0 "*12345678*a kit. It took 1 minutes and 2 seconds, 3 tasks at once, and made 1 of the 4 proofs.*|$lines
|\`tools/check_cases\`|45 passed, 0 failed|
|\`tools/check_cases --changed\`|44 passed, 0 failed|
|\`tools/check_statuses\`|8 passed, 0 failed|*|\`tools/mutants --sample\`|1 refused, 0 not refused|*
Let through: one/same_second.edit, one/waiting_fourth.edit.*
|\`one\`|7|6|0|1|
|all|7|6|0|1|" '' cat "$page"
  echo '    // three' >>"$part"
  expect 'the page where comments have changed' 0 "$(<"$page")" '' status
  sed -i 's/fourth() {/fourth() -> u8 {/' "$part"
  expect_like 'the page where code has changed' 0 '*|7|4|2|1|*' '' status
  sed -i 's/fourth() -> u8 {/fourth() {/; /three$/d' "$part"
  gate_output '^8 passed' >"$room/gate"
  expect 'a gate that ended early' 0 '' '' status --gate "$room/gate"
  expect_like 'the page on that' 0 "*|$lines*|8 passed*
|\`tools/check_scripts\`|not seen|*" '' status
  head -1 "$room/gate" >"$room/said"
  expect 'a gate that goes on' 1 '' "tools/status: $room/said: it has no line 'the gate took ..', so it has not ended" \
    status --gate "$room/said"
  expect 'a page of two words' 64 '' 'usage: tools/status [--write | --gate LOG | --help]' status --write --gate
}

# Those that do not apply, and those of what has changed.
check_fit() {
  local git=(git -C "$room/bodies" -c user.name=a -c user.email=a)
  expect 'wrong bodies that apply' 0 '7 apply, 0 do not' '' bodies --applies
  { "${git[@]}" init && "${git[@]}" add . && "${git[@]}" commit -m a; } >"$room/said" 2>&1
  expect 'wrong bodies of no change' 2 '' 'mutants: there is no edit to apply in what differs from HEAD' \
    bodies --applies --since HEAD
  sed -i 's/third() {/third() -> u8 {/' "$room/bodies/crates/one/src/part.rt"
  echo '-- six' >>"$room/bodies/crates/one/specs/Sizes.antt"
  put_body same_second src/lib.rt '{ 2 }' '{ 3 - 1 }'
  expect 'wrong bodies of a change' 0 '3 apply, 0 do not' '' bodies --applies --since HEAD
  put_body wrong_first src/lib.rt '{ 9 }' '{ wrong }'
  put_body a+b src/lib.rt '{ 1 }' '{ 2 }'
  expect 'wrong bodies that do not apply' 1 'one/a+b.edit: an edit has a name of letters, digits, _, - and . that ends in .edit
one/wrong_first.edit: src/lib.rt has this 0 times, and not once: { 9 }
6 apply, 2 do not' '' bodies --applies one
  put_body third_is_no_code src/part.rt '{ 4 }' '{ no code }'
  expect 'a wrong body that is no code' 2 'mutants: copying the repository
mutants: one: proving it as it is
mutants: one: trying its edits (2) in 1 checks
mutants: one: a check ended with status 1 and no verdict, and last said:
src/part.rt
mutants: one: a check ended with status 1 and no verdict, and last said:
src/part.rt
mutants: one/wrong_third.edit: refused
mutants: errors:
  one/third_is_no_code.edit: not tried: a check of it gave no verdict
1 refused, 0 not refused' '' bodies --at-once --only third
  expect_like 'a wrong body that can not be tried' 2 '*errors:
  one/wrong_first.edit: not tried: src/lib.rt has this 0 times, and not once: { 9 }
0 refused, 0 not refused' '' bodies --only wrong_first one
}

refused_words() {
  expect "$1" 2 '' "mutants: $2" bodies "${@:3}"
}

check_words() {
  refused_words 'wrong bodies of no crate' 'crates.txt lists no crate three' three
  refused_words 'wrong bodies of a crate without any' 'crates/two/mutants has no edit' two
  refused_words 'no such wrong body' 'there is no edit to try whose name has seventh' --only seventh one
  refused_words 'an unknown option' 'there is no option --speed; --help says more' --speed one
  refused_words 'a pattern that is missing' 'argument --only: expected one argument; --help says more' one --only
  refused_words 'two ways at once' 'argument --at-once: not allowed with argument --narrow; --help says more' --narrow --at-once
  refused_words 'a word for no sample' '--by goes with --sample; --help says more' --by a one
  refused_words 'a note of nothing' '--note goes with edits that are tried, not with --applies; --help says more' --note --applies
  refused_words 'no commit' "git can't compare with none: fatal: bad revision 'none'" --since none one
  expect_like 'help on wrong bodies' 0 'Tries wrong bodies*Status*' '' bodies --help
}

check_wrong_bodies() {
  make_judge
  make_bodies
  check_ways
  check_names
  check_notes
  check_status
  check_fit
  check_words
}
