"""Tries wrong bodies one after the other: by rt must-fail, or by a check of the module that an edit changes."""
import re

from edits import Unfit, edited, function_of
from failures import Failures
from ledger import BY_CRATE, BY_MODULE
from verdicts import say

COUNTS = re.compile(r"^only=(\d+) proved=(\d+)$", re.MULTILINE)
REFUSED = "refused, as it must be"
BY_NAMES = "only because a proof file names"
MISSED = "NOT REFUSED: the crate is still proved"


def proved_as_it_is(tree, crate, *flags):
    """What a check of a crate as it is says; None where it is not proved. Then the log's end is printed."""
    say(f"{crate}: proving it as it is")
    status, said = tree.run(f"{crate}.check", f"crates/{crate}", "rt", "check", *flags)
    if status:
        print("\n".join(said.rstrip("\n").split("\n")[-20:]), flush=True)
    return None if status else said


def counts_of_check(tree, edit, word):
    """What a check of some functions says with an edit in place: how many they are, and how many have a proof."""
    flags = ["--test"] if edit.is_of_tests else []
    words = ["rt", "check", *flags, "--only", word, "--jobs", "1"]
    with tree.changed(edit.crate, edited(edit, tree.folder_of(edit.crate))):
        _, said = tree.run(f"{edit.crate}.{edit.name}", f"crates/{edit.crate}", *words)
    return said, *map(int, (COUNTS.findall(said) or [(0, 0)])[-1])


def is_settled_by_module(tree, verdicts, edit):
    """Tries an edit by a check of its function, or else of its module, and counts it where that shows what became of it."""
    words = filter(None, [function_of(edit, tree.folder_of(edit.crate)), edit.module])
    for word in words:
        said, wanted, proved = counts_of_check(tree, edit, word)
        if proved < wanted:
            say(f"{edit.label}: refused by its {'module' if word == edit.module else 'function'}")
            failures = Failures(said)
            verdicts.refuse(edit, BY_MODULE, failures.are_by_names(failures.failed))
            return True
    if edit.is_of_tests and wanted:
        verdicts.let_through(edit, BY_MODULE)
    elif edit.is_of_tests:
        verdicts.leave(edit, "the check of its module says nothing about it")
    return edit.is_of_tests


def settle_by_module(tree, verdicts, edits, is_narrow):
    """Tries edits of one module of code by that module, or only those of tests. Returns the edits that are left."""
    left = []
    for edit in edits:
        is_tried = edit.module and (is_narrow or edit.is_of_tests)
        if not is_tried or not is_settled_by_module(tree, verdicts, edit):
            left.append(edit)
    return left


def judge(verdicts, edit, said):
    """Counts an edit by what rt must-fail said about it. What that does not say is not known."""
    label = f"rt: must-fail {edit.label}: "
    told = [line[len(label) :] for line in said.split("\n") if line.startswith(label)]
    verdict = told[-1] if told else "rt said nothing about it"
    if verdict.startswith(REFUSED):
        verdicts.refuse(edit, BY_CRATE, BY_NAMES in verdict)
    elif verdict.startswith(MISSED):
        verdicts.let_through(edit, BY_CRATE)
    else:
        verdicts.leave(edit, verdict.removeprefix("NOT TRIED: "))


def try_whole(tree, verdicts, crate, edits):
    """Tries edits by checks of their whole crate."""
    say(f"{crate}: trying its edits ({len(edits)})")
    tree.put_edits(crate, edits)
    refused = verdicts.refused
    status, said = tree.run(f"{crate}.edits", ".", "rt", "must-fail", crate)
    print(re.sub("^rt: must-fail ", "", said, flags=re.MULTILINE), end="", flush=True)
    for edit in edits:
        judge(verdicts, edit, said)
    if status and verdicts.refused - refused == len(edits):
        verdicts.errors.append(f"{crate}: rt must-fail ended with status {status}, and did not say why")


def fitting(tree, verdicts, crate, edits):
    """Those edits that apply. Why another does not is an error."""
    found = []
    for edit in edits:
        try:
            edited(edit, tree.folder_of(crate))
            found.append(edit)
        except Unfit as why:
            verdicts.leave(edit, why)
    return found


def try_one_by_one(tree, verdicts, crate, edits, is_narrow):
    """Tries a crate's edits. rt calls each edit of a crate that does not prove refused, so that is seen first."""
    edits = fitting(tree, verdicts, crate, edits)
    if not edits:
        return
    if not proved_as_it_is(tree, crate):
        verdicts.leave_crate(crate, edits)
        return
    edits = settle_by_module(tree, verdicts, edits, is_narrow)
    if edits:
        try_whole(tree, verdicts, crate, edits)
