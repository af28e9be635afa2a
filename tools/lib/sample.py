"""Tries some wrong bodies in the gate: another few for each commit, each by a check of its module."""
import hashlib
import resource

from crates_txt import with_those_below
from kept_libraries import take_libraries
from one_by_one import is_settled_by_module, try_whole
from verdicts import say

# The processor minutes after which no other edit is begun.
MOST_MINUTES = 10


def order_of(word, edit):
    return hashlib.sha256(f"{word} {edit.label}".encode()).digest()


def sample(chosen_edits, word, count):
    """This many of the edits of code, chosen by a word, by their crates."""
    edits = [it for edits in chosen_edits.values() for it in edits if it.module and not it.is_of_tests]
    picked = sorted(edits, key=lambda it: order_of(word, it))[:count]
    return {crate: [it for it in picked if it.crate == crate] for crate in chosen_edits if any(it.crate == crate for it in picked)}


def minutes_of_children():
    used = resource.getrusage(resource.RUSAGE_CHILDREN)
    return (used.ru_utime + used.ru_stime) / 60


def try_sample(tree, verdicts, uses, chosen_edits):
    """Tries edits over the libraries that rt ci made. It proves no crate first: the gate has just done so."""
    left = take_libraries(tree.top, f"{tree.room}/tree", with_those_below(uses, chosen_edits))
    if left:
        say(f"not kept, so proved again: {' '.join(left)}")
    for crate, edits in chosen_edits.items():
        for edit in edits:
            if minutes_of_children() > MOST_MINUTES:
                say(f"{edit.label}: left out, since {MOST_MINUTES} processor minutes are over")
            elif not is_settled_by_module(tree, verdicts, edit):
                try_whole(tree, verdicts, crate, [edit])
