"""Makes a page of a run of the lines of gossip_trace and gossip_scores. bin/gossip_view runs it.

usage: view.py NAME ROUNDS PEER SCORES UNPROVED SCENARIO PAGE <TRACE

ROUNDS and PEER are empty where all are wanted, SCORES, a file of lines, where there are none, and UNPROVED where the
program that made the lines is proved. SCENARIO is the file of the scenario that was run. PAGE is written. Status: 0 it is;
1 there are too many events; 3 output failed; 4 a package is missing; 64 there is no such peer, or no such round; 65 a line
is none.
"""
import json
import sys

sys.dont_write_bytecode = True

from view_events import EFFECTS, FATES, KINDS
from view_messages import rules_of
from view_page import Missing, page_of
from view_run import Run, TooLarge
from view_scores import Scores

# A page of more bytes than this takes a browser long to open.
LARGE = 20_000_000


class BadLine(Exception):
    """Says why a line is none of a trace, or of scores."""


class Wrong(Exception):
    """Says which argument does not fit the run."""


def run_of(lines, rounds, only, rules=None):
    """The run that a trace shows."""
    run, number = None, 0
    try:
        for number, line in enumerate(lines, 1):
            if run is None:
                run = begun(json.loads(line), rounds, only, rules)
            else:
                run.take(line)
        if run is None:
            raise BadLine("the trace has no line")
        run.finish()
    except (ValueError, KeyError, TypeError, AttributeError, IndexError) as why:
        raise BadLine(f"line {number} of the trace: {type(why).__name__} {why}") from why
    return run


def begun(head, rounds, only, rules):
    if only is not None and only not in head["peers"]:
        raise Wrong(f"the run has no peer {only}")
    if rounds and rounds[0] > head["last_round"]:
        raise Wrong(f"the last round is {head['last_round']}, before those of --rounds")
    return Run(head, rounds, only, rules)


def scores_of(file, events, only):
    """The scores; None where no program gives them."""
    if not file:
        return None
    scores, number = None, 0
    try:
        with open(file, encoding="utf-8") as lines:
            for number, line in enumerate(lines, 1):
                if scores is None:
                    scores = Scores(json.loads(line), events, only)
                else:
                    scores.take(line)
    except (ValueError, KeyError, TypeError, AttributeError) as why:
        raise BadLine(f"line {number} of the scores: {type(why).__name__} {why}") from why
    return scores and scores.data()


def make(name, rounds, only, scores, unproved, scenario, page):
    rounds = tuple(map(int, rounds.split(".."))) if rounds else None
    run = run_of(sys.stdin, rounds, only or None, rules_of(scenario))
    found = scores_of(scores, run.events, only or None)
    words = {"kinds": KINDS, "fates": FATES, "effects": EFFECTS}
    data = {"name": name, "unproved": bool(unproved), **run.data(), "scores": found, **words}
    text = page_of(data)
    with open(page, "w", encoding="utf-8") as it:
        it.write(text)
    if len(text) > LARGE:
        say(f"the page has {len(text)} bytes, more than {LARGE}, so a browser takes long; --rounds and --peer take a part")


def say(words):
    print(f"gossip_view: {words}", file=sys.stderr)


def main(words):
    try:
        make(*words)
    except BadLine as why:
        say(why)
        return 65
    except TooLarge as why:
        say(f"{why}; --rounds A..B or --peer NAME takes a part")
        return 1
    except Missing as why:
        say(why)
        return 4
    except Wrong as why:
        say(why)
        return 64
    except OSError as why:
        say(f"input or output failed: {why.strerror}")
        return 3
    return 0


if __name__ == "__main__":
    sys.exit(main(sys.argv[1:]))
