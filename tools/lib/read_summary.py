"""Works out summaries of scores from the JSON lines of bin/gossip_scores and of bin/gossip_trace, and compares them with
what bin/gossip_scores --summary prints."""
import json
import tomllib

from read_scores import PARTS, TOPIC, shown, times

# What a bound is called, and its key in the first line of scores.
BOUNDS = (("0", None), *((it, it) for it in ("gossip_threshold", "publish_threshold", "graylist_threshold")))
# The lines of what came to nothing: a label, and the words of `what` and `why` of each count, with the word that stands there.
COUNTS = (
    ("RPCs not heard", (("graylisted", None, "graylisted"), ("late", None, "late"))),
    ("GRAFTs refused", tuple(("graft", why, why) for why in ("explicit", "backoff", "score", "full"))),
    ("requested identifiers not answered", tuple(("iwant", why, why) for why in ("score", "too_often", "not_kept"))),
    ("promises", (("promise", None, "broken"),)),
)


def millionths(text):
    """An amount with six digits after the point."""
    return int(text.replace(".", ""))


def spans(crossings, is_below):
    """From when to when a score was below a bound, by the moments at which it crossed the bound."""
    words = ", from {} ms", " to {} ms"
    return "".join(words[place % 2].format(at) for place, at in enumerate(crossings)) + " on" * is_below


class Summed:
    """The lines of scores of a run, and of its trace."""

    def __init__(self, scenario, trace, lines):
        found = [json.loads(line, parse_float=str) for line in lines.splitlines()]
        self.head, self.lines, self.trace = found[0], found[1:], trace
        # (the first parameters of a topic count)
        topics = reversed(tomllib.loads(scenario)["topic"])
        self.weights = {it["name"]: it.get("topic_weight", TOPIC["topic_weight"]) for it in topics}

    def parts(self, line):
        """Each part of a score in order: its name with its topic, and what it adds."""
        for topic in line["topics"]:
            weight = self.weights.get(topic["topic"], TOPIC["topic_weight"])
            for name in PARTS[:5]:
                yield f"{name} on \"{topic['topic']}\"", times(weight, millionths(topic[name]["weighed"]))
        for name in PARTS[5:]:
            yield name, millionths(line[name]["weighed"])

    def of_scores(self, lines):
        """The lines about a neighbour's scores, which these lines tell in order."""
        scores = [(line["at"], millionths(line["score"])) for line in lines]
        for word, key in BOUNDS:
            text = "0.000000" if key is None else self.head["thresholds"][key]
            below = [False, *(score < millionths(text) for _, score in scores)]
            crossings = [at for (at, _), was, now in zip(scores, below, below[1:]) if was != now]
            if crossings:
                yield f"below {word}{'' if key is None else f' ({text})'}{spans(crossings, below[-1])}"
        least = min((score for _, score in scores), default=0)
        if least < 0:
            line = next(line for line, (_, score) in zip(lines, scores) if score == least)
            name, amount = min(self.parts(line), key=lambda it: it[1])
            yield f"lowest {shown(least)}, at {line['at']} ms: {name} weighs {shown(amount)}"

    def of_falls(self, falls):
        """The lines about what came to nothing of a neighbour."""
        for label, kinds in COUNTS:
            counts = [(sum(it["what"] == what and it.get("why") == why for it in falls), word) for what, why, word in kinds]
            told = [f"{count} {word}" for count, word in counts if count]
            if told:
                yield f"{label}: {', '.join(told)}"

    def text(self, is_wanted):
        """The summary of the rounds that pass a test."""
        told = []
        for name in self.trace.names:
            lines = [it for it in self.lines if it["peer"] == name and is_wanted(it["round"])]
            rounds = [it for it in self.trace.of(name) if is_wanted(it["at"] // self.head["round_ms"])]
            falls = [fallen for it in rounds for fallen in it.get("fell_away", ())]
            for other in self.trace.names:
                block = [*self.of_scores([it for it in lines if it["neighbour"] == other])]
                block += self.of_falls([it for it in falls if it["from"] == other])
                told += [f"{name} scores {other}", *(f"  {it}" for it in block)] if block else ()
        return "".join(f"{it}\n" for it in told) or "no neighbour scored below 0, and nothing came to nothing\n"


def choices(rounds):
    """Options that choose rounds, and the test that these pass: all rounds, and those of the middle."""
    first, last = rounds // 3, rounds * 2 // 3
    return ((), lambda r: True), (("--rounds", f"{first}..{last}"), lambda r: first <= r <= last)


def summary_differences(scenario, trace, lines, summary_for):
    """What differs between summaries that are worked out, and those that the program prints for some options."""
    it = Summed(scenario, trace, lines)
    for words, is_wanted in choices(it.head["last_round"]):
        wanted, found = it.text(is_wanted).splitlines(), summary_for(*words).splitlines()
        if len(wanted) != len(found):
            yield f"{len(found)} lines of a summary {words}, and {len(wanted)} by lines of scores and of the trace"
        for line, other in zip(found, wanted):
            if line != other:
                yield f"a summary {words} has `{line}`, and `{other}` by lines of scores and of the trace"
