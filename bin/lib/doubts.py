"""What may be meant otherwise in a scenario that can be run. It reads what gossip_check has taken."""
import math
from decimal import Decimal

from scenario.go_params import MILLION, SCORES, THRESHOLDS, TOPIC

DEFAULTS = {
    "gossip_threshold": -10_000_000,
    "publish_threshold": -50_000_000,
    "graylist_threshold": -80_000_000,
    "opportunistic_threshold": 1_000_000,
}
OF_A_TOPIC = "w1", "w2", "w3", "w3b", "w4"
# The weights, thresholds and caps. (A counter that is as good as 0 may well be a millionth.)
SIZES = {it.name for it in {**SCORES, **THRESHOLDS, **TOPIC}.values() if it.unit == "millionths"} - {"decay_to_zero"}
# Below this many millionths the whole number itself is likely to be meant. (Filecoin's w1 is 270.)
SMALL, SMALL_W1 = 1_000, 100


def weighs(topic, keys):
    """Whether a topic has a weight, and one of these keys."""
    return topic.get("topic_weight", 1_000_000) != 0 and any(topic.get(it, 0) != 0 for it in keys)


def windows(scenario):
    """Windows in which only deliveries of the same round count, where missing ones cost."""
    step = scenario["round_ms"]
    for place, topic in enumerate(scenario["topic"]):
        window = topic.get("p3_window_ms", 10)
        if window < step and topic.get("p3_threshold", 0) > 0 and weighs(topic, ("w3", "w3b")):
            given = "it is" if "p3_window_ms" in topic else "p3_window_ms is left out, which means 10, and that is"
            why = f"{given} below round_ms, which is {step}: P3 counts no further delivery of a later round"
            yield ("topic", place, "p3_window_ms"), why


def thresholds(scenario):
    """Thresholds of scores that are all 0."""
    params = scenario.get("params", {})
    is_scored = params.get("w5", 1_000_000) != 0 and any(it["value"] != 0 for it in scenario.get("app", []))
    is_weighed = params.get("w6", -5_000_000) != 0 or params.get("w7", -10_000_000) != 0
    if is_scored or is_weighed or any(weighs(it, OF_A_TOPIC) for it in scenario["topic"]):
        return
    for key, default in DEFAULTS.items():
        if params.get(key, default) != default:
            yield ("params", key), "all weights are 0, so each score is 0 and this threshold does nothing"


def small(scenario):
    """Weights, thresholds, caps and values of the application that are next to nothing."""
    tables = [("params",), *(("topic", it) for it in range(len(scenario["topic"])))]
    for path in tables:
        table = scenario.get("params", {}) if path == ("params",) else scenario["topic"][path[1]]
        for key, value in table.items():
            if key in SIZES and 0 < abs(value) < (SMALL_W1 if key == "w1" else SMALL):
                yield (*path, key), in_words(value)
    for place, table in enumerate(scenario.get("app", [])):
        if 0 < abs(table["value"]) < SMALL:
            yield ("app", place, "value"), in_words(table["value"])


def in_words(value):
    """What a number of millionths is, and what that number would be in millionths."""
    return f"it counts millionths, so it is {Decimal(value) / MILLION:f}; for {value} write {value * MILLION}"


def addresses(scenario):
    """Addresses that peers share where that costs nobody anything."""
    params, address_of, shared = scenario.get("params", {}), {}, {}
    for place, it in enumerate(scenario["peer"]):
        address_of[it["name"]] = it.get("address", it["name"])
        if "address" in it:
            shared.setdefault(it["address"], []).append(place)
    free = params.get("p6_threshold", 1)
    most = most_at_one_address(scenario, address_of)
    if params.get("w6", -5_000_000) == 0 or most > free or all(len(it) < 2 for it in shared.values()):
        return
    first = min(it[0] for it in shared.values() if len(it) > 1)
    path = ("params", "p6_threshold") if "p6_threshold" in params else ("peer", first, "address")
    cost = f"no peer has more than {most} neighbour{'s' * (most != 1)} at one address, and p6_threshold is {free}"
    yield path, f"{cost}, so shared addresses cost nothing and w6 has no effect"


def most_at_one_address(scenario, address_of):
    """How many neighbours at one address a peer has at most."""
    most = 0
    for near in neighbours_in(scenario).values():
        counts = {}
        for it in near:
            counts[address_of[it]] = counts.get(address_of[it], 0) + 1
        most = max([most, *counts.values()])
    return most


def neighbours_in(scenario):
    """The neighbours of each peer."""
    found = {it["name"]: set() for it in scenario["peer"]}
    for it in scenario.get("dial", []):
        found[it["from"]].add(it["to"])
        found[it["to"]].add(it["from"])
    return found


def last_rounds(lines):
    """For each topic until which round each peer is on it: no number where that has no end."""
    found = {}
    for it in sorted(lines, key=lambda it: it["at"]):
        if it["what"] == "subscribe":
            found.setdefault(it["topic"], {})[it["peer"]] = math.inf
        elif it["what"] == "unsubscribe" and found.get(it["topic"], {}).get(it["peer"]) == math.inf:
            found[it["topic"]][it["peer"]] = it["at"]
    return found


def publications(scenario):
    """Publications that reach nobody else."""
    lines, neighbours = scenario.get("do", []), neighbours_in(scenario)
    ends = last_rounds(lines)
    for place, it in enumerate(lines):
        if it["what"] != "publish":
            continue
        topic, moment, peer = it["topic"], it["at"], it["peer"]
        others = {name for name, end in ends.get(topic, {}).items() if end >= moment and name != peer}
        if moment == scenario["rounds"]:
            yield ("do", place, "at"), "a publication of the last round reaches no other peer"
        elif not others:
            yield ("do", place, "topic"), "this publication reaches nobody: no other peer is on the topic then or later"
        elif not others & neighbours[peer]:
            why = f"no neighbour of {peer} is on the topic then or later"
            yield ("do", place, "topic"), f"this publication reaches nobody: {why}"


def alone(scenario):
    """Peers without neighbours."""
    for place, joined in enumerate(neighbours_in(scenario).values()):
        if not joined:
            yield ("peer", place, "name"), "no dial joins this peer to another, so it has no neighbour"


def doubts(scenario):
    """The warnings about a scenario, each with the path to which it points, in the order of the tables."""
    for part in (thresholds, small, windows, addresses, alone, publications):
        yield from part(scenario)
