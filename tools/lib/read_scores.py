"""Works out scores and their parts from the lines of bin/gossip_trace and the parameters of the scenario, by the formula of
docs/PROTOCOL.md, and compares them with the lines and the rows of bin/gossip_scores."""
import csv
import io
import json
import tomllib

ONE, MOST = 1_000_000, 10**12
FACTORS = {"p7_decay": 900_000, "w5": ONE, "w6": -5 * ONE, "w7": -10 * ONE}
FACTORS |= {"topic_cap": 0, "decay_to_zero": 10_000, "p6_threshold": 1}
THRESHOLDS = {"gossip_threshold": -10 * ONE, "publish_threshold": -50 * ONE, "graylist_threshold": -80 * ONE}
TOPIC = (
    {"topic_weight": ONE, "p3_threshold": 0, "p1_quantum_ms": 1_000, "p3_activation_ms": 5_000}
    | dict.fromkeys(("w1", "w2", "w3", "w3b", "w4"), 0)
    | dict.fromkeys(("p2_decay", "p3_decay", "p3b_decay", "p4_decay"), 500_000)
    | dict.fromkeys(("p1_cap", "p2_cap", "p3_cap"), 100 * ONE)
)
# Each counter, its decay, and its cap where it has one of its own.
COUNTERS = {"first": ("p2_decay", "p2_cap"), "near": ("p3_decay", "p3_cap")}
COUNTERS |= {"deficit": ("p3b_decay", ""), "invalid": ("p4_decay", "")}
EVENTS = "heartbeat", "decay", "shut"
PARTS = (
    "time_in_mesh first_message_deliveries mesh_message_deliveries mesh_failure_penalty invalid_message_deliveries "
    "app_specific_score ip_colocation_factor behaviour_penalty"
).split()


def times(one, other):
    return one * other // ONE


def squared(amount):
    return times(amount, amount)


def shown(amount):
    """Millionths as they are shown."""
    return f"{'-' * (amount < 0)}{abs(amount) // ONE}.{abs(amount) % ONE:06}"


def part(counted, weight, amount=None):
    return {"counted": counted, "weighed": times(weight, counted if amount is None else amount)}


class Scored:
    """What a peer has seen of its neighbours."""

    def __init__(self, plan, name):
        self.params = FACTORS | {key: value for key, value in plan.get("params", {}).items() if key in FACTORS}
        self.topics = {it["name"]: TOPIC | it for it in reversed(plan["topic"])}
        peers = [it["name"] for it in plan["peer"]]
        dials = [{it["from"], it["to"]} for it in plan.get("dial", ())]
        self.neighbours = sorted(set().union(*(it for it in dials if name in it)) - {name}, key=peers.index)
        self.address = {it["name"]: it.get("address", it["name"]) for it in plan["peer"]}
        self.apps = {it["about"]: it["value"] for it in plan.get("app", ()) if it["peer"] == name}
        self.lost, self.blamed, self.held = set(), dict.fromkeys(self.neighbours, 0), {it: {} for it in self.neighbours}

    def decay(self, amount, factor):
        left = times(amount, factor)
        return left if left >= self.params["decay_to_zero"] else 0

    def see(self, line):
        """Sees a line of the trace: its event, and then its marks."""
        if line["event"] in ("gone", "fault", "hang_up"):
            self.lost.add(line.get("from", line.get("to")))
        if line["event"] == "decay":
            self.blamed = {it: self.decay(amount, self.params["p7_decay"]) for it, amount in self.blamed.items()}
            for topics in self.held.values():
                for topic, held in topics.items():
                    for counter, (factor, _) in COUNTERS.items():
                        held[counter] = self.decay(held[counter], self.topics.get(topic, TOPIC)[factor])
        for mark in line.get("marks", ()):
            self.note(line["at"], mark)

    def note(self, at, mark):
        what, peer, topic = mark["mark"], mark.get("peer"), mark.get("topic")
        if what == "misbehaviour":
            self.blamed[peer] = min(self.blamed[peer] + ONE, MOST)
        elif what == "pruned":
            if topic in self.held[peer]:
                self.held[peer][topic]["since"] = None
        elif what == "grafted" or what in COUNTERS:
            held = self.held[peer].setdefault(topic, {"since": None} | dict.fromkeys(COUNTERS, 0))
            if what == "grafted":
                held["since"] = at
                return
            by = max(mark["millionths"], 0) if what == "deficit" else ONE
            cap = COUNTERS[what][1]
            held[what] = min(held[what] + by, self.topics.get(topic, TOPIC)[cap] if cap else MOST)

    def on_topic(self, now, topic, held):
        it, since = self.topics.get(topic, TOPIC), held["since"]
        stayed = min(ONE * ((now - since) // it["p1_quantum_ms"]), it["p1_cap"]) if since is not None else 0
        is_active = since is not None and now - since >= it["p3_activation_ms"]
        missing = max(it["p3_threshold"] - held["near"], 0) if is_active else 0
        parts = {
            "time_in_mesh": part(stayed, it["w1"]),
            "first_message_deliveries": part(held["first"], it["w2"]),
            "mesh_message_deliveries": part(held["near"], it["w3"], squared(missing)),
            "mesh_failure_penalty": part(held["deficit"], it["w3b"]),
            "invalid_message_deliveries": part(held["invalid"], it["w4"], squared(held["invalid"])),
        }
        total = sum(each["weighed"] for each in parts.values())
        return {"topic": topic} | parts | {"topic_score": times(it["topic_weight"], total)}

    def about(self, now, peer):
        """The score of a neighbour, and its parts."""
        it = self.params
        topics = [self.on_topic(now, topic, self.held[peer][topic]) for topic in sorted(self.held[peer], key=str.encode)]
        total = sum(each["topic_score"] for each in topics)
        count = sum(self.address[other] == self.address[peer] and other not in self.lost for other in self.neighbours)
        too_many = squared(ONE * max(count - it["p6_threshold"], 0))
        others = {
            "topic_sum": total,
            "capped_topic_sum": min(total, it["topic_cap"]) if it["topic_cap"] else total,
            "app_specific_score": part(self.apps.get(peer, 0), it["w5"]),
            "ip_colocation_factor": {"neighbours": count, "weighed": times(it["w6"], too_many)},
            "behaviour_penalty": part(self.blamed[peer], it["w7"], squared(self.blamed[peer])),
        }
        score = others["capped_topic_sum"] + sum(others[each]["weighed"] for each in PARTS[5:])
        return {"neighbour": peer, "score": score, "topics": topics} | others


def with_texts(value):
    """A line with its amounts as they are shown."""
    if isinstance(value, dict):
        return {key: it if key in ("round", "at", "neighbours") else with_texts(it) for key, it in value.items()}
    if isinstance(value, list):
        return [with_texts(it) for it in value]
    return shown(value) if isinstance(value, int) else value


def worked_out(scenario, trace):
    """The lines of scores, after the first one."""
    plan = tomllib.loads(scenario)
    for name in trace.names:
        it = Scored(plan, name)
        for line in trace.of(name):
            it.see(line)
            if line["event"] in EVENTS:
                start = {"round": line["at"] // plan["round_ms"], "at": line["at"], "peer": name, "event": line["event"]}
                yield from (with_texts(start | it.about(line["at"], other)) for other in it.neighbours)


def before_decays(scenario, trace):
    """What each peer scores its neighbours just before its decays: lines of scores, with the number."""
    plan = tomllib.loads(scenario)
    for name in trace.names:
        it = Scored(plan, name)
        for line in trace.of(name):
            if line["event"] == "decay":
                start = {"round": line["at"] // plan["round_ms"], "at": line["at"], "peer": name}
                yield from (start | it.about(line["at"], other) for other in it.neighbours)
            it.see(line)


def rows_of(line):
    """The rows of CSV that a line has."""
    start = [str(line["round"]), str(line["at"]), line["peer"], line["event"], line["neighbour"]]
    for topic, parts in (("", {"score": line["score"]}), *((it["topic"], it) for it in line["topics"]), ("", line)):
        for name, value in parts.items():
            if isinstance(value, dict):
                yield [*start, topic, name, str(value.get("counted", value.get("neighbours"))), value["weighed"]]
            elif name in ("topic_score", "topic_sum", "capped_topic_sum") or name == "score" and len(parts) == 1:
                yield [*start, topic, name, "", value]


def differences(scenario, trace, lines, rows):
    """What differs between what is worked out, and the lines and the rows of the program."""
    params = tomllib.loads(scenario).get("params", {})
    head = {key: trace.head[key] for key in ("peers", "round_ms", "last_round")}
    head["thresholds"] = {key: shown(params.get(key, value)) for key, value in THRESHOLDS.items()}
    wanted = [head, *worked_out(scenario, trace)]
    found = [json.loads(line, parse_float=str) for line in lines.splitlines()]
    if len(found) != len(wanted):
        yield f"{len(found)} lines of scores, and {len(wanted)} by the trace"
    for number, (line, it) in enumerate(zip(found, wanted)):
        if line != it:
            for key in (key for key in it if line.get(key) != it[key]):
                yield f"line {number + 1} of scores: {key} is {line.get(key)}, and {it[key]} by the trace"
    header = "round,at,peer,event,neighbour,topic,part,counted,weighed".split(",")
    if list(csv.reader(io.StringIO(rows))) != [header, *(row for line in found[1:] for row in rows_of(line))]:
        yield "the rows of scores are not those of its lines"
