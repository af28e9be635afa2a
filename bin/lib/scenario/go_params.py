"""go-libp2p-pubsub's parameters, and what they are called here. docs/COVERAGE.md has both names side by side."""
import json
import re
from collections import namedtuple
from decimal import ROUND_HALF_EVEN, Context, Decimal, InvalidOperation

from .fault import Fault, unknown

# A key of a plain scenario, what it counts, and its range.
Key = namedtuple("Key", "name unit low high")
MILLION, BILLION, TRILLION = 10**6, 10**9, 10**12
NANOSECONDS = {"ns": 1, "us": 1_000, "µs": 1_000, "ms": 10**6, "s": 10**9, "m": 60 * 10**9, "h": 3_600 * 10**9}
EXACT = Context(prec=40, rounding=ROUND_HALF_EVEN)


def count(name, low, high):
    return Key(name, "count", low, high)


def span(name, low=1, high=BILLION):
    return Key(name, "ms", low, high)


def ones(name, low, high):
    return Key(name, "millionths", low, high)


def decay(name):
    return Key(name, "decay", 0, MILLION)


PARAMS = {
    "D": count("d", 1, 64),
    "Dlo": count("d_low", 1, 64),
    "Dhi": count("d_high", 1, 64),
    "Dscore": count("d_score", 0, 64),
    "Dout": count("d_out", 0, 32),
    "Dlazy": count("d_lazy", 0, 64),
    "GossipFactor": ones("gossip_factor", 0, MILLION),
    "HeartbeatInterval": span("heartbeat_ms"),
    "FanoutTTL": span("fanout_ttl_ms"),
    "SeenMessagesTTL": span("seen_ttl_ms"),
    "IWantFollowupTime": span("iwant_followup_ms"),
    "PruneBackoff": Key("prune_backoff_s", "s", 1, 86_400),
    "UnsubscribeBackoff": Key("unsubscribe_backoff_s", "s", 1, 86_400),
    "HistoryLength": count("mcache_len", 1, 64),
    "HistoryGossip": count("mcache_gossip", 1, 64),
    "OpportunisticGraftTicks": count("opportunistic_ticks", 1, MILLION),
    "OpportunisticGraftPeers": count("opportunistic_peers", 0, 64),
    "MaxIHaveMessages": count("max_ihave", 1, 1_000),
    "MaxIHaveLength": count("max_ihave_ids", 1, 5_000),
    "GossipRetransmission": count("gossip_retransmission", 1, 1_000),
    "FloodPublish": Key("flood_publish", "truth", False, True),
}
THRESHOLDS = {
    "GossipThreshold": ones("gossip_threshold", -TRILLION, -1),
    "PublishThreshold": ones("publish_threshold", -TRILLION, -1),
    "GraylistThreshold": ones("graylist_threshold", -TRILLION, -1),
    "OpportunisticGraftThreshold": ones("opportunistic_threshold", 0, TRILLION),
}
SCORES = {
    "TopicScoreCap": ones("topic_cap", 0, TRILLION),
    "AppSpecificWeight": ones("w5", 0, BILLION),
    "IPColocationFactorWeight": ones("w6", -BILLION, 0),
    "IPColocationFactorThreshold": count("p6_threshold", 1, 65_535),
    "BehaviourPenaltyWeight": ones("w7", -BILLION, 0),
    "BehaviourPenaltyDecay": decay("p7_decay"),
    "DecayInterval": span("decay_ms"),
    "DecayToZero": ones("decay_to_zero", 0, TRILLION),
}
TOPIC = {
    "TopicWeight": ones("topic_weight", 0, BILLION),
    "TimeInMeshWeight": ones("w1", 0, BILLION),
    "TimeInMeshQuantum": span("p1_quantum_ms"),
    "TimeInMeshCap": ones("p1_cap", 0, TRILLION),
    "FirstMessageDeliveriesWeight": ones("w2", 0, BILLION),
    "FirstMessageDeliveriesDecay": decay("p2_decay"),
    "FirstMessageDeliveriesCap": ones("p2_cap", 0, TRILLION),
    "MeshMessageDeliveriesWeight": ones("w3", -BILLION, 0),
    "MeshMessageDeliveriesDecay": decay("p3_decay"),
    "MeshMessageDeliveriesCap": ones("p3_cap", 0, TRILLION),
    "MeshMessageDeliveriesThreshold": ones("p3_threshold", 0, TRILLION),
    "MeshMessageDeliveriesWindow": span("p3_window_ms", 0),
    "MeshMessageDeliveriesActivation": span("p3_activation_ms", 0),
    "MeshFailurePenaltyWeight": ones("w3b", -BILLION, 0),
    "MeshFailurePenaltyDecay": decay("p3b_decay"),
    "InvalidMessageDeliveriesWeight": ones("w4", -BILLION, 0),
    "InvalidMessageDeliveriesDecay": decay("p4_decay"),
}
# What has no counterpart, and what follows where that matters to a run.
NO_COUNTERPART = {
    "AcceptPXThreshold": "there is no peer exchange",
    "AppSpecificScore": "[[app]] has values of the application's score",
    "BehaviourPenaltyThreshold": "each misbehaviour counts here, from the first on; Prysm and Lotus forgive 6, and "
    "--set params.w7=0 compares without this penalty",
    "ConnectionTimeout": "",
    "Connectors": "",
    "DirectConnectInitialDelay": "",
    "DirectConnectTicks": "",
    "DoPX": "there is no peer exchange",
    "GraftFloodThreshold": "a GRAFT in backoff is one misbehaviour, however soon it comes",
    "HeartbeatInitialDelay": "the first heartbeat comes after heartbeat_ms",
    "IPColocationFactorWhitelist": "",
    "MaxPendingConnections": "",
    "PrunePeers": "there is no peer exchange",
    "RetainScore": "a closed link stays closed",
    "SeenMsgTTL": "",
    "SkipAtomicValidation": "",
    "SlowHeartbeatWarning": "",
}
# What is no field there, but an option by itself.
OPTIONS = {"WithFloodPublish": "FloodPublish", "WithSeenMessagesTTL": "SeenMessagesTTL"}
# What go-libp2p-pubsub takes where a file doesn't say it, and this program would take otherwise.
GO_DEFAULTS = {
    "params": {"Dlo": 5, "FloodPublish": False},
    "scores": {"AppSpecificWeight": 0, "IPColocationFactorWeight": 0, "BehaviourPenaltyWeight": 0},
    "topic": {"TopicWeight": 0},
}


def nanoseconds(value):
    """A duration as Go writes it in JSON, a number of nanoseconds, or in text, such as "1h0m0.5s". None where it is neither."""
    if isinstance(value, int) and not isinstance(value, bool):
        return value
    if not isinstance(value, str) or not re.fullmatch(r"(?:[0-9]+(?:\.[0-9]+)?(?:ns|us|µs|ms|s|m|h))+", value):
        return None
    parts = re.findall(r"([0-9.]+)(ns|us|µs|ms|s|m|h)", value)
    return int(sum(Decimal(many) * NANOSECONDS[unit] for many, unit in parts))


def decayed(part, over, interval):
    """What is left of a counter after one interval, where `part` is left after `over`."""
    return EXACT.power(Decimal(part), EXACT.divide(Decimal(interval), Decimal(over)))


def millionths(value):
    return int(EXACT.multiply(Decimal(value), Decimal(MILLION)).to_integral_value(ROUND_HALF_EVEN))


class Reader:
    """Turns go-libp2p's parameters into those of a plain scenario, and says what can't be."""

    def __init__(self, say, fault, decay_ms=None):
        self.say, self.fault = say, fault
        self.decay_ms, self.interval, self.changed, self.lacking = decay_ms, 10**9, [], []

    def set_interval(self, scores):
        """Notes how long an interval is for which decays are given."""
        self.interval = nanoseconds(scores.get("DecayInterval", 10**9)) or 10**9

    def plain_value(self, name, key, value):
        """A value in the unit of its key."""
        if key.unit == "truth":
            return value if isinstance(value, bool) else self.fault(f"{name} must be true or false")
        if key.unit in ("ms", "s"):
            span_of = nanoseconds(value)
            if span_of is None:
                self.fault(f'{name} is no duration: it must be nanoseconds, or a text such as "1h0m0.5s"')
            unit = 10**6 if key.unit == "ms" else 10**9
            if span_of % unit:
                self.say(f"{name} is rounded to whole {'milliseconds' if key.unit == 'ms' else 'seconds'}: {key.name}")
            return (span_of + unit // 2) // unit
        if isinstance(value, bool) or not isinstance(value, (int, Decimal)):
            self.fault(f"{name} must be a number")
        if key.unit == "count":
            return int(value) if value == int(value) else self.fault(f"{name} must be a whole number")
        if key.unit == "decay" and self.decay_ms is not None and 0 < value < 1:
            value = decayed(value, self.interval, self.decay_ms * 10**6)
        return millionths(value)

    def value_of(self, name, key, value):
        """A value in the unit and in the range of its key."""
        found = self.plain_value(name, key, value)
        kept = min(max(found, key.low), key.high)
        if kept != found:
            self.say(f"{name} is {value}, beyond what {key.name} takes: {key.name} is {kept}")
        return kept

    def table(self, names, given, fault_names):
        """The keys of a plain scenario that some of go-libp2p's names give."""
        found = {}
        for name, value in given.items():
            if name in names:
                found[names[name].name] = self.value_of(name, names[name], value)
            elif name in NO_COUNTERPART:
                self.lacking += [name] * (name not in self.lacking)
            else:
                self.fault(unknown(name, [*fault_names, *NO_COUNTERPART]))
        return found

    def params(self, groups):
        """[params], of the groups `params`, `thresholds` and `scores`."""
        self.set_interval(groups["scores"])
        found = {}
        for group, names in (("params", PARAMS), ("thresholds", THRESHOLDS), ("scores", SCORES)):
            found |= self.table(names, groups[group], list(names))
        if found.get("d_score", 0) + found.get("d_out", 0) > found.get("d", 64):
            found["d_score"] = found["d"] - found["d_out"]
            self.changed.append("d_score")
            self.say(f"Dscore and Dout are more than D together, which is not taken here: d_score is {found['d_score']}")
        return found

    def say_lacking(self):
        """Says in one line what has no counterpart."""
        words = [f"{it} ({NO_COUNTERPART[it]})" if NO_COUNTERPART[it] else it for it in self.lacking]
        if words:
            self.say(f"what has no counterpart here is left out: {', '.join(words)}")

    def topic(self, given):
        return self.table(TOPIC, given, list(TOPIC))


def groups_in(values, fault):
    """The groups of a JSON file's parameters: those of the router, the thresholds, the scores, and topics by their names."""
    rest = {OPTIONS.get(name, name): value for name, value in values.items()}
    params = rest.pop("GossipSubParams", {})
    thresholds, scores = rest.pop("PeerScoreThresholds", {}), rest.pop("PeerScoreParams", None)
    general = rest.pop("TopicScoreParams", None)
    inner = dict(scores or {})
    topics = inner.pop("Topics", None) or {}
    if not all(isinstance(it, dict) for it in (params, thresholds, inner, topics, general or {}, *topics.values())):
        fault("GossipSubParams, PeerScoreParams, Topics, TopicScoreParams and PeerScoreThresholds must be objects")
    if general and all(isinstance(it, dict) for it in general.values()):
        topics, general = {**topics, **general}, None
    params = {**GO_DEFAULTS["params"], **params, **rest}
    if scores is not None:
        inner = {**GO_DEFAULTS["scores"], **inner}
    topics = {name: {**GO_DEFAULTS["topic"], **it} for name, it in topics.items()}
    if general is not None:
        general = {**GO_DEFAULTS["topic"], **general}
    return {"params": params, "thresholds": thresholds, "scores": inner, "topics": topics, "general": general}


def read_json(text, fault):
    try:
        values = json.loads(text, parse_float=Decimal)
    except (ValueError, RecursionError, InvalidOperation) as why:
        return fault(f"it is no JSON: {why}")
    return groups_in(values, fault) if isinstance(values, dict) else fault("it must be an object")


def refuse_json(file, why):
    raise Fault(("params_from",), f"{file}: {why}")
