"""Parameters by name, or from a file: they are put under those of a description."""
import os
import re
from decimal import Decimal

from . import go_params, published
from .fault import Fault, unknown
from .fields import Fields, is_name, shown, whole_hint
from .plain import PARAMS, TOPIC

# Keys of [params] and of topics that hold a number, and those that hold millionths.
NUMBERS = {*PARAMS, *TOPIC} - {"name", "reject", "ignore", "flood_publish"}
IN_MILLIONTHS = {
    key.name
    for keys in (go_params.PARAMS, go_params.THRESHOLDS, go_params.SCORES, go_params.TOPIC)
    for key in keys.values()
    if key.unit in ("millionths", "decay")
}


class Preset:
    """Parameters of a network: the values of [params] and of topics, and where each comes from."""

    def __init__(self, source, options, say, decay_ms=None):
        self.topics, self.comments, self.topic_comments = {}, {}, {}
        self.general, self.say = None, lambda why: say(f"{os.path.basename(source)}: {why}")
        self.reader = go_params.Reader(self.say, lambda why: go_params.refuse_json(source, why), decay_ms)
        if source in published.NETWORKS:
            self.take_network(published.NETWORKS[source])
        elif source.endswith(".json"):
            self.take_file(os.path.join(options.folder_of(source), source))
        else:
            raise Fault(("params_from",), unknown(source, [*published.NETWORKS, "a file with .json at its end"]))
        self.reader.say_lacking()

    def take_network(self, network):
        groups = {it: published.values_of(network[it]) for it in ("params", "thresholds", "scores")}
        self.params = self.reader.params(groups)
        for group, names in (
            ("params", go_params.PARAMS),
            ("thresholds", go_params.THRESHOLDS),
            ("scores", go_params.SCORES),
        ):
            self.comments |= published.sources_of(network[group], names)
        for key in self.reader.changed:
            self.comments[key] += ", but changed to what is taken here"
        for name, topic in network["topics"].items():
            self.topics[name] = self.reader.topic(published.values_of(topic))
            self.topic_comments[name] = published.sources_of(topic, go_params.TOPIC)

    def take_file(self, path):
        try:
            with open(path, encoding="utf-8") as file:
                text = file.read()
        except (OSError, UnicodeDecodeError) as why:
            raise Fault(("params_from",), f"{path} can't be read: {getattr(why, 'strerror', None) or why}") from None
        groups = go_params.read_json(text, lambda why: go_params.refuse_json(path, why))
        self.params = self.reader.params(groups)
        self.topics = {name: self.reader.topic(it) for name, it in groups["topics"].items()}
        if groups["general"] is not None:
            self.general = self.reader.topic(groups["general"])
        for name in self.topics:
            if not is_name(name):
                self.say(f"the topic {name} is {short_name(name)} here: a name has no slashes")

    def topic_of(self, name):
        """The parameters that a topic of this name has, and their comments; None where it has none."""
        found = [it for it in self.topics if name == it or name in it.split("/") or name == short_name(it)]
        if found:
            return self.topics[found[0]], self.topic_comments.get(found[0], {})
        return (self.general, {}) if self.general is not None else None


def short_name(topic):
    """A topic's name as one of this program's: what tells it from others, where it is of a form that is known."""
    known = re.fullmatch(r"/eth2/[^/]*/([a-z0-9_]+)/[^/]*|/fil/([a-z]+)/.*|/(drand)/.*", topic)
    if known:
        return next(it for it in known.groups() if it)
    return re.sub("[^a-z0-9_-]+", "-", topic.lower()).strip("-")[:32]


def check_times(scenario):
    """The two intervals must be whole rounds: they come from a place that the scenario's reader can't name."""
    for key in ("heartbeat_ms", "decay_ms"):
        value = scenario["params"].get(key)
        if isinstance(value, int) and value % scenario["round_ms"]:
            raise Fault(("round_ms",), f"{key} is {value}, which is no multiple of it, {scenario['round_ms']}")


def number_faults(table, path):
    """A refusal for each value of a parameter that is no whole number. Of one that is in millionths the words say these."""
    for key, value in table.items() if isinstance(table, dict) else ():
        if key not in NUMBERS or isinstance(value, int) and not isinstance(value, bool) and abs(value) <= 10**12:
            continue
        hint = whole_hint(key, value)
        if isinstance(value, Decimal) and value.is_finite() and abs(value) <= 10**6 and key in IN_MILLIONTHS:
            hint = f"; in millionths it is {go_params.millionths(value)}"
        yield Fault((*path, key), f"{shown(value)} must be a whole number{hint}")


def topics_of(tables, preset, comments):
    """The topics of a scenario with the parameters that they get."""
    topics = []
    for place, table in enumerate(tables):
        own = {key: it for key, it in table.items() if key != "like"}
        found = preset.topic_of(table.get("like", table["name"]))
        if found is None:
            if "like" in table:
                raise Fault(("topic", place, "like"), unknown(table["like"], [short_name(it) for it in preset.topics]))
            preset.say(f'the topic "{table["name"]}" is none of {", ".join(map(short_name, preset.topics))}: it has no scores')
            found = {}, {}
        topics.append({"name": own["name"], **found[0], **own})
        comments[place] = {key: it for key, it in found[1].items() if key not in own}
    return topics


def apply(scenario, description, source, options, say):
    """Gives a scenario its `params` and its topics, and gives the comments of keys that come from a preset."""
    own, tables, comments = description.get("params", {}), description["topic"], {}
    fields = Fields(own, ("params",), PARAMS)
    fields.truth("flood_publish", None)
    if source is None:
        for place, table in enumerate(tables):
            if "like" in table:
                raise Fault(("topic", place, "like"), "it goes with params_from, which has topics that this one can be like")
        scenario["params"], scenario["topic"] = own, tables
        return comments
    decay_ms = own.get("decay_ms")
    preset = Preset(source, options, say, decay_ms if isinstance(decay_ms, int) and decay_ms > 0 else None)
    scenario["params"] = {key: it for key, it in {**preset.params, **own}.items()}
    comments["params"] = {key: it for key, it in preset.comments.items() if key not in own}
    scenario["topic"] = topics_of(tables, preset, comments)
    check_times(scenario)
    return comments


def parameters(source, options, say):
    """Only the parameters, as the end of a scenario, and their comments."""
    preset, comments = Preset(source, options, say), {}
    ordered = {key: preset.params[key] for key in PARAMS if key in preset.params}
    topics = []
    for place, (name, values) in enumerate(preset.topics.items()):
        topics.append({"name": short_name(name), **{key: values[key] for key in TOPIC if key in values}})
        comments[place] = preset.topic_comments.get(name, {})
    comments["params"] = preset.comments
    return {"params": ordered, "topic": topics}, comments
