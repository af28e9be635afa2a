"""What a page of a run shows about its messages: who published each, who could get it, and in which round each peer had it. These
are the messages, the subscribers and those reached of docs/OUTPUTS.md ("How far messages come")."""
import functools
import tomllib

SEEN_TTL_MS = 120_000


class Rules:
    """What a scenario says about messages: for how long one is remembered, and which payloads validation takes."""

    def __init__(self, file):
        with open(file, "rb") as it:
            plan = tomllib.load(it)
        self.lifetime = plan.get("params", {}).get("seen_ttl_ms", SEEN_TTL_MS)
        # (the first table of a topic counts)
        self.topics = {it["name"]: it for it in reversed(plan["topic"])}

    def verdict(self, topic, payload):
        of_topic = self.topics.get(topic, {})
        for word in ("reject", "ignore"):
            if any(payload.startswith(it.lower()) for it in of_topic.get(word, ())):
                return word
        return "accept"


def rules_of(file):
    """None where the scenario is no TOML 1.0, so that Python reads none of it."""
    try:
        return Rules(file) if file else None
    except (tomllib.TOMLDecodeError, UnicodeDecodeError):
        return None


class Messages:
    """The publications and deliveries of a run. What is published on a topic at one moment is one message, whoever publishes it."""

    def __init__(self, rules):
        self.rules = rules
        self.published, self.times, self.delivered = {}, {}, {}

    def publish(self, line, peer):
        key = line["topic"], line["id"], line["at"]
        if key not in self.published:
            self.published[key] = line["round"], line["data"], []
            self.times.setdefault(key[:2], []).append(line["at"])
        self.published[key][2].append(peer)

    def deliver(self, line, peer):
        for it in line["delivered"]:
            self.delivered.setdefault(it["id"], []).append((line["at"], line["round"], peer))

    def had(self, key, round):
        """In which round each peer had a message first, or had it still: until the same is published on the topic again, once
        it is forgotten."""
        topic, id, at = key
        end = min((it for it in self.times[topic, id] if it >= at + self.rules.lifetime), default=None)
        found = {}
        for when, of_delivery, peer in self.delivered.get(id, ()):
            if at - self.rules.lifetime < when and (end is None or when < end):
                found.setdefault(peer, max(of_delivery, round))
        return found

    def rows(self, first, last, could_get):
        """Each message of these rounds: the topic and the identifier, and what a page shows about it: the round, the verdict, the
        publishers, the subscribers, and in which round each peer had it. They are by moment, then by their first
        publisher."""
        could_get = functools.lru_cache(None)(could_get)
        for key, (round, payload, publishers) in self.published.items():
            if first <= round <= last:
                had = dict.fromkeys(publishers, round) | self.had(key, round)
                subscribers = [it for it in could_get(key[0], round) if it not in publishers]
                verdict = self.rules.verdict(key[0], payload)
                yield key[0], key[1], [round, verdict, publishers, subscribers, sorted(had.items())]
