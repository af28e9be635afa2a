"""What a description has come to so far: its peers, groups, topics, dials and lines."""
from collections import namedtuple

from .fault import Fault, no_such
from .plain import MOST_RAW, Limits

# The length of a round in milliseconds, the last round, and the seed of all choices.
Setting = namedtuple("Setting", "round_ms rounds seed")
# A message of the script: when it is published, its publisher, its topic and its payload.
Published = namedtuple("Published", "at peer topic payload")


class World:
    """Peers are numbered in the order in which they are added, as in the plain scenario."""

    def __init__(self, setting):
        self.setting = setting
        self.peers, self.places, self.groups, self.network, self.topics = {}, {}, {}, [], {}
        self.dials, self.subscribed, self.lines, self.published = {}, {}, [], []
        self.payloads, self.size = set(), 0
        # (how many bytes there were before the moments of a table, how many of these are done, and of how many)
        self.before, self.done, self.moments, self.at_moment = 0, 0, 1, 0
        # (which part of the description each peer and each line comes from)
        self.peer_paths, self.line_paths = [], []

    def add_peer(self, path, table, is_in_network):
        name = table["name"]
        if name in self.peers or name in self.groups:
            raise Fault(path, f'there is a peer or a group "{name}" already')
        if len(self.peers) == Limits.peers:
            raise Fault(path, f"a scenario has at most {Limits.peers} peers")
        self.places[name] = len(self.peers)
        self.peers[name] = table
        self.peer_paths.append(path)
        if is_in_network:
            self.network.append(name)

    def place(self, name):
        return self.places[name]

    def join(self, dialling, dialled):
        """Adds a dial, where the two are not joined yet. Whether it did."""
        key = frozenset((dialling, dialled))
        if key in self.dials or dialling == dialled:
            return False
        self.dials[key] = {"from": dialling, "to": dialled}
        return True

    def are_joined(self, one, other):
        return frozenset((one, other)) in self.dials

    def neighbours(self, name):
        return [it for it in self.peers if self.are_joined(name, it)]

    def members(self, name, fail):
        """The peers of a name: those of a group, or one peer."""
        if name in self.groups:
            return self.groups[name]
        if name in self.peers:
            return [name]
        return fail(no_such("peer and no group", name, [*self.groups, *self.peers]))

    def named(self, fields, key):
        """The peers that a key names, each once."""
        names = fields.texts(key)
        found = dict.fromkeys(it for name in names for it in self.members(name, lambda why: fields.fail(key, why)))
        return list(found) or fields.fail(key, "a name at least must stand there")

    def topic(self, fields, key="topic"):
        """The topic that a key names. Left out, it is the only one."""
        if not fields.has(key) and len(self.topics) == 1:
            return next(iter(self.topics))
        name = fields.text(key)
        if name not in self.topics:
            fields.fail(key, no_such("topic", name, list(self.topics)))
        return name

    def subscribe(self, path, at, peer, topic):
        """Adds a subscription, and notes the first of a peer to a topic."""
        self.subscribed[peer, topic] = min(at, self.subscribed.get((peer, topic), at))
        self.add_line(path, {"at": at, "peer": peer, "what": "subscribe", "topic": topic})

    def check_moment(self, fields, key, at):
        """A moment, where the run has not ended before it."""
        if at > self.setting.rounds:
            fields.fail(key, f"it is later than the last round, {self.setting.rounds}")
        return at

    def each(self, moments):
        """Gives the moments of a table, and notes how far it has come."""
        self.before, self.moments = self.size, len(moments)
        for self.done, at in enumerate(moments):
            self.at_moment = self.size
            yield at
        self.done = 0

    def too_much(self, path):
        """Refuses a table by which the scenario has too many bytes. It tells how many they would be, by those so far."""
        less = {"load": "a longer every or a smaller size", "send": "fewer links (to), a longer every or a smaller count"}
        less["attack"] = "fewer links (to), a longer every, or a smaller count, ids or size"
        many = f"more than {self.size:,}"
        if self.done:
            many = f"about {self.before + (self.at_moment - self.before) * self.moments // self.done:,}"
        hint = f"; {less[path[0]]} makes it less" if path[0] in less else ""
        # (the tables after it are checked by themselves)
        self.size = self.done = 0
        raise Fault(path, f"with it the scenario has {many} bytes, and only {Limits.size:,} are read{hint}")

    def add_line(self, path, line):
        """Adds a line of the script, while the scenario still fits what the program reads."""
        self.size += sum(len(key) + len(str(value)) + 5 for key, value in line.items())
        if self.size > Limits.size:
            self.too_much(path)
        if line["at"] <= self.setting.rounds:
            self.lines.append(line)
            self.line_paths.append(path)

    def publish(self, path, at, peer, topic, payload):
        """Adds a publication. A payload may be published once: its SHA-256 is the message's identifier."""
        if payload in self.payloads:
            raise Fault(path, f"the payload {payload[:16].hex() or '-'} is published for the second time")
        self.payloads.add(payload)
        self.published.append(Published(at, peer, topic, payload))
        self.add_line(path, {"at": at, "peer": peer, "what": "publish", "topic": topic, "hex": payload.hex()})

    def begins_as(self, topic, payload):
        """Which key of a topic a payload is judged by, `reject` or `ignore`; None where by none."""
        for key, prefixes in self.topics[topic].items():
            if any(payload.startswith(it) for it in prefixes):
                return key
        return None

    def raw(self, path, at, peer, to, frames):
        """Adds bytes that a peer puts on its link to a neighbour."""
        if len(frames) > MOST_RAW:
            raise Fault(path, f"{len(frames)} bytes would go out at once on a link, and a line may have at most {MOST_RAW}")
        line = {"at": at, "peer": peer, "what": "raw", "to": to, "hex": frames.hex()}
        self.add_line(path, line)
