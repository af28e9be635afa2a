"""Random scenarios in which messages come late, twice, to few or to nobody, for tools/check_traces. A payload is published
by several peers at one moment, and again while it is remembered and after that. Peers subscribe late, leave and hang up.
And a scenario of messages so long that hardly two go out as one RPC, and one of topics of all bytes that there are."""
from hard_scenarios import Hard, table, text
from scenario import wire

AGAIN = b"\x07", b"\xff\x01", b"\x00", b"ab"


class Reaching(Hard):
    """Makes the scenario of a seed."""

    def __init__(self, seed):
        super().__init__(seed)
        self.rounds = self.dice.randint(16, 30)
        self.peers = [f"{self.dice.choice('pq')}{it}" for it in range(self.dice.randint(3, 9))]
        self.near = {it: [] for it in self.peers}
        self.remembered = self.dice.randint(2, 8)  # rounds
        self.rough = self.dice.choice([0, 0, 30])

    def params(self):
        # (a round's part may be left: the lifetime needs to be no multiple of it)
        part = self.dice.choice([0, 0, -1, 1])
        return super().params() | {"seen_ttl_ms": self.remembered * self.round_ms + part}

    def publications(self):
        """A payload by some peers at one moment, and again later."""
        payload, topic = self.dice.choice(AGAIN), self.dice.choice(self.topics)
        at = self.dice.randint(1, 6)
        while at <= self.rounds:
            for peer in self.dice.sample(self.peers, min(len(self.peers), self.dice.choice([1, 1, 2, 3]))):
                where = topic if self.often(80) else self.dice.choice(self.topics)
                yield {"at": at, "peer": peer, "what": "publish", "topic": where, "hex": payload.hex()}
            at += self.dice.choice([1, 2, self.remembered, self.remembered + 1, 2 * self.remembered])

    def lines(self):
        found = []
        for peer in self.peers:
            for topic in self.topics:
                at = self.dice.choice([0, 0, 0, 1, self.dice.randint(2, self.rounds)])
                if self.often(85):
                    found.append({"at": at, "peer": peer, "what": "subscribe", "topic": topic})
                if self.often(20):
                    when = self.dice.randint(at, self.rounds)
                    found.append({"at": when, "peer": peer, "what": "unsubscribe", "topic": topic})
        for _ in range(self.dice.randint(2, 4)):
            found += self.publications()
        for peer, other in self.pairs(10):
            found.append({"at": self.dice.randint(2, self.rounds), "peer": peer, "what": "hang_up", "to": other})
        for peer, other in self.pairs(self.rough):
            found += self.on_link({"at": self.dice.randint(2, self.rounds), "peer": peer, "what": "raw", "to": other})
        return sorted(found, key=lambda it: it["at"]) if self.often(50) else found


def reach_scenario(seed):
    """The scenario of a seed. The same seed gives the same text."""
    return Reaching(seed).scenario()


def large_scenario():
    """Two messages fill a frame to its last byte, and two later ones are a byte too long for one frame."""
    half = wire.MOST_BODY // 2
    around = len(wire.field("Message", 2, {"data": bytes(half), "topic": b"t"})) - half
    rest = wire.MOST_BODY - half - 2 * around
    lines = []
    for number, length in enumerate((half, rest, half, rest + 1)):
        payload = bytes([number]).hex() + "00" * (length - 1)
        lines.append({"at": 3 + number // 2 * 3, "peer": "p", "what": "publish", "topic": "t", "hex": payload})
    return of_two(lines)


def strange_scenario():
    """Topics of each byte that there is, of all, of none, and one that is absent, in an RPC that a peer puts on its link."""
    topics = *(bytes([it]) for it in range(256)), bytes(range(256)), b"", None
    offers = [on_topic(it, messageIDs=[wire.identifier(b"1")]) for it in topics]
    rpc = {
        "subscriptions": [on_topic(it, "topicid", subscribe=True) for it in topics],
        "publish": [on_topic(it, "topic", data=b"1") for it in topics],
        "control": {"ihave": offers, "graft": [on_topic(it) for it in topics]},
    }
    return of_two([{"at": 3, "peer": "p", "what": "raw", "to": "q", "hex": wire.frame(rpc).hex()}])


def on_topic(topic, key="topicID", **rest):
    """The fields of a part of an RPC; of an absent topic only the others."""
    return rest if topic is None else rest | {key: topic}


def of_two(lines):
    """A scenario of the peers p and q, both on the topic t."""
    head = {"round_ms": 100, "rounds": 12, "workers": 1, "capacity": 64, "seed": 1}
    parts = ["".join(f"{key} = {value}\n" for key, value in head.items()), table("topic", {"name": text("t")})]
    parts += [table("peer", {"name": text(it)}) for it in "pq"] + [table("dial", {"from": text("p"), "to": text("q")})]
    lines = [{"at": at, "peer": it, "what": "subscribe", "topic": "t"} for at, it in ((0, "p"), (1, "q"))] + lines
    parts += [table("do", {key: it if key == "at" else text(it) for key, it in line.items()}) for line in lines]
    return "".join(parts)
