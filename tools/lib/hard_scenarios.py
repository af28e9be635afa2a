"""Random scenarios that are hard on peers, for tools/check_engines. They are small, and their parameters are so narrow that
each rule comes up. Some of their lines are refused. Some put bytes on links that spell RPCs, parts of RPCs, or none."""
import random

from scenario import wire

TOPICS = "news", "blog"
PAYLOADS = b"", b"\x00", b"abc", b"\xff\x01", b"ab" * 40
# Bytes that spell no RPC: a record without its value, and one of wire type 3. Then a length of more than ten bytes, one that
# is too long for a frame, and a text that is no varint.
MALFORMED = b"\x01\x0a", b"\x01\x03", b"\xff" * 11, wire.varint(wire.MOST_BODY + 1), b"\xff" * 10 + b"\x02"
WHATS = "publish", "publish", "subscribe", "unsubscribe", "raw", "raw", "hang_up"


def table(name, keys):
    return f"[[{name}]]\n" + "".join(f"{key} = {value}\n" for key, value in keys.items())


def text(value):
    return f'"{value}"'


class Hard:
    """Makes the scenario of a seed."""

    def __init__(self, seed):
        self.dice = random.Random(seed)
        self.round_ms = self.dice.choice([10, 50, 100])
        self.rounds = self.dice.randint(6, 24)
        self.peers = [f"p{it}" for it in range(self.dice.randint(1, 8))]
        self.topics = TOPICS[: self.dice.randint(1, 2)]
        self.near = {it: [] for it in self.peers}
        self.dials = []
        # (some scenarios have neither raw bytes nor hang-ups)
        self.rough = self.dice.choice([0, 40, 100])

    def often(self, percent):
        return self.dice.randrange(100) < percent

    def times(self, most):
        """A number of milliseconds that is a whole number of rounds."""
        return self.round_ms * self.dice.randint(1, most)

    def params(self):
        dice = self.dice
        low = dice.randint(1, 3)
        d = low + dice.randint(0, 2)
        out = dice.randint(0, min(low - 1, d // 2))
        gossip, publish, graylist = sorted((dice.randint(-30, -1) * 1_000_000 for _ in range(3)), reverse=True)
        return {
            "d_low": low,
            "d": d,
            "d_high": d + dice.randint(0, 2),
            "d_out": out,
            "d_score": dice.randint(0, d - out),
            "d_lazy": dice.randint(0, 3),
            "gossip_threshold": gossip,
            "publish_threshold": publish,
            "graylist_threshold": graylist,
            "opportunistic_threshold": dice.choice([0, 1_000_000]),
            "opportunistic_ticks": dice.randint(1, 3),
            "heartbeat_ms": self.times(4),
            "decay_ms": self.times(4),
            "fanout_ttl_ms": self.times(6),
            "seen_ttl_ms": dice.choice([self.times(8), 120_000]),
            "iwant_followup_ms": self.times(3),
            "prune_backoff_s": 1,
            "unsubscribe_backoff_s": 1,
            "mcache_len": 3,
            "mcache_gossip": dice.randint(1, 3),
            "max_ihave": dice.randint(1, 3),
            "max_ihave_ids": dice.randint(1, 4),
            "gossip_retransmission": dice.randint(1, 2),
            "flood_publish": dice.choice(["true", "false"]),
        }

    def topic(self, name):
        dice, keys = self.dice, {"name": text(name)}
        for key in ("w1", "w2"):
            keys[key] = dice.choice([0, 500_000])
        for key in ("w3", "w3b", "w4"):
            keys[key] = dice.choice([0, -1_000_000, -20_000_000])
        keys |= {"p3_threshold": dice.choice([0, 2_000_000]), "p3_activation_ms": self.times(3), "p3_window_ms": self.times(2)}
        if self.often(40):
            keys["reject"] = '["ff"]'
        if self.often(20):
            keys["ignore"] = '["00"]'
        return keys

    def network(self):
        """Each peer dials some of those before it, or is dialled by them."""
        for at, peer in enumerate(self.peers):
            for other in self.dice.sample(self.peers[:at], min(at, self.dice.choice([1, 2, 7]))):
                self.near[peer].append(other)
                self.near[other].append(peer)
                self.dials.append(self.dice.choice([(peer, other), (other, peer)]))

    def pairs(self, percent):
        """Some of the pairs of a peer and its neighbour."""
        return [(peer, other) for peer in self.peers for other in self.near[peer] if self.often(percent)]

    def rpc(self):
        dice = self.dice
        topic, payload = dice.choice(self.topics), dice.choice(PAYLOADS)
        ids = [wire.identifier(dice.choice(PAYLOADS)) for _ in range(dice.randint(0, 3))]
        message = {"data": payload, "topic": topic.encode()}
        if self.often(15):
            message[dice.choice(["from", "seqno", "signature", "key"])] = b"\x01"
        parts = {
            "subscriptions": [wire.subscription(topic, self.often(70))],
            "publish": [message] * dice.randint(1, 2),
        }
        control = {
            "ihave": [wire.ihave(topic, ids)],
            "iwant": [wire.iwant(ids)],
            "graft": [wire.graft(topic)],
            "prune": [wire.prune(topic, dice.randint(0, 2))],
        }
        return {key: value for key, value in parts.items() if self.often(50)} | {
            "control": {key: value for key, value in control.items() if self.often(50)}
        }

    def raw(self):
        """The bytes of one line or of two: whole frames, frames in two parts, frames without an end, and what spells none."""
        frame = wire.frame(self.rpc())
        cut = self.dice.randint(0, len(frame))
        return self.dice.choice(
            [
                [frame],
                [frame + wire.frame(self.rpc())],
                [frame[:cut], frame[cut:]],
                [frame[:cut]],
                [b"\x00"],
                [frame + self.dice.choice(MALFORMED), frame],
            ]
        )

    def lines(self):
        """Lines of the script, each as its keys."""
        for peer in self.peers:
            for topic in self.topics:
                if self.often(80):
                    yield {"at": self.dice.randint(0, 2), "peer": peer, "what": "subscribe", "topic": topic}
        for _ in range(self.dice.randint(5, 40)):
            peer, what = self.dice.choice(self.peers), self.dice.choice(WHATS)
            line = {"at": self.dice.randint(0, self.rounds), "peer": peer, "what": what}
            if what in ("raw", "hang_up"):
                if self.near[peer] and self.often(self.rough) and (what == "raw" or self.often(40)):
                    yield from self.on_link(line | {"to": self.dice.choice(self.near[peer])})
            else:
                payload = {"hex": self.dice.choice(PAYLOADS).hex()} if what == "publish" else {}
                yield line | {"topic": self.dice.choice(self.topics)} | payload

    def on_link(self, line):
        if line["what"] == "hang_up":
            yield line
            return
        for part in self.raw():
            yield line | {"hex": part.hex()}
            line = line | {"at": self.dice.randint(line["at"], min(line["at"] + 1, self.rounds))}

    def scenario(self):
        self.network()
        head = {"round_ms": self.round_ms, "rounds": self.rounds, "workers": 1, "capacity": self.dice.choice([1, 2, 64])}
        head["seed"] = self.dice.randrange(2**63)
        parts = ["".join(f"{key} = {value}\n" for key, value in head.items())]
        parts.append("[params]\n" + "".join(f"{key} = {value}\n" for key, value in self.params().items()))
        parts += [table("topic", self.topic(it)) for it in self.topics]
        for peer in self.peers:
            words = [self.dice.randrange(2**32) for _ in range(self.dice.randint(0, 3))]
            parts.append(table("peer", {"name": text(peer), "address": text(self.dice.choice("abc") + peer[:1]), "words": words}))
        parts += [table("dial", {"from": text(one), "to": text(other)}) for one, other in self.dials]
        for peer, other in self.pairs(20):
            value = self.dice.choice([-40_000_000, -5_000_000, 3_000_000])
            parts.append(table("app", {"peer": text(peer), "about": text(other), "value": value}))
        parts += [table("explicit", {"peer": text(peer), "about": text(other)}) for peer, other in self.pairs(10)]
        for line in self.lines():
            parts.append(table("do", {key: value if key == "at" else text(value) for key, value in line.items()}))
        return "".join(parts)


def hard_scenario(seed):
    """The scenario of a seed. The same seed gives the same text."""
    return Hard(seed).scenario()
