"""The events of go-libp2p-pubsub's `trace.proto`, made of the lines of a run's trace."""
import base64
import json
import os
import sys

# The numbers of the types there.
TYPES = {
    "publishMessage": 0,
    "rejectMessage": 1,
    "duplicateMessage": 2,
    "deliverMessage": 3,
    "addPeer": 4,
    "removePeer": 5,
    "recvRPC": 6,
    "sendRPC": 7,
    "dropRPC": 8,
    "join": 9,
    "leave": 10,
    "graft": 11,
    "prune": 12,
}
# What go-libp2p-pubsub says about a message that is not passed on.
REASONS = {"reject": "validation failed", "ignore": "validation ignored"}
SIGNED, OF_AN_AUTHOR = "unexpected signature", "unexpected auth info"
PROTOCOL = "/meshsub/1.1.0"
NOTHING = {"subscriptions": [], "publish": [], "control": None}


class BadTrace(Exception):
    """Says why a line is no line of a trace, or what the trace lacks."""


def bytes_of(text):
    """The bytes that a text of a trace stands for, one for each character."""
    return text.encode("latin-1")


def of_name(name):
    return base64.b64encode(bytes_of(str(name))).decode()


def of_topic(topic):
    """A topic as a string of protobuf, which is UTF-8: a byte that is none stands as U+FFFD."""
    return bytes_of(topic).decode("utf-8", "replace")


def of_hex(digits):
    return base64.b64encode(bytes.fromhex(digits)).decode()


def message_ids(publish):
    """The messages of an RPC by identifier and topic. An RPC has no identifiers, so they are made here."""
    import hashlib

    return [
        {"messageID": base64.b64encode(hashlib.sha256(bytes.fromhex(it["data"] or "")).digest()).decode(), **topic_of(it["topic"])}
        for it in publish
    ]


def topic_of(topic):
    return {} if topic is None else {"topic": of_topic(topic)}


def control_of(control):
    """The control messages of an RPC, with a list only where it has something."""
    found = {
        "ihave": [{**topic_of(it["topicID"]), "messageIDs": [of_hex(id) for id in it["messageIDs"]]} for it in control["ihave"]],
        "iwant": [{"messageIDs": [of_hex(id) for id in it["messageIDs"]]} for it in control["iwant"]],
        "graft": [topic_of(it["topicID"]) for it in control["graft"]],
        "prune": [topic_of(it["topicID"]) for it in control["prune"]],
    }
    return {name: items for name, items in found.items() if items}


def meta_of(rpc):
    """What `RPCMeta` says about an RPC."""
    found = {
        "messages": message_ids(rpc["publish"]),
        "subscription": [
            {**({} if it["subscribe"] is None else {"subscribe": it["subscribe"]}), **topic_of(it["topicid"])}
            for it in rpc["subscriptions"]
        ],
        "control": control_of(rpc["control"]) if rpc["control"] else {},
    }
    return {name: value for name, value in found.items() if value}


def joined(first, second):
    """Two RPCs as one, list by list."""
    controls = [it for it in (first["control"], second["control"]) if it]
    names = "ihave", "iwant", "graft", "prune"
    return {
        "subscriptions": first["subscriptions"] + second["subscriptions"],
        "publish": first["publish"] + second["publish"],
        "control": {name: sum((it[name] for it in controls), []) for name in names} if controls else None,
    }


class Peer:
    """What has to be remembered of a peer to say what a node's tracer says."""

    def __init__(self, name):
        self.name = name
        self.topics = set()
        self.gathered = {}
        self.rounds = 0
        self.is_down = False

    def event(self, at, kind, **fields):
        return {
            "type": TYPES[kind],
            "peerID": of_name(self.name),
            "timestamp": at * 1_000_000,
            kind: {name: value for name, value in fields.items() if value is not None},
        }

    def send(self, at, names=None):
        """What was gathered for these neighbours, or for all, goes out."""
        for name in [it for it in self.gathered if names is None or it in names]:
            yield self.event(at, "sendRPC", sendTo=of_name(name), meta=meta_of(self.gathered.pop(name)))

    def gather(self, sent):
        for it in sent:
            self.gathered[it["to"]] = joined(self.gathered.get(it["to"], NOTHING), it["rpc"])

    def told(self, line):
        """The events of a line of the trace."""
        at, word = line["at"], line["event"]
        if word in ("gone", "fault", "hang_up"):
            other = line.get("from", line.get("to"))
            yield from self.send(at, [other])
            yield self.event(at, "removePeer", peerID=of_name(other))
        elif word == "raw":
            yield from self.send(at, [line["to"]])
        elif word == "heard":
            yield self.event(at, "recvRPC", receivedFrom=of_name(line["from"]), meta=meta_of(line["rpc"]))
        elif word == "message":
            yield from self.judged(line)
        elif word in ("subscribe", "unsubscribe"):
            yield self.membership(line)
        elif word == "publish":
            yield self.event(at, "publishMessage", messageID=of_hex(line["id"]), topic=of_topic(line["topic"]))
        yield from self.done(line)
        if word in ("round_end", "shut"):
            yield from self.send(at)
            self.rounds += word == "round_end"
            self.is_down = self.is_down or word == "shut"

    def membership(self, line):
        joins = line["event"] == "subscribe"
        (self.topics.add if joins else self.topics.discard)(line["topic"])
        return self.event(line["at"], "join" if joins else "leave", topic=of_topic(line["topic"]))

    def judged(self, line):
        """What becomes of a message that is not delivered: it is rejected, or was seen lately, whatever became of it then.
        Off the peer's topics it is passed over."""
        topic, reason = line["part"]["topic"] or "", self.reason(line)
        kind = "rejectMessage" if reason else "duplicateMessage"
        marks = {it["mark"] for it in line["marks"]}
        if reason or (topic in self.topics and "seen" not in marks):
            fields = {"messageID": of_hex(line["id"]), "receivedFrom": of_name(line["from"]), "reason": reason}
            yield self.event(line["at"], kind, **fields, topic=of_topic(topic))

    def reason(self, line):
        """Why a message is rejected; None where it is not."""
        marks = {it["mark"]: it for it in line["marks"]}
        verdict = marks.get("seen", {}).get("verdict")
        forbidden = what_is_forbidden(line["part"])
        return forbidden if "invalid" in marks and forbidden else REASONS.get(verdict)

    def done(self, line):
        """What the peer did about an event: deliveries, members that came and went, and what is to be sent."""
        source = line["from"] if line["event"] == "message" else self.name
        for it in line.get("delivered", ()):
            fields = {"messageID": of_hex(it["id"]), "topic": of_topic(it["topic"]), "receivedFrom": of_name(source)}
            yield self.event(line["at"], "deliverMessage", **fields)
        for it in line.get("marks", ()):
            kind = {"grafted": "graft", "pruned": "prune"}.get(it["mark"])
            if kind:
                yield self.event(line["at"], kind, peerID=of_name(it["peer"]), topic=of_topic(it["topic"]))
        self.gather(line.get("sent", ()))


def what_is_forbidden(message):
    """What a message carries that StrictNoSign forbids, as go-libp2p-pubsub says it; None where it carries none."""
    if message["signature"] is not None:
        return SIGNED
    return OF_AN_AUTHOR if any(message[it] is not None for it in ("from", "seqno", "key")) else None


def begun(head, peers):
    """Each peer meets its neighbours at the beginning."""
    for it in head.get("dials", ()):
        for one, other in ((it["from"], it["to"]), (it["to"], it["from"])):
            yield peers[one].event(0, "addPeer", peerID=of_name(other), proto=PROTOCOL)


def lack_of(peers, rounds):
    """What the lines of a run leave out, where each peer ends these rounds and shuts down; None where nothing."""
    for it in peers.values():
        if it.rounds != rounds:
            return f"{it.name} ends {it.rounds} rounds of {rounds}"
        if not it.is_down:
            return f"{it.name} does not shut down"
    return None


def events(lines):
    """The events of the lines of a trace, in their order."""
    peers, rounds = None, 0
    for number, line in enumerate(lines, 1):
        try:
            told = json.loads(line)
            if peers is None:
                peers, rounds = {name: Peer(name) for name in told["peers"]}, told["last_round"] + 1
                yield from begun(told, peers)
            elif told["event"] != "refused":
                yield from peers[told["peer"]].told(told)
        except (ValueError, KeyError, TypeError, AttributeError) as why:
            raise BadTrace(f"line {number} is no line of a trace: {type(why).__name__} {why}") from why
    lack = "it has no line" if peers is None else lack_of(peers, rounds)
    if lack:
        raise BadTrace(f"this is not a whole trace, and gives too few events: {lack}")


def stop(status, why):
    print(f"libp2p_trace: {why}", file=sys.stderr)
    sys.exit(status)


def opened(name):
    if name == "-":
        if sys.stdin.isatty():
            print("libp2p_trace: reading a trace from the terminal; end it with Ctrl-D", file=sys.stderr)
        return sys.stdin
    try:
        return open(name, encoding="utf-8")
    except OSError as why:
        stop(66, f"{name} can't be read: {why.strerror}")


def main(words, usage):
    if words and words[0] in ("--help", "-h"):
        print(usage)
        return
    if len(words) > 1 or (words and words[0].startswith("-") and words[0] != "-"):
        stop(64, "it takes one file; --help says more")
    try:
        for it in events(opened(words[0] if words else "-")):
            print(json.dumps(it, separators=(",", ":")))
        sys.stdout.flush()
    except BadTrace as why:
        sys.stdout.flush()
        stop(1, why)
    except BrokenPipeError:
        os.dup2(os.open(os.devnull, os.O_WRONLY), sys.stdout.fileno())
        sys.exit(3)
    except (OSError, UnicodeDecodeError):
        stop(3, "input or output failed")
