"""The lines of a trace as short lists of numbers, which a page of a run carries. bin/lib/view/words.js says them in words.

An event is [peer, kind, who, topic, item, count, effects]: `kind` is a place in KINDS, `item` one in the messages of the
page, and -1 stands for what is not there. At the end of a list it is left out. `count` of a message is a place in FATES. An
effect is a list, too: its first number is a place in EFFECTS, and `effects_of` says what follows.
"""

KINDS = (
    "heard late subscription message ihave iwant graft prune heartbeat heartbeat_end mesh fanout gossip fanout_end"
    " subscribe unsubscribe publish raw hang_up gone fault decay round_end shut refused"
).split()
FATES = "new duplicate near ignored rejected signed again off_topic".split()
EFFECTS = (
    "grafted pruned fanned unfanned deficit misbehaviour backoff answered asked passed_on sent_ihave sent_iwant sent_graft"
    " sent_prune announced delivered promise not_heard graylisted came_late graft_refused not_answered broken"
).split()
KIND = {word: number for number, word in enumerate(KINDS)}
FATE = {word: number for number, word in enumerate(FATES)}
EFFECT = {word: number for number, word in enumerate(EFFECTS)}
PARTS = {"subscription", "message", "ihave", "iwant", "graft", "prune"}
# The events that a page leaves out where nothing followed from them.
SILENT = {"mesh", "fanout", "gossip", "heartbeat_end", "fanout_end"}
SIGNED = "from", "seqno", "signature", "key"
# How many digits of a payload a page has: those of 24 bytes.
DIGITS = 48


class Names:
    """The texts that a page gives numbers to, in the order in which they come."""

    def __init__(self, known=()):
        self.texts = list(known)
        self.numbers = {text: number for number, text in enumerate(self.texts)}

    def number(self, text):
        if text not in self.numbers:
            self.numbers[text] = len(self.texts)
            self.texts.append(text)
        return self.numbers[text]


def fate_of(line, is_subscribed, was_ignored):
    """What became of a message that was handled, as gossip_stats counts it. Copies of what was ignored are ignored, too."""
    marks = {it["mark"]: it for it in line["marks"]}
    verdict = marks.get("seen", {}).get("verdict")
    if "first" in marks:
        return "new"
    if "invalid" in marks:
        if verdict == "reject":
            return "rejected"
        return "signed" if any(line["part"][key] is not None for key in SIGNED) else "again"
    if verdict == "ignore":
        return "ignored"
    if not is_subscribed:
        return "off_topic"
    if was_ignored:
        return "ignored"
    return "near" if "near" in marks else "duplicate"


class Events:
    """Makes the lists, and numbers topics, messages and words on the way."""

    def __init__(self, peers):
        self.peers = Names(peers)
        self.topics, self.ids, self.words = Names(), Names(), Names()
        self.payloads = {}

    def peer(self, name):
        return self.peers.number(name) if isinstance(name, str) else name

    def topic(self, text):
        return self.topics.number(text or "")

    def message(self, id, data):
        number = self.ids.number(id)
        if number not in self.payloads and data is not None:
            self.payloads[number] = [data[:DIGITS], len(data) // 2]
        return number

    def messages(self):
        """Each message: the first digits of its identifier, those of its payload, and how many bytes that has."""
        return [[id[:12], *self.payloads.get(number, ["", -1])] for number, id in enumerate(self.ids.texts)]

    def event_of(self, line, fate=None, is_so=False):
        """A line as a list; None where there is nothing to say about it. Of a message it is given what became of it; of a
        GRAFT, whether its sender is in the mesh after it; of an RPC, whether the peer had shut down before."""
        word = line["event"]
        who, topic, item, count = getattr(self, f"of_{word}", self.of_other)(line)
        if fate:
            count = FATE[fate]
        elif word in ("graft", "late"):
            count = int(is_so)
        effects = self.effects_of(line)
        if word in SILENT and not effects:
            return None
        event = [self.peer(line["peer"]), KIND[word], who, topic, item, count]
        return trimmed([*event, effects] if effects else event)

    def of_message(self, line):
        part = line["part"]
        return self.peer(line["from"]), self.topic(part["topic"]), self.message(line["id"], part["data"] or ""), 0

    def of_publish(self, line):
        return -1, self.topic(line["topic"]), self.message(line["id"], line["data"]), -1

    def of_subscription(self, line):
        return self.peer(line["from"]), self.topic(line["part"]["topicid"]), -1, int(bool(line["part"]["subscribe"]))

    def of_ihave(self, line):
        return self.peer(line["from"]), self.topic(line["part"]["topicID"]), -1, len(line["part"]["messageIDs"])

    def of_iwant(self, line):
        return self.peer(line["from"]), -1, -1, len(line["part"]["messageIDs"])

    def of_prune(self, line):
        seconds = line["part"]["backoff"]
        return self.peer(line["from"]), self.topic(line["part"]["topicID"]), -1, -1 if seconds is None else seconds

    def of_graft(self, line):
        return self.peer(line["from"]), self.topic(line["part"]["topicID"]), -1, -1

    def of_raw(self, line):
        return self.peer(line["to"]), -1, -1, len(line["bytes"]) // 2

    def of_refused(self, line):
        """(a line of the script has no neighbour: what it asks for stands there)"""
        return self.words.number(line["what"]), -1, line["number"], line["line"]

    def of_other(self, line):
        who = line.get("from", line.get("to"))
        return -1 if who is None else self.peer(who), self.topic(line["topic"]) if "topic" in line else -1, -1, -1

    def effects_of(self, line):
        """What followed from an event: what was remembered, sent and delivered, and what was not done. Of a message its fate
        says the rest."""
        if line["event"] == "message" and not line["sent"]:
            return []
        effects = [it for mark in line.get("marks", ()) for it in self.of_mark(mark)]
        effects += self.of_sends(line.get("sent", ()))
        if line.get("delivered") and line["event"] != "message":
            effects.append([EFFECT["delivered"]])
        if line.get("promise"):
            effects.append([EFFECT["promise"], self.peer(line["promise"]["from"]), line["promise"]["until"]])
        if line["event"] in ("heard", "late"):
            effects += self.of_unheard(line["rpc"])
        return effects + [it for fallen in line.get("fell_away", ()) for it in self.of_fallen(fallen)]

    def of_mark(self, mark):
        """[who, topic] of members; [who, topic, value] of a deficit and a backoff; [who, count] of what was asked for."""
        word = mark["mark"]
        if word in ("grafted", "pruned", "fanned", "unfanned"):
            yield [EFFECT[word], self.peer(mark["peer"]), self.topic(mark["topic"])]
        elif word in ("deficit", "backoff"):
            value = mark["until"] if word == "backoff" else mark["millionths"] / 1e6
            yield [EFFECT[word], self.peer(mark["peer"]), self.topic(mark["topic"]), value]
        elif word == "misbehaviour":
            yield [EFFECT[word], self.peer(mark["peer"])]
        elif word == "asked":
            yield [EFFECT[word], self.peer(mark["peer"]), mark["count"]]
        elif word == "answered":
            yield [EFFECT[word], self.peer(mark["peer"]), self.message(mark["id"], None)]

    def of_sends(self, sent):
        """[how many, receivers..], for each kind of what was sent. Parts of an RPC are counted for each neighbour."""
        found = {}
        for it in sent:
            for word, count in counts_of(it["rpc"]):
                many, receivers = found.setdefault(word, [0, []])
                found[word] = [many + count, receivers]
                receivers.append(self.peer(it["to"]))
        return [[EFFECT[word], many, *receivers] for word, (many, receivers) in found.items()]

    def of_unheard(self, rpc):
        """[topic, how many] of the messages in an RPC that was not handled."""
        counts = {}
        for it in rpc["publish"]:
            topic = self.topic(it["topic"])
            counts[topic] = counts.get(topic, 0) + 1
        return [[EFFECT["not_heard"], topic, count] for topic, count in counts.items()]

    def of_fallen(self, fallen):
        """Why something was not done: [who], and [who, topic, why], [who, message, why] or [who, message, until]."""
        who, word = self.peer(fallen["from"]), fallen["what"]
        if word == "graylisted":
            yield [EFFECT[word], who]
        elif word == "late":
            yield [EFFECT["came_late"], who]
        elif word == "graft":
            yield [EFFECT["graft_refused"], who, self.topic(fallen["topic"]), self.words.number(fallen["why"])]
        elif word == "iwant":
            yield [EFFECT["not_answered"], who, self.message(fallen["id"], None), self.words.number(fallen["why"])]
        elif word == "promise":
            yield [EFFECT["broken"], who, self.message(fallen["id"], None), fallen["until"]]


def counts_of(rpc):
    """What an RPC has, by the words of effects."""
    control = rpc["control"] or {}
    counts = {
        "announced": len(rpc["subscriptions"]),
        "passed_on": len(rpc["publish"]),
        **{f"sent_{word}": sum(len(it["messageIDs"]) for it in control.get(word, ())) for word in ("ihave", "iwant")},
        **{f"sent_{word}": len(control.get(word, ())) for word in ("graft", "prune")},
    }
    return [(word, count) for word, count in counts.items() if count]


def trimmed(event):
    while event[-1] == -1:
        event.pop()
    return event
