"""Counts what happened in a run by the lines of bin/gossip_trace and the words of docs/OUTPUTS.md ("Peers" and after it):
for each peer, link, topic and round."""
import collections

from read_trace import PARTS, is_signed
from scenario import wire

HEARD = (
    "rpcs_heard bytes_heard raw_bytes_heard new duplicates ignored rejected signed off_topic payload_bytes_new "
    "payload_bytes_again subscriptions_heard ihave_heard ids_offered iwant_heard ids_asked graft_heard prune_heard"
).split()
SENT = (
    "rpcs_sent bytes_sent raw_bytes_sent message_bytes_sent control_bytes_sent subscription_bytes_sent subscriptions_sent "
    "messages_pushed messages_answered ihave_sent ids_offered_sent iwant_sent ids_asked_sent graft_sent prune_sent"
).split()
NOTHING = (
    "rpcs_graylisted rpcs_late faults graft_refused_explicit graft_refused_backoff graft_refused_score graft_refused_full "
    "ids_not_sent_score ids_not_sent_too_often ids_not_sent_not_kept promises_broken refused_lines"
).split()
STATE = (
    "delivered grafted grafted_by_neighbour grafted_by_heartbeat pruned pruned_by_neighbour pruned_by_heartbeat pruned_by_loss"
).split()
COUNTS = [*HEARD, *SENT, *NOTHING, *STATE]
# What goes over a link to a peer is what the other one puts there: a column of peers only.
OF_BYTES = {"bytes_heard": "bytes_sent", "raw_bytes_heard": "raw_bytes_sent"}
# The six things that become of a message that is handled.
FATES = "new", "duplicates", "ignored", "rejected", "signed", "off_topic"
STEPS = "heartbeat", "mesh", "fanout", "gossip", "fanout_end", "heartbeat_end"
LOSSES = "gone", "fault"
# What belongs to no topic, and what concerns no neighbour.
OF_NO_TOPIC = {
    *"rpcs_heard iwant_heard ids_asked rpcs_sent bytes_sent raw_bytes_sent".split(),
    *"message_bytes_sent control_bytes_sent subscription_bytes_sent iwant_sent ids_asked_sent".split(),
    *"rpcs_graylisted rpcs_late faults promises_broken refused_lines".split(),
    *"ids_not_sent_score ids_not_sent_too_often ids_not_sent_not_kept".split(),
}
OF_NO_LINK = {"refused_lines", "delivered"}

# Whose row it stands in, over which link it went, on which topic, and in which round; which column, and how much.
Happened = collections.namedtuple("Happened", "whose link topic round column amount")


def present(parts):
    """The fields of a message that are there, as bytes: topics have a character for each byte, all else has digits."""
    found = {}
    for name, it in parts.items():
        if isinstance(it, str):
            found[name] = it.encode("latin-1") if name in ("topic", "topicid", "topicID") else bytes.fromhex(it)
        elif isinstance(it, list):
            found[name] = [bytes.fromhex(each) for each in it]
        elif it is not None:
            found[name] = it
    return found


def length_of(kind, number, items):
    """How many bytes the records of these parts take."""
    return sum(len(wire.field(kind, number, present(it))) for it in items)


class Body:
    """How long the body of an RPC is: the bytes before its control messages, and those of these, None without any."""

    def __init__(self, before, control):
        self.before, self.control = before, control

    def length(self):
        return self.before + (0 if self.control is None else 1 + len(wire.varint(self.control)) + self.control)

    def frame(self):
        return len(wire.varint(self.length())) + self.length()

    def joined(self, other):
        controls = [it.control for it in (self, other) if it.control is not None]
        return Body(self.before + other.before, sum(controls) if controls else None)


def body_of(rpc):
    before = length_of("SubOpts", 1, rpc["subscriptions"]) + length_of("Message", 2, rpc["publish"])
    if rpc["control"] is None:
        return Body(before, None)
    lists = ("ControlIHave", "ihave"), ("ControlIWant", "iwant"), ("ControlGraft", "graft"), ("ControlPrune", "prune")
    return Body(before, sum(length_of(kind, number, rpc["control"][name]) for number, (kind, name) in enumerate(lists, 1)))


class Peer:
    """What the lines of a peer say, taken one after the other."""

    def __init__(self, name):
        self.name = name
        self.topics, self.verdicts, self.gathered = set(), {}, {}
        self.members = collections.defaultdict(set)  # of the mesh of a topic

    def see(self, line):
        """What happened at a line."""
        found = [*self.handled(line), *self.fallen(line), *self.remembered(line), *self.sent(line), *self.cut(line)]
        if line["event"] == "subscribe":
            self.topics.add(line["topic"])
        elif line["event"] == "unsubscribe":
            self.topics.discard(line["topic"])
        return [Happened(whose, link, topic, line["round"], column, count) for whose, link, topic, column, count in found]

    def of(self, neighbour, topic, column, count=1):
        """It came from a neighbour."""
        return self.name, (neighbour, self.name), topic, column, count

    def to(self, neighbour, topic, column, count=1):
        """It goes to a neighbour."""
        return self.name, (self.name, neighbour), topic, column, count

    def handled(self, line):
        word, part = line["event"], line.get("part", {})
        if word == "refused":
            yield self.name, None, None, "refused_lines", 1
        elif word == "heard" and all(it["what"] != "graylisted" for it in line["fell_away"]):
            yield self.of(line["from"], None, "rpcs_heard")
        elif word == "fault":
            yield self.of(line["from"], None, "faults")
        elif word == "message":
            yield from self.message(line["from"], part["topic"] or "", line)
        elif word == "subscription":
            yield self.of(line["from"], part["topicid"] or "", "subscriptions_heard")
        elif word in ("ihave", "iwant", "graft", "prune"):
            topic = None if word == "iwant" else part["topicID"] or ""
            yield self.of(line["from"], topic, f"{word}_heard")
            if "messageIDs" in part:
                yield self.of(line["from"], topic, "ids_offered" if word == "ihave" else "ids_asked", len(part["messageIDs"]))

    def message(self, sender, topic, line):
        fate = self.fate_of(topic, line)
        yield self.of(sender, topic, fate)
        kind = "payload_bytes_new" if fate == "new" else "payload_bytes_again"
        yield self.of(sender, topic, kind, len(line["part"]["data"] or "") // 2)

    def fate_of(self, topic, line):
        """What becomes of a message. One that has no verdict now was seen lately, and has the one that it got then."""
        if topic not in self.topics:
            return "off_topic"
        if is_signed(line["part"]):
            return "signed"
        verdicts = [it["verdict"] for it in line["marks"] if it["mark"] == "seen"]
        verdict = verdicts[0] if verdicts else self.verdicts[line["id"]]
        if verdict == "accept":
            return "new" if verdicts else "duplicates"
        return {"ignore": "ignored", "reject": "rejected"}[verdict]

    def fallen(self, line):
        for it in line.get("fell_away", ()):
            what, sender, why = it["what"], it["from"], it.get("why")
            if what == "promise":
                yield sender, (sender, self.name), None, "promises_broken", 1
            elif what in ("graylisted", "late"):
                yield self.of(sender, None, f"rpcs_{what}")
            else:
                yield self.of(sender, it.get("topic"), f"graft_refused_{why}" if what == "graft" else f"ids_not_sent_{why}")

    def remembered(self, line):
        """Deliveries, and who came into a mesh or left it."""
        for it in line.get("delivered", ()):
            yield self.name, None, it["topic"], "delivered", 1
        for it in line.get("marks", ()):
            if it["mark"] == "seen":
                self.verdicts[it["id"]] = it["verdict"]
            elif it["mark"] in ("grafted", "pruned"):
                (set.add if it["mark"] == "grafted" else set.discard)(self.members[it["topic"]], it["peer"])
                yield self.to(it["peer"], it["topic"], it["mark"])
                cause = cause_of(line["event"])
                if cause:
                    yield self.to(it["peer"], it["topic"], f"{it['mark']}_by_{cause}")

    def sent(self, line):
        """What is sent, and what no longer fits what is gathered."""
        for it in line.get("sent", ()):
            rpc, body, gathered = it["rpc"], body_of(it["rpc"]), self.gathered.get(it["to"])
            yield from self.parts(line["event"], it["to"], rpc)
            kind = "message" if rpc["publish"] else "control" if rpc["control"] is not None else "subscription"
            yield self.to(it["to"], None, f"{kind}_bytes_sent", body.length())
            if gathered and gathered.joined(body).length() > wire.MOST_BODY:
                yield from self.frame(it["to"])
                gathered = None
            self.gathered[it["to"]] = gathered.joined(body) if gathered else body

    def parts(self, event, to, rpc):
        """The parts of an RPC that is sent."""
        for it in rpc["subscriptions"]:
            yield self.to(to, it["topicid"] or "", "subscriptions_sent")
        for it in rpc["publish"]:
            yield self.to(to, it["topic"] or "", "messages_answered" if event == "iwant" else "messages_pushed")
        for word, items in (rpc["control"] or {}).items():
            for it in items:
                topic = None if word == "iwant" else it["topicID"] or ""
                yield self.to(to, topic, f"{word}_sent")
                if "messageIDs" in it:
                    kind = "ids_offered_sent" if word == "ihave" else "ids_asked_sent"
                    yield self.to(to, topic, kind, len(it["messageIDs"]))

    def frame(self, to):
        """What is gathered for a neighbour goes out."""
        body = self.gathered.pop(to, None)
        if body:
            yield self.to(to, None, "rpcs_sent")
            yield self.to(to, None, "bytes_sent", body.frame())

    def cut(self, line):
        """What goes out at a line: what is gathered, and then raw bytes."""
        word = line["event"]
        if word in ("round_end", "shut"):
            for it in list(self.gathered):
                yield from self.frame(it)
        elif word in (*LOSSES, "hang_up", "raw"):
            yield from self.frame(line["from"] if word in LOSSES else line["to"])
        if word == "raw":
            for column in ("bytes_sent", "raw_bytes_sent"):
                yield self.to(line["to"], None, column, len(line["bytes"]) // 2)


def cause_of(event):
    """By what a neighbour came into a mesh, or left it. None where the peer itself did that."""
    if event in PARTS:
        return "neighbour"
    return "heartbeat" if event in STEPS else "loss" if event in LOSSES else None


def happenings(trace):
    """All that happened, by whose trace says so."""
    found = {}
    for name in trace.names:
        peer = Peer(name)
        found[name] = [it for line in trace.of(name) for it in peer.see(line)]
    return found


def sizes_of_meshes(trace):
    """How many members the meshes of peers had at the end of each round, and at the end of the run: (name, round or None,
    size)."""
    for name in trace.names:
        peer, is_up = Peer(name), True
        for line in trace.of(name):
            peer.see(line)
            if line["event"] == "round_end":
                yield from ((name, line["number"], len(peer.members[it])) for it in peer.topics)
            if line["event"] == "shut" and is_up:
                is_up = False
                yield from ((name, None, len(peer.members[it])) for it in peer.topics)
