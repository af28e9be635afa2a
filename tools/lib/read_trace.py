"""Reads the lines of bin/gossip_trace back, and makes of them what a report says."""
import collections
import json

PARTS = "subscription", "message", "ihave", "iwant", "graft", "prune"


def parts_in(rpc):
    """How many parts an RPC has."""
    return sum(len(it) for it in (rpc["subscriptions"], rpc["publish"], *(rpc["control"] or {}).values()))


def is_signed(message):
    """Whether a message carries what StrictNoSign forbids."""
    return any(message[key] is not None for key in ("from", "seqno", "signature", "key"))


def is_invalid(line):
    return any(mark["mark"] == "invalid" for mark in line["marks"])


class Trace:
    """The names of the peers, and the lines of their entries."""

    def __init__(self, text):
        lines = [json.loads(it) for it in text.splitlines()]
        self.head, self.lines = lines[0], lines[1:]
        self.names = self.head["peers"]

    def of(self, name):
        return [it for it in self.lines if it["peer"] == name]

    def deliveries(self):
        """The lines of a report: what each peer delivered."""
        for name in self.names:
            for line in self.of(name):
                for it in line.get("delivered", ()):
                    yield f"delivered {name} {line['at']} {it['topic']} {it['data'] or '-'}"

    def refusals(self):
        for name in self.names:
            for line in self.of(name):
                if line["event"] == "refused":
                    yield f"refused {name} {line['at']} {line['what']} {line['number']}"

    def faults(self):
        for name in self.names:
            for line in self.of(name):
                if line["event"] == "fault":
                    yield f"fault {name} {line['at']} {line['from']}"

    def meshes(self):
        """Who is in a mesh when a peer shuts down: who was grafted, and not pruned since."""
        for name in self.names:
            members = set()
            for line in self.of(name):
                if line["event"] == "shut":
                    break
                for it in line.get("marks", ()):
                    if it["mark"] == "grafted":
                        members.add((it["topic"], self.names.index(it["peer"])))
                    elif it["mark"] == "pruned":
                        members.discard((it["topic"], self.names.index(it["peer"])))
            for topic, number in sorted(members):
                yield f"mesh {name} {topic} {self.names[number]}"

    def report(self):
        """The report without its scores and its last line."""
        return [*self.deliveries(), *self.refusals(), *self.faults(), *self.meshes()]

    def libp2p_counts(self):
        """How many events of a kind go-libp2p's tracer has, except SEND_RPC and DUPLICATE_MESSAGE."""
        words = collections.Counter(it["event"] for it in self.lines)
        marks = collections.Counter(mark["mark"] for it in self.lines for mark in it.get("marks", ()))
        return {
            "ADD_PEER": 2 * len(self.head["dials"]),
            "PUBLISH_MESSAGE": words["publish"],
            "REJECT_MESSAGE": self.rejected(),
            "DELIVER_MESSAGE": sum(len(it.get("delivered", ())) for it in self.lines),
            "RECV_RPC": words["heard"],
            "JOIN": words["subscribe"],
            "LEAVE": words["unsubscribe"],
            "GRAFT": marks["grafted"],
            "PRUNE": marks["pruned"],
            "REMOVE_PEER": words["gone"] + words["fault"] + words["hang_up"],
        }

    def off_topics(self):
        """How many messages came on a topic that their peer is not subscribed to, and have no mark: it passes them over."""
        count = 0
        for name in self.names:
            topics = set()
            for it in self.of(name):
                if it["event"] == "subscribe":
                    topics.add(it["topic"])
                elif it["event"] == "unsubscribe":
                    topics.discard(it["topic"])
                elif it["event"] == "message":
                    count += (it["part"]["topic"] or "") not in topics and not it["marks"]
        return count

    def rejected(self):
        """How many messages were found to be rejected or ignored, or were signed."""
        count = 0
        for it in self.messages():
            verdicts = [mark["verdict"] for mark in it["marks"] if mark["mark"] == "seen"]
            count += verdicts in (["reject"], ["ignore"]) or (is_signed(it["part"]) and is_invalid(it))
        return count

    def messages(self):
        return [it for it in self.lines if it["event"] == "message"]

    def strange_falls(self):
        """What is wrong with what came to nothing, by the lines themselves."""
        for name in self.names:
            bars, lines = {}, [it for it in self.of(name) if it["event"] != "refused"]
            for line, after in zip(lines, [*lines[1:], None]):
                right = self.right_falls(line, after, bars)
                if line["fell_away"] != right:
                    yield f"{name} at {line['at']}, {line['event']}: {line['fell_away']} fell away, and {right} by the line"
                for it in (mark for mark in line["marks"] if mark["mark"] == "backoff"):
                    place = it["peer"], it["topic"]
                    bars[place] = max(bars.get(place, 0), it["until"])

    def right_falls(self, line, after, bars):
        """What came to nothing by what the peer did, at a line and at the one after it. Reasons that no line tells are
        taken as they stand."""
        word, told = line["event"], line["fell_away"]
        if word == "late":
            return [{"what": "late", "from": line["from"]}]
        if word == "heard":
            return self.right_hearing(line, after)
        if word == "graft":
            return self.right_graft(line, bars)
        if word == "iwant":
            return self.right_requests(line)
        if word == "heartbeat":
            charged = [it["peer"] for it in line["marks"] if it["mark"] == "misbehaviour"]
            keys = ["what", "from", "id", "until"]
            is_right = [it["from"] for it in told] == charged and all(list(it) == keys and it["until"] <= line["at"] for it in told)
            return told if is_right else [{"what": "promise", "from": it} for it in charged]
        return []

    def right_hearing(self, line, after):
        """An RPC whose parts do not follow came from a graylisted neighbour. One without parts may have come from any."""
        is_lost = after is None or after["event"] not in PARTS if parts_in(line["rpc"]) else bool(line["fell_away"])
        return [{"what": "graylisted", "from": line["from"]}] if is_lost else []

    def right_graft(self, line, bars):
        """A GRAFT that is refused gets a PRUNE. Its sender is charged where it comes within a backoff."""
        sender, topic = line["from"], line["part"]["topicID"] or ""
        if not any(it["to"] == sender and (it["rpc"]["control"] or {}).get("prune") for it in line["sent"]):
            return []
        whys = [it.get("why") for it in line["fell_away"]]
        if any(it["mark"] == "misbehaviour" for it in line["marks"]):
            why = "backoff" if line["at"] < bars.get((sender, topic), 0) else None
        else:
            why = whys[0] if whys and whys[0] in ("explicit", "score", "full") else None
        return [{"what": "graft", "from": sender, "topic": topic, "why": why}]

    def right_requests(self, line):
        """Each identifier of 32 bytes is answered or not, in order."""
        left = [mark["id"] for mark in line["marks"] if mark["mark"] == "answered"]
        whys = iter([it.get("why") for it in line["fell_away"]])
        found, answered = [], set(left)
        for one in (it for it in line["part"]["messageIDs"] if len(it) == 64):
            if left[:1] == [one]:
                left.pop(0)
                continue
            why = next(whys, None)
            is_known = why == "too_often" if one in answered else why in ("score", "not_kept", "too_often")
            found.append({"what": "iwant", "from": line["from"], "id": one, "why": why if is_known else None})
        return found
