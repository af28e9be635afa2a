"""What a page of a run shows about its trace: who was in whose mesh and on which topic, figures of each round, messages, and
events."""
import json
import re

from view_events import PARTS, Events, fate_of
from view_messages import Messages

# How many events a page has at most.
MOST_EVENTS = 1_000_000
# What each line begins with, except the first.
BEGINNING = re.compile(r'\{"round":(\d+),"at":\d+,"peer":("(?:[^"\\]|\\.)*"|\d+),"event":"(\w+)"')
# What stands in the lines of events from which nothing followed, in the order of a trace's keys. Some events count even so.
NOTHING_CAME = '"sent":[],"delivered":[],"promise":null,"marks":[]'
SOMETHING_FELL = '"fell_away":[{'
COUNTING = "message", "subscribe", "unsubscribe", "gone", "fault", "hang_up"
# The figures of a round, as gossip_stats has them, and which of them each fate of a message counts for.
FIGURES = "delivered new duplicates ignored rejected signed off_topic smallest_mesh largest_mesh".split()
DELIVERED, SMALLEST, LARGEST = (FIGURES.index(it) for it in ("delivered", "smallest_mesh", "largest_mesh"))
COLUMNS = {"duplicate": "duplicates", "near": "duplicates", "again": "rejected"}


class TooLarge(Exception):
    """Says that a page would have too many events."""


class Spans:
    """What holds from a round to another one, as [what.., first, end): it holds at the end of each of these rounds."""

    def __init__(self):
        self.open, self.closed = {}, []

    def begin(self, what, round):
        self.open.setdefault(what, round)

    def end(self, what, round):
        first = self.open.pop(what, round)
        if first < round:
            self.closed.append([*what, first, round])

    def all(self, end):
        return self.closed + [[*what, first, end] for what, first in self.open.items() if first < end]


class Run:
    """The lines of a trace, taken in one by one."""

    def __init__(self, head, rounds=None, only=None, rules=None):
        self.peers = head["peers"]
        self.round_ms, self.last_round = head["round_ms"], head["last_round"]
        self.dials = [[self.peers.index(it["from"]), self.peers.index(it["to"])] for it in head["dials"]]
        self.first, self.last = rounds or (0, self.last_round)
        self.last = min(self.last, self.last_round)
        self.only = only
        self.events = Events(self.peers)
        self.by_round = {}
        self.count = 0
        self.meshes, self.subscribed, self.lost = Spans(), Spans(), Spans()
        self.members, self.ended = {}, set()
        self.ignored = set()
        self.messages = Messages(rules) if rules and only is None else None
        self.figures = [[0] * SMALLEST + [None, None] for _ in range(self.last_round + 1)]
        self.pending = None
        self.names = {}

    def take(self, text):
        """Takes in a line. One of an RPC waits until it is seen whether its parts follow."""
        found = BEGINNING.match(text)
        if not found:
            raise ValueError("it is no line of a trace")
        round, name, word = int(found[1]), self.name_of(found[2]), found[3]
        if self.pending and word not in PARTS:
            self.keep(*self.pending)
        self.pending = None
        if word == "heard":
            self.pending = round, text
        elif word == "round_end":
            self.end_round(round, self.events.peer(name))
        elif not (self.is_left_out(round, name) and self.is_empty(text) and word not in COUNTING):
            self.keep(round, text)

    @staticmethod
    def is_empty(text):
        """Whether an entry did nothing, and nothing came to nothing at it."""
        return NOTHING_CAME in text and SOMETHING_FELL not in text

    def name_of(self, text):
        """A peer's name, as JSON has it."""
        if text not in self.names:
            self.names[text] = json.loads(text)
        return self.names[text]

    def finish(self):
        if self.pending:
            self.keep(*self.pending)
        self.pending = None

    def is_left_out(self, round, name):
        return not self.first <= round <= self.last or (self.only is not None and self.only != name)

    def keep(self, round, text):
        line = json.loads(text)
        peer = self.events.peer(line["peer"])
        fate = None
        if line["event"] == "message":
            topic = self.events.topic(line["part"]["topic"])
            fate = fate_of(line, (peer, topic) in self.subscribed.open, (peer, line["id"]) in self.ignored)
        if line["event"] != "refused":
            self.remember(round, peer, line)
            self.count_in(round, line, fate)
        if not self.is_left_out(round, line["peer"]) or self.is_of_only(round, line):
            self.add(round, self.events.event_of(line, fate, self.is_so(peer, line)))

    def is_so(self, peer, line):
        """Of a GRAFT, whether its sender is in the mesh; of an RPC, whether it came after the peer's own end."""
        if line["event"] == "graft":
            topic = self.events.topic(line["part"]["topicID"])
            return self.events.peer(line["from"]) in self.members.get((peer, topic), ())
        return peer in self.ended

    def add(self, round, event):
        if event:
            self.by_round.setdefault(round, []).append(event)
            self.count += 1
            if self.count > MOST_EVENTS:
                raise TooLarge(f"the run has more than {MOST_EVENTS} events, too many to look at")

    def is_of_only(self, round, line):
        """Whether a message came from the one peer that is looked at: what it sent is seen by who heard it."""
        return self.first <= round <= self.last and line["event"] == "message" and line["from"] == self.only

    def remember(self, round, peer, line):
        """Notes memberships, subscriptions and losses."""
        word = line["event"]
        # (who has shut down has no mesh any more; its last one is that of the last round)
        for mark in line["marks"] if word != "shut" else ():
            if mark["mark"] in ("grafted", "pruned"):
                what = peer, self.events.peer(mark["peer"]), self.events.topic(mark["topic"])
                self.change_mesh(mark["mark"] == "grafted", round, what)
            elif mark["mark"] == "seen":
                (self.ignored.add if mark["verdict"] == "ignore" else self.ignored.discard)((peer, mark["id"]))
        if self.messages:
            self.messages.deliver(line, peer)
        if word == "subscribe":
            self.subscribed.begin((peer, self.events.topic(line["topic"])), round)
        elif word == "unsubscribe":
            self.subscribed.end((peer, self.events.topic(line["topic"])), round)
        elif word in ("gone", "fault", "hang_up"):
            self.lost.begin((peer, self.events.peer(line.get("from", line.get("to")))), round)
        elif word == "publish" and self.messages:
            self.messages.publish(line, peer)
        elif word == "shut":
            self.ended.add(peer)

    def change_mesh(self, comes, round, what):
        peer, other, topic = what
        members = self.members.setdefault((peer, topic), set())
        if comes:
            members.add(other)
            self.meshes.begin(what, round)
        else:
            members.discard(other)
            self.meshes.end(what, round)

    def count_in(self, round, line, fate):
        row = self.figures[round]
        row[DELIVERED] += len(line["delivered"])
        if fate:
            row[FIGURES.index(COLUMNS.get(fate, fate))] += 1

    def end_round(self, round, peer):
        """Notes how many members the meshes of a peer have that ends the round."""
        row = self.figures[round]
        for it, topic in self.subscribed.open:
            if it == peer:
                size = len(self.members.get((peer, topic), ()))
                row[SMALLEST] = size if row[SMALLEST] is None else min(row[SMALLEST], size)
                row[LARGEST] = size if row[LARGEST] is None else max(row[LARGEST], size)

    def publications(self):
        """What a page shows about each message, and the numbers of its topic and its identifier before that. A page of one peer
        has none, since it does not show all deliveries; and neither has one of a scenario that can't be read."""
        if not self.messages:
            return None
        rows = self.messages.rows(self.first, self.last, self.could_get)
        return [[self.events.topic(topic), self.events.message(id, None), *row] for topic, id, row in rows]

    def could_get(self, topic, round):
        """Who was on a topic before a round began, and had a link open."""
        number, end = self.events.topic(topic), self.last_round + 1
        on = {it[0] for it in self.subscribed.all(end) if it[1] == number and it[2] < round <= it[3]}
        pairs = [pair for one, other in self.dials for pair in ((one, other), (other, one))]
        return sorted(on & {it[0] for it in pairs if self.lost.open.get(it, round) >= round})

    def data(self):
        """What a page shows about the run."""
        end = self.last_round + 1
        rounds = range(self.first, self.last + 1)
        return {
            "peers": self.peers,
            "round_ms": self.round_ms,
            "last_round": self.last_round,
            "first": self.first,
            "last": self.last,
            "only": None if self.only is None else self.peers.index(self.only),
            "dials": self.dials,
            "topics": self.events.topics.texts,
            "messages": self.events.messages(),
            "words": self.events.words.texts,
            "meshes": self.meshes.all(end),
            "subscribed": self.subscribed.all(end),
            "lost": self.lost.all(end),
            "figure_names": FIGURES,
            "figures": [self.figures[it] for it in rounds],
            "publications": self.publications(),
            "events": [self.by_round.get(it, []) for it in rounds],
        }
