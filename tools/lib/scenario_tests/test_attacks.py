"""What each attack does, in the figures and reports of the programs. The numbers are worked out in the comments."""
import unittest

from sweep_runs import number

from .common import figures, in_file, plain, report

# A victim in the middle of a line: `h`, `v` and `x`, who attacks. Nothing is forgiven, so counts stay whole.
LINE = """until = "12 s"
peer = [{ name = "h" }, { name = "v" }, { name = "x" }]
dial = [{ from = "h", to = "v" }, { from = "x", to = "v" }]
do = [
  { at = 0, peer = "h", what = "subscribe", topic = "news" },
  { at = 0, peer = "v", what = "subscribe", topic = "news" },
]
"""
TOPIC = '[[topic]]\nname = "news"\n'
PARAMS = "[params]\ndecay_ms = 60000\n"
REJECTING = TOPIC + 'reject = ["ff"]\nw4 = -10000000\n'


def attack(kind, keys):
    return f'[[attack]]\nkind = "{kind}"\npeer = "x"\nto = "v"\nfrom = "2 s"\n{keys}'


# What a peer counts together here.
SUMS = {
    "messages_heard": ("new", "duplicates", "ignored", "rejected", "signed", "off_topic"),
    "invalid": ("rejected", "signed"),
}


def of(text, peer, *columns):
    row = figures(text)[1][peer]
    return tuple(sum(number(row[part]) for part in SUMS.get(it, (it,))) for it in columns)


class Spam(unittest.TestCase):
    FLOOD = attack("spam", 'until = "10 s"\nevery = "500 ms"\n')

    def test_without_a_weight_all_is_heard(self):
        # 2 messages a second for 8 seconds
        text = LINE + PARAMS + TOPIC + 'reject = ["ff"]\n' + self.FLOOD
        self.assertEqual(of(text, "v", "messages_heard", "invalid"), (16, 16))

    def test_three_are_heard_until_the_graylist(self):
        # the square of 3 times -10 is -90, below the graylist threshold, -80
        text = LINE + PARAMS + REJECTING + self.FLOOD
        self.assertEqual(of(text, "v", "invalid"), (3,))
        self.assertEqual(of(text, "x", "lowest_score"), (-90,))

    def test_an_author_makes_a_message_invalid_too(self):
        text = LINE + PARAMS + TOPIC + "w4 = -10000000\n" + self.FLOOD
        self.assertEqual(of(text, "v", "invalid"), (3,))
        self.assertEqual(of(text, "x", "lowest_score"), (-90,))

    def test_messages_that_begin_well_are_delivered(self):
        text = LINE + PARAMS + REJECTING + attack("spam", 'until = "10 s"\nevery = "500 ms"\nbegins = "00"\nsize = 20\n')
        self.assertEqual(of(text, "v", "new", "invalid"), (16, 0))
        self.assertEqual(of(text, "h", "new"), (16,))


class Targets(unittest.TestCase):
    GROUPS = """until = "2 s"
[[group]]
prefix = "v"
count = 2
[[group]]
prefix = "x"
count = 2
dials = ["x", "v"]
[[attack]]
kind = "garbage"
peer = "x"
"""

    def links(self, more):
        return [(it["peer"], it["to"]) for it in plain(self.GROUPS + more + TOPIC)["do"] if it["what"] == "raw"]

    def test_attackers_spare_each_other(self):
        self.assertEqual(self.links(""), [("x1", "v1"), ("x1", "v2"), ("x2", "v1"), ("x2", "v2")])

    def test_named_peers_are_attacked(self):
        self.assertEqual(self.links('to = "v2"\n'), [("x1", "v2"), ("x2", "v2")])
        self.assertEqual(self.links('to = ["v1", "x"]\n'), [("x1", "v1"), ("x1", "x2"), ("x2", "v1"), ("x2", "x1")])


class Floods(unittest.TestCase):
    def test_offers_spend_the_budget_from_heartbeat_to_heartbeat(self):
        # 30 offers a second for 5 seconds, and 10 count up to each heartbeat. What is sent in the rounds 20 to 69 is
        # heard in 21 to 70. A heartbeat at the end of each tenth round parts that into five.
        flood = attack("ihave_flood", 'until = "7 s"\nevery = "100 ms"\ncount = 3\n')
        text = LINE + PARAMS + "w7 = 0\n" + TOPIC + flood
        self.assertEqual(of(text, "v", "ihave_heard"), (150,))
        self.assertEqual(of(text, "v", "iwant_sent") + of(text, "x", "promises_broken"), (50, 50))

    def test_promises_that_are_broken_are_charged(self):
        # one offer; 3 seconds later its promise is broken, and the square of 1 times -10 is -10
        text = LINE + PARAMS + TOPIC + attack("ihave_flood", 'until = "2100 ms"\nevery = "1 s"\n')
        self.assertEqual(of(text, "v", "iwant_sent") + of(text, "x", "promises_broken"), (1, 1))
        self.assertEqual(of(text, "x", "lowest_score"), (-10,))

    def test_requests_get_a_message_as_often_as_they_may(self):
        # one message, asked for 4 * 10 times, is sent 3 times by default, and once where one is all
        load = '[[load]]\npeer = "h"\nfrom = "1500 ms"\nuntil = "1600 ms"\nevery = 1\n'
        flood = attack("iwant_flood", 'until = "3 s"\nevery = "100 ms"\ncount = 4\n')
        for keys, answers in (("", 3), ("gossip_retransmission = 1\n", 1)):
            text = LINE + PARAMS + keys + TOPIC + load + flood
            self.assertEqual(of(text, "v", "iwant_heard"), (40,))
            self.assertEqual(of(text, "x", "messages_heard"), (answers,))

    def test_grafts_in_backoff_are_charged_and_refused(self):
        # 4 GRAFTs, each too soon: the square of 4 times -1 is -16, and each is answered by a PRUNE
        flood = attack("graft_flood", 'until = "6 s"\nevery = "1 s"\n')
        text = LINE + PARAMS + "w7 = -1000000\n" + TOPIC + flood
        self.assertEqual(of(text, "v", "graft_heard", "prune_sent"), (5, 4))  # (one GRAFT is of `h`)
        self.assertEqual(of(text, "x", "lowest_score"), (-16,))

    def test_grafts_in_backoff_are_heard_until_the_graylist(self):
        # by default the square of 3 times -10 is -90
        text = LINE + PARAMS + TOPIC + attack("graft_flood", 'until = "10 s"\nevery = "1 s"\n')
        self.assertEqual(of(text, "v", "graft_heard", "prune_sent"), (4, 3))
        self.assertEqual(of(text, "x", "lowest_score"), (-90,))

    def test_garbage_cuts_the_link(self):
        # sent in round 20, heard in round 21
        self.assertIn("fault v 2100 x", report(LINE + TOPIC + attack("garbage", "")))
        self.assertIn("fault v 2100 x", report(LINE + TOPIC + attack("garbage", 'hex = "0100ffff"\n')))


# Meshes of two members at most; gossip goes to nobody. `h` comes onto the topic when the mesh of `v` is full.
SMALL = """[params]
d = 2
d_low = 1
d_high = 2
d_score = 0
d_out = 0
d_lazy = 0
gossip_factor = 0
flood_publish = false
"""
CROWD = """until = "10 s"
[[group]]
prefix = "v"
[[group]]
prefix = "h"
from = "500 ms"
network = false
dials = "v"
[[group]]
prefix = "x"
count = 2
network = false
dials = "v"
[[load]]
peer = "h"
from = "3 s"
until = "8 s"
every = "1 s"
"""
SILENT = '[[attack]]\nkind = "silent"\npeer = "x"\n'


def reached(text):
    return [int(it["reached"]) for it in figures(text)[0]]


class Silence(unittest.TestCase):
    def test_silent_members_fill_a_mesh(self):
        lines = report(CROWD + SMALL + TOPIC + SILENT)
        self.assertEqual([it for it in lines if it.startswith("mesh v")], ["mesh v news x1", "mesh v news x2"])

    def test_what_others_publish_does_not_come(self):
        # to nobody but `h` itself, and without the attack to `v` as well
        self.assertEqual(reached(CROWD + SMALL + TOPIC + SILENT), [0] * 5)
        quiet = CROWD.replace("count = 2\n", "count = 2\ntopics = []\n")
        self.assertEqual(reached(quiet + SMALL + TOPIC), [1] * 5)

    def test_missing_deliveries_are_charged(self):
        # P3 from 1.5 seconds in the mesh on: one is missing of each silent member, which costs 1. Who is below 0 leaves the
        # mesh, and `h`, whose backoff is over by then, comes in. (Later `h` misses what `v` doesn't deliver either.)
        scored = TOPIC + "w3 = -1000000\np3_threshold = 1000000\np3_activation_ms = 1500\np3_decay = 1000000\n"
        lines = report(CROWD.replace("10 s", "3500 ms") + SMALL + "prune_backoff_s = 1\ndecay_ms = 100\n" + scored + SILENT)
        self.assertEqual([it for it in lines if it.startswith("mesh v")], ["mesh v news h"])

    def test_a_silent_peer_may_not_subscribe(self):
        text = CROWD.replace('count = 2\n', 'count = 2\ntopics = "news"\n') + TOPIC + SILENT
        self.assertIn(b'"x1" subscribes to "news", and so would pass messages on; with topics = [] its group does not', in_file(text).stderr)


# Twelve attackers, and two friends that the victim dialled.
ECLIPSE = """until = "5 s"
[[group]]
prefix = "e"
count = 12
network = false
[[group]]
prefix = "v"
network = false
dials = "friend"
[[group]]
prefix = "friend"
count = 2
network = false
[[group]]
prefix = "far"
network = false
dials = "friend"
[[load]]
peer = "far"
from = "2500 ms"
until = "4500 ms"
every = "500 ms"
[[attack]]
kind = "eclipse"
peer = "e"
to = "v"
"""


def came_to(text, peer):
    return len([it for it in report(text) if it.startswith(f"delivered {peer} ")])


class Eclipse(unittest.TestCase):
    def test_the_victim_hears_by_members_that_it_dialled(self):
        # (of equal scores a cut keeps the first peers, here attackers; with d_score 6 it keeps nobody else)
        params = "[params]\nflood_publish = false\nd_lazy = 0\ngossip_factor = 0\n"
        self.assertEqual(came_to(ECLIPSE + params + TOPIC, "v"), 4)
        self.assertEqual(came_to(ECLIPSE + params + "d_out = 0\nd_score = 6\n" + TOPIC, "v"), 0)

    def test_the_mesh_of_the_victim_is_the_attackers(self):
        params = "[params]\nflood_publish = false\nd_out = 0\nd_score = 6\n"
        lines = [it for it in report(ECLIPSE + params + TOPIC) if it.startswith("mesh v news ")]
        self.assertEqual(lines, [f"mesh v news e{it:02}" for it in range(1, 7)])


class Covert(unittest.TestCase):
    TEXT = LINE.replace("do = [", 'do = [\n  { at = 0, peer = "x", what = "subscribe", topic = "news" },') + PARAMS
    ATTACK = """[[attack]]
kind = "covert"
peer = "x"
to = "v"
good_from = "1500 ms"
good_every = "100 ms"
from = "3500 ms"
until = "10 s"
every = "500 ms"
"""

    def test_a_good_name_buys_invalid_messages(self):
        # 20 good messages with a weight of 1 are worth 20. 20 - 10 * 3 * 3 is -70, above the graylist threshold.
        # So a fourth one is heard, and 20 - 10 * 4 * 4 is -140. Without credit three are heard.
        with_credit = self.TEXT + REJECTING + "w2 = 1000000\n" + self.ATTACK
        self.assertEqual(of(with_credit, "v", "new", "invalid"), (20, 4))
        self.assertEqual(of(with_credit, "x", "lowest_score", "highest_score"), (-140, -140))
        self.assertEqual(of(self.TEXT + REJECTING + self.ATTACK, "v", "new", "invalid"), (20, 3))

    def test_until_its_moment_it_is_good(self):
        # what it publishes in the rounds 15 to 34 is heard by the end, in round 35, and what it sends then is not
        early = self.TEXT.replace("12 s", "3500 ms") + REJECTING + "w2 = 1000000\n" + self.ATTACK
        self.assertEqual(of(early, "x", "lowest_score"), (20,))
        self.assertEqual(of(early, "v", "invalid"), (0,))

    def test_it_may_do_something_else_then(self):
        attack_of = self.ATTACK.replace('from = "3500 ms"', 'from = "3500 ms"\nthen = "graft_flood"')
        text = self.TEXT + "w7 = -1000000\n" + TOPIC + attack_of
        # GRAFTs at 3.5 s to 9.5 s: 13, and the ninth makes it -81, below the graylist threshold
        self.assertEqual(of(text, "x", "lowest_score"), (-81,))


class Partition(unittest.TestCase):
    TEXT = """until = "10 s"
[network]
kind = "clusters"
clusters = ["east", "west"]
degree = 3
bridges = 2
[[group]]
prefix = "east"
count = 6
[[group]]
prefix = "west"
count = 4
[[load]]
peer = "east"
from = "2 s"
until = "9 s"
every = "1 s"
[[partition]]
at = "5500 ms"
between = ["east", "west"]
"""

    def test_each_side_is_left_with_itself(self):
        # published at 2, 3, 4 and 5 seconds before it, and at 6, 7 and 8 after it
        messages, _ = figures(self.TEXT + TOPIC)
        found = [it["reached"] for it in sorted(messages, key=lambda it: int(it["at_ms"]))]
        self.assertEqual(found, ["9"] * 4 + ["5"] * 3)
