"""What bin/scenario prints: plain scenarios unchanged, all that a description has, and the same on each run."""
import glob
import hashlib
import os
import re
import sys
import tomllib
import unittest

from scenario import attacks, build, groups, loads
from scenario.places import Places

from .common import HEAD, TOP, by_program, called, figures, figures_of, in_file, plain, printed, run

EVERYTHING = (
    HEAD
    + """reject = ["ff"]
ignore = ["fe"]
w1 = 5
[params]
d = 7
flood_publish = false
[network]
kind = "ring"
[[group]]
prefix = "n"
count = 4
addresses = 2
app_score = -7
explicit = true
[[group]]
prefix = "m"
address = "one"
from = "1 s"
until = "9 s"
stagger = 2
[[peer]]
name = "p"
words = [1, 2]
address = 'a"b'
[[dial]]
from = "p"
to = "n2"
[[app]]
peer = "n3"
about = "n4"
value = 9
[[explicit]]
peer = "n1"
about = "n2"
[[do]]
at = "2 s"
peer = "p"
what = "publish"
topic = "news"
hex = "00"
[[do]]
at = 3
peer = "p"
what = "hang_up"
to = "n2"
"""
)


def lines(scenario, what):
    return [it for it in scenario["do"] if it["what"] == what]


class Plain(unittest.TestCase):
    def test_a_plain_scenario_is_passed_on_unchanged(self):
        for file in glob.glob(f"{TOP}/examples/*.toml") + glob.glob(f"{TOP}/examples/book/*.toml"):
            with open(file, "rb") as it:
                text = it.read()
            self.assertEqual(called(file).stdout, text, file)
        for text in (b"", b"\xff\xfe", b"[net", b"# [[load]]\nseed = 1\r\n", b'[[do]]\nhex = """\n[[load]]\n"""\n'):
            ran = run("-", stdin=text)
            self.assertEqual((ran.returncode, ran.stdout, ran.stderr), (0, text, b""))

    def test_all_that_a_plain_scenario_has_is_handed_through(self):
        scenario = plain(EVERYTHING)
        self.assertEqual(scenario["params"], {"d": 7, "flood_publish": False})
        self.assertEqual(scenario["topic"], [{"name": "news", "reject": ["ff"], "ignore": ["fe"], "w1": 5}])
        self.assertEqual(scenario["peer"][0], {"name": "p", "words": [1, 2], "address": 'a"b'})
        self.assertIn({"from": "p", "to": "n2"}, scenario["dial"])
        self.assertIn({"peer": "n3", "about": "n4", "value": 9}, scenario["app"])
        self.assertIn({"at": 20, "peer": "p", "what": "publish", "topic": "news", "hex": "00"}, scenario["do"])
        self.assertIn({"at": 3, "peer": "p", "what": "hang_up", "to": "n2"}, scenario["do"])
        self.assertTrue(by_program("gossip_check", printed(EVERYTHING)).startswith("ok\n6 peers, "))

    def test_groups_have_addresses_scores_and_agreements(self):
        scenario = plain(EVERYTHING)
        addresses = {it["name"]: it.get("address") for it in scenario["peer"]}
        self.assertEqual([addresses[it] for it in ("n1", "n2", "n3", "n4", "m")], ["n-1", "n-2", "n-1", "n-2", "one"])
        # the ring is p, n1, n2, n3, n4, m; and p has dialled n2, too
        given = {(it["peer"], it["about"]): it["value"] for it in scenario["app"]}
        near = {("p", "n1"), ("n2", "n1"), ("n1", "n2"), ("n3", "n2"), ("p", "n2"), ("n2", "n3"), ("n4", "n3"), ("n3", "n4")}
        self.assertEqual(set(given), near | {("m", "n4")})
        self.assertEqual({pair: it for pair, it in given.items() if it != -7}, {("n3", "n4"): 9})
        pairs = [(it["peer"], it["about"]) for it in scenario["explicit"]]
        self.assertEqual(sorted(pairs), [(f"n{a}", f"n{b}") for a, b in ((1, 2), (2, 1), (2, 3), (3, 2), (3, 4), (4, 3))])

    def test_groups_have_phases(self):
        text = HEAD + '[[group]]\nprefix = "a"\ncount = 40\nphase = "random"\n[[group]]\nprefix = "b"\nphase = "300 ms"\n[[group]]\nprefix = "c"\n'
        phases = {it["name"]: it.get("phase_ms") for it in plain(text)["peer"]}
        self.assertEqual((phases["b"], phases["c"]), (300, None))
        drawn = [phases[f"a{it:02}"] for it in range(1, 41)]
        self.assertEqual((drawn, set(drawn) <= set(range(0, 1000, 100))), ([it["phase_ms"] for it in plain(text)["peer"][:40]], True))
        self.assertGreater(len(set(drawn)), 5)
        faster = plain(text + "[params]\nheartbeat_ms = 200\n")["peer"][:40]
        self.assertEqual({it["phase_ms"] for it in faster}, {0, 100})

    def test_groups_subscribe_and_leave(self):
        scenario = plain(EVERYTHING)
        self.assertEqual([(it["at"], it["peer"]) for it in lines(scenario, "subscribe")], [(0, f"n{it}") for it in range(1, 5)] + [(10, "m")])
        self.assertEqual([(it["at"], it["peer"]) for it in lines(scenario, "unsubscribe")], [(90, "m")])
        text = HEAD + '[[topic]]\nname = "b"\n[[group]]\nprefix = "g"\ncount = 2\nstagger = 3\n'
        text += 'topics = [{ name = "b", from = 5, until = 9 }, { name = "b", from = "1 s" }]\n'
        found = [(it["at"], it["peer"], it["what"]) for it in plain(text)["do"]]
        expected = [(5, "g1", "subscribe"), (8, "g2", "subscribe"), (9, "g1", "unsubscribe"), (10, "g1", "subscribe")]
        self.assertEqual(found, expected + [(12, "g2", "unsubscribe"), (13, "g2", "subscribe")])

    def test_lines_after_the_end_are_left_out(self):
        text = HEAD + '[[group]]\nprefix = "g"\ncount = 3\nfrom = "19 s"\nstagger = "1 s"\nuntil = "30 s"\n'
        found = [(it["at"], it["peer"], it["what"]) for it in plain(text)["do"]]
        self.assertEqual(found, [(190, "g1", "subscribe"), (200, "g2", "subscribe")])

    def test_a_plain_scenario_can_be_given_parameters(self):
        file = f"{TOP}/examples/two_subscribers.toml"
        scenario = tomllib.loads(called("--params", "filecoin", file).stdout.decode())
        with open(file, "rb") as it:
            before = tomllib.load(it)
        self.assertEqual((scenario["params"]["d"], scenario["params"]["d_lazy"]), (8, 12))
        self.assertEqual({**scenario, "params": 0}, {**before, "params": 0})

    def test_loads(self):
        groups = HEAD + '[[group]]\nprefix = "g"\ncount = 3\n'
        load = '[[load]]\npeer = "g"\nfrom = "1 s"\nuntil = 14\nevery = "100 ms"\n'
        found = lines(plain(groups + load + 'text = "hi"\n'), "publish")
        self.assertEqual([(it["at"], it["peer"]) for it in found], [(10, "g1"), (11, "g2"), (12, "g3"), (13, "g1")])
        self.assertEqual([bytes.fromhex(it["hex"]) for it in found], [b"hi 1", b"hi 2", b"hi 3", b"hi 4"])
        found = lines(plain(groups + load + 'by = "all"\nsize = 9\nbegins = "abcd"\n'), "publish")
        self.assertEqual([it["peer"] for it in found], ["g1", "g2", "g3"] * 4)
        self.assertEqual({(len(it["hex"]), it["hex"][:4]) for it in found}, {(18, "abcd")})
        self.assertEqual(len({it["hex"] for it in found}), 12)
        one = lines(plain(groups + '[[load]]\npeer = "g2"\nat = 7\ntext = "ü"\n'), "publish")
        self.assertEqual([(it["at"], it["peer"], it["hex"]) for it in one], [(7, "g2", "c3bc")])

    def test_one_file_has_one_output(self):
        file = f"{TOP}/examples/descriptions/sybil_flood.toml"
        outputs = set()
        for python in {sys.executable, "/usr/bin/python3"}:
            for seed in ("0", "1", "random"):
                os.environ["PYTHONHASHSEED"] = seed
                ran = run(file, python=python)
                del os.environ["PYTHONHASHSEED"]
                outputs.add(ran.stdout)
        self.assertEqual([len(it) > 100_000 for it in outputs], [True])

    def test_the_heading_says_what_it_came_from(self):
        text = HEAD + '[[group]]\nprefix = "g"\n'
        ran = in_file(text, "--seed", "9", "--params=ethereum")
        digest = hashlib.sha256(text.encode()).hexdigest()
        expected = f"# bin/scenario made this of it.toml, --params ethereum, --seed 9.\n# The SHA-256 of that file: {digest}\n"
        self.assertTrue(ran.stdout.decode().startswith(expected), ran.stdout)
        self.assertEqual(tomllib.loads(ran.stdout.decode())["seed"], 9)

    def test_a_file_with_other_lines_and_a_mark_is_read(self):
        text = HEAD + '[[group]]\nprefix = "g"\n'
        self.assertEqual(plain("\ufeff" + text.replace("\n", "\r\n"))["peer"], [{"name": "g"}])

    def test_the_example(self):
        text = called(f"{TOP}/examples/descriptions/sybil_flood.toml").stdout.decode()
        messages, peers = figures_of(text)
        good = [it for it in messages if it["verdict"] == "accept"]
        before = [it["reached"] for it in good if int(it["at_ms"]) < 60_000]
        after = [it["reached"] for it in good if int(it["at_ms"]) >= 60_000]
        self.assertEqual((before, after), (["29"] * 4, ["14"] * 3))
        # (each of 10 sybils has dialled 3 peers, and each of those hears it 12 times)
        invalid = [int(it["rejected"]) + int(it["signed"]) for name, it in peers.items() if name[0] in "ew"]
        self.assertEqual({it % 12 for it in invalid}, {0})
        self.assertEqual(sum(invalid), 10 * 3 * 12)
        last = [it.split() for it in by_program("gossip_sim", text).splitlines() if it.startswith("score ")]
        self.assertEqual({it[3] for it in last if it[2].startswith("sybil")}, {"-15978.309839"})

    def test_the_page_of_descriptions(self):
        with open(f"{TOP}/docs/DESCRIPTIONS.md", encoding="utf-8") as file:
            page = file.read()
        whole, *parts = re.findall(r"```toml\n(.*?)```", page, re.DOTALL)
        self.assertEqual(len(parts), 3)
        # (the part of partitions is a whole description, too)
        self.assertTrue(parts[2].startswith("until"))
        for text in (whole, *(whole + it for it in parts[:2]), parts[2]):
            self.assertTrue(by_program("gossip_check", printed(text)).startswith("ok\n"))
        reached = {int(it["at_ms"]): it["reached"] for it in figures(parts[2])[0]}
        times = range(3_000, 40_001, 2_000)
        # (what is published at 23 s is still offered when the gateways are back. These subscribe at 25 s, so they are no
        # subscribers of what is published then)
        expected = ["14" if 10_000 < it < 22_000 else "29" if it in (23_000, 25_000) else "31" for it in times]
        self.assertEqual([reached[it] for it in times], expected)
        for kind in attacks.KINDS:
            self.assertIn(f'kind = "{kind}"', page)
        keys = [*groups.GROUP, *groups.NETWORK, *groups.KINDS, *loads.LOAD, *loads.SEND, *loads.MESSAGE, *loads.PRUNE, *loads.OFFER]
        keys += [it for kind in attacks.KINDS for it in attacks.KEYS[kind]] + build.OF_DESCRIPTIONS
        for key in keys:
            self.assertRegex(page, rf"`[^`]*\b{key}\b[^`]*`", key)

    def test_lines_of_keys(self):
        text = 'a = 1\n"b c" = """\nx = 2\n"""\n[d]\n# no\ne = [1,\n {f = 2, g.h = 3}]\n[[i]]\nj = \'\'\'[[i]]\'\'\'\n[[i]]\n[i.k]\nl = 2\n'
        places = Places(text)
        for path, line in (
            (("a",), 1),
            (("b c",), 2),
            (("d",), 5),
            (("d", "e"), 7),
            (("d", "e", 0), 7),
            (("d", "e", 1, "f"), 8),
            (("d", "e", 1, "g", "h"), 8),
            (("i", 0, "j"), 10),
            (("i", 1), 11),
            (("i", 1, "k", "l"), 13),
        ):
            self.assertEqual(places.line_of(path), line, path)
        self.assertEqual(places.line_of(("d", "e", 1, "unknown")), 8)
        self.assertIsNone(places.line_of(("unknown",)))

    def test_every_example_reads_its_lines_as_tomllib_does(self):
        for file in glob.glob(f"{TOP}/examples/**/*.toml", recursive=True):
            with open(file, encoding="utf-8") as it:
                text = it.read()
            values, places = tomllib.loads(text), Places(text)
            self.assertEqual(places.names(), set(values), file)
            rows = text.split("\n")
            for place, line in enumerate(values.get("do", [])):
                found = rows[places.line_of(("do", place, "at")) - 1]
                self.assertRegex(found, rf"at = {re.escape(str(line['at']))}\b", file)
