"""What bin/scenario refuses, with the line, and how it ends."""
import os
import platform
import subprocess
import sys
import tempfile
import unittest

from .common import TOP, in_file, printed, run

# Line 1 to 3; what a case adds begins in line 4.
HEAD = 'until = "10 s"\n[[topic]]\nname = "news"\n'
GROUP = '[[group]]\nprefix = "g"\ncount = 3\ndials = "g"\n'

# What follows HEAD, and what is said about it.
CASES = {
    '[network]\nkind = "ring"\ndegre = 3\n' + GROUP: '6: [network]: degre: "degre" is not known here; the nearest is degree',
    '[network]\nkind = "rnig"\n' + GROUP: '5: [network]: kind: "rnig" is not known here; the nearest is ring',
    '[network]\nkind = "ring"\ndegree = 3\n' + GROUP: "6: [network]: degree: a network of the kind ring has no such key",
    '[network]\nkind = "random"\ndegree = 3\n' + GROUP: "6: [network]: degree: 3 is too much for 3 peers: each has at most 2 others",
    '[network]\nkind = "random"\ndegree = 1\n' + GROUP: "6: [network]: degree: with one neighbour each, not all peers are joined: it must be 2 at least",
    '[network]\nkind = "small_world"\ndegree = 1\n[[group]]\nprefix = "g"\ncount = 2\n': "6: [network]: degree: 1 is odd, and a small world joins as many on both sides",
    '[network]\nkind = "small_world"\ndegree = 2\nrewire = 2\n' + GROUP: "7: [network]: rewire: 2 must be a number from 0 to 1, such as 0.25",
    '[network]\nkind = "star"\nhub = "x"\n' + GROUP: '6: [network]: hub: there is no peer of the network "x"',
    '[network]\nkind = "random"\n' + GROUP: "4: [network]: degree is missing: it must be a whole number from 1 to 63",
    '[network]\nkind = "ring"\n[[group]]\nprefix = "g"\n': "4: [network]: it needs two peers at least, and has 1",
    '[[group]]\nprefix = "g"\ncount = 65\n': "6: [[group]] 1: count: 65 must be a whole number from 1 to 64",
    '[[group]]\nprefix = "g"\ncount = 40\n[[group]]\nprefix = "h"\ncount = 40\n': "8: [[group]] 2: prefix: a scenario has at most 64 peers",
    '[[group]]\nprefix = "G"\n': '5: [[group]] 1: prefix: "G" must be a name: 1 to 32 of a to z, 0 to 9, _ and -',
    '[[group]]\ncount = 2\n': "4: [[group]] 1: prefix is missing: it must be a name: 1 to 32 of a to z, 0 to 9, _ and -",
    GROUP + '[[group]]\nprefix = "g2"\n': '9: [[group]] 2: prefix: there is a peer or a group "g2" already',
    GROUP + '[[group]]\nprefix = "g"\ncount = 10\n': '9: [[group]] 2: prefix: there is a peer or a group "g" already',
    '[[group]]\nprefix = "g"\ncount = 2\nexplicit = true\n': "7: [[group]] 1: explicit: no two peers of the group are joined; with dials they can dial each other",
    '[[group]]\nprefix = "g"\ntopics = ["new"]\n': '6: [[group]] 1: topics 1: name: there is no topic "new"; the nearest is "news"',
    '[[group]]\nprefix = "g"\nfrom = "2 s"\nuntil = "1 s"\n': "7: [[group]] 1: until: a topic must be left later than it is subscribed to",
    GROUP + '[[load]]\npeer = "h"\nevery = 5\n': '9: [[load]] 1: peer: there is no peer and no group "h"',
    GROUP + '[[load]]\npeer = "g4"\nevery = 5\n': '9: [[load]] 1: peer: there is no peer and no group "g4"',
    GROUP + '[[load]]\npeer = "g"\n': '8: [[load]] 1: every is missing: it must be a number of rounds, or a text with a unit, such as "12 s"',
    GROUP + '[[load]]\npeer = "g"\nevery = "250 ms"\n': "10: [[load]] 1: every: 250 ms is no multiple of round_ms, which is 100",
    GROUP + '[[load]]\npeer = "g"\nevery = "soon"\n': '10: [[load]] 1: every: "soon" is no time: it must be a number of rounds, or a text with a unit, such as "500 ms", "12 s" or "2 min"',
    GROUP + '[[load]]\npeer = "g"\nevery = 0\n': "10: [[load]] 1: every: a round at least must lie between",
    GROUP + '[[load]]\npeer = "g"\nevery = 5\nfrom = "11 s"\n': "11: [[load]] 1: from: it is later than the last round, 100",
    GROUP + '[[load]]\npeer = "g"\nevery = 5\nfrom = 9\nuntil = 9\n': "12: [[load]] 1: until: nothing lies between from and until",
    GROUP + '[[load]]\npeer = "g"\nevery = 5\nsize = 3\n': "11: [[load]] 1: size: 3 must be a whole number from 4 to 1000000",
    GROUP + '[[load]]\npeer = "g"\nevery = 50\ntext = "a"\n[[load]]\npeer = "g"\nevery = 50\ntext = "a"\n': "12: [[load]] 2: the payload 612031 is published for the second time",
    GROUP + '[[attack]]\nkind = "sapm"\npeer = "g"\n': '9: [[attack]] 1: kind: "sapm" is not known here; the nearest is spam',
    GROUP + '[[attack]]\nkind = "garbage"\npeer = "g1"\nevery = 3\n': '11: [[attack]] 1: every: "every" is not known here; there are kind, peer, to, topic, from, hex',
    GROUP + '[[attack]]\nkind = "spam"\npeer = "g1"\nto = "g1"\nevery = 3\n': '11: [[attack]] 1: to: "g1" is not joined to any of these',
    '[[group]]\nprefix = "g"\n[[attack]]\nkind = "spam"\npeer = "g"\nevery = 3\n': '8: [[attack]] 1: peer: "g" is not joined to anybody else',
    GROUP + '[[attack]]\nkind = "eclipse"\npeer = "g1"\n': "8: [[attack]] 1: to: an eclipse is of one peer",
    '[[group]]\nprefix = "g"\nfrom = 2\n[[group]]\nprefix = "x"\ndials = "g"\n[[attack]]\nkind = "silent"\npeer = "x"\n': "10: [[attack]] 1: from: no peer that they attack is on the topic by then and takes anybody into a mesh",
    GROUP + '[[attack]]\nkind = "iwant_flood"\npeer = "g1"\nevery = 3\n': "8: [[attack]] 1: from: nothing is published before it on the topic, so there is nothing to ask for",
    GROUP + '[[attack]]\nkind = "spam"\npeer = "g1"\nevery = 3\nsize = 1000000\ncount = 3\n': "8: [[attack]] 1: 3000060 bytes would go out at once on a link, and a line may have at most 2097152",
    GROUP + '[[attack]]\nkind = "covert"\npeer = "g1"\ngood_every = 3\nfrom = 9\nhex = "00"\nevery = 5\n': "13: [[attack]] 1: hex: an attack by spam has no such key",
    GROUP + '[[send]]\npeer = "g1"\nat = 3\nfrom = 4\n': "11: [[send]] 1: from: it does not go with at",
    GROUP + '[[send]]\npeer = "g1"\nat = 3\nihave = [{ topic = "news", ids = ["0"] }]\n': '11: [[send]] 1: ihave 1: ids: ["0"] must be a list of texts of pairs of hex digits',
    GROUP + '[[send]]\npeer = "g1"\nat = 3\npublish = [\n  { topic = "news", text = "a" },\n  { topic = "news", txet = "a" },\n]\n': '13: [[send]] 1: publish 2: txet: "txet" is not known here; the nearest is text',
    GROUP + '[[partition]]\nat = 5\nbetween = ["g1"]\n': "10: [[partition]] 1: between: two groups or peers must stand there, which have no peer in common",
    GROUP + '[[do]]\nat = 101\npeer = "g1"\nwhat = "subscribe"\ntopic = "news"\n': "9: [[do]] 1: at: it is later than the last round, 100",
    GROUP + '[[do]]\nat = 1\npeer = "g9"\nwhat = "subscribe"\ntopic = "news"\n': '10: [[do]] 1: peer: there is no peer "g9"',
    GROUP + '[[dial]]\nfrom = "g1"\nto = "g1"\n': "10: [[dial]] 1: to: the two are one peer, or are joined already",
    GROUP + "[params]\ngossip_factor = 0.25\n": "9: [params]: gossip_factor: 0.25 must be a whole number; in millionths it is 250000",
    GROUP + '[params]\nd = "8"\n': '9: [params]: d: "8" must be a whole number; write 8',
    GROUP + "[params]\nd_low = 6.0\n": "9: [params]: d_low: 6.0 must be a whole number; write 6",
    GROUP + '[params]\nheartbeat_ms = "700 ms"\n': '9: [params]: heartbeat_ms: "700 ms" must be a whole number; write 700, in milliseconds',
    GROUP + '[params]\nprune_backoff_s = "1 min"\n': '9: [params]: prune_backoff_s: "1 min" must be a whole number; write 60, in seconds',
    GROUP + "[params]\ngossip_factor = 1.0\n": "9: [params]: gossip_factor: 1.0 must be a whole number; in millionths it is 1000000",
    GROUP + '[[load]]\npeer = "g"\nevery = 5\nsize = "300"\n': '11: [[load]] 1: size: "300" must be a whole number from 4 to 1000000; write 300',
    GROUP + '[[topic]]\nname = "other"\nw1 = true\n': "10: [[topic]] 2: w1: true must be a whole number",
    GROUP + '[[do]]\nat = 1\npeer = "g1"\nwhat = "raw"\nto = "g2"\nhex = "0"\n': '13: [[do]] 1: hex: "0" must be a text of pairs of hex digits',
    GROUP + '[[do]]\nat = 1\npeer = "g1"\nwhat = "hang_up"\nto = "g1"\n': '12: [[do]] 1: to: "g1" is no neighbour of "g1"',
    GROUP + '[[do]]\nat = 1\npeer = "g1"\nwhat = "hang"\nto = "g2"\n': '11: [[do]] 1: what: "hang" is not known here; there are subscribe, unsubscribe, publish, raw, hang_up',
    GROUP + '[[app]]\npeer = "g1"\nabout = "g2"\nvalue = 0.5\n': "11: [[app]] 1: value: 0.5 must be a whole number from -1000000000 to 1000000000",
    GROUP + '[[partition]]\nat = 5\nuntil = 9\nbetween = ["g1", "g2"]\n': '10: [[partition]] 1: until: "until" is not known here; a closed link stays closed, so a partition has no end; one that heals is a group of gateways that leave the topic and come back: docs/DESCRIPTIONS.md, "[[partition]]", shows it',
    GROUP + '[[partition]]\nfrom = 5\nbetween = ["g1", "g2"]\n': '9: [[partition]] 1: from: "from" is not known here; at says when a partition comes',
    GROUP + "[params]\nDlo = 5\n": '9: [params]: Dlo: "Dlo" is not known here; go-libp2p\'s Dlo is d_low of [params] here',
    GROUP + "[params]\nw4 = 5\n": '9: [params]: w4: "w4" is not known here; w4 is a key of each [[topic]]: topic.0.w4?',
    GROUP + "[GossipSubParams]\nD = 5\n": '8: GossipSubParams: "GossipSubParams" is not known here; go-libp2p\'s names go into a .json file, which a description takes: params_from = "FILE.json"',
    GROUP + "[params]\nmesh_size = 8\n": '9: [params]: mesh_size: "mesh_size" is not known here; of 33 that are, the nearest are mcache_gossip, max_ihave and d_score',
    GROUP + "[params]\ndlow = 3\n": '9: [params]: dlow: "dlow" is not known here; the nearest is d_low',
    GROUP + '[[topic]]\nname = "other"\nw3_b = 3\n': '10: [[topic]] 2: w3_b: "w3_b" is not known here; the nearest is w3b',
    GROUP + '[[topic]]\nname = "other"\nlike = "news"\n': "10: [[topic]] 2: like: it goes with params_from, which has topics that this one can be like",
    GROUP + '[[topic]]\nname = "news"\n': '9: [[topic]] 2: name: there is a topic "news" already',
    "[[load]]\nevery = 5\n": "it.toml: there is no peer: a [[group]] or a [[peer]] must stand there",
    GROUP + "x = = 3\n": "it.toml:8: Invalid value, in column 5",
    GROUP + "[network\n": "it.toml:8: Expected ']' at the end of a table declaration, in column 9",
    "[[group]]\nprefix = 'g": """it.toml: Expected "'" (at end of document)""",
}


MORE = "scenario: it.toml was not read to its end, so there may be more faults\n"


class Refusals(unittest.TestCase):
    def said(self, text, *words):
        ran = in_file(text, *words)
        self.assertEqual((ran.returncode, ran.stdout), (1, b""), text)
        # (a fault of peers or networks ends the reading)
        return ran.stderr.decode().removesuffix(MORE)

    def test_each_names_its_line(self):
        for text, why in CASES.items():
            expected = why if why.startswith("it.toml") else f"it.toml:{why}"
            with self.subTest(text):
                self.assertEqual(self.said(HEAD + text), f"scenario: {expected}\n")

    def test_the_top_table(self):
        rest = '[[topic]]\nname = "news"\n' + GROUP
        either = "either until, the end of the run, or rounds, the last round, must stand there"
        for text, why in {
            "": f"it.toml: until: {either}",
            "until = 5\nrounds = 5\n": f"it.toml:1: until: {either}",
            "until = 5\nround_ms = 0\n": "it.toml:2: round_ms: 0 must be a whole number from 1 to 60000",
            "until = 100001\n": "it.toml:1: until: 100001 is no round from 0 to 100000",
            'until = "3 h"\n': "it.toml:1: until: 3 h is later than round 100000, the last that a scenario may have",
            "until = 5\nworkers = 17\n": "it.toml:2: workers: 17 must be a whole number from 1 to 16",
            "until = 5\nnetwrok = 5\n": 'it.toml:2: netwrok: "netwrok" is not known here; the nearest is network',
            'until = 5\nparams_from = "bitcoin"\n': 'it.toml:2: params_from: "bitcoin" is not known here; there are ethereum, filecoin, a file with .json at its end',
        }.items():
            self.assertEqual(self.said(text + rest), f"scenario: {why}\n", text)
        self.assertEqual(self.said("until = 5\n" + GROUP), "scenario: it.toml: topic is missing: there must be a [[topic]] at least\n")

    def test_keys_and_numbers_are_refused_at_once(self):
        text = HEAD + GROUP + "evry = 3\n[params]\nDlo = 4\nd = 6.0\n[[load]]\npeer = 3\nevry = 4\n"
        said = [
            'it.toml:8: [[group]] 1: evry: "evry" is not known here; of 14 that are, the nearest are stagger, network and from',
            "it.toml:10: [params]: Dlo: \"Dlo\" is not known here; go-libp2p's Dlo is d_low of [params] here",
            "it.toml:11: [params]: d: 6.0 must be a whole number; write 6",
            'it.toml:14: [[load]] 1: evry: "evry" is not known here; the nearest is every',
        ]
        self.assertEqual(in_file(text).stderr.decode(), "".join(f"scenario: {it}\n" for it in said) + MORE)

    def test_tables_of_the_script_are_refused_at_once(self):
        text = HEAD + GROUP + '[[attack]]\nkind = "spam"\npeer = "x"\n[[load]]\npeer = "g"\nevery = 0\nat = 9\n'
        said = ['it.toml:10: [[attack]] 1: peer: there is no peer and no group "x"', "it.toml:13: [[load]] 1: every: it does not go with at"]
        self.assertEqual(in_file(text).stderr.decode(), "".join(f"scenario: {it}\n" for it in said))

    def test_many_faults_are_not_all_shown(self):
        said = in_file(HEAD + GROUP + "".join(f"a{it} = 1\n" for it in range(23))).stderr.decode().splitlines()
        self.assertEqual((len(said), said[-2]), (22, "scenario: 3 more are not shown"))

    def test_the_limits(self):
        topics = "".join(f'[[topic]]\nname = "t{it}"\n' for it in range(33))
        self.assertEqual(self.said("until = 5\n" + GROUP + topics), "scenario: it.toml:70: [[topic]] 33: a scenario has at most 32 of them\n")
        self.assertTrue(printed("until = 5\n" + GROUP + topics[: topics.rindex("[[topic]]")]))
        load = '[[load]]\npeer = "g"\nevery = 1\nsize = 100000\n'
        # (101 payloads of 100,000 bytes, in hex)
        more = "with it the scenario has about 20,2..,... bytes, and only 8,388,608 are read; a longer every or a smaller size makes it less"
        flood = '[[attack]]\nkind = "ihave_flood"\npeer = "g1"\nevery = 1\nids = 3000\n'
        less = more.replace("20,2..,...", "20,6..,...").replace("a longer every or a smaller", "fewer links .to., a longer every, or a smaller count, ids or")
        said = self.said(HEAD + GROUP + load + flood + "to = 'g2'\n" + '[[load]]\npeer = "g1"\nat = 3\n')
        self.assertRegex(said, rf"^scenario: it.toml:8: \[\[load\]\] 1: {more}\nscenario: it.toml:12: \[\[attack\]\] 1: {less}\n$")

    def test_the_least_of_each_number(self):
        clusters = '[network]\nkind = "clusters"\nclusters = 2\ndegree = 2\n'
        for text, key in (
            (clusters + "bridges = 0\n" + GROUP, "bridges: 0 must be a whole number from 1 to 2"),
            (clusters.replace("clusters = 2", "clusters = 0") + GROUP, "clusters: 0 must be a whole number from 1 to 3"),
            (GROUP + "dials_each = 0\n", "dials_each: 0 must be a whole number from 1 to 64"),
            (GROUP + "addresses = 0\n", "addresses: 0 must be a whole number from 1 to 64"),
            (GROUP + '[[attack]]\nkind = "spam"\npeer = "g1"\nevery = 3\ncount = 0\n', "count: 0 must be a whole number from 1 to 10000"),
            (GROUP + '[[attack]]\nkind = "ihave_flood"\npeer = "g1"\nevery = 3\nids = 0\n', "ids: 0 must be a whole number from 1 to 5000"),
            (GROUP + '[[send]]\npeer = "g1"\nat = 3\ncount = 0\n', "count: 0 must be a whole number from 1 to 10000"),
        ):
            self.assertTrue(self.said(HEAD + text).endswith(f": {key}\n"), self.said(HEAD + text))

    def test_phases_must_be_whole_rounds(self):
        for phase, why in (
            ('"350 ms"', "350 ms is no multiple of round_ms, which is 100"),
            ('"sometimes"', '"sometimes" is neither "random" nor a time, such as "300 ms"'),
        ):
            said = self.said(HEAD + GROUP + f"phase = {phase}\n")
            self.assertEqual(said.splitlines()[0], f"scenario: it.toml:8: [[group]] 1: phase: {why}")

    def test_intervals_must_be_whole_rounds(self):
        why = self.said('until = "7 s"\nround_ms = 1000\nparams_from = "ethereum"\n[[topic]]\nname = "news"\n' + GROUP)
        last = why.splitlines()[-1]
        self.assertEqual(last, "scenario: it.toml:2: round_ms: heartbeat_ms is 700, which is no multiple of it, 1000")


class Ends(unittest.TestCase):
    def ends(self, ran, status, why):
        self.assertEqual((ran.returncode, ran.stdout, ran.stderr.decode()), (status, b"", why))

    def test_arguments(self):
        more = "; --help says more\n"
        self.ends(run(), 64, f"scenario: there is no FILE{more}")
        self.ends(run("a", "b"), 64, f"scenario: one description at a time, not 2{more}")
        self.ends(run("--speed", "a"), 64, f"scenario: there is no option --speed{more}")
        self.ends(run("a", "--seed"), 64, f"scenario: --seed takes a value{more}")
        self.ends(run("--seed=x", "a"), 64, f"scenario: --seed takes a number from 0 to 9223372036854775807, not x{more}")
        helped = run("--help")
        self.assertEqual((helped.returncode, helped.stderr), (0, b""))
        self.assertIn(b"usage: bin/scenario [OPTION..] FILE", helped.stdout)

    def test_files(self):
        self.ends(run("/tmp"), 66, "scenario: /tmp is a folder, not a description\n")
        self.ends(run("/nowhere"), 66, "scenario: there is no file /nowhere\n")
        with tempfile.TemporaryDirectory() as folder:
            with open(f"{folder}/-a.toml", "w", encoding="utf-8") as file:
                file.write("seed = 1\n")
            command = [sys.executable, f"{TOP}/bin/scenario", "--", "-a.toml"]
            ran = subprocess.run(command, cwd=folder, capture_output=True, check=False)
            self.assertEqual((ran.returncode, ran.stdout), (0, b"seed = 1\n"))

    def test_standard_input(self):
        ran = run("-", stdin=b"until = 5\n[[group]]\n")
        why = "scenario: standard input: topic is missing: there must be a [[topic]] at least\n"
        self.ends(ran, 1, why + MORE.replace("it.toml", "standard input"))

    def test_a_full_output(self):
        with open("/dev/full", "wb") as full:
            command = [sys.executable, f"{TOP}/bin/scenario", f"{TOP}/examples/two_subscribers.toml"]
            ran = subprocess.run(command, stdout=full, stderr=subprocess.PIPE, check=False)
        self.assertEqual((ran.returncode, ran.stderr), (3, b"scenario: output failed\n"))

    def test_no_package_is_needed(self):
        # Python finds no package where it looks into no folder of them, as with -I -S.
        program = f"import sys; sys.path.insert(0, '{TOP}/bin/lib'); sys.dont_write_bytecode = True\n"
        program += "from scenario import command\n"
        text = HEAD + GROUP + '[[load]]\npeer = "g"\nat = 3\n' + "".join(
            f'[[attack]]\nkind = "{kind}"\npeer = "g1"\nfrom = 5\nevery = 9\n'
            for kind in ("spam", "ihave_flood", "iwant_flood", "graft_flood")
        )
        text += '[[send]]\npeer = "g1"\nat = 2\ngraft = "news"\n'
        with tempfile.TemporaryDirectory() as folder:
            with open(f"{folder}/it.toml", "w", encoding="utf-8") as file:
                file.write(text)
            words = [sys.executable, "-I", "-S", "-c", program + f"command.main(['{folder}/it.toml'], '')"]
            ran = subprocess.run(words, capture_output=True, check=False, env={**os.environ})
        self.assertEqual((ran.returncode, ran.stderr.decode(), ran.stdout.decode()), (0, "", printed(text)))

    def test_an_old_python_is_named(self):
        program = f"import sys; sys.path.insert(0, '{TOP}/bin/lib'); sys.dont_write_bytecode = True\n"
        program += "sys.modules['tomllib'] = None\nfrom scenario import command\ncommand.main(['-'], '')\n"
        ran = subprocess.run([sys.executable, "-c", program], input=HEAD.encode(), capture_output=True, check=False)
        said = f"scenario: this Python is {platform.python_version()}, and descriptions need 3.11 or later\n"
        self.assertEqual((ran.returncode, ran.stderr.decode()), (4, said))
