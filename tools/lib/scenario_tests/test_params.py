"""Published parameters, and those with go-libp2p's names. What is expected was worked out from the formulas by hand."""
import json
import tempfile
import tomllib
import unittest

from scenario import go_params, published

from .common import HEAD, TOP, by_program, called, in_file, plain

GROUP = '[[group]]\nprefix = "g"\ncount = 2\n'
LENIENT = (
    "BehaviourPenaltyThreshold (each misbehaviour counts here, from the first on; Prysm and Lotus forgive 6, and --set params.w7=0 "
    "compares without this penalty)"
)
END = 'rounds = 9\n[[group]]\nprefix = "g"\n'


def taken(values, description=HEAD + GROUP, *words):
    """The scenario for a JSON file, and what is said."""
    with tempfile.TemporaryDirectory() as folder:
        with open(f"{folder}/p.json", "w", encoding="utf-8") as file:
            file.write(values if isinstance(values, str) else json.dumps(values))
        with open(f"{folder}/it.toml", "w", encoding="utf-8") as file:
            file.write('params_from = "p.json"\n' + description)
        ran = called(*words, f"{folder}/it.toml")
        said = ran.stderr.decode().replace(f"{folder}/", "").splitlines()
        return (tomllib.loads(ran.stdout.decode()) if ran.returncode == 0 else ran.returncode), said


class Published(unittest.TestCase):
    def test_each_can_be_run(self):
        for name in published.NETWORKS:
            ran = called("--params", name)
            self.assertEqual(ran.returncode, 0)
            topics = [it["name"] for it in tomllib.loads(ran.stdout.decode())["topic"]]
            text = f'until = "20 s"\n{GROUP}' + "".join(f'[[topic]]\nname = "{it}"\n' for it in topics)
            scenario = in_file(text, "--params", name).stdout.decode()
            self.assertTrue(by_program("gossip_check", scenario).startswith("ok\n"))
            # (what is printed without a file says the same)
            printed, whole = tomllib.loads(ran.stdout.decode()), tomllib.loads(scenario)
            self.assertEqual((printed["params"], printed["topic"]), (whole["params"], whole["topic"]))

    def test_each_value_has_its_source(self):
        for name in published.NETWORKS:
            for line in called("--params", name).stdout.decode().splitlines():
                if " = " in line and not line.startswith("name"):
                    self.assertRegex(line, r" = -?\w+  # .*(consensus-specs|Prysm|Lotus|go-libp2p-pubsub's default)")

    def test_ethereum(self):
        scenario = tomllib.loads(called("--params", "ethereum").stdout.decode())
        params, topic = scenario["params"], scenario["topic"][0]
        degrees = [params[it] for it in ("d", "d_low", "d_high", "d_lazy", "mcache_len", "mcache_gossip")]
        self.assertEqual(degrees, [8, 6, 12, 6, 6, 3])
        times = [params[it] for it in ("heartbeat_ms", "fanout_ttl_ms", "seen_ttl_ms", "decay_ms")]
        self.assertEqual(times, [700, 60_000, 2 * 32 * 12_000, 12_000])
        # 0.01 ** (1 / 320), 0.01 ** (1 / 640), 0.01 ** (1 / 160), 0.01 ** (1 / 1600): the slots of 10, 20, 5 and 50 epochs
        decays = params["p7_decay"], topic["p2_decay"], topic["p3_decay"], topic["p4_decay"]
        self.assertEqual(decays, (985_712, 992_830, 971_628, 997_126))
        self.assertEqual((topic["w4"], topic["w1"], topic["p1_cap"]), (-140_447_500, 33_333, 300_000_000))
        self.assertEqual((params["w6"], params["p6_threshold"], params["graylist_threshold"]), (-35_110_000, 10, -16_000_000_000))

    def test_filecoin(self):
        ran = called("--params", "filecoin")
        scenario = tomllib.loads(ran.stdout.decode())
        params, topics = scenario["params"], {it["name"]: it for it in scenario["topic"]}
        self.assertEqual([params[it] for it in ("d", "d_low", "d_high", "d_out", "d_lazy", "mcache_len")], [8, 6, 12, 3, 12, 10])
        self.assertEqual(params["gossip_factor"], 100_000)
        self.assertEqual([topics[it]["w1"] for it in ("blocks", "msgs", "drand")], [270, 278, 270])
        # 0.01 ** (1 / 3600) and 0.01 ** (1 / 600)
        self.assertEqual((topics["blocks"]["p2_decay"], topics["msgs"]["p2_decay"]), (998_722, 992_354))
        self.assertIn(b"scenario: filecoin: Dscore and Dout are more than D together, which is not taken here: d_score is 5", ran.stderr)
        lacking = "DirectConnectInitialDelay, AcceptPXThreshold (there is no peer exchange), " + LENIENT + ", RetainScore (a closed link stays closed)"
        self.assertIn(f"scenario: filecoin: what has no counterpart here is left out: {lacking}\n", ran.stderr.decode())
        self.assertEqual(len(ran.stderr.splitlines()), 2)

    def test_the_file_itself_comes_first(self):
        text = HEAD.replace("news", "beacon_block") + "w1 = 7\n[params]\nd_lazy = 9\n" + GROUP
        scenario = plain(text, "--params=ethereum")
        self.assertEqual((scenario["params"]["d"], scenario["params"]["d_lazy"]), (8, 9))
        self.assertEqual((scenario["topic"][0]["w1"], scenario["topic"][0]["w2"]), (7, 1_000_000))

    def test_topics_by_their_names(self):
        text = HEAD + 'like = "blocks"\n[[topic]]\nname = "other"\n[[topic]]\nname = "msgs"\n' + GROUP
        ran = in_file(text, "--params=filecoin")
        scenario = tomllib.loads(ran.stdout.decode())
        self.assertEqual([it.get("w2") for it in scenario["topic"]], [5_000_000, None, 500_000])
        self.assertNotIn("like", scenario["topic"][0])
        self.assertIn(b'the topic "other" is none of blocks, msgs, drand: it has no scores', ran.stderr)
        ran = in_file(text.replace('"blocks"', '"block"'), "--params=filecoin")
        self.assertTrue(ran.stderr.endswith(b'it.toml:4: [[topic]] 1: like: "block" is not known here; the nearest is blocks\n'))


class Json(unittest.TestCase):
    def test_names_and_durations_of_both_kinds(self):
        scenario, said = taken(
            {
                "D": 8,
                "Dhi": 10,
                "GossipFactor": 0.3,
                "HeartbeatInterval": 700_000_000,
                "PruneBackoff": "1m30s",
                "FloodPublish": True,
                "PeerScoreThresholds": {"GossipThreshold": -4.5, "OpportunisticGraftThreshold": 3},
                "PeerScoreParams": {
                    "DecayInterval": "1s",
                    "IPColocationFactorThreshold": 3,
                    "Topics": {"/x/news/1": {"TopicWeight": 0.5, "TimeInMeshQuantum": "12s", "FirstMessageDeliveriesCap": 23}},
                },
            }
        )
        params = {"d": 8, "d_high": 10, "gossip_factor": 300_000, "heartbeat_ms": 700, "prune_backoff_s": 90}
        params |= {"flood_publish": True, "gossip_threshold": -4_500_000, "opportunistic_threshold": 3_000_000}
        # what go-libp2p takes where nothing is said: Dlo is 5, and there are no weights
        params |= {"d_low": 5, "w5": 0, "w6": 0, "w7": 0, "decay_ms": 1_000, "p6_threshold": 3}
        self.assertEqual(scenario["params"], params)
        topic = {"name": "news", "topic_weight": 500_000, "p1_quantum_ms": 12_000, "p2_cap": 23_000_000}
        self.assertEqual(scenario["topic"], [topic])
        self.assertEqual(said, ["scenario: p.json: the topic /x/news/1 is x-news-1 here: a name has no slashes"])

    def test_groups_of_other_shapes(self):
        scenario, said = taken({"GossipSubParams": {"D": 7}, "TopicScoreParams": {"TimeInMeshWeight": 1e-5}})
        self.assertEqual(scenario["params"], {"d": 7, "d_low": 5, "flood_publish": False})
        self.assertEqual(scenario["topic"], [{"name": "news", "topic_weight": 0, "w1": 10}])
        self.assertEqual(said, [])
        scenario, said = taken({"WithFloodPublish": True, "TopicScoreParams": {"news": {"TopicWeight": 1, "TimeInMeshCap": 3}}})
        self.assertEqual(scenario["params"], {"d_low": 5, "flood_publish": True})
        self.assertEqual((scenario["topic"], said), ([{"name": "news", "topic_weight": 1_000_000, "p1_cap": 3_000_000}], []))

    def test_decays_are_turned_to_another_interval(self):
        # 0.99 a second, twice: 0.9801; of 0.81 in two seconds the half is 0.9
        scenario, _ = taken({"PeerScoreParams": {"BehaviourPenaltyDecay": 0.99}}, HEAD + GROUP + "[params]\ndecay_ms = 2000\n")
        self.assertEqual(scenario["params"]["p7_decay"], 980_100)
        values = {"PeerScoreParams": {"DecayInterval": "2s", "Topics": {"news": {"FirstMessageDeliveriesDecay": 0.81}}}}
        scenario, _ = taken(values, HEAD + GROUP + "[params]\ndecay_ms = 1000\n")
        self.assertEqual((scenario["topic"][0]["p2_decay"], scenario["params"]["decay_ms"]), (900_000, 1_000))

    def test_what_is_lacking_is_said_by_its_name(self):
        scenario, said = taken(
            {
                "Dscore": 6,
                "Dout": 3,
                "D": 8,
                "PrunePeers": 16,
                "IWantFollowupTime": "1.5ms",
                "PeerScoreParams": {"BehaviourPenaltyThreshold": 6},
                "TopicScoreParams": {"InvalidMessageDeliveriesWeight": -2000},
            }
        )
        self.assertEqual(scenario["params"]["d_score"], 5)
        self.assertEqual(scenario["params"]["iwant_followup_ms"], 2)
        self.assertEqual(scenario["topic"][0]["w4"], -1_000_000_000)
        for why in (
            f"what has no counterpart here is left out: PrunePeers (there is no peer exchange), {LENIENT}",
            "IWantFollowupTime is rounded to whole milliseconds: iwant_followup_ms",
            "Dscore and Dout are more than D together, which is not taken here: d_score is 5",
            "InvalidMessageDeliveriesWeight is -2000, beyond what w4 takes: w4 is -1000000000",
        ):
            self.assertIn(f"scenario: p.json: {why}", said)
        self.assertEqual(len(said), 4)

    def test_refusals(self):
        for values, why in (
            ({"Dlow": 5}, '"Dlow" is not known here; the nearest is Dlo'),
            ({"D": 1.5}, "D must be a whole number"),
            ({"D": "8"}, "D must be a number"),
            ({"FanoutTTL": "soon"}, 'FanoutTTL is no duration: it must be nanoseconds, or a text such as "1h0m0.5s"'),
            ({"FloodPublish": 1}, "FloodPublish must be true or false"),
            ("[]", "it must be an object"),
        ):
            status, said = taken(values)
            self.assertEqual((status, said), (1, [f"scenario: it.toml:1: params_from: p.json: {why}"]))
        status, said = taken("{")
        self.assertEqual((status, said[0][:58]), (1, "scenario: it.toml:1: params_from: p.json: it is no JSON: E"))
        with tempfile.TemporaryDirectory() as folder:
            ran = called("--params", f"{folder}/none.json")
            self.assertEqual(ran.stderr.decode(), f"scenario: {folder}/none.json can't be read: No such file or directory\n")

    def test_a_duration(self):
        for text, found in (("1h0m0.5s", 3_600_500_000_000), ("12s", 12 * 10**9), ("1.5ms", 1_500_000), (7, 7), ("x", None), ("12", None)):
            self.assertEqual(go_params.nanoseconds(text), found)

    def test_every_key_has_one_name(self):
        with open(f"{TOP}/docs/COVERAGE.md", encoding="utf-8") as file:
            page = file.read()
        for names in (go_params.PARAMS, go_params.THRESHOLDS, go_params.SCORES):
            for name, key in names.items():
                self.assertIn(f"`{key.name}`", page)
                self.assertIn(name, page)
        for name in set(go_params.NO_COUNTERPART) - {"AppSpecificScore", "DoPX"}:
            self.assertIn(f"`{name}`", page)
