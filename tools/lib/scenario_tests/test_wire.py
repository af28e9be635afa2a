"""RPCs as bytes: against bytes that were worked out by hand, and against protobuf's own library, which reads them back."""
import hashlib
import random
import unittest

from scenario import wire

from . import packages
from .common import HEAD, plain

PEERS = '[[peer]]\nname = "a"\n[[peer]]\nname = "b"\n[[peer]]\nname = "c"\n[network]\nkind = "line"\n'
SEND = """[[send]]
peer = "b"
at = 3
subscribe = "a"
publish = [{ topic = "a", hex = "01" }]
ihave = [{ topic = "a", ids = ["0102"] }]
iwant = [{ ids = ["0102"] }]
graft = "a"
prune = [{ topic = "a", backoff = 300 }]
"""
BY_HAND = (
    "2d"  # the frame: 45 bytes
    "0a05" "0801" "120161"  # a subscription (field 1, 5 bytes): true, and the topic a
    "1206" "120101" "220161"  # a message (field 2, 6 bytes): the payload 01, and the topic a
    "1a1c"  # the control (field 3, 28 bytes)
    "0a07" "0a0161" "12020102"  # an IHAVE (field 1, 7 bytes): the topic, and an identifier of two bytes
    "1204" "0a020102"  # an IWANT (field 2, 4 bytes): that identifier
    "1a03" "0a0161"  # a GRAFT (field 3, 3 bytes): the topic
    "2206" "0a0161" "18ac02"  # a PRUNE (field 4, 6 bytes): the topic, and 300 seconds, 44 + 128 and 2
)


def raw_lines(text):
    return [it for it in plain(HEAD + PEERS + text)["do"] if it["what"] == "raw"]


def read_back(frame):
    """The RPC of a frame, read by protobuf."""
    assert frame[0] < 128 and len(frame) == frame[0] + 1
    rpc = packages.rpc_class()()
    rpc.ParseFromString(frame[1:])
    return rpc


def frames_in(data):
    """The bodies of frames, one after the other. A length is read as protobuf writes it: seven bits a byte, the lowest first."""
    at = 0
    while at < len(data):
        length = shift = 0
        while True:
            byte, at = data[at], at + 1
            length |= (byte & 127) << shift
            shift += 7
            if byte < 128:
                break
        yield data[at : at + length]
        at += length
    assert at == len(data)


def parts_of_attack(kind, keys):
    """What the RPCs of an attack have: the names of the fields, and how many there are of each."""
    text = '[[load]]\npeer = "a"\nat = 5\ntext = "hi"\n[[do]]\nat = 0\npeer = "b"\nwhat = "subscribe"\n'
    text += f'[[attack]]\nkind = "{kind}"\npeer = "c"\nto = "b"\nfrom = "1 s"\n{keys}'
    found = []
    for line in raw_lines(text):
        for body in frames_in(bytes.fromhex(line["hex"])):
            rpc = packages.rpc_class()()
            rpc.ParseFromString(body)
            fields = {field.name: len(value) for field, value in rpc.ListFields() if field.name != "control"}
            fields |= {field.name: len(value) for field, value in rpc.control.ListFields()}
            found.append((fields, rpc))
    return found


def drawn(dice, kind):
    """A message of a kind, with random fields: none of them, empty ones, and those of lengths of one byte and of two."""
    parts = {}
    for label, of, name, _ in wire.FIELDS[kind]:
        many = dice.randrange(4) if label == "repeated" else dice.randrange(2)
        values = [drawn_value(dice, of) for _ in range(many)]
        if values:
            parts[name] = values if label == "repeated" else values[0]
    return parts


def drawn_value(dice, kind):
    if kind == "bool":
        return dice.random() < 0.5
    if kind == "uint64":
        return dice.choice([0, 1, 127, 128, 16_383, 16_384, 2**32, 2**63, 2**64 - 1])
    return dice.randbytes(dice.choice([0, 1, 20, 127, 128, 300])) if kind == "bytes" else drawn(dice, kind)


class Wire(unittest.TestCase):
    def test_protobuf_writes_the_same(self):
        dice, lengths = random.Random(1), set()
        for _ in range(2_000):
            parts = drawn(dice, "RPC")
            body = wire.body(parts)
            self.assertEqual(body, packages.by_protobuf(parts), parts)
            lengths.add(len(body))
        self.assertTrue(min(lengths) < 128 and max(lengths) > 2_000)

    def test_the_rpcs_of_attacks_are_read_back(self):
        twice = 'every = "1 s"\nuntil = "3 s"\ncount = 2\n'
        found = parts_of_attack("spam", twice + "size = 20\n")
        self.assertEqual([it for it, _ in found], [{"publish": 1}] * 4)
        self.assertEqual({len(it.publish[0].data) for _, it in found}, {20})
        self.assertEqual(len({it.publish[0].data for _, it in found}), 4)
        found = parts_of_attack("ihave_flood", twice + "ids = 7\n")
        self.assertEqual([it for it, _ in found], [{"ihave": 1}] * 4)
        self.assertEqual({len(it) for _, rpc in found for it in rpc.control.ihave[0].messageIDs}, {32})
        self.assertEqual(len({it for _, rpc in found for it in rpc.control.ihave[0].messageIDs}), 28)
        found = parts_of_attack("iwant_flood", twice)
        self.assertEqual([it for it, _ in found], [{"iwant": 1}] * 4)
        self.assertEqual({tuple(it.control.iwant[0].messageIDs) for _, it in found}, {(hashlib.sha256(b"hi").digest(),)})
        found = parts_of_attack("graft_flood", twice + "backoff_s = 9\n")
        self.assertEqual([it for it, _ in found], [{"prune": 1}] + [{"graft": 1}] * 4)
        self.assertEqual(found[0][1].control.prune[0].backoff, 9)
        found = parts_of_attack("silent", "")
        self.assertEqual([it for it, _ in found], [{"subscriptions": 1, "graft": 1}])
        self.assertEqual((found[0][1].subscriptions[0].subscribe, found[0][1].control.graft[0].topicID), (True, b"news"))

    def test_an_rpc_of_all_parts_by_hand(self):
        lines = raw_lines(SEND)
        self.assertEqual([(it["at"], it["peer"], it["to"], it["hex"]) for it in lines], [(3, "b", it, BY_HAND) for it in "ac"])

    def test_frames_that_the_examples_have(self):
        graft = wire.frame({"control": {"graft": [wire.graft("news")]}})
        self.assertEqual(graft.hex(), "0a1a081a060a046e657773")
        offer = wire.frame({"control": {"ihave": [wire.ihave("news", [bytes(32)])]}})
        self.assertEqual(offer.hex(), "2c1a2a0a280a046e6577731220" + "00" * 32)

    def test_an_rpc_is_read_back(self):
        rpc = read_back(bytes.fromhex(raw_lines(SEND)[0]["hex"]))
        self.assertEqual([(it.subscribe, it.topicid) for it in rpc.subscriptions], [(True, b"a")])
        self.assertEqual([(it.data, it.topic) for it in rpc.publish], [(b"\x01", b"a")])
        self.assertEqual([(it.topicID, list(it.messageIDs)) for it in rpc.control.ihave], [(b"a", [b"\x01\x02"])])
        self.assertEqual([list(it.messageIDs) for it in rpc.control.iwant], [[b"\x01\x02"]])
        self.assertEqual([it.topicID for it in rpc.control.graft], [b"a"])
        self.assertEqual([(it.topicID, it.backoff) for it in rpc.control.prune], [(b"a", 300)])

    def test_a_message_with_an_author(self):
        send = '[[send]]\npeer = "a"\nat = 1\npublish = [{ topic = "x", text = "hi", from = "07", seqno = "", key = "0a0b" }]\n'
        message = read_back(bytes.fromhex(raw_lines(send)[0]["hex"])).publish[0]
        self.assertEqual((getattr(message, "from"), message.seqno, message.key), (b"\x07", b"", b"\x0a\x0b"))
        self.assertTrue(message.HasField("seqno") and not message.HasField("signature"))
        self.assertEqual((message.data, message.topic), (b"hi", b"x"))

    def test_an_identifier_is_the_sha_256_of_a_payload(self):
        lines = raw_lines('[[send]]\npeer = "a"\nto = "b"\nat = 1\niwant = [{ ids_of = "abc" }]\n')
        # (the SHA-256 of abc, as FIPS 180-4 has it)
        known = "ba7816bf8f01cfea414140de5dae2223b00361a396177a9cb410ff61f20015ad"
        self.assertEqual(lines[0]["hex"], "26" "1a24" "1222" "0a20" + known)

    def test_lengths_of_more_than_a_byte(self):
        for length, begins in ((127, "7f"), (128, "8001"), (300, "ac02"), (16_384, "808001")):
            self.assertEqual(wire.framed(bytes(length)).hex(), begins + "00" * length)

    def test_an_empty_rpc_and_several_of_them(self):
        lines = raw_lines('[[send]]\npeer = "a"\nto = "b"\nfrom = 1\nuntil = 6\nevery = 2\ncount = 3\n')
        self.assertEqual([(it["at"], it["hex"]) for it in lines], [(1, "000000"), (3, "000000"), (5, "000000")])
