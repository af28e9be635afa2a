"""RPCs as bytes: protobuf's encoding, by the public `rpc.proto` of gossipsub v1.1. It needs no package.
tools/check_scenarios compares it with protobuf's own library."""
import hashlib

MOST_BODY = 1_048_576

# rpc.proto (libp2p pubsub, "The RPC", "The Message"; gossipsub v1.0 and v1.1, "Control messages"): the fields of each message.
# Identifiers and topics may be any bytes, so those are bytes here, as that file advises: the encoding is the same.
MESSAGES = {
    "RPC": ("repeated SubOpts subscriptions 1", "repeated Message publish 2", "optional ControlMessage control 3"),
    "SubOpts": ("optional bool subscribe 1", "optional bytes topicid 2"),
    "Message": (
        "optional bytes from 1",
        "optional bytes data 2",
        "optional bytes seqno 3",
        "optional bytes topic 4",
        "optional bytes signature 5",
        "optional bytes key 6",
    ),
    "ControlMessage": (
        "repeated ControlIHave ihave 1",
        "repeated ControlIWant iwant 2",
        "repeated ControlGraft graft 3",
        "repeated ControlPrune prune 4",
    ),
    "ControlIHave": ("optional bytes topicID 1", "repeated bytes messageIDs 2"),
    "ControlIWant": ("repeated bytes messageIDs 1",),
    "ControlGraft": ("optional bytes topicID 1",),
    "ControlPrune": ("optional bytes topicID 1", "repeated PeerInfo peers 2", "optional uint64 backoff 3"),
    "PeerInfo": ("optional bytes peerID 1", "optional bytes signedPeerRecord 2"),
}
FIELDS = {name: [it.split() for it in fields] for name, fields in MESSAGES.items()}


def varint(number):
    """A number in groups of seven bits, the lowest first: each but the last has 128 added."""
    groups = []
    while number >= 128:
        groups.append(number % 128 + 128)
        number //= 128
    return bytes([*groups, number])


def framed(encoded):
    return varint(len(encoded)) + encoded


def record(kind, parts):
    """The encoding of a message: its fields in the order of their numbers. A dict has them by their names."""
    found = []
    for label, of, name, number in FIELDS[kind]:
        if name in parts:
            values = parts[name] if label == "repeated" else [parts[name]]
            found += [field(of, int(number), it) for it in values]
    return b"".join(found)


def field(kind, number, value):
    """A field: its number with how it is written, 0 for a number and 2 for bytes with their length; and its value."""
    if kind in ("bool", "uint64"):
        return varint(8 * number) + varint(int(value))
    return varint(8 * number + 2) + framed(value if kind == "bytes" else record(kind, value))


def body(parts):
    """The encoding of an RPC."""
    return record("RPC", parts)


def frame(parts):
    """An RPC as it goes over a link: its length, and its encoding."""
    return framed(body(parts))


def identifier(payload):
    """The identifier of a message, here the SHA-256 of its payload."""
    return hashlib.sha256(payload).digest()


def subscription(topic, is_on):
    return {"subscribe": is_on, "topicid": topic.encode()}


def graft(topic):
    return {"topicID": topic.encode()}


def prune(topic, backoff):
    return {"topicID": topic.encode(), "backoff": backoff}


def ihave(topic, ids):
    return {"topicID": topic.encode(), "messageIDs": list(ids)}


def iwant(ids):
    return {"messageIDs": list(ids)}
