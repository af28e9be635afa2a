"""Attacks: what peers put on their links that no router would send. docs/DESCRIPTIONS.md says what each is to show."""
import bisect
import functools

from . import wire
from .draws import Draws
from .fields import Fields
from .loads import links_of, moments, sized_payload

COMMON = "kind peer to topic from".split()
REPEATED = "until every count".split()
# The keys of each kind besides the common ones.
KEYS = {
    "spam": [*REPEATED, "size", "begins"],
    "ihave_flood": [*REPEATED, "ids"],
    "iwant_flood": [*REPEATED, "ids"],
    "graft_flood": [*REPEATED, "backoff_s"],
    "garbage": ["hex"],
    "silent": [],
    "eclipse": [],
}
# What a covert peer may do once it is no longer good: what its own router needn't leave out.
COVERT = [it for it in KEYS if it not in ("silent", "eclipse")]
KEYS["covert"] = sorted({it for kind in COVERT for it in KEYS[kind]} | {"then", "good_from", "good_every", "good_size"})
KINDS = list(KEYS)
# Who attacks so subscribes to nothing by its own router, which would pass messages on.
QUIET_KINDS = "silent", "eclipse"


def known_keys(table):
    """The keys that an attack of its kind may have."""
    kind = table.get("kind") if isinstance(table, dict) else None
    return [*COMMON, *(KEYS[kind] if isinstance(kind, str) and kind in KEYS else KEYS["covert"])]


class Attack:
    """An attack: its keys, who attacks, on which topic, and from which round on."""

    def __init__(self, world, table, place):
        self.world, path = world, ("attack", place)
        self.fields = Fields(table, path, known_keys(table), world.setting.round_ms)
        self.kind = self.fields.one_of("kind", KINDS)
        self.names, self.topic = world.named(self.fields, "peer"), world.topic(self.fields)
        self.draws = Draws(world.setting.seed, "attack", place)

    @functools.cached_property
    def links(self):
        """The links from attackers to those that they attack."""
        return links_of(self.world, self.fields, self.names, self.names)

    def put(self, at, frames_of):
        """Puts frames on each link. They are made for each link."""
        for name, to in self.links:
            self.world.raw(self.fields.path, at, name, to, frames_of())

    def flood(self, rpc_of):
        """Sends RPCs, `count` of them at each moment on each link."""
        count = self.fields.whole("count", 1, 10_000, 1)
        for at in self.world.each(moments(self.world, self.fields)):
            self.put(at, lambda at=at: b"".join(wire.frame(rpc_of(at)) for _ in range(count)))


def add_dials(world, table, place):
    """Adds the dials of an eclipse: each attacker dials the victim."""
    if not isinstance(table, dict) or table.get("kind") != "eclipse":
        return
    attack = Attack(world, table, place)
    victims = world.named(attack.fields, "to") if attack.fields.has("to") else []
    if len(victims) != 1:
        attack.fields.fail("to", "an eclipse is of one peer")
    for name in attack.names:
        world.join(name, victims[0])


def is_quiet(tables, prefix):
    """Whether a group attacks in a way in which its own routers stay off all topics."""
    quiet = [it.get("peer") for it in tables if isinstance(it, dict) and it.get("kind") in QUIET_KINDS]
    return any(prefix == it or isinstance(it, list) and prefix in it for it in quiet)


def spam(attack):
    """Messages that count as invalid: they begin as the topic rejects, or have an author, which the policy forbids."""
    world, fields = attack.world, attack.fields
    rejected = world.topics[attack.topic]["reject"]
    begins = fields.hex("begins", rejected[0] if rejected else b"")
    size = fields.whole("size", len(begins) + 4, 1_000_000, max(100, len(begins) + 4))
    numbers = iter(range(2**32))

    def rpc_of(_):
        message = {"data": sized_payload(size, begins, next(numbers), attack.draws), "topic": attack.topic.encode()}
        if not rejected and not fields.has("begins"):
            message["from"] = b"\x01"
        return {"publish": [message]}

    attack.flood(rpc_of)


def ihave_flood(attack):
    """Offers of messages that nobody has: who asks for one is promised it in vain."""
    many = attack.fields.whole("ids", 1, 5_000, 1)
    topic, draws = attack.topic, attack.draws
    attack.flood(lambda _: {"control": {"ihave": [wire.ihave(topic, [draws.bytes(32) for _ in range(many)])]}})


def iwant_flood(attack):
    """Requests for the messages of the script that were published last before them."""
    many = attack.fields.whole("ids", 1, 5_000, 100)
    published = sorted((it for it in attack.world.published if it.topic == attack.topic), key=lambda it: it.at)
    moments_of = [it.at for it in published]
    ids = [wire.identifier(it.payload) for it in published]
    if not published or moments_of[0] >= attack.fields.moment("from", 0):
        attack.fields.fail("from", "nothing is published before it on the topic, so there is nothing to ask for")

    def rpc_of(at):
        there = bisect.bisect_left(moments_of, at)
        return {"control": {"iwant": [wire.iwant(ids[max(0, there - many) : there])]}}

    attack.flood(rpc_of)


def graft_flood(attack):
    """GRAFTs in backoff: a PRUNE goes before them, by which the other notes that the attacker may not come back yet."""
    backoff = attack.fields.whole("backoff_s", 1, 86_400, 3_600)
    first = attack.fields.moment("from", 0)
    attack.put(first, lambda: wire.frame({"control": {"prune": [wire.prune(attack.topic, backoff)]}}))
    attack.flood(lambda _: {"control": {"graft": [wire.graft(attack.topic)]}})


def garbage(attack):
    """Bytes that spell no RPC: by default a frame of one byte, which begins a record and does not end it."""
    at = attack.fields.moment("from", 0)
    attack.put(at, lambda: attack.fields.hex("hex", b"\x01\xff"))


def silent(attack):
    """Says that it is on the topic, and comes into the mesh. Its own router is not on it, and so passes nothing on."""
    for name in attack.names:
        if (name, attack.topic) in attack.world.subscribed:
            why = f'"{name}" subscribes to "{attack.topic}", and so would pass messages on'
            attack.fields.fail("peer", f"{why}; with topics = [] its group does not")
    at = attack.fields.moment("from", 1)
    if not any(attack.world.subscribed.get((to, attack.topic), at + 1) <= at for _, to in attack.links):
        attack.fields.fail("from", "no peer that they attack is on the topic by then and takes anybody into a mesh")
    rpc = {
        "subscriptions": [wire.subscription(attack.topic, True)],
        "control": {"graft": [wire.graft(attack.topic)]},
    }
    attack.put(at, lambda: wire.frame(rpc))


def covert(attack):
    """Publishes good messages until `from`, and attacks then."""
    world, fields = attack.world, attack.fields
    kind = fields.one_of("then", COVERT, "spam")
    for key in fields.table:
        if key not in [*COMMON, *KEYS[kind], "then", "good_from", "good_every", "good_size"]:
            fields.fail(key, f"an attack by {kind} has no such key")
    first, last = fields.moment("good_from", 0), fields.moment("from")
    size = fields.whole("good_size", 4, 1_000_000, 100)
    if last <= first:
        fields.fail("from", "it must be later than good_from, since the peer is good until then")
    for at in range(first, min(last, world.setting.rounds + 1), fields.span("good_every")):
        for name in attack.names:
            if (name, attack.topic) not in world.subscribed:
                fields.fail("peer", f'"{name}" does not subscribe to "{attack.topic}", and so is no good member')
            payload = sized_payload(size, b"", len(world.published), attack.draws)
            if world.begins_as(attack.topic, payload):
                fields.fail("good_size", f"its good messages begin as {world.begins_as(attack.topic, payload)} says")
            world.publish(fields.path, at, name, attack.topic, payload)
    RUN[kind](attack)


RUN = {
    "spam": spam,
    "ihave_flood": ihave_flood,
    "iwant_flood": iwant_flood,
    "graft_flood": graft_flood,
    "garbage": garbage,
    "silent": silent,
    "eclipse": silent,
    "covert": covert,
}


def add_attack(world, table, place):
    """Adds the lines of an attack."""
    attack = Attack(world, table, place)
    world.check_moment(attack.fields, "from", attack.fields.moment("from", 0))
    RUN[attack.kind](attack)


# What is said about keys that a partition has not: about those that might be meant to end one.
HEALS = (
    "a closed link stays closed, so a partition has no end; one that heals is a group of gateways that leave the topic and "
    'come back: docs/DESCRIPTIONS.md, "[[partition]]", shows it'
)
NOT_OF_PARTITIONS = dict.fromkeys("until to end ends duration for lasts heal heals heal_at heals_at".split(), HEALS)
PARTITION = "at between".split()
NOT_OF_PARTITIONS["from"] = "at says when a partition comes"


def add_partition(world, table, place):
    """Hangs up on each link between two sides. No link comes back."""
    fields = Fields(table, ("partition", place), PARTITION, world.setting.round_ms, NOT_OF_PARTITIONS)
    at = world.check_moment(fields, "at", fields.moment("at"))
    sides = [world.members(it, lambda why: fields.fail("between", why)) for it in fields.texts("between")]
    if len(sides) != 2 or set(sides[0]) & set(sides[1]):
        fields.fail("between", "two groups or peers must stand there, which have no peer in common")
    pairs = [(one, other) for one in sides[0] for other in sides[1] if world.are_joined(one, other)]
    if not pairs:
        fields.fail("between", "no two peers of the sides are joined")
    for one, other in pairs:
        world.add_line(fields.path, {"at": at, "peer": one, "what": "hang_up", "to": other})
