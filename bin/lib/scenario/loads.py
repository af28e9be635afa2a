"""Who publishes what and when, and RPCs by their parts."""
from . import wire
from .draws import Draws
from .fields import HEX, Fields

LOAD = "peer topic at from until every by size text begins".split()
SEND = "peer to at from until every count subscribe unsubscribe publish ihave iwant graft prune".split()
MESSAGE = "topic text hex from seqno signature key".split()
OFFER, REQUEST, PRUNE = "topic ids ids_of".split(), "ids ids_of".split(), "topic backoff".split()
MOST_PAYLOAD = 1_000_000


def moments(world, fields):
    """The moments from `from` on, `every` so often, before `until`, which is left out for the end of the run."""
    first, last = fields.moment("from", 0), fields.moment("until", world.setting.rounds + 1)
    world.check_moment(fields, "from", first)
    if last <= first:
        fields.fail("until", "nothing lies between from and until")
    return range(first, min(last, world.setting.rounds + 1), fields.span("every"))


def moment_or_more(world, fields):
    """The one moment `at`, or several."""
    if not fields.has("at"):
        return moments(world, fields)
    for key in ("from", "until", "every"):
        if fields.has(key):
            fields.fail(key, "it does not go with at")
    return [world.check_moment(fields, "at", fields.moment("at"))]


def sized_payload(size, begins, number, draws):
    """A payload of `size` bytes, no two alike: what it begins with, a number of four bytes, and random ones."""
    return begins + number.to_bytes(4, "big") + draws.bytes(size - len(begins) - 4)


def payload_maker(world, fields, topic, is_one):
    """A function of no arguments that gives the next payload of a load."""
    begins = fields.hex("begins", b"")
    draws = Draws(world.setting.seed, "payloads", *fields.path)
    if fields.has("text"):
        text, counter = fields.text("text").encode(), iter(range(1, 10**9))
        if fields.has("size"):
            fields.fail("size", "it does not go with text")
        make = (lambda: begins + text) if is_one else (lambda: begins + text + b" %d" % next(counter))
    else:
        size = fields.whole("size", len(begins) + 4, MOST_PAYLOAD, max(100, len(begins) + 4))
        make = lambda: sized_payload(size, begins, len(world.published), draws)

    def judged():
        payload = make()
        judge = world.begins_as(topic, payload)
        if judge and not fields.has("begins"):
            raise_at = "text" if fields.has("text") else "size"
            fields.fail(raise_at, f"a payload begins as {judge} of the topic says; with begins it may")
        return payload

    return judged


def publishers(fields, names, number, draws):
    """Who publishes at the moment of a number: one after the other, a random one, or all."""
    by = fields.one_of("by", ["turn", "random", "all"], "turn")
    if by == "all":
        return names
    return [names[number % len(names)] if by == "turn" else draws.one_of(names)]


def add_load(world, table, place):
    """Adds the publications of a load."""
    fields = Fields(table, ("load", place), LOAD, world.setting.round_ms)
    names, topic, times = world.named(fields, "peer"), world.topic(fields), moment_or_more(world, fields)
    is_one = len(times) == 1 and (len(names) == 1 or fields.text("by", "turn") != "all")
    make = payload_maker(world, fields, topic, is_one)
    draws = Draws(world.setting.seed, "publishers", *fields.path)
    for number, at in enumerate(world.each(times)):
        for name in publishers(fields, names, number, draws):
            world.publish(fields.path, at, name, topic, make())


# RPCs by their parts


def identifiers(fields):
    """Identifiers: as hex, and as those of the messages with these texts as payloads."""
    ids = [bytes.fromhex(it) for it in fields.get("ids", [], is_hex_list, "a list of texts of pairs of hex digits")]
    ids += [wire.identifier(it.encode()) for it in fields.texts("ids_of", [])]
    return ids or fields.fail("ids", "an identifier at least must stand in ids or ids_of")


def is_hex_list(value):
    return isinstance(value, list) and all(isinstance(it, str) and HEX.fullmatch(it) for it in value)


def message_of(fields):
    """A message that is published by an RPC."""
    if fields.has("text") == fields.has("hex"):
        fields.fail("hex", "either text or hex must say the payload")
    data = fields.text("text").encode() if fields.has("text") else fields.hex("hex")
    message = {"data": data, "topic": fields.text("topic").encode()}
    for key in ("from", "seqno", "signature", "key"):
        if fields.has(key):
            message[key] = fields.hex(key)
    return message


def control_of(fields):
    """The control messages of an RPC; empty where it has none."""
    control = {}
    if fields.has("ihave"):
        offers = fields.tables("ihave", OFFER)
        control["ihave"] = [wire.ihave(it.text("topic"), identifiers(it)) for it in offers]
    if fields.has("iwant"):
        control["iwant"] = [wire.iwant(identifiers(it)) for it in fields.tables("iwant", REQUEST)]
    if fields.has("graft"):
        control["graft"] = [wire.graft(it) for it in fields.texts("graft")]
    if fields.has("prune"):
        prunes = fields.tables("prune", PRUNE)
        control["prune"] = [wire.prune(it.text("topic"), it.whole("backoff", 0, 2**64 - 1, 60)) for it in prunes]
    return control


def rpc_of(fields):
    """The parts of an RPC, as protobuf's fields."""
    parts = {}
    subscriptions = [wire.subscription(it, True) for it in fields.texts("subscribe", [])]
    subscriptions += [wire.subscription(it, False) for it in fields.texts("unsubscribe", [])]
    if subscriptions:
        parts["subscriptions"] = subscriptions
    if fields.has("publish"):
        parts["publish"] = [message_of(it) for it in fields.tables("publish", MESSAGE)]
    control = control_of(fields)
    if control:
        parts["control"] = control
    return parts


def links_of(world, fields, names, others=()):
    """The links on which peers send: each to its neighbours that `to` names, or where it names none to all but some others."""
    named = world.named(fields, "to") if fields.has("to") else [it for it in world.peers if it not in others]
    links = [(name, to) for name in names for to in world.neighbours(name) if to in named]
    if not links:
        who = f'"{names[0]}" is not' if len(names) == 1 else "none of them is"
        key, whom = ("to", "any of these") if fields.has("to") else ("peer", "anybody else")
        fields.fail(key, f"{who} joined to {whom}")
    return links


def add_send(world, table, place):
    """Adds the raw lines of an RPC."""
    fields = Fields(table, ("send", place), SEND, world.setting.round_ms)
    encoded = wire.body(rpc_of(fields))
    if len(encoded) > wire.MOST_BODY:
        fields.fail("peer", f"the RPC has {len(encoded)} bytes, and an RPC may have at most {wire.MOST_BODY}")
    many = fields.whole("count", 1, 10_000, 1)
    links = links_of(world, fields, world.named(fields, "peer"))
    for at in world.each(moment_or_more(world, fields)):
        for name, to in links:
            world.raw(fields.path, at, name, to, wire.framed(encoded) * many)
