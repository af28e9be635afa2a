"""Makes a plain scenario of a description."""
import platform
from decimal import Decimal

from . import attacks, groups, loads, plain, presets
from .fault import Fault, Faults, Missing, no_such
from .fields import HEX, Fields, key_faults
from .world import Published, Setting, World

# The keys by which a text is a description, and no plain scenario.
OF_DESCRIPTIONS = "params_from until network group load attack send partition".split()
TOP = [*plain.TOP, *OF_DESCRIPTIONS]
# The keys of both lists of what peers hold of neighbours, and what of them groups have.
OPINIONS = {"app": (plain.APP, groups.app_scores), "explicit": (plain.EXPLICIT, groups.agreements)}
LISTS = "topic peer dial app explicit do group load attack send partition".split()
# The keys of a list's tables. Those of an attack and of a line depend on its kind.
KEYS = {"topic": [*plain.TOPIC, "like"], "peer": plain.PEER, "dial": plain.DIAL, "do": plain.DO, "app": plain.APP}
KEYS |= {"explicit": plain.EXPLICIT, "group": groups.GROUP, "load": loads.LOAD, "send": loads.SEND}
KEYS["partition"] = attacks.PARTITION


def setting_of(top, seed):
    """The length of a round, the last round and the seed."""
    round_ms = top.whole("round_ms", 1, 60_000, 100)
    top.round_ms = round_ms
    if top.has("until") == top.has("rounds"):
        top.fail("until", "either until, the end of the run, or rounds, the last round, must stand there")
    rounds = top.whole("rounds", 1, 100_000) if top.has("rounds") else top.span("until")
    given = top.whole("seed", 0, 2**63 - 1, 1)
    return Setting(round_ms, rounds, given if seed is None else seed)


def checked_lists(top):
    """The lists of tables, each there, and no longer than any scenario may have them."""
    lists = {it: top.list(it, []) for it in LISTS}
    for name, most in (("topic", plain.MOST_TOPICS), ("peer", plain.Limits.peers)):
        if len(lists[name]) > most:
            raise Fault((name, most), f"a scenario has at most {most} of them")
    if not lists["topic"]:
        raise Fault((), "topic is missing: there must be a [[topic]] at least")
    return lists


def add_topics(world, tables):
    """Notes the topics, and how their payloads are judged."""
    for place, table in enumerate(tables):
        fields = Fields(table, ("topic", place), [*plain.TOPIC, "like"])
        name = fields.name("name")
        if name in world.topics:
            fields.fail("name", f'there is a topic "{name}" already')
        for key in ("reject", "ignore"):
            if not all(isinstance(it, str) and HEX.fullmatch(it) for it in fields.list(key, [])):
                fields.fail(key, "it must be a list of texts of pairs of hex digits")
        world.topics[name] = {key: [bytes.fromhex(it) for it in table.get(key, [])] for key in ("reject", "ignore")}


def add_peers(world, lists):
    """Adds the peers, then those of groups, and all dials: those of the file, of groups, of eclipses and of the network."""
    for place, table in enumerate(lists["peer"]):
        fields = Fields(table, ("peer", place), plain.PEER)
        fields.name("name")
        world.add_peer(fields.path, table, True)
    found = [Fields(it, ("group", n), groups.GROUP, world.setting.round_ms) for n, it in enumerate(lists["group"])]
    names = [groups.add_group(world, it) for it in found]
    if not world.peers:
        raise Fault((), "there is no peer: a [[group]] or a [[peer]] must stand there")
    for place, table in enumerate(lists["dial"]):
        fields = Fields(table, ("dial", place), plain.DIAL)
        if not world.join(*(peer_in(world, fields, it) for it in ("from", "to"))):
            fields.fail("to", "the two are one peer, or are joined already")
    for fields, members in zip(found, names):
        groups.dial_from_group(world, fields, members)
    for place, table in enumerate(lists["attack"]):
        attacks.add_dials(world, table, place)
    return list(zip(found, names))


def peer_in(world, fields, key):
    """A peer that a key names."""
    name = fields.text(key)
    return name if name in world.peers else fields.fail(key, no_such("peer", name, list(world.peers)))


def opinions(world, name, tables, found):
    """The tables of `app` or of `explicit`: those of the file, and those of groups."""
    known, of_group = OPINIONS[name]
    for place, table in enumerate(tables):
        fields = Fields(table, (name, place), known)
        peer, about = (peer_in(world, fields, it) for it in ("peer", "about"))
        if not world.are_joined(peer, about):
            fields.fail("about", f'"{about}" is no neighbour of "{peer}"')
        if "value" in known:
            fields.whole("value", -(10**9), 10**9)
    taken = {(it["peer"], it["about"]) for it in tables}
    made = list(tables)
    for fields, names in found:
        more = of_group(world, fields, names, taken)
        taken |= {(it["peer"], it["about"]) for it in more}
        made += more
    return made


def add_plain_line(world, table, place):
    """Hands a line through. Its moment may be a text with a unit, and its topic may be left out where there is one."""
    what = Fields(table, ("do", place), plain.DO).one_of("what", list(plain.KEYS_OF_LINE))
    fields = Fields(table, ("do", place), ["what", "at", "peer", *plain.KEYS_OF_LINE[what]], world.setting.round_ms)
    line = {**table, "at": world.check_moment(fields, "at", fields.moment("at")), "peer": peer_in(world, fields, "peer")}
    keys = plain.KEYS_OF_LINE[what]
    if "topic" in keys:
        line["topic"] = world.topic(fields)
    if "to" in keys and not world.are_joined(line["peer"], peer_in(world, fields, "to")):
        fields.fail("to", f'"{table["to"]}" is no neighbour of "{line["peer"]}"')
    payload = fields.hex("hex") if "hex" in keys else b""
    if what == "subscribe":
        world.subscribe(fields.path, line["at"], line["peer"], line["topic"])
        return
    world.add_line(fields.path, line)
    if what == "publish":
        world.payloads.add(payload)
        world.published.append(Published(line["at"], line["peer"], line["topic"], payload))


def known_keys(name, table):
    """The keys that a table of a list may have."""
    if name == "attack":
        return attacks.known_keys(table)
    if name == "do" and isinstance(table, dict) and isinstance(table.get("what"), str):
        return ["what", "at", "peer", *plain.KEYS_OF_LINE.get(table["what"], plain.DO)]
    return KEYS[name]


def first_faults(description, lists):
    """A refusal for each key that is not known, of the top table and of those below it, and for each parameter that is no
    number."""
    found = list(key_faults(description, (), TOP, {}))
    for name, known in (("network", groups.NETWORK), ("params", plain.PARAMS)):
        if name in description:
            found += key_faults(description[name], (name,), known, {})
    for name, tables in lists.items():
        hints = attacks.NOT_OF_PARTITIONS if name == "partition" else {}
        for place, table in enumerate(tables):
            found += key_faults(table, (name, place), known_keys(name, table), hints)
            found += presets.number_faults(table, (name, place)) if name == "topic" else []
    return found + list(presets.number_faults(description.get("params"), ("params",)))


def add_lines(world, lists, found):
    """Adds the script: what groups subscribe to, the lines of the file, loads, attacks, RPCs and partitions. Of each table
    the first fault is reported."""
    for fields, names in found:
        is_quiet = attacks.is_quiet(lists["attack"], fields.text("prefix"))
        groups.subscribe(world, fields, names, is_quiet)
    adders = {
        "do": add_plain_line,
        "load": loads.add_load,
        "attack": attacks.add_attack,
        "send": loads.add_send,
        "partition": attacks.add_partition,
    }
    faults = []
    for name, add in adders.items():
        for place, table in enumerate(lists[name]):
            try:
                add(world, table, place)
            except Fault as it:
                faults.append(it)
    if faults:
        raise Faults(faults, True)


def scenario_of(description, options, say):
    """The plain scenario of a description, the comments of its keys, and where its peers and its lines come from: a path of
    the description for each. What it can't have is said."""
    faults = first_faults(description, {it: description[it] for it in LISTS if isinstance(description.get(it), list)})
    if faults:
        raise Faults(faults, False)
    top = Fields(description, (), TOP)
    setting = setting_of(top, options.seed)
    world, lists = World(setting), checked_lists(top)
    add_topics(world, lists["topic"])
    found = add_peers(world, lists)
    if top.has("network"):
        groups.join_network(world, description["network"])
    scenario = {
        "round_ms": setting.round_ms,
        "rounds": setting.rounds,
        "workers": top.whole("workers", 1, 16, 1),
        "capacity": top.whole("capacity", 1, 1_024, 64),
        "seed": setting.seed,
        "peer": list(world.peers.values()),
        "dial": [world.dials[it] for it in sorted(world.dials, key=lambda it: sorted(map(world.place, it)))],
        "app": opinions(world, "app", lists["app"], found),
        "explicit": opinions(world, "explicit", lists["explicit"], found),
    }
    add_lines(world, lists, found)
    order = sorted(range(len(world.lines)), key=lambda it: world.lines[it]["at"])
    scenario["do"] = [world.lines[it] for it in order]
    origins = {"peer": world.peer_paths, "do": [world.line_paths[it] for it in order]}
    source = options.params or (top.text("params_from") if top.has("params_from") else None)
    try:
        comments = presets.apply(scenario, description, source, options, say)
    except Fault as it:
        raise Faults([it], True) from None
    groups.draw_phases(scenario)
    return scenario, comments, origins


def read(text, end):
    """The values of a TOML text, floats as they are written. Where it is none, `end` gets the reason."""
    try:
        import tomllib
    except ModuleNotFoundError:
        raise Missing(f"this Python is {platform.python_version()}, and descriptions need 3.11 or later") from None
    try:
        return tomllib.loads(text, parse_float=Decimal)
    except (tomllib.TOMLDecodeError, RecursionError) as why:
        return end(str(why))
