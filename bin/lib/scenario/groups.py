"""Groups of peers, the network that joins them, and what they think of each other."""
from . import networks
from .draws import Draws
from .fault import Fault, no_such
from .fields import Fields, is_name, milliseconds_of, shown
from .plain import Limits

GROUP = "prefix count network dials dials_each address addresses app_score explicit phase topics from until stagger".split()
TOPIC_TIME = "name from until".split()
# The most milliseconds that a peer may have been up when round 0 begins.
MOST_PHASE = 10**9
NETWORK = "kind degree rewire clusters bridges hub dialer seed".split()
KINDS = "ring line star full random small_world clusters".split()
# The keys of each kind besides `kind`, `dialer` and `seed`.
KEYS_OF_KIND = {
    "star": ["hub"],
    "random": ["degree"],
    "small_world": ["degree", "rewire"],
    "clusters": ["clusters", "degree", "bridges"],
}


def member_names(fields):
    """The names of a group's peers: the prefix and a number from 1 on, or the prefix itself where nothing says how many."""
    prefix = fields.name("prefix")
    if not fields.has("count"):
        return [prefix]
    count = fields.whole("count", 1, Limits.peers)
    width = len(str(count))
    names = [f"{prefix}{it:0{width}}" for it in range(1, count + 1)]
    if not is_name(names[-1]):
        fields.fail("prefix", f'"{names[-1]}" is too long for a name, which has at most 32 characters')
    return names


def addresses_of(fields, names):
    """The address of each peer of a group; None where it has its own."""
    address = fields.text("address", None)
    many = fields.whole("addresses", 1, Limits.peers, None)
    if address is not None and many is not None:
        fields.fail("addresses", "it does not go with address")
    if many is None:
        return [address] * len(names)
    return [f"{fields.text('prefix')}-{place % many + 1}" for place in range(len(names))]


def phase_in(world, fields):
    """For how many milliseconds each peer of a group had been up when round 0 began: "random", or None where nothing is said."""
    if not fields.has("phase") or fields.table["phase"] == "random":
        return fields.table.get("phase")
    if isinstance(fields.table["phase"], str) and milliseconds_of(fields.table["phase"]) is None:
        fields.fail("phase", f'{shown(fields.table["phase"])} is neither "random" nor a time, such as "300 ms"')
    phase = fields.moment("phase") * world.setting.round_ms
    if phase > MOST_PHASE:
        fields.fail("phase", f"{phase} ms is more than {MOST_PHASE}")
    return phase


def draw_phases(scenario):
    """Draws the phases that are random: whole rounds, less than a heartbeat. (The parameters are known by then.)"""
    heartbeat = scenario.get("params", {}).get("heartbeat_ms", 1_000)
    draws = Draws(scenario["seed"], "phase")
    for table in scenario["peer"]:
        if table.get("phase_ms") == "random":
            table["phase_ms"] = draws.below(max(1, heartbeat // scenario["round_ms"])) * scenario["round_ms"]


def add_group(world, fields):
    """Adds the peers of a group."""
    names, prefix = member_names(fields), fields.text("prefix")
    if prefix in world.groups or fields.has("count") and prefix in world.peers:
        fields.fail("prefix", f'there is a peer or a group "{prefix}" already')
    is_in_network, phase = fields.truth("network", True), phase_in(world, fields)
    for name, address in zip(names, addresses_of(fields, names)):
        table = {"name": name} if address is None else {"name": name, "address": address}
        if phase is not None:
            table["phase_ms"] = phase
        world.add_peer((*fields.path, "prefix"), table, is_in_network)
    world.groups[prefix] = names
    return names


def dial_from_group(world, fields, names):
    """Adds the dials of a group's own: each peer dials the named ones, or some of these at random."""
    if not fields.has("dials"):
        if fields.has("dials_each"):
            fields.fail("dials_each", "it goes with dials")
        return
    targets = world.named(fields, "dials")
    many = fields.whole("dials_each", 1, Limits.peers, None)
    draws = Draws(world.setting.seed, "dials", *fields.path)
    for name in names:
        others = [it for it in targets if it != name and not world.are_joined(name, it)]
        for it in others if many is None else sorted(draws.shuffled(others)[:many], key=world.place):
            world.join(name, it)


def degree_in(fields, count, is_even=False):
    """How many neighbours each peer of a network gets."""
    degree = fields.whole("degree", 1, Limits.peers - 1)
    if degree >= count:
        fields.fail("degree", f"{degree} is too much for {count} peers: each has at most {count - 1} others")
    if degree == 1 and count > 2:
        fields.fail("degree", "with one neighbour each, not all peers are joined: it must be 2 at least")
    if is_even and degree % 2:
        fields.fail("degree", f"{degree} is odd, and a small world joins as many on both sides")
    return degree


def cluster_parts(world, fields, members):
    """The clusters, as lists of the places of their peers in the network."""
    if isinstance(fields.table.get("clusters"), list):
        names = [world.members(it, lambda why: fields.fail("clusters", why)) for it in fields.texts("clusters")]
        parts = [[members.index(it) for it in part if it in members] for part in names]
        if sorted(it for part in parts for it in part) != list(range(len(members))) or not all(parts):
            fields.fail("clusters", "the groups must have each peer of the network, and each once")
        return parts
    many = fields.whole("clusters", 1, len(members))
    bounds = [len(members) * it // many for it in range(many + 1)]
    return [list(range(first, last)) for first, last in zip(bounds, bounds[1:])]


def clusters(world, fields, members, draws):
    parts = cluster_parts(world, fields, members)
    degree = fields.whole("degree", 1, Limits.peers - 1)
    if degree == 1 and max(map(len, parts)) > 2:
        fields.fail("degree", "with one neighbour each, not all peers are joined: it must be 2 at least")
    most = min((len(one) * len(other) for one, other in zip(parts, parts[1:])), default=1)
    return networks.clusters(parts, degree, fields.whole("bridges", 1, most, 1), draws)


def pairs_in(world, fields, members, draws):
    """The pairs of a network, by the places of their peers in it."""
    kind, count = fields.one_of("kind", KINDS), len(members)
    for key in ("hub", "degree", "rewire", "clusters", "bridges"):
        if fields.has(key) and key not in KEYS_OF_KIND.get(kind, []):
            fields.fail(key, f"a network of the kind {kind} has no such key")
    if kind == "star":
        hub = fields.text("hub", members[0])
        if hub not in members:
            fields.fail("hub", no_such("peer of the network", hub, members))
        return networks.star(count, members.index(hub))
    if kind == "random":
        return networks.random(count, degree_in(fields, count), draws)
    if kind == "small_world":
        pairs = networks.small_world(count, degree_in(fields, count, True), fields.part("rewire", 100_000), draws)
        return pairs if pairs is not None else fields.fail("rewire", "by this seed not all peers are joined")
    if kind == "clusters":
        return clusters(world, fields, members, draws)
    return {"ring": networks.ring, "line": networks.line, "full": networks.full}[kind](count)


def join_network(world, table):
    """Adds the dials of the network: between all peers but those of groups that stay out of it."""
    fields = Fields(table, ("network",), NETWORK)
    members = world.network
    if len(members) < 2:
        raise Fault(("network",), f"it needs two peers at least, and has {len(members)}")
    seed = fields.whole("seed", 0, 2**63 - 1, world.setting.seed)
    draws = Draws(seed, "network")
    pairs = pairs_in(world, fields, members, draws)
    dialer = fields.one_of("dialer", ["random", "first", "last"], "random")
    for one, other in pairs:
        is_turned = dialer == "last" or dialer == "random" and draws.below(2) == 1
        world.join(*(members[it] for it in ((other, one) if is_turned else (one, other))))


def subscribe(world, fields, names, is_quiet):
    """Adds the subscriptions of a group: to all topics where it names none, and to none where it is to stay quiet."""
    first, last = fields.moment("from", 0), fields.moment("until", None)
    stagger = fields.moment("stagger", 0)
    for topic, begin, end in topic_times(world, fields, first, last, is_quiet):
        if end is not None and end <= begin:
            fields.fail("until" if fields.has("until") else "topics", "a topic must be left later than it is subscribed to")
        for place, name in enumerate(names):
            world.subscribe(fields.path, begin + place * stagger, name, topic)
            if end is not None:
                line = {"at": end + place * stagger, "peer": name, "what": "unsubscribe", "topic": topic}
                world.add_line(fields.path, line)


def topic_times(world, fields, first, last, is_quiet):
    """Which topics a group subscribes to, and from when until when."""
    if not fields.has("topics"):
        return [] if is_quiet else [(it, first, last) for it in world.topics]
    times, entries = [], fields.get("topics", [], lambda it: isinstance(it, (str, list)), "a topic or a list of topics")
    for place, entry in enumerate([entries] if isinstance(entries, str) else entries):
        table = {"name": entry} if isinstance(entry, str) else entry
        inner = Fields(table, (*fields.path, "topics", place), TOPIC_TIME, fields.round_ms)
        times.append((world.topic(inner, "name"), inner.moment("from", first), inner.moment("until", last)))
    return times


def app_scores(world, fields, names, taken):
    """What the neighbours of a group's peers score these by the application's score."""
    value = fields.whole("app_score", -(10**9), 10**9, None)
    if value is None:
        return []
    pairs = [(near, name) for name in names for near in world.neighbours(name) if (near, name) not in taken]
    return [{"peer": peer, "about": about, "value": value} for peer, about in pairs]


def agreements(world, fields, names, taken):
    """The peering agreements of a group: both ways between any two of its peers that are joined."""
    if not fields.truth("explicit", False):
        return []
    pairs = [(one, other) for one in names for other in names if world.are_joined(one, other)]
    if not pairs:
        fields.fail("explicit", "no two peers of the group are joined; with dials they can dial each other")
    return [{"peer": peer, "about": about} for peer, about in pairs if (peer, about) not in taken]
