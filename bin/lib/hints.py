"""What is added about a refused key to the words of gossip_check: what go-libp2p's names are called here, in which table a
key stands, and what a number is in millionths."""
from decimal import ROUND_HALF_EVEN, Decimal, InvalidOperation

from scenario.go_params import NO_COUNTERPART, OPTIONS, PARAMS, SCORES, THRESHOLDS, TOPIC

OF_PARAMS = {**PARAMS, **THRESHOLDS, **SCORES}
OF_TOP = "round_ms", "rounds", "workers", "capacity", "seed"
UNITS = {"ms": ", in milliseconds", "s": ", in seconds", "millionths": ", in millionths", "decay": ", in millionths"}
IN_MILLIONTHS = "millionths", "decay"
# The objects in which go-libp2p's names stand.
GROUPS = "GossipSubParams", "PeerScoreParams", "PeerScoreThresholds", "TopicScoreParams", *OPTIONS


def plain(name):
    """A name without what parts its words, so that `d_lo` and `Dlo` are one."""
    return name.replace("_", "").replace("-", "").lower()


def among(names, wanted):
    """Of some names the one that is wanted, except for capitals; None where there is none."""
    return next((it for it in names if plain(it) == plain(wanted)), None)


def go_hint(key):
    """What a name of go-libp2p is called here; None where it is no such name."""
    option = among(OPTIONS, key)
    for names, table in ((OF_PARAMS, "[params]"), (TOPIC, "a [[topic]]")):
        name = OPTIONS[option] if option in OPTIONS and OPTIONS[option] in names else among(names, key)
        if name:
            found = names[name]
            return f"go-libp2p's {option or name} is {found.name} of {table} here{UNITS.get(found.unit, '')}"
    name = among(NO_COUNTERPART, key)
    if name is None:
        return None
    why = NO_COUNTERPART[name]
    return f"go-libp2p's {name} has no counterpart here" + (f": {why}" if why else "")


def own_hint(path):
    """In which table an unknown key stands elsewhere; None where it stands in none."""
    key = path[-1]
    if key in OF_TOP:
        return f"{key} is a key of the top table, above all headers"
    if key in (it.name for it in OF_PARAMS.values()) and path[0] != "params":
        return f"{key} is a key of [params]: params.{key}?"
    if key in (it.name for it in TOPIC.values()) and path[0] != "topic":
        return f"{key} is a key of each [[topic]]: topic.0.{key}?"
    return None


def unknown_hint(path):
    """What is said about an unknown key."""
    if len(path) == 1 and path[0] in GROUPS:
        return 'go-libp2p\'s names go into a .json file, which a description takes: params_from = "FILE.json"'
    return own_hint(path) or go_hint(path[-1])


def unit_of(path):
    """What the number at a path counts; None where it is no parameter."""
    tables = {"params": OF_PARAMS, "topic": TOPIC}
    return next((it.unit for it in tables.get(path[0], {}).values() if it.name == path[-1]), None)


def in_millionths(path, raw):
    """What a number that is not whole would be in millionths, where its key counts them; else None."""
    if unit_of(path) not in IN_MILLIONTHS and (path[0], path[-1]) != ("app", "value"):
        return None
    try:
        number = Decimal(raw.replace("_", ""))
        found = int((number * 10**6).to_integral_value(ROUND_HALF_EVEN)) if number.is_finite() else None
    except InvalidOperation:
        return None
    return None if found is None else f"in millionths: {found}"
