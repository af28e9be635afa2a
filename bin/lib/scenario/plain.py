"""Plain scenarios: which keys they have, and how one is written."""
import functools
import json
import re
from decimal import Decimal

MOST_TOPICS, MOST_RAW = 32, 2_097_152


class Limits:
    """How large a scenario may be: its peers and its bytes. `--large` sets the large limits."""

    peers, size = 64, 8_388_608

    @classmethod
    def be_large(cls):
        cls.peers, cls.size = 4_096, 67_108_864


TOP = "round_ms rounds workers capacity seed params topic peer dial app explicit do".split()
PARAMS = (
    "d d_low d_high d_score d_out d_lazy gossip_threshold publish_threshold graylist_threshold opportunistic_threshold "
    "gossip_factor p7_decay w5 w6 w7 topic_cap decay_to_zero p6_threshold heartbeat_ms decay_ms fanout_ttl_ms seen_ttl_ms "
    "iwant_followup_ms prune_backoff_s unsubscribe_backoff_s mcache_len mcache_gossip opportunistic_ticks "
    "opportunistic_peers max_ihave max_ihave_ids gossip_retransmission flood_publish"
).split()
TOPIC = (
    "name topic_weight w1 w2 w3 w3b w4 p2_decay p3_decay p3b_decay p4_decay p1_cap p2_cap p3_cap p3_threshold p1_quantum_ms "
    "p3_window_ms p3_activation_ms reject ignore"
).split()
PEER, DIAL = "name address words phase_ms".split(), "from to".split()
APP, EXPLICIT = "peer about value".split(), "peer about".split()
DO = "what at peer topic to hex".split()
# What a line has besides `what`, `at` and `peer`, by what it does.
KEYS_OF_LINE = {
    "subscribe": ["topic"],
    "unsubscribe": ["topic"],
    "publish": ["topic", "hex"],
    "raw": ["to", "hex"],
    "hang_up": ["to"],
}
BARE_KEY = re.compile("[A-Za-z0-9_-]+")
# Characters that stand in a text as they are. (This is asked first, as scripts are long.)
SIMPLE = re.compile(r"[ !#-\[\]-~]*")


def value_text(value):
    """A value as TOML writes it."""
    if isinstance(value, bool):
        return "true" if value else "false"
    if isinstance(value, str):
        if SIMPLE.fullmatch(value):
            return f'"{value}"'
        # (a text of JSON in ASCII is one of TOML, except for the halves of characters beyond 16 bits)
        return json.dumps(value, ensure_ascii=False).replace("\x7f", "\\u007f")
    if isinstance(value, list):
        return "[" + ", ".join(map(value_text, value)) + "]"
    if isinstance(value, dict):
        return table_text(value)
    if isinstance(value, Decimal):
        return str(value) if set("eE.") & set(str(value)) or not value.is_finite() else f"{value}.0"
    return str(value)


def table_text(table):
    """A table in one line."""
    return "{ " + ", ".join(f"{key_text(key)} = {value_text(it)}" for key, it in table.items()) + " }" if table else "{}"


@functools.lru_cache(maxsize=256)
def key_text(key):
    return key if BARE_KEY.fullmatch(key) else value_text(key)


def pairs_text(table, comments):
    """The lines of a table's keys, those that have a comment with it."""
    lines = []
    for key, value in table.items():
        line = f"{key_text(key)} = {value_text(value)}"
        lines.append(f"{line}  # {comments[key]}" if key in comments else line)
    return "\n".join(lines) + "\n" if lines else ""


def list_text(name, tables):
    """A list of tables, one a line."""
    return f"{name} = [\n" + "".join(f"  {table_text(it)},\n" for it in tables) + "]\n\n" if tables else ""


def one_line(text):
    """A text that can stand in a comment."""
    return "".join(it if it.isprintable() else f"\\x{ord(it):02x}" for it in text)


def scenario_text(scenario, comments, heading):
    """A scenario as text. The comments are those of keys: of `params`, and of each topic by its place."""
    parts = ["".join(f"# {one_line(it)}\n" for it in heading), "\n"]
    parts.append(pairs_text({key: scenario[key] for key in TOP[:5] if key in scenario}, {}) + "\n")
    for name in ("peer", "dial", "app", "explicit", "do"):
        parts.append(list_text(name, scenario.get(name, [])))
    if scenario.get("params"):
        parts.append("[params]\n" + pairs_text(scenario["params"], comments.get("params", {})) + "\n")
    for place, topic in enumerate(scenario.get("topic", [])):
        parts.append("[[topic]]\n" + pairs_text(topic, comments.get(place, {})) + "\n")
    return "".join(parts).rstrip("\n") + "\n"
