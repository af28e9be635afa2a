"""Works out how far messages came from the lines of bin/gossip_trace and from the scenario, by the words of docs/OUTPUTS.md
("How far messages come")."""
import tomllib

NEVER = float("inf")
SEEN_TTL_MS = 120_000
MESSAGES = (
    "topic payload publisher verdict publishers at_ms subscribers reached missed "
    "first_round median_round round_90 last_round"
).split()
WITHIN = "outcome within_rounds pairs share".split()
PARTS = "pairs first_round median_round round_90 round_99 last_round".split()


def chosen(names, peers):
    """Those of the names that `--by` or `--of` chooses. Without the option that is each of them."""
    if peers is None:
        return set(names)
    words = peers.split(",")
    return {it for it in names if any(it.startswith(word[:-1]) if word.endswith("*") else it == word for word in words)}


def at_share(rounds, percent):
    """In how many rounds this part of all, or the first, was reached, by nearest rank. None where fewer were reached."""
    rank = max(1, -(-len(rounds) * percent // 100))
    found = sorted(rounds)[rank - 1] if rounds else NEVER
    return None if found == NEVER else found


def share_of(part, all_of_them):
    """Per cent with two digits, rounded down. None where there is nothing to share."""
    if not all_of_them:
        return None
    share = part * 10_000 // all_of_them
    return f"{share // 100}.{share % 100:02}"


class Reach:
    """What a trace tells about publications, deliveries, subscriptions and links."""

    def __init__(self, text, trace):
        plan = tomllib.loads(text)
        self.topics = {it["name"]: it for it in plan["topic"]}
        self.ttl = plan.get("params", {}).get("seen_ttl_ms", SEEN_TTL_MS)
        self.names, self.round_ms = trace.names, trace.head["round_ms"]
        near = {it: set() for it in self.names}
        for it in trace.head["dials"]:
            near[it["from"]].add(it["to"])
            near[it["to"]].add(it["from"])
        self.near = near
        self.published = {}  # who published a payload on a topic at a moment
        self.delivered = {}  # when a peer got a payload
        self.changes = {it: [] for it in self.names}  # what a peer did with topics and links, by rounds
        for it in trace.lines:
            self.see(it)

    def see(self, line):
        peer, event = line["peer"], line["event"]
        if event == "publish":
            self.published.setdefault((line["at"], line["topic"], line["data"]), []).append(peer)
        elif event in ("subscribe", "unsubscribe"):
            self.changes[peer].append((line["at"], event, line["topic"]))
        elif event in ("hang_up", "gone", "fault"):
            self.changes[peer].append((line["at"], "lost", line["to"] if event == "hang_up" else line["from"]))
        for it in line.get("delivered", ()):
            self.delivered.setdefault((peer, it["data"]), []).append(line["at"])

    def could_get(self, peer, topic, at):
        """Whether a peer was on the topic and had a link open before the round of a moment began."""
        is_on, left = False, set(self.near[peer])
        for when, what, it in self.changes[peer]:
            if when >= at:
                break
            if what == "lost":
                left.discard(it)
            elif it == topic:
                is_on = what == "subscribe"
        return is_on and bool(left)

    def end_of(self, at, topic, payload):
        """When the same is published on the topic again, once it is forgotten."""
        times = (when for when, *same in self.published if same == [topic, payload])
        return min((it for it in times if it >= at + self.ttl), default=NEVER)

    def rounds_to(self, peer, at, payload, end):
        """In how many rounds a payload reached a peer, which may have had it before. It must come before `end`."""
        times = [it for it in self.delivered.get((peer, payload), ()) if at - self.ttl < it < end]
        return max(0, min(times) - at) // self.round_ms if times else NEVER

    def verdict(self, topic, payload):
        for word in ("reject", "ignore"):
            if any(payload.startswith(it.lower()) for it in self.topics[topic].get(word, ())):
                return word
        return "accept"

    def messages(self, by, of):
        """Each message: its key, who published it, and in how many rounds it reached each subscriber."""
        first, subscribers = chosen(self.names, by), chosen(self.names, of)
        keys = sorted(self.published, key=lambda it: (it[0], self.names.index(self.published[it][0])))
        for at, topic, payload in keys:
            publishers = self.published[at, topic, payload]
            if publishers[0] in first:
                end = self.end_of(at, topic, payload)
                could = [it for it in self.names if it in subscribers - {*publishers} and self.could_get(it, topic, at)]
                yield (at, topic, payload), publishers, {it: self.rounds_to(it, at, payload, end) for it in could}

    def pairs(self, by=None, of=None):
        """Each pair of an accepted message and a subscriber: who published it first, the subscriber, and in how many rounds
        it came there."""
        for (_, topic, payload), publishers, rounds in self.messages(by, of):
            if self.verdict(topic, payload) == "accept":
                yield from ((publishers[0], name, it) for name, it in rounds.items())

    def message_rows(self, by, of):
        for (at, topic, payload), publishers, found in self.messages(by, of):
            rounds = list(found.values())
            reached, verdict = len(rounds) - rounds.count(NEVER), self.verdict(topic, payload)
            # (what is not accepted should reach nobody, so nobody missed it)
            missed = len(rounds) - reached if verdict == "accept" else None
            shares = [at_share(rounds, it) for it in (0, 50, 90, 100)]
            head = [topic, payload, publishers[0], verdict, len({*publishers}), at]
            yield dict(zip(MESSAGES, head + [len(rounds), reached, missed, *shares]))

    def sheets(self, by=None, of=None):
        """The rows of the three sheets, by their names."""
        rounds = [it for _, _, it in self.pairs(by, of)]
        return {"messages": list(self.message_rows(by, of)), "within": within(rounds), "parts": [parts(rounds)]}


def limits(farthest):
    """1, 2, 3, 5, 8 and so on, up to the first that is not below the farthest."""
    one, other = 1, 2
    while one < farthest:
        yield one
        one, other = other, one + other
    yield one


def within(pairs):
    def row(outcome, limit, count):
        return dict(zip(WITHIN, [outcome, limit, count, share_of(count, len(pairs))]))

    came = [it for it in pairs if it != NEVER]
    rows = [row("reached", limit, sum(it <= limit for it in came)) for limit in limits(max(came, default=0))]
    return [*rows, row("missed", None, len(pairs) - len(came)), row("all", None, len(pairs))]


def parts(pairs):
    return dict(zip(PARTS, [len(pairs), *(at_share(pairs, it) for it in (0, 50, 90, 99, 100))]))
