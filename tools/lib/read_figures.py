"""Works out the sheets of bin/gossip_stats from the lines of bin/gossip_trace and bin/gossip_scores, from the report and from
the scenario, by the words of docs/OUTPUTS.md, and compares them with what it prints as JSON."""
import collections
import itertools
import json

from read_counts import COUNTS, OF_BYTES, OF_NO_LINK, OF_NO_TOPIC, happenings, sizes_of_meshes
from read_reach import NEVER, Reach, at_share, chosen, share_of
from read_scores import before_decays, shown

SUBJECTS = "--rounds", "--topics", "--links"
SHARES = {"median_round": 50, "round_90": 90, "last_round": 100}
OF_SENDERS = "rpcs_sent", "bytes_sent", "mesh_members", "mesh_places"

# What is asked for: PEERS or None, groups as (NAME, PEERS), and the sheet instead of the ordinary ones.
Wanted = collections.namedtuple("Wanted", "by of groups subject")
# A score that is given: in which round and at which moment, who gives it, who gets it, and millionths.
Score = collections.namedtuple("Score", "round at by of amount")


def wanted_by(words):
    """What the options of gossip_stats ask for."""
    words, by, of, groups, subject = iter(words), None, None, [], None
    for word in words:
        if word in SUBJECTS:
            subject = word
        elif word == "--by":
            by = next(words)
        elif word == "--of":
            of = next(words)
        else:
            groups.append(tuple(next(words).split("=", 1)))
    return Wanted(by, of, groups, subject)


def millionths(text):
    return int(text.replace(".", ""))


def scores_over_time(lines):
    """What the lines of gossip_scores say."""
    for line in lines.splitlines()[1:]:
        it = json.loads(line, parse_float=str)
        yield Score(it["round"], it["at"], it["peer"], it["neighbour"], millionths(it["score"]))


def scores_before_decays(text, trace):
    """What the trace adds to them, by the parameters of the scenario."""
    for it in before_decays(text, trace):
        yield Score(it["round"], it["at"], it["peer"], it["neighbour"], it["score"])


def ends(numbers):
    """The lowest and the highest; None without any."""
    numbers = list(numbers)
    return min(numbers, default=None), max(numbers, default=None)


def as_score(amount):
    return None if amount is None else shown(amount)


def lowest_of(scores):
    """The lowest score, and the first moment of it."""
    amount, at = min(((it.amount, it.at) for it in scores), default=(None, None))
    return as_score(amount), at


class Figures:
    """A run, and the sheets of it."""

    def __init__(self, text, trace, report, scores):
        self.trace, self.reach = trace, Reach(text, trace)
        self.scores = [*scores_over_time(scores), *scores_before_decays(text, trace)]
        lines = [it.split(" ") for it in report.splitlines()]
        self.last_scores = [(it[1], it[2], millionths(it[3])) for it in lines if it[0] == "score"]
        self.members = [it[1:] for it in lines if it[0] == "mesh"]  # peer, topic, member
        self.happened, self.sizes = happenings(trace), list(sizes_of_meshes(trace))

    def sheets(self, wanted):
        """The sheets by their names, each as rows."""
        it = Sheets(self, wanted)
        if wanted.subject:
            return {wanted.subject[2:]: getattr(it, wanted.subject[2:])()}
        found = self.reach.sheets(wanted.by, wanted.of) | {"peers": it.peers()}
        return found | {"groups": it.group_pairs()} if wanted.groups else found


class Sheets:
    """The sheets by the traces of some peers."""

    def __init__(self, run, wanted):
        self.run, self.wanted, self.names = run, wanted, run.trace.names
        self.of = chosen(self.names, wanted.of)
        self.groups = [(name, chosen(self.names, peers)) for name, peers in wanted.groups]
        self.happened = [it for name, found in run.happened.items() if name in self.of for it in found]
        self.sizes = [it for it in run.sizes if it[0] in self.of]
        self.scores = [it for it in run.scores if it.by in self.of]
        self.last_scores = [it for it in run.last_scores if it[0] in self.of]

    def counts(self, key_of):
        """The counts, by what the key of a happening is."""
        found = collections.defaultdict(collections.Counter)
        for it in self.happened:
            found[key_of(it)][it.column] += it.amount
        return found

    def peers(self):
        counts = self.counts(lambda it: it.whose)
        for found in self.run.happened.values():
            for it in found:
                for heard in (heard for heard, sent in OF_BYTES.items() if sent == it.column):
                    counts[it.link[1]][heard] += it.amount
        rows = [(name, {name}) for name in self.names if name in self.of]
        rows += [(f"({name})", members & self.of) for name, members in self.groups] + [("(all)", self.of)]
        return [self.peer_row(name, members, counts) for name, members in rows]

    def peer_row(self, name, members, counts):
        row = {"peer": name}
        for column in COUNTS:
            row[column] = sum(counts[it][column] for it in members) if members else None
        row["smallest_mesh"], row["largest_mesh"] = ends(size for it, end, size in self.sizes if end is None and it in members)
        low, high = ends(amount for _, it, amount in self.last_scores if it in members)
        row["lowest_score"], row["highest_score"] = as_score(low), as_score(high)
        row["lowest_in_run"], row["lowest_at_ms"] = lowest_of(it for it in self.scores if it.of in members)
        return row

    def group_pairs(self):
        pairs = list(self.run.reach.pairs(None, self.wanted.of))
        links = self.counts(lambda it: it.link)
        return [self.group_row(one, other, pairs, links) for one, other in itertools.product(self.groups, repeat=2)]

    def group_row(self, one, other, pairs, links):
        (name, senders), (to, others) = one, other
        rounds = [it for publisher, subscriber, it in pairs if publisher in senders and subscriber in others]
        missed = rounds.count(NEVER)
        row = {"from": name, "to": to, "pairs": len(rounds), "reached": len(rounds) - missed, "missed": missed}
        row["share"] = share_of(len(rounds) - missed, len(rounds))
        row |= {column: at_share(rounds, it) for column, it in SHARES.items()}
        between = [(it, to) for it in senders for to in others]
        row |= {column: sum(links[it][column] for it in between) for column in ("rpcs_sent", "bytes_sent")}
        held = [it for it in self.run.members if it[0] in senders and it[0] in self.of]
        row |= {"mesh_members": sum(it[2] in others for it in held), "mesh_places": len(held)}
        if not senders & self.of:
            row |= dict.fromkeys(OF_SENDERS)  # (of nobody nothing is known)
        last = (amount for by, it, amount in self.last_scores if by in senders and it in others)
        row["lowest_score"] = as_score(min(last, default=None))
        row["lowest_in_run"], row["lowest_at_ms"] = lowest_of(it for it in self.scores if it.by in senders and it.of in others)
        return row

    def rounds(self):
        counts = self.counts(lambda it: it.round)
        return [self.round_row(it, counts[it]) for it in range(self.run.trace.head["last_round"] + 1)]

    def round_row(self, number, counts):
        """What happened in a round, with a column lowest_score_NAME for each group."""
        row = {"round": number} | {column: counts[column] for column in COUNTS if column not in OF_BYTES}
        row["smallest_mesh"], row["largest_mesh"] = ends(size for _, end, size in self.sizes if end == number)
        scores = [it for it in self.scores if it.round == number]
        row["lowest_score"] = as_score(min((it.amount for it in scores), default=None))
        for name, members in self.groups:
            row[f"lowest_score_{name}"] = as_score(min((it.amount for it in scores if it.of in members), default=None))
        return row

    def topics(self):
        counts = self.counts(lambda it: it.topic)
        topics = sorted((it for it in counts if it is not None), key=lambda it: it.encode("latin-1"))
        columns = [it for it in COUNTS if it not in OF_NO_TOPIC and it not in OF_BYTES]
        return [{"topic": it} | {column: counts[it][column] for column in columns} for it in topics]

    def links(self):
        counts = self.counts(lambda it: it.link)
        columns = [it for it in COUNTS if it not in OF_NO_LINK and it not in OF_BYTES]
        near = self.run.reach.near
        links = [(one, to) for one in self.names for to in self.names if to in near[one] and {one, to} & self.of]
        return [{"from": one, "to": to} | {column: counts[one, to][column] for column in columns} for one, to in links]


def differences(found, wanted):
    """What differs between two runs' sheets, as texts, and how many cells were compared, as numbers."""
    if list(found) != list(wanted):
        yield f"its sheets are {list(found)}, and {list(wanted)} by the page"
    for title in (it for it in found if it in wanted):
        rows, others = found[title], wanted[title]
        if len(rows) != len(others):
            yield f"{title} has {len(rows)} rows, and {len(others)} by the trace"
        for number, (row, other) in enumerate(zip(rows, others), 1):
            yield from row_differences(f"row {number} of {title}", row, other)


def row_differences(place, row, other):
    yield len(other)
    if list(row) != list(other):
        aside = [it for it in (*row, *other) if (it in row) != (it in other)]
        yield f"{place} has other columns: {aside or 'in another order'}"
    for key in (it for it in other if it in row and row[it] != other[it]):
        begin = ", ".join(map(ascii, list(other.values())[:2]))
        yield f"{place} ({begin}): {key} is {row[key]!a}, and {other[key]!a} by the trace"


def figure_choices(names):
    """The options of gossip_stats that are tried on a run of these peers."""
    some = ",".join(names[:2])
    halves = ["--group", f"one={','.join(names[::2])}", "--group", f"q_and-2={','.join(names[1::3])},q*"]
    everybody = ["--group", "All=*", "--group", "none=nobody"]
    mixed = ["--by", f"{names[-1]},none", "--of", f"{names[0]},q*,p*"]
    yield from ([], ["--by", "p*"], ["--of", some], ["--of", some, *halves], ["--of", "nobody", *halves])
    yield from ([*mixed, *halves], [*everybody, *halves])
    for subject in SUBJECTS:
        yield from ([subject], [subject, "--of", some], [subject, *mixed[2:]])
    yield [*halves, "--rounds", *mixed[2:]]


def figure_differences(run, printed, words):
    """What differs between the sheets that gossip_stats prints with these options and those of a run, and how many cells
    were compared."""
    try:
        found = json.loads(printed, parse_float=str)
    except ValueError as why:
        yield f"gossip_stats {' '.join(words)}: {why}"
        return
    for it in differences(found, run.sheets(wanted_by(words))):
        yield it if isinstance(it, int) else f"gossip_stats {' '.join(words)}: {it}"
