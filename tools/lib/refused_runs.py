"""What tools/refuse_each runs, which calls it has fail, and how a run may end then."""

import collections
import itertools

HEAD = "round_ms = 100\nrounds = 10\nworkers = {}\ncapacity = {}\nseed = 1\n[[topic]]\nname = 'news'\n"
STEP = 20  # bytes
PARTS = "the parts of a peer"
TRACE, CHECK, EDIT = "a trace", "a check", "an edit"
TEXTS = {TRACE: "the trace", CHECK: "the answer", EDIT: "the changed scenario"}
# what may become of a read or a write
MOVES = "fail", "all", "interrupt", "one", "less", "none"

# (workers: how many threads there are, and none where the run goes without links)
Row = collections.namedtuple("Row", "name text status output errors peers workers")
Sweep = collections.namedtuple("Sweep", "what how step")
# (met: the threads that met a call which did not go on, as digits, each once or twice. STARVED is there where a growth was
# refused because no memory was left)
End = collections.namedtuple("End", "status output errors met")

STARVED = "s"
# the most growths that the start of a thread takes, with what the thread needs before it drives a task
MOST_TO_START = 16
NO_THREAD = 2, "", "run refused: 25\n"
NO_MEMORY = 2, "", "run refused: 24\n"
# how a check and an edit end that have no memory for what they do
NO_ANSWER = {
    CHECK: (2, "32\nthere is not enough memory to read the scenario, or to say what is wrong with it\n", ""),
    EDIT: (2, "", "edit refused: no memory\n"),
}

TWO_REPORT = """\
delivered a 200 news 616263
delivered b 300 news 616263
mesh a news b
mesh b news a
score a b 0.000000
score b a 0.000000
links 2 settled
"""

RING_REPORT = """\
delivered a 200 news 616263
delivered b 300 news 616263
delivered c 300 news 616263
mesh a news c
mesh b news c
mesh c news a
mesh c news b
score a b 0.000000
score a c 0.000000
score b a 0.000000
score b c 0.000000
score c a 0.000000
score c b 0.000000
links 6 settled
"""


def do(at, peer, what, **more):
    more = {"topic": "news", **more}
    words = "".join(f"{key} = '{value}'\n" for key, value in more.items() if value)
    return f"[[do]]\nat = {at}\npeer = '{peer}'\nwhat = '{what}'\n{words}"


def scenario(workers, capacity, peers, dials, *lines):
    text = HEAD.format(workers, capacity)
    text += "".join(f"[[peer]]\nname = '{peer}'\n" for peer in peers)
    text += "".join(f"[[dial]]\nfrom = '{one}'\nto = '{other}'\n" for one, other in dials)
    text += "".join(do(0, peer, "subscribe") for peer in peers)
    return text + do(2, "a", "publish", hex="616263") + "".join(lines)


# Its trace has some pages, which `gossip_sim trace` writes one after the other.
TRACED = scenario(1, 8, "ab", ["ab"], do(3, "a", "publish", hex="5a" * 20_000))


def rows(parts):
    """What is run; gs_refusals, where no call fails, writes `parts`. (What traces, checks and edits write is not known here.)"""
    for workers, name in (1, "1 worker"), (3, "3 workers"), (0, "no links"):
        text = scenario(workers or 1, 8, "ab", ["ab"])
        yield Row(f"two peers, {name}", text, 0, TWO_REPORT, "", "ab", workers)
        text = scenario(workers or 1, 1, "abc", ["ab", "bc", "ca"], do(4, "a", "hang_up", topic="", to="b"))
        yield Row(f"a ring, {name}", text, 0, RING_REPORT, "", "abc", workers)
    text = scenario(1, 8, "ab", ["ab"]).replace("seed = 1\n", "")
    yield Row("a refused scenario", text, 1, "", "scenario refused: 28 seed\n", "ab", 1)
    yield Row(PARTS, "", 0, parts, "", "", 0)
    yield Row(TRACE, TRACED, 0, "", "", "ab", 0)
    text = scenario(1, 8, "ab", ["ab"])
    yield Row(CHECK, text, 0, "", "", "ab", 0)
    yield Row(EDIT, text, 0, "", "", "ab", 0)


def sweeps(row):
    yield Sweep("growth", "fail", 0)
    if row.name == PARTS:
        return
    yield Sweep("growth", "all", 0)
    if row.name in NO_ANSWER:
        return
    if row.name == TRACE:
        yield from (Sweep("write", how, 0) for how in MOVES)
        return
    if row.workers > 1:
        yield Sweep("growth", "workers", 0)
    for what in "thread", "random":
        for how in "fail", "starve":
            yield Sweep(what, how, 0)
    for step in 0, STEP:
        for what in "read", "write":
            for how in MOVES:
                yield Sweep(what, how, step)


def calls_of(sweep):
    """Which calls a sweep has fail, as the first table of refused_runs.md says it."""
    return f"{sweep.what}, in pieces of {sweep.step} bytes" if sweep.step else sweep.what


def calls_on(page):
    """How many calls a run makes, by the first table of a page: by the run's name and the calls. Empty cells are left out."""
    from_table = itertools.dropwhile(lambda line: not line.startswith("|"), page.splitlines())
    table = itertools.takewhile(lambda line: line.startswith("|"), from_table)
    head, _, *lines = [[cell.strip() for cell in line.strip().strip("|").split("|")] for line in table]
    return {(name, calls): int(cell) for calls, *cells in lines for name, cell in zip(head[1:], cells) if cell}


def count_differs(row, sweep, count, counted):
    """What a line says about a run whose calls are more or fewer than were counted before. With several workers the numbers of
    two runs may differ."""
    before = counted.get((row.name, calls_of(sweep)), count)
    if row.workers > 1 or before == count:
        return ""
    return f"{count} calls, and {before} in tools/lib/refused_runs.md"


def name_of(sweep):
    """What becomes of a call, as a line says it."""
    how = {
        "fail": "fails",
        "all": "and all after it fail",
        "workers": "and all after it in workers fail",
        "starve": "fails, and no memory is left then",
        "interrupt": "is interrupted",
        "one": "moves one byte",
        "less": "moves a byte less",
        "none": "moves nothing",
    }[sweep.how]
    pieces = f", in pieces of {sweep.step} bytes" if sweep.step else ""
    return f"{sweep.what} {{}} {how}{pieces}"


def bytes_before(text, step, at):
    """What the calls before this one moved of a text, where each moves `step` bytes, or all (0)."""
    return text[: (at - 1) * (step or len(text))]


def is_end_of_input(sweep):
    """Whether the call tells that the input has ended there."""
    return sweep.what == "read" and sweep.how == "none"


def named(end):
    """The peer that a run names."""
    words = end.errors.split()
    return words[3] if end.status == 2 and words[:3] == ["run", "refused:", "24"] and len(words) == 4 else ""


def names_first(ends):
    """The peers that the first refused runs in a row name which name any, without repeats."""
    refused = [named(end) for end in ends if end.status == 2]
    names = itertools.takewhile(bool, itertools.dropwhile(lambda name: not name, refused))
    return "".join(name for name, _ in itertools.groupby(names))


def may_be_named(row, sweep, end):
    """The peers that a run may name. With a worker for each, it is the lowest whose task met a refusal."""
    if row.workers < len(row.peers) or "0" in end.met:
        return row.peers
    # (a worker needs memory once more as it ends, so that one refusal of many says nothing of its peer)
    enough = 1 if sweep.how == "fail" else 2
    met = [number for number, many in collections.Counter(end.met).items() if many >= enough]
    return row.peers[int(min(met)) - 1 :][:1] if met else row.peers


def allowed_after_growth(row, sweep, end):
    yield row.status, row.output, row.errors
    yield 1, "", "scenario refused: 32\n"
    # (the arguments need memory, too)
    yield NO_MEMORY
    if row.status == 0 and row.workers:
        yield NO_THREAD
        for peer in may_be_named(row, sweep, end):
            yield 2, "", f"run refused: 24 {peer}\n"


def is_trace_right(row, sweep, end):
    """Whether a run ended as it may that writes in parts: where it is refused, a front of its text may be there."""
    if end[:3] == (row.status, row.output, row.errors):
        return sweep.what == "growth" or sweep.how in ("one", "less")
    is_front = row.output.startswith(end.output) and end.output != row.output
    if sweep.what == "growth":
        return end[:3] == (1, "", "scenario refused: 32\n") or is_front and (end.status, end.errors) == (2, NO_MEMORY[2])
    said = "" if sweep.how == "all" else "output failed\n"
    return is_front and (end.status, end.errors) == (3, said)


def allowed_after_write(row, sweep, at):
    """How a run may end whose write did not take what it was to take."""
    if sweep.how in ("one", "less"):
        yield row.status, row.output, row.errors
    elif row.status != 0:
        # (the line that has been begun is not ended)
        yield row.status, "", bytes_before(row.errors, sweep.step, at)
    else:
        said = "" if sweep.how == "all" else "output failed\n"
        yield 3, bytes_before(row.output, sweep.step, at), said


def allowed(row, sweep, at, end):
    """How a run may end that met a call which did not go on: statuses, outputs and errors."""
    if sweep.what == "growth":
        yield from allowed_after_growth(row, sweep, end)
    elif sweep.what in ("thread", "random"):
        if has_calls(row, sweep):
            yield NO_THREAD
    elif sweep.what == "read" and sweep.how in ("fail", "all"):
        yield 3, "", "input failed\n"
    elif sweep.what == "read":
        yield row.status, row.output, row.errors
    else:
        yield from allowed_after_write(row, sweep, at)


def are_parts_right(row, end):
    """Whether at most one course of the parts was not whole, and that one is right, too."""
    wanted, lines = row.output.splitlines(), end.output.splitlines()
    if (end.status, end.errors, len(lines)) != (0, "", len(wanted)):
        return False
    others = [it for it in zip(lines, wanted) if it[0] != it[1]]
    same_names = all(line.split(": ")[-1] == want.split(": ")[-1] for line, want in others)
    # (none, where memory was wanted ahead of what needs it, or for a table that only saves time)
    return len(others) <= 1 and same_names and all(line.startswith("right, ") for line, _ in others)


def is_right(row, sweep, at, end):
    """Whether a run ended as it may. (A row says how it ends where all calls go on.)"""
    if end.met and row.name == PARTS:
        return are_parts_right(row, end)
    if not end.met:
        return end[:3] == (row.status, row.output, row.errors)
    if row.name == TRACE:
        return is_trace_right(row, sweep, end)
    if row.name in NO_ANSWER:
        # (the arguments need memory, too)
        return end[:3] in ((row.status, row.output, row.errors), NO_ANSWER[row.name], NO_MEMORY)
    if sweep.how == "starve" and STARVED not in end.met:
        return False
    return end[:3] in allowed(row, sweep, at, end)


def has_calls(row, sweep):
    """Whether a run makes a call that this sweep has fail. One without links starts no thread and draws no random bytes."""
    return row.workers and row.status == 0 or sweep.what not in ("thread", "random")


def names_peers(row, sweep):
    """Whether the runs of a sweep name each peer in turn, while its task is built."""
    return (sweep.what, sweep.how) == ("growth", "fail") and row.status == 0 and row.workers and row.name != PARTS


def are_all_tried(row, ends):
    """Whether in some run a growth within the calls of each part was refused."""
    lines = {line for end in ends for line in end.output.splitlines()}
    return all(want.replace("whole", "refused", 1) in lines for want in row.output.splitlines())


def met_in_two_workers(end):
    return len(set(end.met) - {"0"}) > 1


def lacks_of_thread(ends, number):
    """Of each run whose refused growth was one of this thread, in order: whether it says that a thread is lacking."""
    return [end[:3] == NO_THREAD for end in ends if end.met[:1] == number]


def stand_in_a_row(flags):
    """Whether those that hold stand one after the other."""
    return sum(holds for holds, _ in itertools.groupby(flags)) <= 1


def asked_of_starts(row, ends):
    """A run says 25 for a growth only where a thread's start needed it. No call tells which growths these are. But they are
    few, and of each thread they come one after the other. (The growths of several workers come in another order in each
    run.)"""
    many, most = sum(end[:3] == NO_THREAD for end in ends), MOST_TO_START * row.workers
    yield f"{many} growths are those of starts, of at most {most}", 0 < many <= most
    if row.workers == 1:
        yield "those of each thread are in a row", all(stand_in_a_row(lacks_of_thread(ends, it)) for it in "01")


def asked_of_all(row, sweep, ends):
    """What the runs of a sweep must show together, as a line says it, and whether they do."""
    if row.name == PARTS:
        yield "each part has a run that refuses a growth within its calls", are_all_tried(row, ends)
    if names_peers(row, sweep):
        names = names_first(ends)
        yield f"first are named, in order, {names or 'no peers'}", names == row.peers
    if (sweep.what, sweep.how) == ("growth", "fail") and row.status == 0 and row.workers:
        yield from asked_of_starts(row, ends)
    if (sweep.what, sweep.how) == ("thread", "fail") and row.status == 0:
        yield f"starts are {len(ends)}, workers {row.workers}", len(ends) == row.workers
    if row.name == TRACE and sweep.what == "growth":
        yield "a run is refused after a front of its lines", any(end.status == 2 and end.output for end in ends)
    if row.name in NO_ANSWER:
        yield "a run lacks the memory for it", any(end[:3] == NO_ANSWER[row.name] for end in ends)
    if sweep.how == "workers":
        yield "a run refuses growths in two workers", any(met_in_two_workers(end) for end in ends)


def in_short(row, end):
    """What a run ended in, where the names of peers and how much was written do not matter."""
    if row.name == PARTS:
        return "; ".join(line for line in end.output.splitlines() if ", whole: " not in line) or "all whole"
    said = end.errors.strip().replace(row.errors.strip() or "\0", "its own refusal")
    if named(end):
        said = "run refused: 24 PEER"
    elif end[:3] == NO_ANSWER.get(row.name):
        said = "no memory for it"
    elif end.status == 2 and end.output:
        said += ", after a front of the lines"
    elif end.status == 0 and not said:
        said = TEXTS.get(row.name, "the report")
    elif end.status == row.status != 0 and row.errors.startswith(end.errors) and end.errors != row.errors:
        said = "a front of its own refusal"
    return said or "nothing said"
