"""Pictures of more peers than have names: where each disc must stand, which lines there must be between them, what the legend
must say, and which rows the table must have."""
import math
import re
import xml.etree.ElementTree

CENTRE, RADIUS, GAP = (460, 310), 220, 10
DISC = re.compile(r'<g class="disc [^"]*" transform="translate\((\d+) (\d+)\)">')
LINE = re.compile(r'<path class="(both|one)" d="M(\d+) (\d+)L(\d+) (\d+)"/>')
BAR = re.compile(r'<path class="course bar" d="M960 (\d+)h(\d+)"/>')
# All words between the title and the chart: no names, no marks in discs, and nothing about arrowheads.
LEGEND = [
    "Each disc is a peer, by the lowest score that a neighbour gives it at the end",
    "Peers stand clockwise from the top in the order of the scenario, without names. Lines are faint, so a dense place has many.",
    "hollow: not subscribed to the topic",
    "each has the other in its mesh",
    "only one has the other in its mesh",
    "0 or more",
    "below 0",
    "below the gossip threshold",
    "below the publish threshold",
    "below the graylist threshold",
    "there is no such score",
]
TABLE = "Pairs reached within a number of rounds"
LOWEST, PITCH = 936, 15


def place_of(number, count):
    """Where a peer stands, by a sine of four places that is rounded to the nearest, and legs that are rounded down."""
    degrees = number * 360 // count % 360
    radius = RADIUS - GAP * (number % (count // 360 + 1))
    across, up = ((math.sin, math.cos)[it](math.radians(degrees)) for it in (0, 1))
    legs = [radius * math.floor(10_000 * abs(it) + 0.5) // 10_000 for it in (across, up)]
    return CENTRE[0] + (legs[0] if degrees <= 180 else -legs[0]), CENTRE[1] + (-legs[1] if degrees <= 90 or degrees > 270 else legs[1])


def lines_of(report, count):
    """The kind of each line, and from where it goes to where, by the meshes that the report has."""
    members = {tuple(int(it[1:]) for it in (words[1], words[3])) for words in map(str.split, report.splitlines()) if words[0] == "mesh"}
    found = []
    for one, other in members:
        is_both = (other, one) in members
        if not is_both or one < other:
            found.append(("both" if is_both else "one", *place_of(one, count), *place_of(other, count)))
    return sorted(found)


def rows_of(report, count, round_ms):
    """The rows of the table of one message to all: a limit of rounds, how many peers were reached within it, and the percentage.
    The first delivery is the publisher's own. Limits are 1, 2 and then sums of two, up to one that reaches as many as any does."""
    moments = sorted(int(it.split(" ")[2]) for it in report.splitlines() if it.startswith("delivered "))
    rounds = [(it - moments[0]) // round_ms for it in moments[1:]]
    limit, following, rows = 1, 2, []
    while not rows or rows[-1][1] < len(rounds):
        reached = sum(it <= limit for it in rounds)
        rows.append((limit, reached, 100 * reached // (count - 1)))
        limit, following = following, limit + following
    return rows


def words_faults(name, count, report, picture, round_ms):
    """What is wrong with the legend, or with the table next to the chart."""
    found = xml.etree.ElementTree.fromstring(picture)
    words = [it.text for it in found.iter("{http://www.w3.org/2000/svg}text")]
    rows, faults = rows_of(report, count, round_ms), []
    if words[2:3 + len(LEGEND)] != [*LEGEND, "Share of the subscribers that each message reached"]:
        faults.append(f"{name}: the legend does not say what is drawn")
    wanted = [TABLE, *(word for limit, reached, share in rows for word in (str(limit), f"{reached} ({share}%)"))]
    bars = [(str(LOWEST - 4 - PITCH * (len(rows) - 1 - it)), str(row[2])) for it, row in enumerate(rows)]
    if words[-len(wanted):] != wanted or BAR.findall(picture) != bars or found.get("width") != "1200":
        faults.append(f"{name}: the table does not say what was reached")
    return faults


def picture_faults(name, count, report, picture, round_ms):
    """What is wrong with a picture, and how many discs it has."""
    discs = [tuple(map(int, it)) for it in DISC.findall(picture.split('<text class="head"')[0])]
    lines = sorted((it[0], *map(int, it[1:])) for it in LINE.findall(picture))
    kind = "hundreds" if count <= 256 else "thousands"
    faults = []
    if discs != [place_of(it, count) for it in range(count)]:
        faults.append(f"{name}: a disc stands where it must not")
    if len(set(discs)) != count:
        faults.append(f"{name}: two discs stand at one place")
    if lines != lines_of(report, count):
        faults.append(f"{name}: the lines are not the meshes")
    if 'class="name' in picture or picture.count(f'<g class="crowd {kind}">') != 1:
        faults.append(f"{name}: it has names, or its discs are not of the size for as many")
    return len(discs), faults + words_faults(name, count, report, picture, round_ms)
