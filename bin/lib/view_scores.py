"""What a page of a run shows about the lines of gossip_scores: each score that changed, with its parts."""
import json

THRESHOLDS = "gossip_threshold", "publish_threshold", "graylist_threshold"
# The parts of a topic's score, in the order of a page.
PARTS = (
    "time_in_mesh",
    "first_message_deliveries",
    "mesh_message_deliveries",
    "mesh_failure_penalty",
    "invalid_message_deliveries",
)
EVENTS = "heartbeat", "decay", "shut"


class Scores:
    """The lines, taken in one by one. What stays the same for a pair of peers is kept once, and so is what pairs share."""

    def __init__(self, head, events, only=None):
        self.thresholds = [plain(head["thresholds"][it]) for it in THRESHOLDS]
        self.events, self.only = events, only
        self.numbers, self.bodies, self.pairs = {}, [], {}

    def take(self, text):
        line = json.loads(text)
        key = self.events.peer(line["peer"]), self.events.peer(line["neighbour"])
        number = self.number_of(line, self.only is None or self.only in (line["peer"], line["neighbour"]))
        course = self.pairs.setdefault(key, [])
        if not course or course[-1] != number:
            course += line["round"], EVENTS.index(line["event"]), number

    def number_of(self, line, is_whole):
        """The place of a score and its parts among those of the page."""
        body = [plain(line["score"])]
        if is_whole:
            body += self.parts_of(line)
        key = tuple(map(str, body))
        if key not in self.numbers:
            self.numbers[key] = len(self.bodies)
            self.bodies.append(body)
        return self.numbers[key]

    def parts_of(self, line):
        """The sums, P5 to P7, and for each topic its number, its score, and two numbers for each part."""
        topics = []
        for it in line["topics"]:
            values = [value for part in PARTS for value in both(it[part])]
            topics.append([self.events.topic(it["topic"]), plain(it["topic_score"]), *values])
        colocation = line["ip_colocation_factor"]
        return [
            plain(line["topic_sum"]),
            plain(line["capped_topic_sum"]),
            *both(line["app_specific_score"]),
            plain(colocation["neighbours"]),
            plain(colocation["weighed"]),
            *both(line["behaviour_penalty"]),
            topics,
        ]

    def data(self):
        return {
            "thresholds": self.thresholds,
            "bodies": self.bodies,
            "pairs": [[peer, other, course] for (peer, other), course in self.pairs.items()],
        }


def both(part):
    return plain(part["counted"]), plain(part["weighed"])


def plain(number):
    """A number with at most six digits after the point, in as few digits as it takes."""
    return int(number) if number == int(number) else round(number, 6)
