"""What runs of a sweep give together that differ only in some keys, as in the seed. For bin/sweep."""
import math
import statistics
from collections import namedtuple

from sweep_runs import line_of, number

# The 97.5 % points of Student's t distribution by degrees of freedom: NIST/SEMATECH e-Handbook of Statistical Methods,
# section 1.3.6.7.2. Where a number has no row, the one above it holds, so an interval is rather too wide. From 5,000 on the
# limit is right to its last digit.
T_POINTS = {
    1: 12.706, 2: 4.303, 3: 3.182, 4: 2.776, 5: 2.571, 6: 2.447, 7: 2.365, 8: 2.306, 9: 2.262, 10: 2.228,
    11: 2.201, 12: 2.179, 13: 2.160, 14: 2.145, 15: 2.131, 16: 2.120, 17: 2.110, 18: 2.101, 19: 2.093, 20: 2.086,
    21: 2.080, 22: 2.074, 23: 2.069, 24: 2.064, 25: 2.060, 26: 2.056, 27: 2.052, 28: 2.048, 29: 2.045, 30: 2.042,
    40: 2.021, 50: 2.009, 60: 2.000, 80: 1.990, 100: 1.984, 5000: 1.960,
}

# The columns that say how the runs of a row ended.
COUNTS = "runs", "failed"

# What runs give together in a column of numbers. Without a number in some of them there is no mean, and without a mean, or
# with one run, there is no interval. The lowest and the highest are texts, empty where no run has a number.
Together = namedtuple("Together", "mean lowest highest interval missing")
NUMBERS = "mean", "lowest", "highest", "interval"


def t_point(freedom):
    return T_POINTS[max(it for it in T_POINTS if it <= freedom)]


def half_width(values):
    """Half the width of the 95 % confidence interval of the mean of two values or more."""
    return t_point(len(values) - 1) * float(statistics.stdev(values)) / math.sqrt(len(values))


def together(cells):
    """What the cells of a column give together. One is empty where a run has no such number."""
    values = [number(it) for it in cells if it]
    missing = len(cells) - len(values)
    mean = float(statistics.mean(values)) if values and not missing else None
    interval = half_width(values) if mean is not None and len(values) > 1 else None
    ends = (str(min(values)), str(max(values))) if values else ("", "")
    return Together(mean, *ends, interval, missing)


class Joined:
    """The row of several runs. `settings` has the values that they share, `cells` what stands in the row of each."""

    def __init__(self, settings):
        self.settings, self.cells = settings, []

    def with_figures(self):
        return [it for it in self.cells if it["status"] == "0"]

    def counts(self):
        """How many runs have figures, and how many have none."""
        many = len(self.with_figures())
        return many, len(self.cells) - many

    def proved(self):
        found = {it["proved"] for it in self.cells}
        return found.pop() if len(found) == 1 else "mixed"

    def together(self, column):
        return together([it.get(column, "") for it in self.with_figures()])


def joined(rows, settings, many):
    """Joins the rows that have the same values of these settings, once all `many` of them are there."""
    begun = {}
    for row in rows:
        values = tuple(row.cells[it] for it in settings)
        one = begun.setdefault(values, Joined(values))
        one.cells.append(row.cells)
        if len(one.cells) == many:
            yield begun.pop(values)


def fixed(value, digits):
    """A number with this many digits after the point."""
    return f"{round(value, digits) + 0.0:.{digits}f}"  # (the sum has no -0.0)


# For programs


def names_of(column):
    return [column] if column == "proved" else [f"{column}_{it}" for it in NUMBERS]


def cells_of(one, column):
    """The cells of a column: numbers that are worked out have six digits after the point, as scores have."""
    if column == "proved":
        return [one.proved()]
    it = one.together(column)
    mean, interval = ("" if value is None else fixed(value, 6) for value in (it.mean, it.interval))
    return [mean, it.lowest, it.highest, interval]


def csv_lines(rows, settings, columns, has_header):
    """Joined rows as CSV, each as soon as it is there."""
    if has_header:
        yield line_of([*settings, *COUNTS, *(name for it in columns for name in names_of(it))])
    for one in rows:
        yield line_of([*one.settings, *one.counts(), *(cell for it in columns for cell in cells_of(one, it))])


# For a person


def plain(text):
    """A number without zeros at its end."""
    return text.rstrip("0").rstrip(".") if "." in text else text


def digits_for(interval):
    """How many digits after the point it takes to show two digits of an interval."""
    return min(6, max(0, 1 - math.floor(math.log10(interval))))


def text_of(one, column):
    """As 9.2 ± 1.0 (8 to 10): the mean, the interval, and from the lowest to the highest."""
    if column == "proved":
        return one.proved()
    it = one.together(column)
    if not it.lowest:
        return "-"
    span = f"({plain(it.lowest)} to {plain(it.highest)})"
    if it.missing:
        return f"none in {it.missing} {span}"
    if it.interval is None:
        return plain(it.lowest)
    if it.interval == 0:
        return f"{plain(it.lowest)} ± 0 {span}"
    digits = digits_for(it.interval)
    return f"{fixed(it.mean, digits)} ± {fixed(it.interval, digits)} {span}"


def table_lines(rows, settings, columns, has_header):
    """Joined rows as aligned text, once all are there: settings to the left, and all else to the right."""
    lines = [[*settings, *COUNTS, *columns]] if has_header else []
    for one in rows:
        lines.append([*one.settings, *map(str, one.counts()), *(text_of(one, it) for it in columns)])
    widths = [max(map(len, cells)) for cells in zip(*lines)]
    for cells in lines:
        left = [cell.ljust(width) for cell, width in zip(cells, widths[: len(settings)])]
        right = [cell.rjust(width) for cell, width in zip(cells[len(settings) :], widths[len(settings) :])]
        yield "  ".join([*left, *right]) + "\n"
