"""Networks: which of N peers, numbered from 0, are joined. Each function gives a sorted list of pairs (lower, higher)."""


def pair(one, other):
    return (one, other) if one < other else (other, one)


def line(count):
    return [(it, it + 1) for it in range(count - 1)]


def ring(count):
    return sorted({*line(count), pair(0, count - 1)}) if count > 1 else []


def star(count, hub):
    return sorted(pair(hub, it) for it in range(count) if it != hub)


def full(count):
    return [(one, other) for one in range(count) for other in range(one + 1, count)]


def lattice(count, degree):
    """A regular network: each peer has `degree` neighbours. Where that can't be, for an odd sum, the last one has one less."""
    pairs = {pair(it, (it + step) % count) for it in range(count) for step in range(1, degree // 2 + 1)}
    if degree % 2:
        half = count // 2
        pairs |= {(it, it + half) for it in range(half)}
    return pairs


def parts_of(count, pairs):
    """The number of the part that each peer is in: peers of one part reach each other."""
    near = [[] for _ in range(count)]
    for one, other in pairs:
        near[one].append(other)
        near[other].append(one)
    part = [None] * count
    for first in range(count):
        if part[first] is not None:
            continue
        part[first], reached = first, [first]
        while reached:
            for it in near[reached.pop()]:
                if part[it] is None:
                    part[it] = first
                    reached.append(it)
    return part


def is_connected(count, pairs):
    return len(set(parts_of(count, pairs))) <= 1


def swap(pairs, ordered, draws):
    """Takes two pairs at random, and swaps an end of each, where that gives two new pairs. No degree changes."""
    i, j = draws.below(len(ordered)), draws.below(len(ordered))
    (a, b), (c, d) = ordered[i], ordered[j]
    if draws.below(2):
        c, d = d, c
    one, other = pair(a, d), pair(c, b)
    if len({a, b, c, d}) < 4 or one in pairs or other in pairs:
        return
    pairs -= {ordered[i], ordered[j]}
    pairs |= {one, other}
    ordered[i], ordered[j] = one, other


def random(count, degree, draws):
    """A connected network in which each peer has `degree` neighbours, from 2 on, as `lattice` says it.

    Swaps begin at the regular network, and go on until all are joined. A network of at least 2 neighbours each that falls
    into parts has a ring in each part, and a swap of pairs of two rings joins the parts.
    """
    pairs = lattice(count, degree)
    ordered = sorted(pairs)
    for _ in range(10 * len(ordered)):
        swap(pairs, ordered, draws)
    while not is_connected(count, pairs):
        swap(pairs, ordered, draws)
    return sorted(pairs)


def rewired(count, degree, millionths, draws):
    """A ring in which each peer is joined to the `degree` nearest, and some pairs get another end: may fall into parts."""
    pairs = lattice(count, degree)
    for step in range(1, degree // 2 + 1):
        for it in range(count):
            if draws.below(1_000_000) >= millionths:
                continue
            free = [to for to in range(count) if to != it and pair(it, to) not in pairs]
            if free and pair(it, (it + step) % count) in pairs:
                pairs.remove(pair(it, (it + step) % count))
                pairs.add(pair(it, draws.one_of(free)))
    return sorted(pairs)


def small_world(count, degree, millionths, draws):
    """A connected network of that kind (Watts and Strogatz). None where a hundred tries made none."""
    for _ in range(100):
        pairs = rewired(count, degree, millionths, draws)
        if is_connected(count, pairs):
            return pairs
    return None


def cluster(size, degree, draws):
    return full(size) if degree >= size - 1 else random(size, degree, draws)


def clusters(parts, degree, bridges, draws):
    """Random networks, one for each list of peers, and `bridges` pairs between each of them and the next."""
    pairs = []
    for part in parts:
        pairs += [pair(part[one], part[other]) for one, other in cluster(len(part), degree, draws)]
    for part, after in zip(parts, parts[1:]):
        pairs += draws.shuffled([pair(one, other) for one in part for other in after])[:bridges]
    return sorted(pairs)
