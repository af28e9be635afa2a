"""Random choices by a seed: the same on each machine and with each version of Python."""
import hashlib


class Draws:
    """A stream of random bytes. Its labels name it: other labels have a stream of their own."""

    def __init__(self, *labels):
        self.label, self.calls = "/".join(map(str, labels)), 0

    def bytes(self, count):
        """`count` bytes: SHAKE256 of the labels and of how often this was called."""
        self.calls += 1
        return hashlib.shake_256(f"{self.label}/{self.calls}".encode()).digest(count)

    def below(self, bound):
        """A number below a bound, each as likely as any other."""
        most = 2**64 - 2**64 % bound
        while (drawn := int.from_bytes(self.bytes(8), "big")) >= most:
            pass
        return drawn % bound

    def one_of(self, choices):
        return choices[self.below(len(choices))]

    def shuffled(self, items):
        items = list(items)
        for last in range(len(items) - 1, 0, -1):
            other = self.below(last + 1)
            items[last], items[other] = items[other], items[last]
        return items
