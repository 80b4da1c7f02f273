"""What a node knows: the last word of its trace on each question."""
import ipaddress


def familiar(digits):
    return str(ipaddress.IPv6Address(bytes.fromhex(digits)))


class Known:
    """Addresses are digits, moments milliseconds of the node's own clock."""

    def __init__(self):
        self.now, self.lines = 0, 0
        self.careof, self.agent, self.registered_to = None, None, 0
        self.bound, self.homes, self.bindings = {}, {}, {}
        self.counts = {}

    def take(self, words):
        self.lines += 1
        if words[0] in ("dropped", "denied", "unsent", "refused"):
            self.counts[words[0]] = self.counts.get(words[0], 0) + 1
        read = getattr(self, "on_" + words[0], None)
        if read:
            read(words)

    def on_at(self, words):
        self.now = int(words[1])

    def on_careof(self, words):
        self.careof, self.agent = words[2], None

    def on_moved(self, words):
        self.careof, self.agent = None, None

    def on_registered(self, words):
        self.agent, self.registered_to = words[2], int(words[3])

    def on_unregistered(self, words):
        self.agent = None

    def on_bound(self, words):
        self.bound[words[2]] = int(words[3])

    def on_unbound(self, words):
        self.bound.pop(words[2], None)

    def on_home(self, words):
        self.homes[words[2]] = words[3], int(words[5])

    def on_accepted(self, words):
        _, _, _, home, _, careof, _, end, _, _ = words
        self.bindings[home] = careof, int(end)

    def is_bound(self, peer):
        return self.bound.get(peer, 0) > self.now

    def is_registered(self):
        return self.agent is not None and self.registered_to > self.now

    def careof_of(self, home):
        """Where the home is by the last update that was accepted, or None."""
        careof, end = self.bindings.get(home, (home, 0))
        return careof if careof != home and end > self.now else None

    def left(self, end):
        return f"for {(end - self.now) / 1000:.0f} s"

    def said(self, home):
        """A line for each thing that it knows."""
        if self.careof is not None:
            yield f"{familiar(home)} is at {'home' if self.careof == home else familiar(self.careof)}"
        if self.is_registered():
            yield f"registered with {familiar(self.agent)} {self.left(self.registered_to)}"
        for peer, end in self.bound.items():
            if end > self.now:
                yield f"bound at {familiar(peer)} {self.left(end)}"
        for each, (careof, end) in self.homes.items():
            if careof != each and end > self.now:
                yield f"registered: {familiar(each)} at {familiar(careof)} {self.left(end)}"
        for each in self.bindings:
            if self.careof_of(each):
                yield f"bound: {familiar(each)} at {familiar(self.careof_of(each))} {self.left(self.bindings[each][1])}"
        if self.counts:
            yield ", ".join(f"{word} {count}" for word, count in self.counts.items())
