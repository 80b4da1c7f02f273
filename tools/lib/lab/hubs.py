"""The hub of the place where the mobile stands, and the one that takes its place in a move."""
import time

from network import HUB_PORTS


class Hubs:
    """`start` begins a process, `forget` watches it no longer. The port is that of the hub that stands; moves are moments and links."""

    def __init__(self, folder, network, start, forget):
        self.folder, self.network, self.start, self.forget = folder, network, start, forget
        self.program, self.port, self.number = None, HUB_PORTS[0], 0
        self.coming, self.next, self.is_ready, self.held, self.later = None, None, False, [], None
        self.moves, self.lost, self.dropped = [], 0, 0

    def is_under_way(self):
        return self.coming is not None or self.later is not None

    def move(self, link, gap=0):
        """To this link, after so many milliseconds on none."""
        self.later = (link, gap) if gap else None
        self.begin("-" if gap else link, 0)

    def begin(self, link, moment, is_move=True):
        """A hub for this link begins; it stands once it is ready, and not before this moment."""
        self.number += 1
        name, port = f"hub.{self.number}", HUB_PORTS[self.number % 2]
        with open(f"{self.folder}/{name}.config", "w", encoding="ascii") as it:
            it.writelines(self.network.hub(link, port))
        self.next, self.is_ready, self.held = (link, port, moment, is_move), False, []
        self.coming = self.start(name, "hub", self.line)

    def line(self, program, words):
        self.is_ready = self.is_ready or program is self.coming
        self.lost += words[0] == "gone"
        self.dropped += words[0] == "dropped"

    def holds(self, port, role, frame):
        """Whether such a frame goes on. What the next hub sends before its time is held back, and what the last one sends behind it is lost."""
        if self.coming and port == self.next[1]:
            self.held.append((role, frame))
        return port == self.port

    def exchange(self):
        """The next hub takes its place, where it is time: the frames that were held back, and else None."""
        if not self.coming or not self.is_ready or time.time() < self.next[2]:
            return None
        if self.program:
            self.forget(self.program)
            self.program.end()
        self.program, self.coming = self.coming, None
        self.network.at, self.port, _, is_move = self.next
        if is_move:
            self.keep_move()
        held, self.held = self.held, []
        if self.later:
            (link, gap), self.later = self.later, None
            self.begin(link, self.moves[-1][0] + gap / 1000)
        return held

    def keep_move(self):
        self.moves.append((time.time(), self.network.at))
        with open(f"{self.folder}/moves", "a", encoding="ascii") as it:
            it.write(f"{self.moves[-1][0]} {self.network.at}\n")

    def ended(self, program):
        """A hub that has had its turns is followed by another one. Whether that is so."""
        if program is self.coming:
            self.coming, self.later = None, None
        if program is not self.program or time.monotonic() - program.began < 1:
            return False
        self.begin(self.network.at, 0, is_move=False)
        return True
