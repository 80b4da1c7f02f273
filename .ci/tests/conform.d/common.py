"""What a small agent and a small mobile have in common: the headers of a packet, the checks that RFC 6275 section 9.2 asks of every node, timers, and a link.

A device keeps the rules of RFC 6275 where no fault is named; each fault is a word that switches a rule off.
"""
import asyncio
import dataclasses
import time

import frames
import packets as p

LEAST = (0, 1, 1, 2, 2, 1, 1, 2)  # the Header Len of each type, at least
QUOTED = 1232


@dataclasses.dataclass
class Seen:
    """A packet as it came. `home` is the Home Address option and `route` the routing header's address, or None; `outer` is the tunnel packet that it came in."""

    data: bytes
    shield: tuple
    source: bytes
    destination: bytes
    home: bytes
    route: bytes
    proto: int
    body: bytes
    place: int
    outer: object = None

    @property
    def sender(self):
        """Whom a message is from: the home address where one is told."""
        return self.home or self.source

    def holds(self, at):
        """Whether the checksum at this place of the body holds."""
        found = int.from_bytes(self.body[at : at + 2], "big")
        return p.checksum(self.sender, self.route or self.destination, self.proto, self.body, at) % 0xFFFF == found % 0xFFFF


def opened(data, shield, outer=None):
    """The headers of a packet, or None where they cannot be read."""
    try:
        it = p.walk(data)
    except p.NotPacket:
        return None
    route, home = (it.head[name] and p.packed(it.head[name]) for name in ("route", "option"))
    return Seen(data, shield, data[8:24], data[24:40], home, route, it.head["proto"], it.body, it.place, outer)


class Device:
    """A node with one address of its own. What it sends goes to `put`, a packet and its shield."""

    FAULTS = {}

    def __init__(self, own, faults, put):
        self.own, self.faults, self.put, self.timers = own, set(faults), put, {}
        for it in self.faults - self.FAULTS.keys():
            raise ValueError(f"there is no fault {it}")

    def has(self, fault):
        return fault in self.faults

    # --- what is due when, by names

    def at_time(self, name, due, action):
        self.timers[name] = (due, action)

    def stop(self, *names):
        for it in names:
            self.timers.pop(it, None)

    def due(self):
        return min((it for it, _ in self.timers.values()), default=None)

    def tick(self):
        now = time.monotonic()
        while self.timers:
            name = min(self.timers, key=lambda it: self.timers[it][0])
            if self.timers[name][0] > now:
                return
            self.timers.pop(name)[1]()

    # --- what is sent

    def sends(self, destination, proto, body, shield=None, route=None, home=None, source=None):
        """Sends a packet, with the checksum of its body."""
        source = source or self.own
        headers = [(p.ROUTING, p.routing(route))] if route else []
        headers += [(p.OPTIONS, p.home_option(home))] if home else []
        at = {p.MOBILITY: 4, p.ICMP: 2}.get(proto)
        if at:
            body = p.summed(home or source, route or destination, proto, body, at)
        self.put(p.packet(source, destination, proto, body, headers=headers), shield)

    def answers(self, destination, proto, body):
        """Sends an answer of this node to somebody outside."""
        self.sends(destination, proto, body)

    def problem(self, seen, pointer):
        """A Parameter Problem, with the packet that it is about."""
        self.answers(seen.source, p.ICMP, p.icmp(4, pointer.to_bytes(4, "big") + seen.data[:QUOTED]))

    # --- what comes

    def take(self, data, shield):
        raise NotImplementedError

    def message_of(self, seen):
        """The fields of a mobility message, or None where it is refused. What section 9.2 asks for is answered."""
        body = seen.body
        if len(body) < 8 or len(body) != 8 + 8 * body[1] or not (seen.holds(4) or self.has("checksum_not_compared")):
            return None
        if body[2] >= len(LEAST):
            if not self.has("unknown_message_dropped_in_silence"):
                self.answers(seen.source, p.MOBILITY, p.binding_error(2, seen.home or bytes(16)))
            return None
        if body[0] != p.NONE or body[1] < LEAST[body[2]]:
            self.problem(seen, seen.place + (body[0] == p.NONE))
            return None
        kind = p.KINDS[body[2]]
        try:
            return {"kind": kind, **p.fields_of(kind, body), **p.named_options(body[p.OPTIONS_AT[body[2]] :])}
        except p.NotPacket:
            return None


class MemoryLink:
    """A device in this process, in the place of one behind a port."""

    def __init__(self, make):
        self.device, self.heard, self.is_closed, self.timer = make(self.out), None, False, None

    def begin(self, heard):
        self.heard = heard

    def send(self, packet, shield=None):
        asyncio.get_running_loop().call_soon(self.done, self.device.take, packet, shield)

    def out(self, packet, shield=None):
        asyncio.get_running_loop().call_soon(self.heard, frames.write_frame(packet, shield))

    def done(self, what, *words):
        """Does it, and comes back when the device has something due."""
        what(*words)
        if self.timer:
            self.timer.cancel()
        due = self.device.due()
        self.timer = None if due is None else asyncio.get_running_loop().call_later(max(due - time.monotonic(), 0), self.done, self.device.tick)

    def end(self):
        if self.timer:
            self.timer.cancel()
