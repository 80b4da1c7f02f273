"""The steps of cases of a home agent: registrations and what is answered to them, tunnels, discovery and prefix messages.

Names of addresses: `G` is the agent, `ANY` the home-agents anycast address, `H` and `H2` homes that it serves, `N` a home of its link that it does not serve, `F` a home of
another link; `A` and `B` are care-of addresses, `P` and `Q` correspondents. A shield is the pair of addresses between which IPsec stands.
"""
import dataclasses
import struct

import packets
from cases import Done, Expect, Send, Word, edited, headers_of, mobility, nothing, noted, one, one_of

FIRST = 1000  # the sequence number before the first of a home that nobody knows
OWN = "own"  # the shield of the mobile itself
EXPERIMENT = 253  # the protocol of data to which nobody listens (RFC 3692)


def is_after(new, last):
    return 1 <= (new - last) % 65536 <= 32767


# --- registrations


def numbered(env, home, sequence):
    """The sequence number of an update: those of a case count from the last one of its home."""
    base = env.more.get(home, env.base)
    return (base + sequence) % 65536


def registration(sequence=1, lifetime=900, flags="AH", source="A", home="H", alternate=None, shield=OWN, destination="G", options=(), before=None, over=None, **wrong):
    """A Binding Update to the agent: `home` stands in the Home Address option unless it is the source, and its mobile protects it. `over` is the source in its checksum, where it
    is another one than the home.

    `options` stand behind the alternate address, `before` replaces bytes before the checksum is made, and `wrong` are the words of `mobility`.
    """
    note = (f", alternate {alternate}" if alternate else "") + ("" if shield == OWN else f", shield of {shield[0]}" if shield else ", no shield")
    shield = (home, "G") if shield == OWN else shield

    def make(env):
        words = [("alternate", env.address(alternate))] if alternate else []
        body = edited(packets.update(numbered(env, home, sequence), flags, lifetime, words + list(options)), before)
        option = None if home == source else home
        more = dict(wrong)
        if over:
            more["after"] = dict(enumerate(packets.summed(env.address(over), env.address(destination), packets.MOBILITY, body, 4)[4:6], 4))
        packet = mobility(env, body, source, destination, option, **more)
        return packet, shield and tuple(map(env.address, shield))

    text = f"bu from {source} to {destination}, home {home}, sequence {sequence}, lifetime {lifetime}, flags {flags or '-'}{note}{noted(before, wrong)}"
    return Update(text, make, home, sequence)


@dataclasses.dataclass(frozen=True)
class Update(Send):
    """Sends an update, and keeps in mind which sequence number its home has now."""

    home: str = "H"
    sequence: int = 0

    async def perform(self, run):
        note_sequence(run, self.home, numbered(run.env, self.home, self.sequence))
        return await super().perform(run)


def note_sequence(run, home, sequence):
    """A later case counts from the last sequence number that the agent may keep."""
    kept, address = run.session.kept, run.env.address(home)
    if address not in kept or is_after(sequence, kept[address]):
        kept[address] = sequence


@dataclasses.dataclass(frozen=True)
class Fresh:
    """Brings a home to its beginning: not registered, with a sequence number from which the case's own count."""

    home: str = "H"

    async def perform(self, run):
        env, home = run.env, run.env.address(self.home)
        last = run.session.kept.get(home, FIRST - 1)
        for _ in range(3):
            last = (last + 1) % 65536
            body = packets.update(last, "AH", 0)
            run.send(mobility(env, body, self.home, "G"), (home, env.address("G")))
            came = await run.next({"ba"})
            if came is None or came.said.get("status") != 135:
                break
            last = (came.said["sequence"] + env.base) % 65536
        run.session.kept[home] = env.more[self.home] = last
        if self.home == "H":
            env.base = last
        return Done(f"brought {self.home} to its beginning: deregistered")


def fresh(*homes):
    return tuple(Fresh(it) for it in homes)


accepted = Word("0 or 1", lambda value, env: value in (0, 1))
denied = Word("128 or more", lambda value, env: value is not None and value >= 128)
some = Word("1 or more", lambda value, env: value is not None and value >= 1)


def ack(status=accepted, level="", **words):
    """A Binding Acknowledgement, of which the words alone count."""
    return Expect("ba", {"status": status, **words}, level=level, is_lax=True)


def whole_ack(status=accepted, sequence=1, destination="A", route="H", home="H", **words):
    """A Binding Acknowledgement, all of whose fields count."""
    return Expect("ba", {"source": "G", "destination": destination, "route": route, "shield": ("G", home), "status": status, "sequence": sequence, **words})


def registered(careof="A", home="H", sequence=1, lifetime=900):
    """A home that is registered."""
    return registration(sequence, lifetime, source=careof, home=home), answered()


def answered():
    """An acknowledgement, whatever it says: a case that speaks of something else goes on."""
    return Expect("ba", {}, is_lax=True)


def deregistration(sequence=2, home="H", lifetime=0, **more):
    """From home, without a Home Address option."""
    return registration(sequence, lifetime, source=home, home=home, **more)


def deregistered(home="H", sequence=2):
    return deregistration(sequence, home), answered()


def refused():
    """A denial, or silence: what RFC 6275 asks of an update that may not be accepted."""
    return one(nothing(), ack(denied))


# --- tunnels


def plain(source="P", destination="H", proto=EXPERIMENT, body=b"what a correspondent says", hop=64, option=None, route=None):
    """A packet of a correspondent, or of a mobile."""

    def make(env):
        return packets.packet(env.address(source), env.address(destination), proto, body, hop, headers_of(env, route, option)), None

    note = f", hop limit {hop}" if hop != 64 else ""
    return Send(f"data of protocol {proto} from {source} to {destination}{note}" + (f", option {option}" if option else "") + (f", route {route}" if route else ""), make)


def message(body, source="P", destination="H", text="a mobility message", **wrong):
    """A mobility message of a correspondent."""
    return Send(f"{text} from {source} to {destination}", lambda env: (mobility(env, body, source, destination, **wrong), None))


def echo(source="P", destination="H", **more):
    def make(env):
        body = packets.summed(env.address(source), env.address(destination), packets.ICMP, packets.icmp(128, b"\0\1\0\2echo"), 2)
        return packets.packet(env.address(source), env.address(destination), packets.ICMP, body, **more), None

    return Send(f"an echo request from {source} to {destination}", make)


def without_hop(data):
    return data[:7] + data[8:]


def is_lowered(value, env):
    return value is not None and without_hop(value) == without_hop(env.sent) and value[7] == env.sent[7] - 1


def is_sent_but_hop(value, env):
    return value is not None and without_hop(value) == without_hop(env.sent)


lowered = Word("the packet sent, its hop limit one less", is_lowered)



def tunnel(destination="A", **words):
    """The agent's tunnel to a care-of address; the words alone count."""
    return Expect("tunnel", {"destination": destination, **words}, is_lax=True)


def back(inner, source="A", destination="G", shield=None, cut=None):
    """A reverse tunnel with the packet that the step `inner` would send. `cut` leaves so many of its bytes."""

    def make(env):
        env.more["inner"] = inner.make(env)[0]
        packet = packets.packet(env.address(source), env.address(destination), packets.TUNNEL, env.more["inner"][:cut])
        return packet, shield and tuple(map(env.address, shield))

    note = f", shield of {shield[0]}" if shield else ""
    return Send(f"a tunnel from {source} to {destination}{note} with {inner.text}" + (f", the first {cut} bytes" if cut else ""), make)


def is_passed_on(value, env):
    """The packet of the reverse tunnel, which a router on its way may have lowered by one."""
    inner = env.more["inner"]
    return value is not None and without_hop(value) == without_hop(inner) and value[7] in (inner[7], inner[7] - 1)


passed_on = Word("the packet of the tunnel, its hop limit as it was or one less", is_passed_on)


def out(kind="data", **words):
    """The packet of a reverse tunnel, on its way outside of it."""
    return Expect(kind, {"bytes": passed_on, "shield": None, **words}, is_lax=True)


def home_test_init(source="H", destination="P"):
    """A Home Test Init as a step of a tunnel."""
    return message(packets.test_init("hoti", b"a cookie"), source, destination, "a Home Test Init")


def home_test(destination="H"):
    return message(packets.test("hot", 7, b"a cookie", b"a token."), "P", destination, "a Home Test")


# --- discovery and prefixes


def asks(kind, name, identifier, source, destination, option=None, shield=None, reserved=b"\0\0", spoiled=False, code=0):
    def make(env):
        number = identifier.to_bytes(2, "big") if identifier is not None else b"\0\1"
        body = packets.icmp(kind, number + reserved, code)
        body = packets.summed(env.address(option or source), env.address(destination), packets.ICMP, body, 2)
        if spoiled:
            body = body[:3] + bytes([body[3] ^ 1]) + body[4:]
        packet = packets.packet(env.address(source), env.address(destination), packets.ICMP, body, headers=headers_of(env, None, option))
        return packet, shield and tuple(map(env.address, shield))

    note = (f", option {option}" if option else "") + (f", shield of {shield[0]}" if shield else "") + (", its checksum wrong" if spoiled else "")
    return Send(f"{name} from {source} to {destination}, identifier {identifier}{note}", make)


def discovery(identifier=4711, source="A", destination="ANY", **more):
    """A Home Agent Address Discovery Request."""
    return asks(144, "a discovery request", identifier, source, destination, **more)


def solicitation(identifier=4711, source="A", option="H", shield=("H", "G"), **more):
    """A Mobile Prefix Solicitation."""
    return asks(146, "a prefix solicitation", identifier, source, "G", option=option, shield=shield, **more)


itself = Word("a list with the agent itself", lambda value, env: packets.shown(env.address("G")) in (value or ()))


def agents(**words):
    return Expect("agents", {"destination": "A", **words}, is_lax=True)


def prefixes(**words):
    return Expect("prefixes", {"destination": "A", **words}, is_lax=True)


def binding_error(status, home, destination, level=""):
    return Expect("be", {"source": "G", "destination": destination, "status": status, "home": home}, level=level)
