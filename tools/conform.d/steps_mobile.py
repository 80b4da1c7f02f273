"""The steps of cases of a mobile node. The kit is its home agent, its correspondents, and the router of each link that it comes to.

Names of addresses: `H` is the mobile's home address, `G` its home agent, `A` and `B` its care-of addresses, which it makes of the prefixes of two links; `P` and `Q` are
correspondents, `X` is a stranger. A peer is `P` where a step names none.
"""
import dataclasses
import struct
import time

import packets
import tokens
from cases import SHOULD, Done, Expect, Send, Several, Word, changed, mobility
from runs import packet_text

ALL_NODES, ROUTER = packets.packed("ff02::1"), packets.packed("fe80::1")
UDP, DISCARD = 17, 9
A_SECOND = 2.5  # s within which a mobile that may not send another update at once sends it, on a machine that may be busy
ROUNDS = 8  # of answers, until a mobile that comes home has nothing more to ask


def is_after(new, last):
    return 1 <= (new - last) % 65536 <= 32767


def note(said, env):
    """Keeps what later steps name: cookies, sequence numbers, the care-of address."""
    env.more["seconds"] = said.get("seconds", 0)
    inner = said["inner"] if said["kind"] == "tunnel" else said
    if inner["kind"] in ("hoti", "coti"):
        name = "home" if inner["kind"] == "hoti" else "careof"
        env.cookies[name] = inner["cookie"]
        env.more.setdefault("cookies", []).append(inner["cookie"])
    if said["kind"] == "bu":
        env.more["to " + said["destination"]] = said["sequence"]


@dataclasses.dataclass(frozen=True)
class Comes(Expect):
    """A packet of the mobile, of which the words alone count; what it says is kept."""

    is_lax: bool = True

    def take(self, said, env):
        note(said, env)


# --- links and registration


def advertised(env, name):
    """A router advertisement of the link of this address (RFC 4861 section 4.2)."""
    prefix = env.address(name)[:8]
    option = struct.pack(">BBBBIII", 3, 4, 64, 0xC0, 2**32 - 1, 2**32 - 1, 0) + prefix + bytes(8)
    body = packets.icmp(134, struct.pack(">BBHII", 64, 0x20 if name == "H" else 0, 1800, 0, 0) + option)
    return packets.packet(ROUTER, ALL_NODES, packets.ICMP, packets.summed(ROUTER, ALL_NODES, packets.ICMP, body, 2), 255)


def arrives(link="A"):
    """The mobile comes to a link: the home link is that of `H`."""

    def make(env):
        env.more["at"], env.more["is registered"] = link, False
        return advertised(env, link), None

    return Send(f"a router advertisement of the {'home link' if link == 'H' else f'link of {link}'}", make)


def stays():
    """The router of the link on which the mobile is advertises itself once more."""
    return Send("the same router advertisement again", lambda env: (advertised(env, env.more["at"]), None))


def home_ack(status=0, ahead=0, lifetime=900, source="G", shield=("G", "H"), **wrong):
    """A Binding Acknowledgement of the agent to the last update; `ahead` is added to its sequence number."""

    def make(env):
        at = env.more["at"]
        sequence = (env.more.get("to " + packets.shown(env.address("G")), 0) + ahead) % 65536
        if status < 128 and not ahead and source == "G" and shield == ("G", "H") and not wrong:
            env.more["is registered"] = at != "H" and lifetime > 0
        packet = mobility(env, packets.acknowledgement(status, sequence, lifetime), source, at, route=None if at == "H" else "H", **wrong)
        return packet, shield and tuple(map(env.address, shield))

    note = (f", {ahead} ahead of its sequence number" if ahead else "") + (f", shield of {shield[0]}" if shield else ", no shield") + (", spoiled" if wrong else "")
    return Send(f"ba from {source}, status {status}, lifetime {lifetime}{note}", make)


def later(name):
    def test(value, env):
        last = env.more.get("to " + packets.shown(env.address(name)))
        return value is not None and (last is None or is_after(value, last))

    return Word("later than that of the update before", test)


def ahead_of(name, number):
    """The answer to a sequence number that is so far ahead of the last update's."""

    def test(value, env):
        return value is not None and is_after(value, (env.more["to " + packets.shown(env.address(name))] + number) % 65536)

    return Word("later than that of the acknowledgement", test)


def has(*letters):
    return Word("with " + " and ".join(letters), lambda value, env: value is not None and set(letters) <= set(value))


def has_not(letter):
    return Word("without " + letter, lambda value, env: value is not None and letter not in value)


some = Word("1 or more", lambda value, env: value is not None and value >= 1)
backs_off = Word("half as long again at least as the wait before", lambda value, env: value >= 1.5 * env.more["seconds"])


def home_bu(patience=0, level="", **words):
    """An update to the agent."""
    return Comes("bu", {"destination": "G", **words}, patience=patience, level=level)


@dataclasses.dataclass(frozen=True)
class Without:
    """None of these packets comes before the mobile answers a later one, or within so many seconds; whatever else comes is passed over."""

    says: str
    kinds: tuple
    to: str
    seconds: float = 0
    level: str = ""

    def is_one(self, said, env):
        inner = said["inner"] if said["kind"] == "tunnel" else said
        return inner["kind"] in self.kinds and inner.get("destination") in [packets.shown(env.address(it)) for it in self.to]

    async def perform(self, run):
        await (run.sleep(self.seconds) if self.seconds else run.quiet())
        came, run.inbox = [it.said for it in run.inbox if not it.fault and self.is_one(it.said, run.env)], []
        return Done(self.says, came=came[:1], is_lax=True, wrong=[f"{came[0]['kind']} came"] if came else [], level=self.level)


def no_update(seconds=0, to="PQ"):
    return Without("no update", ("bu",), to, seconds)


def no_probing():
    return Without("no test init", ("hoti", "coti"), "PQ")


@dataclasses.dataclass(frozen=True)
class Registers:
    """The mobile comes to a link and is registered there, whatever its update is like."""

    link: str = "A"
    lifetime: int = 900

    async def perform(self, run):
        await arrives(self.link).perform(run)
        said = await update_to(run, "G")
        if said is None:
            return Done("the mobile registers", wrong=[run.why_quiet()])
        run.env.addresses[self.link] = packets.packed(said["source"])
        await home_ack(lifetime=self.lifetime).perform(run)
        return Done(f"came to the link of {self.link}, and registered")


async def update_to(run, name, patience=0):
    """The next update to this node; others are passed over."""
    while came := await run.next({"bu"}, patience):
        if came.said["kind"] == "bu" and came.said["destination"] == packets.shown(run.env.address(name)):
            note(came.said, run.env)
            return came.said
    return None


@dataclasses.dataclass(frozen=True)
class AtHome:
    """Brings the mobile home, and answers there what it asks, until it has neither a registration nor a binding. A case whose predecessor ended so begins so;
    behind one that failed the mobile goes away and registers first, since it ends what it has when it comes home."""

    is_last: bool = False

    async def perform(self, run):
        if run.session.kept.pop("is at home", False):
            run.env.more |= {"at": "H", "is registered": False}
            return Done("at home: no registration and no bindings")
        if not self.is_last and run.session.kept.get("has begun"):
            await Registers("B").perform(run)
        run.session.kept["has begun"] = True
        if run.env.more.get("at") == "H":  # a deregistration may wait for its acknowledgement
            await home_ack(lifetime=0).perform(run)
        await arrives("H").perform(run)
        for _ in range(ROUNDS):
            await run.quiet()
            answered = self.answer(run)
            if not answered:
                break
            if "hoti" in answered:
                await self.wait_for_update(run)
        run.session.kept["is at home"] = self.is_last
        return Done("brought home: no registration and no bindings", wrong=self.repeated(run) if self.is_last else [])

    def repeated(self, run):
        """What is wrong with a mobile that sends its updates twice: each has a sequence number of its own."""
        updates = [it for it in map(packet_text, run.twice) if it.startswith("bu ")]
        return ["it is the same packet as one that came before: " + it for it in updates[:1]]

    async def wait_for_update(self, run):
        """A mobile that has sent as many updates as it may waits before it sends the one that ends a binding."""
        until = time.monotonic() + A_SECOND
        while time.monotonic() < until and not any(it.said["kind"] == "bu" for it in run.inbox):
            await run.heard(0.1)

    def answer(self, run):
        """The kinds of the packets that were answered."""
        came = [it.said for it in run.inbox if not it.fault and it.said["kind"] in ("bu", "hoti") and it.said["source"] == packets.shown(run.env.address("H"))]
        run.inbox = []
        for said in came:
            note(said, run.env)
            run.send(*self.answer_to(said, run.env).make(run.env))
        return [it["kind"] for it in came]

    def answer_to(self, said, env):
        peer = said["destination"]
        if said["kind"] == "hoti":
            return home_test(source=peer)
        return home_ack(lifetime=0) if peer == packets.shown(env.address("G")) else peer_ack(lifetime=0, source=peer)


# --- return routability


def inside(env, inner, source="G", destination=None):
    """The agent's tunnel to the care-of address."""
    return packets.packet(env.address(source), env.address(destination or env.more["at"]), packets.TUNNEL, inner)


def datagram(env, source):
    """A datagram for the home address, to a port that throws it away."""
    data = b"news"
    body = struct.pack(">HHHH", 40000, DISCARD, 8 + len(data), 0) + data
    return packets.packet(env.address(source), env.address("H"), UDP, packets.summed(env.address(source), env.address("H"), UDP, body, 6), 63)


def data_in(source="P", outer="G"):
    """Data of a peer comes through the agent's tunnel: a reason to begin return routability."""
    return Send(f"data from {source} to H in a tunnel from {outer}", lambda env: (inside(env, datagram(env, source), outer), None))


def hoti_seen(patience=0, **words):
    """A Home Test Init in the reverse tunnel; words of its inner packet are among `inner`."""
    return Comes("tunnel", {"inner": {"kind": "hoti", "destination": "P", **words.pop("inner", {})}, **words}, patience=patience)


def coti_seen(patience=0, **words):
    return Comes("coti", {"destination": "P", **words}, patience=patience)


def inits(patience=0, **words):
    """Both test inits, in any order, with the same words on each."""
    return Several((hoti_seen(patience, inner=words), coti_seen(patience, **words)))


@dataclasses.dataclass(frozen=True)
class Probes:
    """The mobile begins return routability with `P`, however its test inits are; that it does so is its own choice."""

    only_home: bool = False

    async def perform(self, run):
        env, missing = run.env, {"hoti"} if self.only_home else {"hoti", "coti"}
        while missing and (came := await run.next({"tunnel", "hoti", "coti"})):
            inner = came.said["inner"] if came.said["kind"] == "tunnel" else came.said
            if inner.get("destination") == packets.shown(env.address("P")) and inner["kind"] in missing:
                missing.discard(inner["kind"])
                note(came.said, env)
        wrong = [f"no {it} comes: the mobile does not begin return routability" for it in sorted(missing)]
        return Done("the mobile begins return routability with P", wrong=wrong, level=SHOULD)


def drawn(env, name, index):
    """A new token of a test, kept under this name with its index."""
    env.tests[name] = (index, env.draw.randbytes(8))
    return env.tests[name]


def tunnelled(env, inner, outer, shield):
    return inside(env, inner, outer), shield and tuple(map(env.address, shield))


def home_test(source="P", index=7, spoiled=False, straight=False, outer="G", shield=("G", "H"), **wrong):
    """A Home Test, through the agent's tunnel while the mobile is away; `straight` sends it to the care-of address, and `spoiled` with another cookie."""

    def make(env):
        cookie = env.cookies["home"]
        number, token = drawn(env, "home", index)
        body = packets.test("hot", number, changed(cookie) if spoiled else cookie, token)
        at = env.more["at"]
        if straight or at == "H":
            return mobility(env, body, source, at, route=None if at == "H" else "H", **wrong), None
        return tunnelled(env, mobility(env, body, source, "H", **wrong), outer, shield)

    note = (", another cookie" if spoiled else "") + (", outside the tunnel" if straight else "") + ("" if shield else ", no shield") + (f", the tunnel of {outer}" if outer != "G" else "")
    return Send(f"hot from {source}, index {index}{note}", make)


def careof_test(source="P", index=8, spoiled=False, in_tunnel=False, **wrong):
    """A Care-of Test, straight to the care-of address; `in_tunnel` sends it to the home address, through the tunnel."""

    def make(env):
        cookie = env.cookies["careof"]
        number, token = drawn(env, "careof", index)
        body = packets.test("cot", number, changed(cookie) if spoiled else cookie, token)
        if in_tunnel:
            return tunnelled(env, mobility(env, body, source, "H", **wrong), "G", ("G", "H"))
        return mobility(env, body, source, env.more["at"], **wrong), None

    note = (", another cookie" if spoiled else "") + (", through the tunnel" if in_tunnel else "")
    return Send(f"cot from {source}, index {index}{note}", make)


def seal_of(env, is_deletion):
    """The key of the last tests, and the address that is registered by it."""
    home = env.tests["home"][1]
    return (tokens.kbm(home), env.address("H")) if is_deletion else (tokens.kbm(home, env.tests["careof"][1]), env.address(env.more["at"]))


def is_sealed(value, env):
    said = packets.read(value)
    key, careof = seal_of(env, said["lifetime"] == 0)
    return said.get("auth") == tokens.authenticator(key, careof, packets.packed(said["destination"]), said["message"])


sealed = Word("a packet whose authenticator is that of both tokens", is_sealed)


def indices_of(*names):
    """The Nonce Indices of these tests."""
    return Word("the indices of the tests", lambda value, env: value is not None and value[: 2 * len(names)] == b"".join(env.tests[it][0].to_bytes(2, "big") for it in names))


def peer_bu(patience=0, level="", **words):
    """An update to `P`."""
    return Comes("bu", {"destination": "P", **words}, patience=patience, level=level)


def peer_ack(status=0, ahead=0, lifetime=105, seal="right", source="P"):
    """A Binding Acknowledgement of a peer: its authenticator is the right one, a wrong one, or none."""

    def make(env):
        at, peer = env.more["at"], env.address(source)
        sequence = (env.more.get("to " + packets.shown(peer), 0) + ahead) % 65536
        body = packets.acknowledgement(status, sequence, lifetime, [("auth", bytes(12))] if seal else ())
        if seal:
            key, careof = seal_of(env, at == "H")
            proof = tokens.authenticator(key, careof, peer, body)
            body = body[:-12] + (proof if seal == "right" else changed(proof))
        return mobility(env, body, source, at, route=None if at == "H" else "H"), None

    note = (f", {ahead} ahead of its sequence number" if ahead else "") + ("" if seal == "right" else ", a wrong authenticator" if seal else ", no authenticator")
    return Send(f"ba from {source}, status {status}, lifetime {lifetime}{note}", make)


def probing():
    """A registered mobile that has begun return routability."""
    return Registers(), data_in(), Probes()


def pending():
    """A mobile whose update waits for its acknowledgement."""
    return *probing(), home_test(), careof_test(), peer_bu()


def bound():
    """A mobile that is bound to `P`."""
    return *pending(), peer_ack()


# --- other packets


def message(body, source="P", option=None, route=None, text="a mobility message", destination=None, **wrong):
    """A mobility message to where the mobile is."""

    def make(env):
        return mobility(env, body, source, destination or env.more["at"], option, route, **wrong), None

    return Send(f"{text} from {source}" + (f", option {option}" if option else "") + (f", route {route}" if route else ""), make)


def refresh_request(source="P"):
    """A Binding Refresh Request."""
    return message(packets.message(0, bytes(2)), source, route="H", text="a Binding Refresh Request")


def binding_error(status=1, home="H", source="P"):
    make = lambda env: (mobility(env, packets.binding_error(status, env.address(home)), source, env.more["at"], route="H"), None)
    return Send(f"be from {source}, status {status}, home {home}", make)


def answer(kind, **words):
    """An answer of the mobile to a node outside: through the reverse tunnel, or straight."""
    return Comes("tunnel", {"inner": {"kind": kind, **words}}), Comes(kind, words)


@dataclasses.dataclass(frozen=True)
class Hurries:
    """Each update to `P` is answered by status 135 at once: the fourth comes no sooner than a second behind the first (a little less is permitted, as the kit may be late)."""

    least: float = 0.7

    async def perform(self, run):
        times = []
        for _ in range(4):
            if await update_to(run, "P", 2) is None:
                return Done("four updates", wrong=[run.why_quiet()])
            times.append(run.moment)
            if len(times) < 4:
                run.send(*peer_ack(135, ahead=5, lifetime=0).make(run.env))
        seconds = times[3] - times[0]
        return Done("three updates a second at most", wrong=[f"the fourth update came {seconds:.2f} s behind the first"] if seconds < self.least else [])


other_cookie = Word("another cookie than any before", lambda value, env: value is not None and value not in env.more.get("cookies", ()))
