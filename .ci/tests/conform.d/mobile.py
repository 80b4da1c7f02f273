"""A small mobile node with faults that are switched on by name, to see that the conformance kit finds each of them.

It keeps the rules of RFC 6275 where no fault is named. FAULTS says what each does wrong.
"""
import dataclasses
import hashlib
import hmac
import secrets
import time

import packets as p
import tokens
from common import Device, MemoryLink, opened

ALL_NODES = p.packed("ff02::1")
ASKED, BOUND_FOR = 900, 105  # units of 4 s
FIRST, AGAIN, LONGEST = 1.5, 1.0, 32.0
A_SECOND = 3  # updates to a peer at most
FAULTS = {
    "acknowledgement_not_asked_for": "registers without flag A",
    "alternate_address_left_out": "registers without an Alternate Care-of Address option",
    "registration_without_a_shield": "protects no update to its agent",
    "resent_with_the_same_sequence": "sends an update to its agent again with the same sequence number",
    "no_back_off": "sends again after the same time each time",
    "any_sequence_acknowledges": "takes an acknowledgement of its agent with any sequence number",
    "acknowledgement_without_a_shield": "takes an acknowledgement of its agent that is not protected",
    "refused_and_sent_again": "goes on to send an update that was refused",
    "sequence_not_taken_from_135": "passes over the sequence number of status 135",
    "registration_not_renewed": "does not renew a registration",
    "home_address_option_at_home": "deregisters with a Home Address option",
    "bindings_left_at_home": "ends no binding when it is at home",
    "home_test_init_sent_straight": "sends a Home Test Init from its care-of address",
    "the_same_cookies_each_time": "has the same two cookies in each return routability",
    "cookie_not_compared": "takes a test with any cookie",
    "one_test_is_enough": "makes an update of one test",
    "home_test_outside_the_tunnel": "takes a Home Test outside its agent's tunnel",
    "tunnel_of_anybody": "opens a tunnel that is not its agent's",
    "home_flag_to_a_correspondent": "sends a peer an update with flag H",
    "bound_for_an_hour": "asks a peer for 3,600 s",
    "authenticator_over_the_checksum": "makes authenticators over the checksum, too",
    "acknowledgement_without_its_authenticator": "takes an acknowledgement of a peer with any authenticator or none",
    "any_number_of_updates_a_second": "sends a peer as many updates as it is asked for",
    "binding_error_passed_over": "keeps a binding after a Binding Error",
    "error_of_any_home": "gives a binding up for a Binding Error about another home",
    "refresh_request_passed_over": "passes over a Binding Refresh Request",
    "routing_header_of_anybody": "takes a packet whose routing header names another home",
    "checksum_not_compared": "looks at no checksum of a mobility message",
    "unknown_message_dropped_in_silence": "sends no Binding Error about an unknown type",
}


@dataclasses.dataclass
class Peer:
    """A correspondent of the mobile, and how far return routability with it is: idle, probing, pending or bound."""

    address: bytes
    state: str = "idle"
    is_deletion: bool = False
    is_touched: bool = False
    sequence: int = 0
    sent: float = 0.0
    cookies: dict = dataclasses.field(default_factory=dict)
    tests: dict = dataclasses.field(default_factory=dict)
    times: list = dataclasses.field(default_factory=list)  # of its last updates


class Mobile(Device):
    FAULTS = FAULTS

    def __init__(self, home, agent, faults, put):
        super().__init__(home, faults, put)
        self.home, self.agent, self.at = home, agent, None
        self.peers, self.is_registered, self.is_first = {}, False, True
        self.sequence, self.sent, self.last = 0, 0.0, None
        self.cookies = [secrets.token_bytes(8), secrets.token_bytes(8)]

    @property
    def is_away(self):
        return self.at is not None and self.at != self.home

    def again(self, name, wait, action):
        """Does it after `wait`, then after twice that, up to the longest wait."""

        def rings():
            self.again(name, wait if self.has("no_back_off") else min(2 * wait, LONGEST), action)
            action()

        self.at_time(name, time.monotonic() + wait, rings)

    # --- links

    def take(self, data, shield):
        seen = opened(data, shield)
        if seen is None:
            return
        if seen.destination == ALL_NODES and seen.proto == p.ICMP and seen.body[0] == 134 and data[7] == 255:
            self.advertised(p.read(data))
        elif seen.destination == self.at and not seen.route:
            self.outside(seen)
        elif seen.destination == self.at and self.is_away and (seen.route == self.home or self.has("routing_header_of_anybody")):
            self.outside(seen)

    def advertised(self, said):
        prefix = p.packed(said["prefix"])[:8]
        if self.at is not None and prefix == self.at[:8]:
            return
        self.leave()
        self.at = prefix + self.home[8:]
        if self.is_away:
            self.last = None
            self.register()
        elif self.sent:
            self.last = None
            self.deregister()

    def leave(self):
        self.timers.clear()
        self.is_registered = False
        for it in self.peers.values():
            it.state = "idle"

    # --- registration

    def register(self):
        self.update_home(self.is_first)

    def deregister(self):
        self.update_home(False)

    def update_home(self, is_first):
        wait = FIRST if is_first else AGAIN
        self.is_first = False
        self.again("home", wait, self.send_home)
        self.send_home()

    def send_home(self):
        if not (self.has("resent_with_the_same_sequence") and self.last == self.sequence):
            self.sequence = (self.sequence + 1) % 65536
        self.last, self.sent = self.sequence, time.monotonic()
        shield = None if self.has("registration_without_a_shield") else (self.home, self.agent)
        flags = "H" if self.has("acknowledgement_not_asked_for") else "AH"
        if self.is_away:
            options = [] if self.has("alternate_address_left_out") else [("alternate", self.at)]
            self.sends(self.agent, p.MOBILITY, p.update(self.sequence, flags, ASKED, options), shield, home=self.home, source=self.at)
        else:
            option = self.home if self.has("home_address_option_at_home") else None
            self.sends(self.agent, p.MOBILITY, p.update(self.sequence, flags, 0), shield, home=option, source=self.home)

    def home_acknowledged(self, seen, message):
        """Whether the acknowledgement counts here."""
        if seen.outer or seen.sender != self.agent or self.last is None or not (self.is_home_shield(seen.shield) or self.has("acknowledgement_without_a_shield")):
            return
        if message["status"] != 135 and message["sequence"] != self.last and not self.has("any_sequence_acknowledges"):
            return
        if message["status"] == 135:
            if not self.has("sequence_not_taken_from_135"):
                self.sequence = message["sequence"]
            self.update_home(False)
        elif message["status"] >= 128:
            if not self.has("refused_and_sent_again"):
                self.stop("home", "renew")
        elif not self.is_away:
            self.home_again()
        else:
            self.registered(message["lifetime"])

    def is_home_shield(self, shield):
        return shield == (self.agent, self.home)

    def registered(self, lifetime):
        self.stop("home")
        if not lifetime:
            return
        self.is_registered = True
        if not self.has("registration_not_renewed"):
            self.at_time("renew", self.sent + 3 * lifetime, lambda: self.update_home(False))
        self.at_time("end", self.sent + 4 * lifetime, self.has_ended)
        for it in self.peers.values():
            if it.is_touched and it.state == "idle":
                self.start(it)

    def has_ended(self):
        self.is_registered = False

    def home_again(self):
        """The registration is ended; bindings are to end too."""
        self.stop("home", "renew", "end")
        self.sent, self.last, self.is_registered = 0.0, None, False
        for it in self.peers.values():
            if it.is_touched and not self.has("bindings_left_at_home"):
                self.start(it, is_deletion=True)

    # --- what comes

    def outside(self, seen):
        if seen.proto != p.TUNNEL or not self.is_away:
            self.received(seen)
            return
        inner = opened(seen.body, seen.shield, seen)
        if inner is None or inner.proto == p.TUNNEL or inner.destination != self.home or inner.route:
            return
        if seen.source != self.agent and not self.has("tunnel_of_anybody"):
            return
        if inner.proto != p.MOBILITY or self.is_home_shield(seen.shield):
            self.received(inner)

    def received(self, seen):
        message = self.message_of(seen) if seen.proto == p.MOBILITY else {"kind": "data"}
        if message is None:
            return
        kind = message["kind"]
        if seen.home and kind != "bu":
            if kind not in ("hoti", "coti"):
                self.answers(seen.source, p.MOBILITY, p.binding_error(1, seen.home))
            return
        {"hoti": self.tested, "coti": self.tested, "hot": self.home_test, "cot": self.careof_test, "ba": self.acknowledged, "be": self.error, "brr": self.refresh,
         "data": self.up}.get(kind, lambda *_: None)(seen, message)

    def tested(self, seen, message):
        kind = 3 if message["kind"] == "hoti" else 4
        self.answers(seen.source, p.MOBILITY, p.message(kind, bytes(2) + message["cookie"] + secrets.token_bytes(8)))

    def answers(self, destination, proto, body):
        """Sends from the home address: through the tunnel while away."""
        if not self.is_away:
            self.sends(destination, proto, body)
        elif self.is_registered:
            at = {p.MOBILITY: 4, p.ICMP: 2}.get(proto)
            inner = p.packet(self.home, destination, proto, p.summed(self.home, destination, proto, body, at), 63)
            self.sends(self.agent, p.TUNNEL, inner, (self.home, self.agent) if proto == p.MOBILITY else None, source=self.at)

    def up(self, seen, _):
        if seen.proto in (p.ICMP, p.NONE) or not seen.outer:
            return
        peer = self.peers.setdefault(seen.sender, Peer(seen.sender))
        if peer.state == "idle" and self.is_registered:
            self.start(peer)

    # --- return routability

    def start(self, peer, is_deletion=False):
        peer.state, peer.is_deletion, peer.tests = "probing", is_deletion, {}
        peer.cookies = {"hot": self.cookie(0), "cot": self.cookie(1)}
        self.stop(("update", peer.address))
        self.probe(peer, AGAIN)

    def cookie(self, place):
        if self.has("the_same_cookies_each_time"):
            return self.cookies[place]
        return secrets.token_bytes(8)

    def probe(self, peer, wait):
        """Asks for the tests that are missing, and again after `wait`."""
        if wait > LONGEST:
            peer.state = "idle"
            return
        if "hot" not in peer.tests:
            body = p.test_init("hoti", peer.cookies["hot"])
            if self.has("home_test_init_sent_straight") and self.is_away:
                self.sends(peer.address, p.MOBILITY, body, source=self.at, home=self.home)
            else:
                self.answers(peer.address, p.MOBILITY, body)
        if "cot" not in peer.tests and not peer.is_deletion:
            self.sends(peer.address, p.MOBILITY, p.test_init("coti", peer.cookies["cot"]), source=self.at)
        self.at_time(("probe", peer.address), time.monotonic() + wait, lambda: self.probe(peer, 2 * wait))

    def home_test(self, seen, message):
        if self.is_away and not seen.outer and not self.has("home_test_outside_the_tunnel"):
            return
        self.is_tested(seen, message)

    def careof_test(self, seen, message):
        if seen.outer is None:
            self.is_tested(seen, message)

    def is_tested(self, seen, message):
        peer, kind = self.peers.get(seen.sender), message["kind"]
        if peer is None or peer.state != "probing" or peer.is_deletion and kind == "cot":
            return
        if message["cookie"] != peer.cookies[kind] and not self.has("cookie_not_compared"):
            return
        peer.tests[kind] = (message["index"], message["token"])
        if peer.is_deletion and "hot" in peer.tests or len(peer.tests) == 2 or self.has("one_test_is_enough"):
            self.stop(("probe", peer.address))
            peer.state, peer.is_touched = "pending", True
            self.again(("update", peer.address), AGAIN, lambda: self.update(peer))
            self.update(peer)

    def key(self, peer):
        home = peer.tests.get("hot", (0, b""))[1]
        return tokens.kbm(home, b"" if peer.is_deletion else peer.tests.get("cot", (0, b""))[1])

    def update(self, peer):
        now = time.monotonic()
        peer.times = [it for it in peer.times if it > now - 1]
        if len(peer.times) >= 3 and not self.has("any_number_of_updates_a_second"):
            return
        peer.times.append(now)
        peer.sequence, peer.sent = (peer.sequence + 1) % 65536, now
        indices = b"".join(peer.tests.get(it, (0,))[0].to_bytes(2, "big") for it in ("hot", "cot"))
        lifetime = 0 if peer.is_deletion else ASKED if self.has("bound_for_an_hour") else BOUND_FOR
        flags = "AH" if self.has("home_flag_to_a_correspondent") else "A"
        body = p.update(peer.sequence, flags, lifetime, [("nonces", indices), ("auth", bytes(12))])
        if self.has("authenticator_over_the_checksum"):
            body = p.summed(self.home, peer.address, p.MOBILITY, body, 4)
            proof = hmac.new(self.key(peer), self.at + peer.address + body[:-12], hashlib.sha1).digest()[:12]
        else:
            proof = tokens.authenticator(self.key(peer), self.at, peer.address, body)
        body = body[:4] + bytes(2) + body[6:-12] + proof
        self.sends(peer.address, p.MOBILITY, body, home=self.home if self.is_away else None, source=self.at)

    def acknowledged(self, seen, message):
        peer = self.peers.get(seen.sender)
        if peer is None or peer.state != "pending":
            self.home_acknowledged(seen, message)
            return
        is_sealed = "auth" in message and message["auth"] == tokens.authenticator(self.key(peer), self.at, peer.address, seen.body)
        is_free = "auth" not in message and message["status"] in (136, 137, 138)
        if not (is_sealed or is_free or self.has("acknowledgement_without_its_authenticator")):
            return
        if message["sequence"] != peer.sequence and message["status"] != 135:
            return
        self.settled(peer, message)

    def settled(self, peer, message):
        status, name = message["status"], ("update", peer.address)
        self.stop(name)
        peer.state = "idle"
        if status == 135:
            peer.state, peer.sequence = "pending", message["sequence"]
            self.again(name, AGAIN, lambda: self.update(peer))
            self.update(peer)
        elif status in (136, 137, 138):
            self.start(peer, peer.is_deletion)
        elif status < 128 and peer.is_deletion:
            peer.is_touched = False
        elif status < 128 and message["lifetime"]:
            peer.state = "bound"
            self.at_time(("renew", peer.address), peer.sent + 3 * message["lifetime"], lambda: self.start(peer))

    def error(self, seen, message):
        peer = self.peers.get(seen.sender)
        if message["status"] == 1 and (message["home"] == p.shown(self.home) or self.has("error_of_any_home")) and peer and peer.state == "bound":
            if not self.has("binding_error_passed_over"):
                self.stop(("renew", peer.address))
                peer.state = "idle"

    def refresh(self, seen, _):
        peer = self.peers.get(seen.sender)
        if peer and peer.state == "bound" and not self.has("refresh_request_passed_over"):
            self.start(peer)


def link(own, faults):
    """A mobile in this process."""
    agent = own[:8] + (1).to_bytes(8, "big")
    return MemoryLink(lambda put: Mobile(own, agent, faults, put))
