"""A small home agent with faults that are switched on by name, to see that the conformance kit finds each of them.

It keeps the rules of RFC 6275 where no fault is named. FAULTS says what each does wrong. It serves the homes that the cases name.
"""
import dataclasses
import ipaddress
import time

import packets as p
from common import Device, MemoryLink, opened

GREATEST, UNIT, HOMES = 900, 4.0, 8
ANYCAST = bytes.fromhex("fdfffffffffffffe")
FAULTS = {
    "update_without_a_shield": "takes an update that nobody protects",
    "shield_of_any_home": "takes an update that another mobile protects",
    "sequences_compared_as_numbers": "compares sequence numbers as plain numbers",
    "sequence_not_compared": "compares no sequence numbers",
    "own_sequence_in_135": "denies with 135 and the update's own sequence number",
    "alternate_address_passed_over": "takes the update's source for the care-of address, whatever its Alternate Care-of Address option says",
    "home_is_a_care_of_address": "takes the home address for a care-of address, and no deregistration from it",
    "care_of_address_not_looked_at": "registers any care-of address",
    "home_of_nobody_registered": "registers a home that it does not serve",
    "longer_than_asked": "grants more time than was asked for",
    "registration_never_ends": "keeps a registration whose time is over",
    "deregistration_without_effect": "acknowledges a deregistration and keeps the registration",
    "acknowledges_always": "acknowledges an update without flag A",
    "acknowledgement_without_a_shield": "protects no acknowledgement",
    "acknowledgement_without_routing_header": "sends acknowledgements without a routing header",
    "acknowledgement_to_the_alternate_address": "sends acknowledgements to the alternate care-of address",
    "hop_limit_not_lowered": "lowers no hop limit at the entry of a tunnel",
    "test_tunnelled_without_a_shield": "protects no tunnel with a mobility message",
    "intercepts_when_not_registered": "tunnels to the last care-of address of a home that is not registered",
    "tunnel_from_anywhere": "does not compare the entry point of a reverse tunnel",
    "tunnel_of_any_home": "opens a reverse tunnel of a home that is not registered",
    "test_init_without_a_shield": "opens an unprotected reverse tunnel with a mobility message",
    "identifier_of_its_own": "answers discovery requests and prefix solicitations with an identifier of its own",
    "names_nobody": "names no agent in a discovery reply",
    "solicitation_without_a_shield": "answers an unprotected prefix solicitation",
    "home_option_passed_over": "sends no Binding Error about a Home Address option",
    "checksum_not_compared": "looks at no checksum of a mobility message",
    "unknown_message_dropped_in_silence": "sends no Binding Error about an unknown type",
}


@dataclasses.dataclass
class Home:
    """What is kept of a home: its care-of address, whether and until when it is registered, and its last sequence number."""

    careof: bytes = None
    is_registered: bool = False
    end: float = 0.0
    sequence: int = None


def is_routable(address):
    it = ipaddress.IPv6Address(address)
    return not (it.is_multicast or it.is_link_local or it.is_loopback or it.is_unspecified)


class Agent(Device):
    FAULTS = FAULTS

    def __init__(self, own, faults, put):
        super().__init__(own, faults, put)
        self.homes = {own[:8] + (0x71 + number).to_bytes(8, "big"): Home() for number in range(HOMES)}

    def care_of(self, home):
        """The registered care-of address of a home."""
        it = self.homes.get(home)
        return it.careof if it and it.is_registered and (it.end > time.monotonic() or self.has("registration_never_ends")) else None

    def to_tunnel(self, home):
        """Where the packets of a home go."""
        last = self.homes[home].careof if home in self.homes and self.has("intercepts_when_not_registered") else None
        return self.care_of(home) or last

    # --- what comes

    def take(self, data, shield):
        seen = opened(data, shield)
        if seen is None:
            return
        if self.to_tunnel(seen.destination):
            self.intercept(seen)
        elif seen.destination in (self.own, self.own[:8] + ANYCAST) and not seen.route:
            self.received(seen)

    def received(self, seen):
        message = self.message_of(seen) if seen.proto == p.MOBILITY else None
        if seen.proto == p.MOBILITY and message is None:
            return
        is_update = message is not None and message["kind"] == "bu"
        if seen.home and not is_update and (self.care_of(seen.home) is None or self.care_of(seen.home) != seen.source):
            if not self.has("home_option_passed_over"):
                self.answers(seen.source, p.MOBILITY, p.binding_error(1, seen.home))
        elif is_update:
            self.update(seen, message)
        elif seen.proto == p.TUNNEL:
            self.reverse(seen)
        elif seen.proto == p.ICMP and len(seen.body) >= 8:
            self.icmp(seen)

    # --- registrations

    def update(self, seen, message):
        if "H" not in message["flags"] or not self.is_shielded(seen):
            return
        home = seen.sender
        careof = self.named(seen, message)
        deletes = message["lifetime"] == 0 or careof == home and not self.has("home_is_a_care_of_address")
        status = self.verdict(home, careof, deletes, message["sequence"])
        granted = 0
        kept = self.homes.get(home)
        last = kept.sequence if kept else None
        if status == 0:
            granted = 0 if deletes else min(message["lifetime"], GREATEST)
            self.register(home, careof, deletes, granted, message["sequence"])
        if "A" in message["flags"] or status >= 128 or self.has("acknowledges_always"):
            carried = last if status == 135 and not self.has("own_sequence_in_135") else message["sequence"]
            self.acknowledge(seen, careof, status, carried, min(message["lifetime"] + 1, 65535) if granted and self.has("longer_than_asked") else granted)

    def is_shielded(self, seen):
        if self.has("update_without_a_shield"):
            return True
        return seen.shield is not None and (seen.shield[0] == seen.sender or self.has("shield_of_any_home"))

    def named(self, seen, message):
        """The care-of address that an update asks for."""
        other = message.get("alternate")
        return seen.source if other is None or self.has("alternate_address_passed_over") else ipaddress.IPv6Address(other).packed

    def verdict(self, home, careof, deletes, sequence):
        if home[:8] != self.own[:8]:
            return 132
        if home not in self.homes:
            if not self.has("home_of_nobody_registered"):
                return 133
            self.homes[home] = Home()
        if not deletes and careof != home and (not is_routable(careof) or careof[:8] == self.own[:8]) and not self.has("care_of_address_not_looked_at"):
            return 174
        if not self.is_newer(sequence, self.homes[home].sequence):
            return 135
        return 0

    def is_newer(self, sequence, last):
        if last is None or self.has("sequence_not_compared"):
            return True
        if self.has("sequences_compared_as_numbers"):
            return sequence > last
        return 1 <= (sequence - last) % 65536 <= 32767

    def register(self, home, careof, deletes, granted, sequence):
        it = self.homes[home]
        it.sequence = sequence
        if not deletes:
            it.careof, it.is_registered, it.end = careof, True, time.monotonic() + UNIT * granted
        elif not self.has("deregistration_without_effect"):
            it.is_registered = False

    def acknowledge(self, seen, careof, status, sequence, granted):
        home = seen.sender
        route = seen.home if seen.home and seen.home != seen.source and not self.has("acknowledgement_without_routing_header") else None
        to = careof if self.has("acknowledgement_to_the_alternate_address") else seen.source
        shield = None if self.has("acknowledgement_without_a_shield") else (self.own, home)
        self.sends(to, p.MOBILITY, p.acknowledgement(status, sequence, granted), shield, route)

    # --- tunnels

    def intercept(self, seen):
        home, hop = seen.destination, seen.data[7]
        if hop < 2:
            return
        inner = seen.data if self.has("hop_limit_not_lowered") else seen.data[:7] + bytes([hop - 1]) + seen.data[8:]
        shielded = seen.proto == p.MOBILITY and not self.has("test_tunnelled_without_a_shield")
        self.sends(self.to_tunnel(home), p.TUNNEL, inner, (self.own, home) if shielded else None)

    def reverse(self, seen):
        inner = opened(seen.body, None)
        if inner is None or inner.destination == self.own:
            return
        careof = self.care_of(inner.source)
        if careof is None and not self.has("tunnel_of_any_home") or careof != seen.source and careof and not self.has("tunnel_from_anywhere"):
            return
        if inner.proto == p.MOBILITY and (seen.shield is None or seen.shield[0] != inner.source) and not self.has("test_init_without_a_shield"):
            return
        self.put(seen.body, None)

    # --- ICMPv6

    def icmp(self, seen):
        if not seen.holds(2):
            return
        identifier = seen.body[4:6]
        if self.has("identifier_of_its_own"):
            identifier = b"\0\7"
        if seen.body[0] == 144:
            self.sends(seen.source, p.ICMP, p.icmp(145, identifier + b"\0\0" + (b"" if self.has("names_nobody") else self.own)))
        if seen.body[0] == 146 and self.care_of(seen.sender) and (seen.shield and seen.shield[0] == seen.sender or self.has("solicitation_without_a_shield")):
            self.prefixes(seen.sender, identifier)

    def prefixes(self, home, identifier):
        option = bytes([3, 4, 64, 0xE0]) + b"\xff" * 8 + bytes(4) + self.own
        self.sends(self.care_of(home), p.ICMP, p.icmp(147, identifier + b"\0\0" + option), (self.own, home), home)


def link(own, faults):
    """An agent in this process."""
    return MemoryLink(lambda put: Agent(own, faults, put))
