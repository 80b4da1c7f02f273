"""A small correspondent with faults that are switched on by name, to see that the conformance kit finds each of them.

It keeps the rules of RFC 6275 where no fault is named. FAULTS says what each does wrong.
"""
import dataclasses
import hashlib
import hmac
import ipaddress

import packets
import tokens

PERIOD, NONCES, MOST_UNITS, KEPT = 30, 8, 105, 240
LEAST = (0, 1, 1, 2, 2, 1, 1, 2)  # the Header Len of each type, at least
FAULTS = {
    "plain_sequences": "compares sequence numbers as plain numbers",
    "any_sequence": "compares no sequence numbers",
    "equal_sequence": "accepts the sequence number that it keeps",
    "forgotten_at_deletion": "forgets the sequence number when a binding is deleted",
    "forgotten_at_end": "forgets the sequence number when a binding ends",
    "own_sequence_in_135": "denies with 135 and the update's own sequence number",
    "one_byte_for_both_tokens": "makes home and care-of tokens with one byte",
    "tokens_without_address": "makes tokens of the nonce alone",
    "any_index": "takes a nonce index that it does not know for that of its present nonce",
    "nine_nonces": "takes nine nonces",
    "six_nonces": "takes six nonces",
    "token_of_the_source": "takes the care-of token for the update's source, not for the alternate address",
    "both_tokens_for_deletion": "makes the key of a deletion of both tokens",
    "deletion_reads_index": "denies a deletion whose care-of nonce index is not known",
    "no_authenticator": "looks at no authenticator",
    "checksum_in_authenticator": "makes authenticators over the checksum, too",
    "accepts_h": "accepts an update with flag H",
    "always_acknowledges": "acknowledges what it accepts without flag A",
    "unsealed_acknowledgement": "acknowledges without an authenticator",
    "sealed_denial": "denies an old nonce with an authenticator",
    "no_route_in_acknowledgement": "acknowledges without a routing header",
    "acknowledges_to_alternate": "sends the acknowledgement to the alternate care-of address",
    "lifetime_as_asked": "grants any lifetime that is asked for",
    "never_ends": "keeps a binding for ever",
    "ends_early": "has bindings end after half their time",
    "keeps_the_deleted": "acknowledges a deletion and keeps the binding",
    "keeps_the_former_place": "goes on to send to the former care-of address",
    "option_unchecked": "hands up data with a Home Address option of an unheld home",
    "place_unchecked": "hands up data with the option of a held home from any source",
    "error_without_home": "sends Binding Errors without the home address",
    "no_error": "sends no Binding Error about an unknown type",
    "no_problem": "sends no Parameter Problem",
    "pointer_at_type": "points at the message type in each Parameter Problem",
    "tests_with_option": "answers a test init with a Home Address option",
    "checksum_unchecked": "looks at no checksum",
    "proto_unchecked": "looks at no Payload Proto",
    "padding_after_authorization": "takes padding behind the authorization",
    "unknown_option_refused": "refuses a message with an unknown option",
    "reserved_refused": "refuses a message whose reserved fields are not zero",
    "routed_tests": "sends a home test to the care-of address while there is a binding",
    "unrouted_data": "sends data to the home address while there is a binding",
}


@dataclasses.dataclass
class Binding:
    """What is kept of a home: until `kept` its sequence number, until `end` its care-of address."""

    careof: bytes
    sequence: int
    end: float
    kept: float
    begun: float


class Correspondent:
    """`take` answers a packet with packets."""

    def __init__(self, own, faults=(), secret=b"conformance"):
        self.own, self.faults, self.bindings = own, set(faults), {}
        self.kcn = hashlib.sha1(secret).digest()
        for it in self.faults - FAULTS.keys():
            raise ValueError(f"there is no fault {it}")

    def has(self, fault):
        return fault in self.faults

    # --- nonces and tokens

    def nonce(self, number):
        return hashlib.sha1(self.kcn + number.to_bytes(8, "big")).digest()[:8]

    def number_of(self, index, now):
        """The valid nonce of an index."""
        present = int(now // PERIOD)
        count = 9 if self.has("nine_nonces") else 6 if self.has("six_nonces") else NONCES
        unknown = present if self.has("any_index") else None
        return next((it for it in range(max(present - count + 1, 0), present + 1) if it % 65536 == index), unknown)

    def token(self, kind, address, number):
        if self.has("one_byte_for_both_tokens"):
            kind = tokens.HOME
        if self.has("tokens_without_address"):
            address = bytes(16)
        return tokens.token(self.kcn, address, self.nonce(number), kind)

    # --- what is kept

    def held(self, home, now):
        """The care-of address of a home."""
        it = self.bindings.get(home)
        if it is None or it.careof == home:
            return None
        end = it.begun + (it.end - it.begun) / 2 if self.has("ends_early") else it.end
        return it.careof if now < end or self.has("never_ends") else None

    def last(self, home, now):
        """The sequence number that is kept for a home."""
        it = self.bindings.get(home)
        if it is None or now >= it.kept:
            return None
        if self.has("forgotten_at_deletion") and it.careof == home or self.has("forgotten_at_end") and now >= it.end and it.careof != home:
            return None
        return it.sequence

    def is_after(self, new, home, now):
        last = self.last(home, now)
        if last is None or self.has("any_sequence"):
            return True
        if self.has("plain_sequences"):
            return new > last
        least = 0 if self.has("equal_sequence") else 1
        return least <= (new - last) % 65536 <= 32767

    # --- packets out

    def send(self, to, proto, body, route=None):
        at = 4 if proto == packets.MOBILITY else 2
        if proto in (packets.MOBILITY, packets.ICMP):
            body = packets.summed(self.own, route or to, proto, body, at)
        headers = [(packets.ROUTING, packets.routing(route))] if route else []
        return [packets.packet(self.own, to, proto, body, headers=headers)]

    def error(self, to, status, home):
        named = packets.packed(home) if home and not self.has("error_without_home") else bytes(16)
        return self.send(to, packets.MOBILITY, packets.binding_error(status, named))

    def problem(self, to, pointer, data):
        if self.has("no_problem"):
            return []
        pointer = pointer // 8 * 8 + 2 if self.has("pointer_at_type") else pointer
        return self.send(to, packets.ICMP, packets.icmp(4, pointer.to_bytes(4, "big") + data[:1232]))

    def talk(self, home, body, now):
        """Data to a home address, by its binding."""
        careof = None if self.has("unrouted_data") else self.held(home, now)
        former = self.bindings.get((home, "former"))
        if careof and former and self.has("keeps_the_former_place"):
            careof = former
        return self.send(careof or home, packets.ICMP, packets.icmp(129, body), home if careof else None)

    # --- packets in

    def take(self, data, now):
        try:
            it = packets.walk(data)
        except packets.NotPacket:
            return []
        source = packets.packed(it.head["source"])
        if packets.packed(it.head["destination"]) != self.own or it.head["route"] or any(kind >> 6 and kind != 201 for kind in it.options):
            return []
        if it.head["option"] and not is_routable(packets.packed(it.head["option"])):
            return []
        if it.head["proto"] == packets.MOBILITY:
            return self.message(it, source, data, now)
        if not self.is_taken(it, source, now):
            return self.error(source, 1, it.head["option"])
        if it.head["proto"] == packets.ICMP and it.body[:1] == b"\x80":
            return self.talk(it.ends()[0], it.body[4:], now)
        return []

    def is_taken(self, it, source, now):
        """Whether the Home Address option of a packet is that of a binding to its source."""
        home = it.head["option"] and packets.packed(it.head["option"])
        if home is None or self.has("option_unchecked"):
            return True
        careof = self.held(home, now)
        return careof is not None if self.has("place_unchecked") else careof == source

    def message(self, it, source, data, now):
        body, home = it.body, it.head["option"]
        if len(body) < 8 or len(body) != 8 + 8 * body[1]:
            return []
        sum_of = packets.checksum(*it.ends(), packets.MOBILITY, body, 4)
        if sum_of % 0xFFFF != int.from_bytes(body[4:6], "big") % 0xFFFF and not self.has("checksum_unchecked"):
            return []
        if body[2] >= len(packets.KINDS):
            return [] if self.has("no_error") else self.error(source, 2, home)
        if body[0] != packets.NONE and not self.has("proto_unchecked"):
            return self.problem(source, it.place, data)
        if body[1] < LEAST[body[2]]:
            return self.problem(source, it.place + 1, data)
        try:
            options = self.options(body)
        except packets.NotPacket:
            return []
        if self.has("reserved_refused") and (body[3] or body[2] == 5 and (body[8] & 0x0F or body[9]) or body[2] in (1, 2) and any(body[6:8])):
            return []
        kind = packets.KINDS[body[2]]
        if kind in ("hoti", "coti"):
            return self.test(kind, it, source, now)
        if kind == "bu":
            return self.update(it, source, options, now)
        return [] if self.is_taken(it, source, now) else self.error(source, 1, home)

    def options(self, body):
        """The options of a message; authorization is the last bytes of it."""
        data = body[packets.OPTIONS_AT[body[2]] :]
        found = packets.named_options(data)
        if "auth" in found and body[-14:-12] != b"\5\x0c" and not self.has("padding_after_authorization"):
            raise packets.NotPacket("something stands behind the authorization")
        if self.has("unknown_option_refused") and any(it.startswith("option") for it in found):
            raise packets.NotPacket("an option is unknown")
        return found

    def test(self, kind, it, source, now):
        if it.head["option"] and not self.has("tests_with_option"):
            return []
        is_home = kind == "hoti"
        number = int(now // PERIOD)
        token = self.token(tokens.HOME if is_home else tokens.CAREOF, source, number)
        body = packets.test("hot" if is_home else "cot", number % 65536, it.body[8:16], token)
        careof = self.held(source, now) if is_home and self.has("routed_tests") else None
        return self.send(careof or source, packets.MOBILITY, body, source if careof else None)

    def update(self, it, source, options, now):
        """The verdict on an update, and its acknowledgement."""
        fields = packets.fields_of("bu", it.body)
        home = packets.packed(it.head["option"]) if it.head["option"] else source
        careof = packets.packed(options["alternate"]) if "alternate" in options else source
        answer = Answer(self, source, home, careof, fields)
        if "H" in fields["flags"] and not self.has("accepts_h"):
            return answer.denied(131)
        is_deletion = fields["lifetime"] == 0 or careof == home
        if not is_routable(home) or not is_routable(careof) or "nonces" not in options or "auth" not in options:
            return []
        numbers = [self.number_of(int.from_bytes(options["nonces"][at : at + 2], "big"), now) for at in (0, 2)]
        reads_both = not is_deletion or self.has("deletion_reads_index")
        status = {(True, True): 138, (True, False): 136, (False, True): 137}.get((numbers[0] is None, reads_both and numbers[1] is None))
        registered = home if is_deletion else careof
        if status is None or self.has("sealed_denial"):
            answer.seal = (self.key(home, registered, source, numbers, is_deletion), registered)
        if status:
            return answer.denied(status)
        if not self.is_authentic(answer.seal, options["auth"], it.body):
            return []
        if not self.is_after(fields["sequence"], home, now):
            return answer.denied(135, fields["sequence"] if self.has("own_sequence_in_135") else self.last(home, now))
        return self.accept(answer, registered, now)

    def key(self, home, registered, source, numbers, is_deletion):
        first = self.token(tokens.HOME, home, numbers[0] or 0)
        if is_deletion and not self.has("both_tokens_for_deletion"):
            return tokens.kbm(first)
        place = source if self.has("token_of_the_source") or is_deletion else registered
        return tokens.kbm(first, self.token(tokens.CAREOF, place, numbers[1] or 0))

    def is_authentic(self, seal, proof, body):
        if self.has("no_authenticator"):
            return True
        end = body.index(proof) + 12 if self.has("padding_after_authorization") else len(body)
        if self.has("checksum_in_authenticator"):
            return proof == hmac.new(seal[0], seal[1] + self.own + body[:-12], hashlib.sha1).digest()[:12]
        return proof == tokens.authenticator(seal[0], seal[1], self.own, body[:end])

    def accept(self, answer, registered, now):
        fields, home = answer.fields, answer.home
        is_deletion = registered == home
        units = 0 if is_deletion else fields["lifetime"] if self.has("lifetime_as_asked") else min(fields["lifetime"], MOST_UNITS)
        old = self.bindings.get(home)
        if old and old.careof != home and not is_deletion:
            self.bindings[(home, "former")] = old.careof
        if is_deletion and old and self.has("keeps_the_deleted"):
            self.bindings[home] = dataclasses.replace(old, sequence=fields["sequence"])
        else:
            self.bindings[home] = Binding(registered, fields["sequence"], now + 4 * units, max(now + KEPT, now + 4 * units), now)
        return answer.accepted(units) if "A" in fields["flags"] or self.has("always_acknowledges") else []


@dataclasses.dataclass
class Answer:
    """The acknowledgement of an update."""

    node: Correspondent
    source: bytes
    home: bytes
    careof: bytes
    fields: dict
    seal: tuple = None

    def denied(self, status, sequence=None):
        return self.made(status, self.fields["sequence"] if sequence is None else sequence, 0, status == 135 or self.node.has("sealed_denial"))

    def accepted(self, units):
        return self.made(0, self.fields["sequence"], units, True)

    def made(self, status, sequence, units, is_sealed):
        node = self.node
        is_sealed = is_sealed and self.seal and not node.has("unsealed_acknowledgement")
        options = [("auth", bytes(12))] if is_sealed else []
        body = packets.acknowledgement(status, sequence, units, options)
        if is_sealed:
            body = body[:-12] + tokens.authenticator(self.seal[0], self.seal[1], node.own, body)
        to = self.careof if node.has("acknowledges_to_alternate") else self.source
        route = None if self.home == self.source or node.has("no_route_in_acknowledgement") else self.home
        return node.send(to, packets.MOBILITY, body, route)


def is_routable(address):
    it = ipaddress.IPv6Address(address)
    return not (it.is_unspecified or it.is_loopback or it.is_multicast or it.is_link_local)


def make(own, faults):
    return Correspondent(own, faults)
