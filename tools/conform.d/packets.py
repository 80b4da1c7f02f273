"""IPv6 packets, mobility messages and ICMPv6 messages: written as a case wants them, wrong ones too, and read into plain fields.

What is read is a record of fields with plain names (`kind`, `source`, `status`, ..): one for each packet, whose `kind` says what it is.
"""
import dataclasses
import functools
import ipaddress
import struct

HOP_OPTIONS, TUNNEL, ROUTING, FRAGMENT, ICMP, NONE, OPTIONS, MOBILITY = 0, 41, 43, 44, 58, 59, 60, 135
KINDS = ("brr", "hoti", "coti", "hot", "cot", "bu", "ba", "be")
# where the mobility options begin, by type
OPTIONS_AT = (8, 16, 16, 24, 24, 12, 12, 24)
FLAGS = "AHLK"
ICMP_KINDS = {1: "unreachable", 2: "toobig", 3: "exceeded", 4: "problem", 128: "echo", 129: "reply", 133: "rs", 134: "ra", 135: "ns", 136: "na",
              144: "ask", 145: "agents", 146: "solicit", 147: "prefixes"}
WHERE = struct.Struct(">IHBB16s16s")
# mobility options: type, length, and the alignment x n + y
MOBILITY_OPTIONS = {"advice": (2, 2, 0), "alternate": (3, 8, 6), "nonces": (4, 2, 0), "auth": (5, 8, 2)}
SIZES = {2: ("advice", 2), 3: ("alternate", 16), 4: ("nonces", 4), 5: ("auth", 12)}


class NotPacket(Exception):
    """Bytes that cannot be read; its text says why."""


@functools.lru_cache(4096)
def packed(address):
    return address if isinstance(address, bytes) else ipaddress.IPv6Address(address).packed


@functools.lru_cache(4096)
def shown(address):
    return str(ipaddress.IPv6Address(address))


def checksum(source, destination, proto, body, at):
    """The checksum of a body whose own field, at this place, counts as zero (RFC 8200 section 8.1)."""
    body = body[:at] + b"\0\0" + body[at + 2 :]
    data = source + destination + struct.pack(">II", len(body), proto) + body + b"\0" * (len(body) % 2)
    total = sum(struct.unpack(f">{len(data) // 2}H", data))
    while total >> 16:
        total = (total & 0xFFFF) + (total >> 16)
    return ~total & 0xFFFF


def summed(source, destination, proto, body, at):
    """The body with its checksum."""
    return body[:at] + struct.pack(">H", checksum(source, destination, proto, body, at)) + body[at + 2 :]


def padding(size):
    return b"" if size == 0 else b"\0" if size == 1 else bytes([1, size - 2]) + bytes(size - 2)


# --- writing


def routing(address):
    """A type 2 routing header without its next header."""
    return bytes([2, 2, 1, 0, 0, 0, 0]) + address


def home_option(address):
    """A Destination Options header with a Home Address option, without its next header."""
    return bytes([2]) + padding(4) + bytes([201, 16]) + address


def chained(headers, proto, body):
    """The first next header, and the headers in front of the body. A header is its number and its bytes without their first."""
    for number, rest in reversed(headers):
        body, proto = bytes([proto]) + rest + body, number
    return proto, body


def packet(source, destination, proto, body, hop=64, headers=(), length=None):
    """A packet; `length` is another payload length than the right one."""
    first, rest = chained(headers, proto, body)
    size = len(rest) if length is None else length
    return WHERE.pack(6 << 28, size, first, hop, source, destination) + rest


def option(kind, value):
    return bytes([kind, len(value)]) + value


def with_options(head, options, aligned=True):
    """A message of this head with its options, in their order: bytes as they are, or pairs of a word and a value. Its end is padded to a multiple of 8."""
    for it in options:
        if isinstance(it, bytes):
            head += it
            continue
        kind, times, rest = MOBILITY_OPTIONS[it[0]]
        head += padding((rest - len(head)) % times if aligned else 0) + option(kind, it[1])
    return head + padding(-len(head) % 8)


def message(kind, fields, options=(), aligned=True):
    """A mobility message with checksum 0: its type, what stands behind the checksum, and its options."""
    body = with_options(bytes([NONE, 0, kind, 0, 0, 0]) + fields, options, aligned)
    return body[:1] + bytes([len(body) // 8 - 1]) + body[2:]


def test_init(kind, cookie, options=()):
    return message(KINDS.index(kind), b"\0\0" + cookie, options)


def test(kind, index, cookie, token):
    return message(KINDS.index(kind), struct.pack(">H", index) + cookie + token)


def update(sequence, flags, lifetime, options=(), aligned=True):
    bits = sum(0x8000 >> FLAGS.index(it) for it in flags)
    return message(5, struct.pack(">HHH", sequence, bits, lifetime), options, aligned)


def acknowledgement(status, sequence, lifetime, options=(), flags=""):
    return message(6, struct.pack(">BBHH", status, 0x80 if "K" in flags else 0, sequence, lifetime), options)


def binding_error(status, home):
    return message(7, bytes([status, 0]) + home)


def icmp(kind, body, code=0):
    """An ICMPv6 message with checksum 0."""
    return bytes([kind, code, 0, 0]) + body


# --- reading


def fields_of(kind, body):
    """The fields of a mobility message, but for its options."""
    if kind in ("hoti", "coti"):
        return {"cookie": body[8:16]}
    if kind in ("hot", "cot"):
        return {"index": int.from_bytes(body[6:8], "big"), "cookie": body[8:16], "token": body[16:24]}
    if kind == "bu":
        sequence, bits, lifetime = struct.unpack(">HHH", body[6:12])
        return {"sequence": sequence, "flags": "".join(it for at, it in enumerate(FLAGS) if bits & 0x8000 >> at), "lifetime": lifetime}
    if kind == "ba":
        status, bits, sequence, lifetime = struct.unpack(">BBHH", body[6:12])
        return {"status": status, "flags": "K" if bits & 0x80 else "", "sequence": sequence, "lifetime": lifetime}
    if kind == "be":
        return {"status": body[6], "home": shown(body[8:24])}
    return {}


def options_of(data):
    """The options of a message as pairs of type and value; paddings are left out."""
    found, at = [], 0
    while at < len(data):
        if data[at] == 0:
            at += 1
            continue
        if at + 2 > len(data) or at + 2 + data[at + 1] > len(data):
            raise NotPacket("an option runs past its end")
        if data[at] != 1:
            found.append((data[at], data[at + 2 : at + 2 + data[at + 1]]))
        at += 2 + data[at + 1]
    return found


def named_options(data):
    """Mobility options as fields: those of RFC 6275 by their words, others by `option N`."""
    fields = {}
    for kind, value in options_of(data):
        word, size = SIZES.get(kind, (f"option {kind}", len(value)))
        if len(value) != size:
            raise NotPacket(f"the option {word} has {len(value)} bytes and not {size}")
        if word in fields:
            raise NotPacket(f"the option {word} stands there twice")
        fields[word] = shown(value) if word == "alternate" else int.from_bytes(value, "big") if word == "advice" else value
    return fields


def read_message(source, destination, body):
    """The fields of a mobility message."""
    if len(body) < 8 or len(body) < 8 + 8 * body[1]:
        raise NotPacket("a mobility message is shorter than its Header Len says")
    if checksum(source, destination, MOBILITY, body, 4) % 0xFFFF != int.from_bytes(body[4:6], "big") % 0xFFFF:
        raise NotPacket("the checksum of a mobility message is wrong")
    body = body[: 8 + 8 * body[1]]
    if body[2] >= len(KINDS):
        return {"kind": f"message {body[2]}"}
    kind = KINDS[body[2]]
    if body[0] != NONE:
        raise NotPacket(f"the Payload Proto of a {kind} is {body[0]} and not 59")
    if len(body) < OPTIONS_AT[body[2]]:
        raise NotPacket(f"a {kind} is too short")
    return {"kind": kind, **fields_of(kind, body), **named_options(body[OPTIONS_AT[body[2]] :]), "message": body}


def prefix_options(data):
    """The first prefix, and the home agent information, of an ICMPv6 message's options."""
    fields = {}
    while len(data) >= 8 and data[1]:
        size = 8 * data[1]
        if data[0] == 3 and size == 32 and "prefix" not in fields:
            length, bits, valid, preferred, _, address = struct.unpack(">BBIII16s", data[2:32])
            fields |= {"prefix": shown(address), "length": length, "bits": bits, "valid": valid, "preferred": preferred}
        if data[0] == 8 and size == 8:
            fields |= dict(zip(("preference", "life"), struct.unpack(">HH", data[4:8])))
        data = data[size:]
    return fields


def read_icmp(source, destination, body):
    """The fields of an ICMPv6 message."""
    if len(body) < 4:
        raise NotPacket("an ICMPv6 message is too short")
    if checksum(source, destination, ICMP, body, 2) % 0xFFFF != int.from_bytes(body[2:4], "big") % 0xFFFF:
        raise NotPacket("the checksum of an ICMPv6 message is wrong")
    kind = ICMP_KINDS.get(body[0], f"icmp {body[0]}")
    fields = {"kind": kind, "code": body[1]}
    if kind in ("unreachable", "toobig", "exceeded", "problem"):
        fields |= {"pointer": int.from_bytes(body[4:8], "big"), "quoted": body[8:]}
    if kind in ("ask", "agents", "solicit", "prefixes"):
        fields |= {"identifier": int.from_bytes(body[4:6], "big")}
    if kind == "agents":
        fields |= {"agents": tuple(shown(body[at : at + 16]) for at in range(8, len(body) - 15, 16))}
    if kind in ("ra", "prefixes"):
        fields |= prefix_options(body[16 if kind == "ra" else 8 :])
    if kind in ("echo", "reply"):
        fields |= {"body": body[4:]}
    return fields


def extension(body, number):
    """The size of an extension header."""
    size = 8 if number == FRAGMENT else 8 + 8 * body[1] if len(body) >= 8 else 8
    if len(body) < size:
        raise NotPacket("an extension header runs past the end")
    return size


@dataclasses.dataclass
class Walked:
    """A packet whose headers were walked: their fields, the body and its place, and the types of all destination options."""

    head: dict
    body: bytes
    place: int
    options: list

    def ends(self):
        """Source and destination as a checksum has them: with the Home Address option and the routing header's address."""
        return tuple(packed(self.head[by] or self.head[it]) for by, it in (("option", "source"), ("route", "destination")))


def walk(data):
    """Walks the headers of a packet."""
    if len(data) < 40 or data[0] >> 4 != 6:
        raise NotPacket("it is no IPv6 packet")
    _, length, proto, hop, source, destination = WHERE.unpack(data[:40])
    if length != len(data) - 40:
        raise NotPacket(f"its payload length is {length}, and {len(data) - 40} bytes stand there")
    head = {"source": shown(source), "destination": shown(destination), "route": None, "option": None}
    place, options = 40, []
    while proto in (HOP_OPTIONS, ROUTING, OPTIONS, FRAGMENT):
        header = data[place:]
        size = extension(header, proto)
        if proto == ROUTING and header[2] == 2 and size == 24:
            head["route"] = shown(header[8:24])
        if proto == OPTIONS:
            found = options_of(header[2:size])
            options += [kind for kind, _ in found]
            head["option"] = next((shown(value) for kind, value in found if kind == 201 and len(value) == 16), None)
        proto, place = header[0], place + size
    return Walked(head | {"proto": proto, "hop": hop}, data[place:], place, options)


def inner_of(data):
    """The fields of a packet that a tunnel carries, whatever it is."""
    try:
        return read(data)
    except NotPacket as fault:
        return {"kind": f"no packet ({fault})"}


def read(data):
    """The fields of a packet. `source` and `destination` are those of its first header, `route` and `option` the addresses of a type 2 routing header and a Home Address option."""
    it = walk(data)
    proto = it.head["proto"]
    if proto == MOBILITY:
        return it.head | read_message(*it.ends(), it.body)
    if proto == ICMP:
        return it.head | read_icmp(*it.ends(), it.body)
    if proto == TUNNEL:
        return it.head | {"kind": "tunnel", "inner": inner_of(it.body), "carried": it.body}
    return it.head | {"kind": "none" if proto == NONE else "data", "body": it.body}
