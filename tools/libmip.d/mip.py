"""Mobile IPv6 (RFC 6275) over libmip: packets and messages are read and written, listed and sealed, a correspondent node and a home agent are objects that take
packets and give packets, and whole schedules are run.

    import mip
    print(mip.decode(packet))                        # the listing of a packet
    message = mip.message_in(packet)                 # its mobility message, or mip.Refused
    with mip.Correspondent("2001:db8:2::2", secrets.token_bytes(32)) as node:
        for answer in node.take(now, packet):
            if answer.kind is mip.AnswerKind.SEND:
                link.send(answer.bytes)

Each function calls the one of mip.h with the same name, where its comment says more; every one of them is proved, and this module, which turns values, is not.
Addresses are given as text, as 16 bytes or as `ipaddress.IPv6Address`, and come back as the last. Moments are milliseconds.
A status that is no success is raised: `Refused` where bytes cannot be read, `Closed`, `Late` and `Opened` of a node, `Argument` (a ValueError), `TooBig`,
and MemoryError. The library is the one that MIP_LIBRARY names, or stands beside this module's prefix, or is found by the system.
"""

from __future__ import annotations

import ctypes
import ctypes.util
import dataclasses
import enum
import ipaddress
import os
from ctypes import POINTER, Structure, byref, c_bool, c_char_p, c_size_t, c_uint8, c_uint16, c_uint32, c_uint64, c_void_p
from typing import Any, Iterable, List, Optional, Tuple, Type, TypeVar, Union

Address = Union[str, bytes, ipaddress.IPv6Address]
T = TypeVar("T")


class Status(enum.IntEnum):
    """enum mip_status of mip.h."""

    OK = 0
    BAD = 2
    MEMORY = 5
    TOO_LONG = 6
    DIFFERS = 9
    NO_ROOM = 10
    CLOSED = 11
    LATE = 12
    ALREADY_OPEN = 13
    ARGUMENT = 14
    NONE = 15
    PACKET_SHORT = 16
    PACKET_VERSION = 17
    PACKET_LENGTH = 18
    PACKET_HEADER = 19
    PACKET_ROUTE = 20
    PACKET_OPTION = 21
    INNER_SHORT = 24
    INNER_VERSION = 25
    INNER_LENGTH = 26
    INNER_HEADER = 27
    INNER_ROUTE = 28
    INNER_OPTION = 29
    MESSAGE_SIZE = 32
    MESSAGE_CHECKSUM = 33
    MESSAGE_TYPE = 34
    MESSAGE_PROTO = 35
    MESSAGE_HEADERLEN = 36
    MESSAGE_OPTION = 37
    ICMP_SHORT = 40
    ICMP_CHECKSUM = 41
    ICMP_TYPE = 42
    ICMP_OPTION = 43
    NEIGHBOUR_HOP = 48
    NEIGHBOUR_SHORT = 49
    NEIGHBOUR_CHECKSUM = 50
    NEIGHBOUR_TYPE = 51
    NEIGHBOUR_TARGET = 52
    NEIGHBOUR_OPTION = 53
    TUNNEL_HOP = 56
    TOO_BIG = 57
    NOT_TUNNEL = 58
    WRONG_ENTRY = 59


class AnswerKind(enum.IntEnum):
    """enum mip_answer_kind of mip.h: what a node's answer is."""

    OTHER = 0
    SEND = 1
    ACCEPTED = 2
    DENIED = 3
    DROPPED = 4
    UP = 5
    IDLE = 6
    HOME = 7
    CLAIMED = 8
    RELEASED = 9


# enum mip_why of mip.h: why a packet was dropped, in the words of a trace
WHY = (
    "nolink hop noholder shield detached unregistered noroute size short version length header route option checksum type proto headerlen moption address probe "
    "homeoption unroutable options authenticator role icmp none unshielded entry nested cookie ack error refresh frame"
).split()


class MipError(Exception):
    """A call of the library that did not end with MIP_OK. `status` says why; `place`, `kind`, `code` and `refused` are those of its fields, or 0."""

    def __init__(self, status: int, fields: Any = None) -> None:
        self.status = Status(status)
        self.place: int = getattr(fields, "place", 0)
        self.kind: int = getattr(fields, "kind", 0)
        self.code: int = getattr(fields, "code", 0)
        self.refused: int = getattr(fields, "refused", 0)
        super().__init__(f"{self.status.name.lower().replace('_', ' ')} ({int(self.status)})")


class Refused(MipError):
    """Bytes that cannot be read as what they should be."""


class Closed(MipError):
    """The node is closed."""


class Late(MipError):
    """The moment is before that of the last call, or not below 2 to the 62."""


class Opened(MipError):
    """The node is open already."""


class Argument(MipError, ValueError):
    """A value outside its range."""


class TooBig(MipError, ValueError):
    """A packet that would have more than 65,535 bytes behind its fixed header, or an input that is longer than is taken."""


class NoMemory(MipError, MemoryError):
    """Memory has run out, and nothing has changed."""


_RAISED = {
    Status.MEMORY: NoMemory,
    Status.TOO_LONG: TooBig,
    Status.TOO_BIG: TooBig,
    Status.CLOSED: Closed,
    Status.LATE: Late,
    Status.ALREADY_OPEN: Opened,
    Status.ARGUMENT: Argument,
}


def _check(status: int, fields: Any = None) -> None:
    if status:
        raise _RAISED.get(Status(status), Refused)(status, fields)


# --- the structs of mip.h


class _Packet(Structure):
    _name_ = "mip_packet_fields"
    _fields_ = [
        ("source", c_uint8 * 16),
        ("destination", c_uint8 * 16),
        ("hop", c_uint8),
        ("traffic_class", c_uint8),
        ("flow", c_uint32),
        ("has_route", c_bool),
        ("route", c_uint8 * 16),
        ("has_home", c_bool),
        ("home", c_uint8 * 16),
        ("proto", c_uint8),
        ("body", c_size_t),
        ("refused", c_uint8),
        ("sender", c_uint8 * 16),
        ("receiver", c_uint8 * 16),
    ]


class _Options(Structure):
    _name_ = "mip_option_fields"
    _fields_ = [
        ("has_advice", c_bool),
        ("advice", c_uint16),
        ("has_alternate", c_bool),
        ("alternate", c_uint8 * 16),
        ("has_nonces", c_bool),
        ("home_index", c_uint16),
        ("careof_index", c_uint16),
        ("has_number", c_bool),
        ("number", c_uint8),
        ("has_authorization", c_bool),
        ("authorization", c_uint8 * 12),
    ]


class _Message(Structure):
    _name_ = "mip_message_fields"
    _fields_ = [
        ("kind", c_uint8),
        ("cookie", c_uint64),
        ("index", c_uint16),
        ("token", c_uint8 * 8),
        ("sequence", c_uint16),
        ("ack", c_bool),
        ("registration", c_bool),
        ("local", c_bool),
        ("key", c_bool),
        ("lifetime", c_uint16),
        ("status", c_uint8),
        ("home", c_uint8 * 16),
        ("options", _Options),
        ("place", c_size_t),
    ]


class _Prefix(Structure):
    _name_ = "mip_prefix_fields"
    _fields_ = [("length", c_uint8), ("flags", c_uint8), ("valid", c_uint32), ("preferred", c_uint32), ("address", c_uint8 * 16)]


class _Icmp(Structure):
    _name_ = "mip_icmp_fields"
    _fields_ = [
        ("kind", c_uint8),
        ("code", c_uint8),
        ("pointer", c_uint32),
        ("hop", c_uint8),
        ("agent", c_bool),
        ("life", c_uint16),
        ("identifier", c_uint16),
        ("rest", c_size_t),
        ("has_prefix", c_bool),
        ("prefix", _Prefix),
        ("has_interval", c_bool),
        ("interval", c_uint32),
        ("has_agent_info", c_bool),
        ("preference", c_uint16),
        ("agent_life", c_uint16),
        ("place", c_size_t),
    ]


class _Neighbour(Structure):
    _name_ = "mip_neighbour_fields"
    _fields_ = [
        ("kind", c_uint8),
        ("code", c_uint8),
        ("router", c_bool),
        ("solicited", c_bool),
        ("overrides", c_bool),
        ("target", c_uint8 * 16),
        ("has_layer", c_bool),
        ("layer", c_uint8 * 6),
        ("place", c_size_t),
    ]


class _Answer(Structure):
    _name_ = "mip_answer_fields"
    _fields_ = [
        ("kind", c_uint8),
        ("number", c_uint64),
        ("home", c_uint8 * 16),
        ("binding", c_uint8),
        ("careof", c_uint8 * 16),
        ("sequence", c_uint16),
        ("end", c_uint64),
        ("home_index", c_uint16),
        ("has_careof_index", c_bool),
        ("careof_index", c_uint16),
        ("status", c_uint8),
        ("why", c_uint8),
        ("is_shielded", c_bool),
        ("source", c_uint8 * 16),
        ("destination", c_uint8 * 16),
        ("proto", c_uint8),
    ]


class _Row(Structure):
    _name_ = "mip_row_fields"
    _fields_ = [
        ("home", c_uint8 * 16),
        ("binding", c_uint8),
        ("careof", c_uint8 * 16),
        ("sequence", c_uint16),
        ("end", c_uint64),
        ("kept_until", c_uint64),
    ]


class _Handle(Structure):
    _name_ = "mip_correspondent_handle"
    _fields_ = [("is_open", c_bool), ("held", c_void_p)]


class _Registration(Structure):
    _name_ = "mip_registration_fields"
    _fields_ = [("home", c_uint8 * 16), ("careof", c_uint8 * 16), ("sequence", c_uint16), ("end", c_uint64)]


class _Shield(Structure):
    _name_ = "mip_shield_fields"
    _fields_ = [("is_shielded", c_bool), ("from", c_uint8 * 16), ("to", c_uint8 * 16)]


class _AgentHandle(Structure):
    _name_ = "mip_agent_handle"
    _fields_ = [("is_open", c_bool), ("held", c_void_p)]


STRUCTS: Tuple[Type[Structure], ...] = (_Packet, _Options, _Message, _Prefix, _Icmp, _Neighbour, _Answer, _Row, _Handle, _Registration, _Shield, _AgentHandle)

# --- what they are in Python

_NOWHERE = ipaddress.IPv6Address(0)
# fields that one flag speaks of together
_FLAGS = {"preference": "has_agent_info", "agent_life": "has_agent_info"}


@dataclasses.dataclass(frozen=True)
class Packet:
    """What the headers of a packet say (RFC 8200; RFC 6275 sections 6.3 and 6.4). `body` is where the body begins; `sender` is the home address where there is a
    Home Address option and else the source, and `receiver` the routing header's address where there is one. A writer looks at none of these three."""

    source: ipaddress.IPv6Address
    destination: ipaddress.IPv6Address
    proto: int
    hop: int = 64
    traffic_class: int = 0
    flow: int = 0
    route: Optional[ipaddress.IPv6Address] = None
    home: Optional[ipaddress.IPv6Address] = None
    body: int = 0
    sender: ipaddress.IPv6Address = _NOWHERE
    receiver: ipaddress.IPv6Address = _NOWHERE


@dataclasses.dataclass(frozen=True)
class Options:
    """The options of a mobility message (RFC 6275 section 6.2), None where one is absent. `nonces` are the home and the care-of nonce index."""

    advice: Optional[int] = None
    alternate: Optional[ipaddress.IPv6Address] = None
    nonces: Optional[Tuple[int, int]] = None
    number: Optional[int] = None
    authorization: Optional[bytes] = None


class Kind(enum.IntEnum):
    """The MH Type of a mobility message (RFC 6275 section 6.1)."""

    REFRESH_REQUEST = 0
    HOME_TEST_INIT = 1
    CAREOF_TEST_INIT = 2
    HOME_TEST = 3
    CAREOF_TEST = 4
    UPDATE = 5
    ACKNOWLEDGEMENT = 6
    ERROR = 7


@dataclasses.dataclass(frozen=True)
class Message:
    """A mobility message (RFC 6275 section 6.1). Fields that its kind does not have are 0; lifetimes are in units of 4 s."""

    kind: int
    cookie: int = 0
    index: int = 0
    token: bytes = bytes(8)
    sequence: int = 0
    ack: bool = False
    registration: bool = False
    local: bool = False
    key: bool = False
    lifetime: int = 0
    status: int = 0
    home: ipaddress.IPv6Address = _NOWHERE
    options: Options = Options()


@dataclasses.dataclass(frozen=True)
class Prefix:
    """A Prefix Information option (RFC 4861 section 4.6.2)."""

    length: int
    flags: int
    valid: int
    preferred: int
    address: ipaddress.IPv6Address


@dataclasses.dataclass(frozen=True)
class Icmp:
    """An ICMPv6 message of Mobile IPv6. Fields that its kind does not have are 0; `rest` is where in the body the quoted packet, the agents or the options begin."""

    kind: int
    pointer: int = 0
    hop: int = 0
    agent: bool = False
    life: int = 0
    identifier: int = 0
    rest: int = 0
    prefix: Optional[Prefix] = None
    interval: Optional[int] = None
    preference: Optional[int] = None
    agent_life: Optional[int] = None


@dataclasses.dataclass(frozen=True)
class Neighbour:
    """A neighbour solicitation (135) or advertisement (136) (RFC 4861 sections 4.3 and 4.4)."""

    kind: int
    target: ipaddress.IPv6Address
    router: bool = False
    solicited: bool = False
    overrides: bool = False
    layer: Optional[bytes] = None


@dataclasses.dataclass(frozen=True)
class Answer:
    """What a node answers; `kind` says which fields it has. `bytes` is the packet of SEND, and the payload of UP. `why` is a word of a trace.
    Where `is_shielded`, a packet is to be protected between `source` and `destination` (RFC 6275 section 5.1)."""

    kind: AnswerKind
    number: int
    home: ipaddress.IPv6Address
    binding: int
    careof: ipaddress.IPv6Address
    sequence: int
    end: int
    home_index: int
    careof_index: Optional[int]
    status: int
    why: str
    is_shielded: bool
    source: ipaddress.IPv6Address
    destination: ipaddress.IPv6Address
    proto: int
    bytes: bytes


@dataclasses.dataclass(frozen=True)
class Row:
    """A row of a binding cache (RFC 6275 section 9.1). `careof` is the home address itself where the binding was deleted."""

    home: ipaddress.IPv6Address
    binding: int
    careof: ipaddress.IPv6Address
    sequence: int
    end: int
    kept_until: int


@dataclasses.dataclass(frozen=True)
class Registration:
    """A home that is registered at an agent (RFC 6275 section 10.1)."""

    home: ipaddress.IPv6Address
    careof: ipaddress.IPv6Address
    sequence: int
    end: int


@dataclasses.dataclass(frozen=True)
class Shield:
    """The protection of a packet between a mobile's home address and its agent (RFC 6275 section 5.1): who protects it, and for whom."""

    source: Address
    destination: Address


def _value(it: Any) -> Any:
    """A field of a struct as a value of Python."""
    if isinstance(it, ctypes.Array):
        return ipaddress.IPv6Address(bytes(it)) if len(it) == 16 else bytes(it)
    kinds = {_Prefix: Prefix, _Options: Options}
    return _told(it, kinds[type(it)]) if type(it) in kinds else it


def _told(fields: Structure, made: Type[T], /, **known: Any) -> T:
    """A struct as its dataclass."""
    given = dict(known)
    for field in dataclasses.fields(made):
        name = field.name
        flag = _FLAGS.get(name, f"has_{name}")
        if name in known:
            continue
        if not getattr(fields, flag, True):
            given[name] = None
        elif name == "nonces":
            given[name] = (getattr(fields, "home_index"), getattr(fields, "careof_index"))
        else:
            given[name] = _value(getattr(fields, name))
    return made(**given)


def _held(value: Any, fields: Structure) -> Structure:
    """A dataclass as its struct, which is all zeros before."""
    named: Any = {name: kind for name, kind, *_ in type(fields)._fields_}
    for field in dataclasses.fields(value):
        name, it = field.name, getattr(value, field.name)
        flag = _FLAGS.get(name, f"has_{name}")
        if flag in named:
            setattr(fields, flag, it is not None)
        if it is None:
            continue
        if name == "nonces":
            setattr(fields, "home_index", it[0])
            setattr(fields, "careof_index", it[1])
        elif dataclasses.is_dataclass(it):
            _held(it, getattr(fields, name))
        elif issubclass(named[name], ctypes.Array):
            size = named[name]._length_
            getattr(fields, name)[:] = _address(it) if size == 16 else _sized(it, size, name)
        else:
            setattr(fields, name, it)
    return fields


def _address(it: Address) -> bytes:
    return _sized(it, 16, "an address") if isinstance(it, bytes) else ipaddress.IPv6Address(it).packed


def _addresses(them: Iterable[Address]) -> bytes:
    return b"".join(_address(it) for it in them)


def _sized(it: bytes, size: int, name: str) -> bytes:
    if len(it) != size:
        raise ValueError(f"{name} has {size} bytes, and {len(it)} were given")
    return bytes(it)


# --- the library


def _library() -> ctypes.CDLL:
    here = os.path.dirname(os.path.realpath(__file__))
    beside = [os.path.join(here, *[".."] * up, "libmip.so.0") for up in (0, 1, 2, 3)]
    named = os.environ.get("MIP_LIBRARY")
    for path in [named] if named else [it for it in beside if os.path.exists(it)] + ["libmip.so.0", ctypes.util.find_library("mip") or "libmip.so"]:
        try:
            return ctypes.CDLL(path)
        except OSError:
            if path == named:
                raise
    raise ImportError("libmip.so.0 is not found: MIP_LIBRARY may name it")


_lib = _library()
_BYTES = (c_char_p, c_size_t)
_ROOM = (c_char_p, c_size_t, POINTER(c_size_t))
_PAIR = (c_char_p, c_char_p)
_NODE = (POINTER(_Handle),)
_AGENT = (POINTER(_AgentHandle),)
CALLS = {
    "mip_version": (c_uint32,),
    "mip_read_packet": (c_uint32, *_BYTES, POINTER(_Packet)),
    "mip_read_message": (c_uint32, *_PAIR, *_BYTES, POINTER(_Message)),
    "mip_read_icmp": (c_uint32, *_PAIR, *_BYTES, POINTER(_Icmp)),
    "mip_read_neighbour": (c_uint32, *_PAIR, c_uint8, *_BYTES, POINTER(_Neighbour)),
    "mip_decode": (c_uint32, *_BYTES, *_ROOM),
    "mip_home_token": (None, c_char_p, c_char_p, c_char_p, c_char_p),
    "mip_careof_token": (None, c_char_p, c_char_p, c_char_p, c_char_p),
    "mip_kbm": (None, c_char_p, c_char_p, c_char_p),
    "mip_kbm_deleting": (None, c_char_p, c_char_p),
    "mip_authenticator": (None, c_char_p, *_PAIR, *_BYTES, c_char_p),
    "mip_is_authentic": (c_bool, c_char_p, *_PAIR, *_BYTES),
    "mip_checksum": (c_uint32, *_PAIR, c_uint8, *_BYTES, c_size_t, POINTER(c_uint16)),
    "mip_write_message": (c_uint32, *_PAIR, POINTER(_Message), *_ROOM),
    "mip_write_packet": (c_uint32, POINTER(_Packet), *_BYTES, *_ROOM),
    "mip_write_message_packet": (c_uint32, POINTER(_Packet), POINTER(_Message), *_ROOM),
    "mip_write_authenticated_packet": (c_uint32, POINTER(_Packet), POINTER(_Message), c_char_p, *_PAIR, *_ROOM),
    "mip_write_neighbour": (c_uint32, *_PAIR, POINTER(_Neighbour), *_ROOM),
    "mip_encapsulate": (c_uint32, *_PAIR, *_BYTES, *_ROOM),
    "mip_decapsulate": (c_uint32, *_BYTES, c_char_p, POINTER(_Packet), POINTER(c_size_t)),
    "mip_correspondent_open": (c_uint32, *_NODE, c_char_p, c_char_p, c_uint8, c_uint32, c_uint32, c_uint8),
    "mip_correspondent_close": (c_uint32, *_NODE),
    "mip_correspondent_take": (c_uint32, *_NODE, c_uint64, c_uint64, *_BYTES),
    "mip_correspondent_send": (c_uint32, *_NODE, c_uint64, c_char_p, c_uint8, *_BYTES),
    "mip_correspondent_refresh": (c_uint32, *_NODE, c_uint64, c_char_p),
    "mip_correspondent_tick": (c_uint32, *_NODE, c_uint64),
    "mip_correspondent_next": (c_uint32, *_NODE, POINTER(_Answer), *_ROOM),
    "mip_correspondent_route": (c_uint32, *_NODE, c_uint64, c_char_p, c_char_p),
    "mip_correspondent_row": (c_uint32, *_NODE, c_uint64, c_uint32, POINTER(_Row)),
    "mip_agent_open": (c_uint32, *_AGENT, c_char_p, c_uint16, c_uint32, *_BYTES),
    "mip_agent_close": (c_uint32, *_AGENT),
    "mip_agent_take": (c_uint32, *_AGENT, c_uint64, c_uint64, POINTER(_Shield), *_BYTES, *_BYTES),
    "mip_agent_tick": (c_uint32, *_AGENT, c_uint64),
    "mip_agent_plan": (c_uint32, *_AGENT, c_uint64, c_uint32, c_uint32),
    "mip_agent_heard": (c_uint32, *_AGENT, c_uint64, c_char_p, c_uint16, c_uint16),
    "mip_agent_next": (c_uint32, *_AGENT, POINTER(_Answer), *_ROOM),
    "mip_agent_careof": (c_uint32, *_AGENT, c_uint64, c_char_p, c_char_p),
    "mip_agent_row": (c_uint32, *_AGENT, c_uint64, c_uint32, POINTER(_Registration)),
    "mip_agent_due": (c_uint32, *_AGENT, POINTER(c_uint64)),
    "mip_replay": (c_uint32, *_BYTES, *_ROOM),
    "mip_audit": (c_uint32, *_BYTES, *_ROOM),
}
for _name, (_result, *_arguments) in CALLS.items():
    if hasattr(_lib, _name):
        getattr(_lib, _name).restype = _result
        getattr(_lib, _name).argtypes = _arguments


def _filled(call: Any, *given: Any, room: int = 4096) -> Tuple[int, bytes]:
    """Calls with a buffer, and once more with one that is large enough where it was not."""
    size = c_size_t(0)
    while True:
        buffer = ctypes.create_string_buffer(max(room, 1))
        status = call(*given, buffer, room, byref(size))
        if status != Status.NO_ROOM or size.value <= room:
            return status, buffer.raw[: min(size.value, room)]
        room = size.value


def _written(call: Any, *given: Any) -> bytes:
    status, out = _filled(call, *given)
    _check(status)
    return out


def version() -> str:
    """The version of the library that is loaded."""
    number = _lib.mip_version()
    return f"{number // 100}.{number % 100}"


# --- packets and messages


def read_packet(data: bytes) -> Packet:
    """What the headers of these bytes say, which are one packet (RFC 8200 section 3). Raises Refused, whose `refused` is the header or option that is not read."""
    fields = _Packet()
    _check(_lib.mip_read_packet(data, len(data), byref(fields)), fields)
    return _told(fields, Packet)


def read_message(source: Address, destination: Address, body: bytes) -> Message:
    """The mobility message that this body is (RFC 6275 section 6.1); the addresses are sender and receiver of its packet. Raises Refused with the `place`."""
    fields = _Message()
    _check(_lib.mip_read_message(_address(source), _address(destination), body, len(body), byref(fields)), fields)
    return _told(fields, Message)


def message_in(data: bytes) -> Message:
    """The mobility message of a packet. Raises Refused; of a packet with another body PACKET_HEADER, whose `refused` is its protocol."""
    packet = read_packet(data)
    if packet.proto != 135:
        raise Refused(Status.PACKET_HEADER, _Packet(refused=packet.proto))
    return read_message(packet.sender, packet.receiver, data[packet.body :])


def read_icmp(source: Address, destination: Address, body: bytes) -> Icmp:
    """The ICMPv6 message of Mobile IPv6 that this body is (RFC 6275 sections 6.5 to 6.8; RFC 4443; RFC 4861)."""
    fields = _Icmp()
    _check(_lib.mip_read_icmp(_address(source), _address(destination), body, len(body), byref(fields)), fields)
    return _told(fields, Icmp)


def read_neighbour(source: Address, destination: Address, hop: int, body: bytes) -> Neighbour:
    """The neighbour message that this body is (RFC 4861 sections 4.3 and 4.4)."""
    fields = _Neighbour()
    _check(_lib.mip_read_neighbour(_address(source), _address(destination), hop, body, len(body), byref(fields)), fields)
    return _told(fields, Neighbour)


def decode(data: bytes) -> str:
    """The listing of a packet, as `mip decode` writes it."""
    return _written(_lib.mip_decode, data, len(data)).decode("ascii")


def write_message(source: Address, destination: Address, message: Message) -> bytes:
    """The bytes of a mobility message, with its checksum."""
    return _written(_lib.mip_write_message, _address(source), _address(destination), byref(_held(message, _Message())))


def write_packet(head: Packet, body: bytes) -> bytes:
    """A packet with these headers and this body."""
    return _written(_lib.mip_write_packet, byref(_held(head, _Packet())), body, len(body))


def write_message_packet(head: Packet, message: Message) -> bytes:
    """A packet with a mobility message, whose checksum is over home addresses where there are some."""
    return _written(_lib.mip_write_message_packet, byref(_held(head, _Packet())), byref(_held(message, _Message())))


def write_authenticated_packet(head: Packet, message: Message, kbm: bytes, careof: Address, peer: Address) -> bytes:
    """A packet with an update or an acknowledgement and its authenticator under this key (RFC 6275 section 6.2.7)."""
    given = (byref(_held(head, _Packet())), byref(_held(message, _Message())), _sized(kbm, 20, "a key"), _address(careof), _address(peer))
    return _written(_lib.mip_write_authenticated_packet, *given)


def write_neighbour(source: Address, destination: Address, message: Neighbour) -> bytes:
    """The bytes of a neighbour message, with its checksum."""
    return _written(_lib.mip_write_neighbour, _address(source), _address(destination), byref(_held(message, _Neighbour())))


def encapsulate(entry: Address, exit: Address, packet: bytes) -> bytes:  # pylint: disable=redefined-builtin
    """The tunnel packet from entry to exit with this packet, whose hop limit is one less in it (RFC 2473)."""
    return _written(_lib.mip_encapsulate, _address(entry), _address(exit), packet, len(packet))


def decapsulate(packet: bytes, entry: Address) -> bytes:
    """The packet in a tunnel packet that comes from this entry."""
    fields, place = _Packet(), c_size_t(0)
    _check(_lib.mip_decapsulate(packet, len(packet), _address(entry), byref(fields), byref(place)), fields)
    return packet[place.value :]


def checksum(source: Address, destination: Address, proto: int, body: bytes, at: int) -> int:
    """The checksum of a body whose own field, at this place, counts as zero (RFC 8200 section 8.1)."""
    found = c_uint16(0)
    _check(_lib.mip_checksum(_address(source), _address(destination), proto, body, len(body), at, byref(found)))
    return found.value


# --- keyed values of return routability


def _hashed(size: int, call: Any, *given: Any) -> bytes:
    out = ctypes.create_string_buffer(size)
    call(*given, out)
    return out.raw


def home_token(kcn: bytes, address: Address, nonce: bytes) -> bytes:
    """The home keygen token (RFC 6275 section 5.2.5)."""
    return _hashed(8, _lib.mip_home_token, _sized(kcn, 20, "a node key"), _address(address), _sized(nonce, 8, "a nonce"))


def careof_token(kcn: bytes, address: Address, nonce: bytes) -> bytes:
    """The care-of keygen token (RFC 6275 section 5.2.5)."""
    return _hashed(8, _lib.mip_careof_token, _sized(kcn, 20, "a node key"), _address(address), _sized(nonce, 8, "a nonce"))


def kbm(home: bytes, careof: Optional[bytes] = None) -> bytes:
    """The binding management key of both tokens, or of the home token alone for an update that deletes (RFC 6275 section 5.2.5)."""
    if careof is None:
        return _hashed(20, _lib.mip_kbm_deleting, _sized(home, 8, "a token"))
    return _hashed(20, _lib.mip_kbm, _sized(home, 8, "a token"), _sized(careof, 8, "a token"))


def authenticator(key: bytes, careof: Address, peer: Address, message: bytes) -> bytes:
    """The authenticator over a message, whose checksum and last 12 bytes do not count (RFC 6275 section 6.2.7)."""
    return _hashed(12, _lib.mip_authenticator, _sized(key, 20, "a key"), _address(careof), _address(peer), message, len(message))


def is_authentic(key: bytes, careof: Address, peer: Address, message: bytes) -> bool:
    """Whether the last 12 bytes of a message are its authenticator."""
    return bool(_lib.mip_is_authentic(_sized(key, 20, "a key"), _address(careof), _address(peer), message, len(message)))


# --- whole runs


def replay(schedule: bytes) -> Tuple[Status, str]:
    """The trace of a schedule's run, as `mip replay` writes it, with OK; or the line that tells what is wrong, with BAD or TOO_LONG."""
    return _replied(_lib.mip_replay, schedule)


def audit(text: bytes) -> Tuple[Status, str]:
    """The verdict on the trace behind a schedule and a line `trace`, as `mip audit` writes it: `yes` with OK, `no` and a line's number with DIFFERS; or as `replay`."""
    return _replied(_lib.mip_audit, text)


def _replied(call: Any, data: bytes) -> Tuple[Status, str]:
    status, out = _filled(call, data, len(data), room=1 << 16)
    if status not in (Status.OK, Status.BAD, Status.TOO_LONG, Status.DIFFERS):
        _check(status)
    return Status(status), out.decode("ascii")


# --- nodes


N = TypeVar("N", bound="_Node")


class _Node:
    """A node by its handle. It is closed by `close`, by `with`, and when it is forgotten."""

    _kind: str
    _handle: Structure

    def __enter__(self: N) -> N:
        return self

    def __exit__(self, *_: Any) -> None:
        self.close()

    def __del__(self) -> None:
        if getattr(self, "_handle", None) is not None:
            self.close()

    def close(self) -> None:
        """Gives its memory back. A closed node answers each call with Closed; closing it once more does nothing."""
        self._call("close")

    def _call(self, name: str, *given: Any) -> int:
        return int(getattr(_lib, f"mip_{self._kind}_{name}")(byref(self._handle), *given))

    def _address(self, name: str, now: int, home: Address) -> Optional[ipaddress.IPv6Address]:
        out = ctypes.create_string_buffer(16)
        status = self._call(name, now, _address(home), out)
        if status == Status.NONE:
            return None
        _check(status)
        return ipaddress.IPv6Address(out.raw)

    def _rows(self, now: int, fields: Any, made: Type[T]) -> List[T]:
        rows: List[T] = []
        while True:
            row = fields()
            status = self._call("row", now, len(rows), byref(row))
            if status == Status.NONE:
                return rows
            _check(status)
            rows.append(_told(row, made))

    def _answers(self, status: int) -> List[Answer]:
        _check(status)
        answers: List[Answer] = []
        while True:
            fields = _Answer()
            status, data = _filled(lambda *given: self._call("next", *given), byref(fields))
            if status == Status.NONE:
                return answers
            _check(status)
            kind = AnswerKind(fields.kind)
            why = WHY[fields.why] if kind is AnswerKind.DROPPED else ""
            answers.append(_told(fields, Answer, kind=kind, why=why, bytes=data))


class Correspondent(_Node):
    """A correspondent node (RFC 6275 section 9): it answers return routability tests, judges Binding Updates and keeps the bindings of mobile nodes.

    `seed`, `node` and `life` are what its secrets are drawn from, so each start wants a new seed or a new life; it keeps `room` homes with `numbers` bindings each.
    Moments may not fall. Each call answers a list; after an error the node is as it was."""

    _kind = "correspondent"

    def __init__(self, own: Address, seed: bytes, *, node: int = 0, life: int = 0, room: int = 64, numbers: int = 1) -> None:
        self._handle = _Handle()
        _check(self._call("open", _address(own), _sized(seed, 32, "a seed"), node, life, room, numbers))

    def take(self, now: int, packet: bytes, number: int = 0) -> List[Answer]:
        """A packet is handed to it; `number` comes back in the answers."""
        return self._answers(self._call("take", now, number, packet, len(packet)))

    def send(self, now: int, to: Address, payload: bytes, proto: int = 253) -> List[Answer]:
        """Data is to be sent: on the direct way where it holds a binding."""
        return self._answers(self._call("send", now, _address(to), proto, payload, len(payload)))

    def refresh(self, now: int, home: Address) -> List[Answer]:
        """A Binding Refresh Request to a home is wanted."""
        return self._answers(self._call("refresh", now, _address(home)))

    def tick(self, now: int) -> List[Answer]:
        """Time goes on, and rows past their time are given up."""
        return self._answers(self._call("tick", now))

    def route(self, now: int, peer: Address) -> Optional[ipaddress.IPv6Address]:
        """The care-of address that is held for a home, or None."""
        return self._address("route", now, peer)

    def rows(self, now: int) -> List[Row]:
        """All rows of its binding cache."""
        return self._rows(now, _Row, Row)


class HomeAgent(_Node):
    """A home agent (RFC 6275 section 10): it registers the homes that it serves, `room` of them at most at a time, tunnels what is sent to them, and answers discovery
    of agents with its `preference`.

    Of each address that it claims or gives up an answer tells. Moments may not fall. Each call answers a list; after an error the agent is as it was."""

    _kind = "agent"

    def __init__(self, own: Address, serves: Iterable[Address], *, preference: int = 0, room: int = 64) -> None:
        self._handle = _AgentHandle()
        homes = _addresses(serves)
        _check(self._call("open", _address(own), preference, room, homes, len(homes)))

    def take(self, now: int, packet: bytes, number: int = 0, *, shield: Optional[Shield] = None, others: Iterable[Address] = ()) -> List[Answer]:
        """A packet is handed to it, under this protection; `others` are the addresses of its link that somebody else holds, and `number` comes back in the answers."""
        fields, held = _Shield(), _addresses(others)
        if shield is not None:
            fields.is_shielded = True
            getattr(fields, "from")[:] = _address(shield.source)
            fields.to[:] = _address(shield.destination)
        return self._answers(self._call("take", now, number, byref(fields), held, len(held), packet, len(packet)))

    def tick(self, now: int) -> List[Answer]:
        """Time goes on: the registrations whose time is over end, and their addresses are given up."""
        return self._answers(self._call("tick", now))

    def plan(self, now: int, valid: int, preferred: int) -> List[Answer]:
        """From now on its prefix is valid and preferred for so many seconds, of which each registered home is told."""
        return self._answers(self._call("plan", now, valid, preferred))

    def heard(self, now: int, agent: Address, preference: int, life: int) -> None:
        """Another home agent of its link advertised itself, with its preference and for so many seconds."""
        _check(self._call("heard", now, _address(agent), preference, life))

    def careof(self, now: int, home: Address) -> Optional[ipaddress.IPv6Address]:
        """The care-of address that is registered for a home, or None."""
        return self._address("careof", now, home)

    def rows(self, now: int) -> List[Registration]:
        """All homes that are registered, in order of address."""
        return self._rows(now, _Registration, Registration)

    def due(self) -> Optional[int]:
        """The moment of the first end of a registration: the next one that `tick` is wanted at."""
        moment = c_uint64(0)
        status = self._call("due", byref(moment))
        if status == Status.NONE:
            return None
        _check(status)
        return moment.value
