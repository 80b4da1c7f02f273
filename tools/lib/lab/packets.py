"""What stands around a packet of a Linux host: tunnels, routing headers of type 2, Home Address options (RFC 6275 sections 6.3, 6.4; RFC 2473)."""
import struct

TCP, UDP, TUNNEL, ROUTING, ICMP, OPTIONS = 6, 17, 41, 43, 58, 60
# errors that a path sends back, and the two messages of ping
ICMP_OF_HOSTS = (1, 2, 3, 128, 129)


def source(it):
    return it[8:24]


def destination(it):
    return it[24:40]


def is_packet(it):
    return len(it) >= 40 and it[0] >> 4 == 6


def packet(origin, target, proto, body, hop=64, front=b"\x60\0\0\0"):
    return front + struct.pack(">HBB", len(body), proto, hop) + origin + target + body


def may_enter_tunnel(it):
    return it[7] >= 2


def tunnelled(it, entry, end):
    lowered = it[:7] + bytes([it[7] - 1]) + it[8:]
    return packet(entry, end, TUNNEL, lowered)


def routed(it, careof):
    """To the care-of address, with the home address in a routing header of type 2."""
    head = bytes([it[6], 2, 2, 1]) + bytes(4) + destination(it)
    return packet(source(it), careof, ROUTING, head + it[40:], it[7], it[:4])


def named(it, careof):
    """From the care-of address, with the home address in a Home Address option."""
    head = bytes([it[6], 2, 1, 2, 0, 0, 201, 16]) + source(it)
    return packet(careof, destination(it), OPTIONS, head + it[40:], it[7], it[:4])


def opened(it):
    """The packet as the other host sent it."""
    if not is_packet(it):
        return it
    if it[6] == TUNNEL and is_packet(it[40:]):
        it = it[40:]
    if len(it) >= 64 and it[6] == ROUTING and it[42] == 2:
        return packet(source(it), it[48:64], it[40], it[64:], it[7], it[:4])
    if len(it) >= 64 and it[6] == OPTIONS and it[46] == 201:
        return packet(it[48:64], destination(it), it[40], it[64:], it[7], it[:4])
    return it


def is_icmp_of_hosts(it):
    return it[6] == ICMP and len(it) > 40 and it[40] in ICMP_OF_HOSTS
