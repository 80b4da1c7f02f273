"""Writes the IPv6 packets of a capture on standard input, a line of digits each.

    capture.py TOOL [--wait] [--all] BEFORE [BEHIND]

BEFORE stands in front of the digits of each line, and BEHIND, where it is given, is a line behind each. With --wait a line `wait MS` stands
where time went on. The frames of nodes in UDP datagrams count as packets. Of a capture that tools/trace2pcapng wrote each packet counts once,
as it was posted; with --all also each time that it came in.
"""

import struct
import sys
from collections import namedtuple

# where the IP packet begins, by link type
RAW = {12: 0, 14: 0, 101: 0, 228: 0, 229: 0}
OWN = b"tools/trace2pcapng of mip"

Frame = namedtuple("Frame", "link moment data is_copy")  # the moment in microseconds, or None


def stop(why):
    print(f"{sys.argv[1]}: {why}", file=sys.stderr)
    sys.exit(2)


def inside(link, frame):
    """Returns what follows the head of the link, with the type of it: 4, 6 or None."""
    if link in RAW:
        packet = frame
    elif link == 0:  # loopback: a family of the machine that captured
        packet = frame[4:]
    elif link == 113:  # Linux cooked
        packet = frame[16:] if frame[14:16] in (b"\x86\xdd", b"\x08\x00") else b""
    elif link == 276:  # Linux cooked, second form
        packet = frame[20:] if frame[:2] in (b"\x86\xdd", b"\x08\x00") else b""
    elif link == 1:
        at = 12
        while frame[at : at + 2] in (b"\x81\x00", b"\x88\xa8"):
            at += 4
        packet = frame[at + 2 :] if frame[at : at + 2] in (b"\x86\xdd", b"\x08\x00") else b""
    else:
        stop(f"packets of link type {link} are not read")
    return packet


def ipv6_in(packet):
    """Returns the IPv6 packet at the front of these bytes with nothing behind it, or None."""
    if len(packet) < 40 or packet[0] >> 4 != 6:
        return None
    length = 40 + struct.unpack(">H", packet[4:6])[0]
    return packet[:length] if len(packet) >= length else None


def framed_in(packet):
    """Returns the IPv6 packet in a frame of a node, which a UDP datagram over IPv4 holds, or None."""
    if len(packet) < 28 or packet[0] >> 4 != 4 or packet[9] != 17:
        return None
    at = 4 * (packet[0] & 15)
    size = struct.unpack(">H", packet[at + 4 : at + 6])[0] if len(packet) >= at + 8 else 0
    frame = packet[at + 8 : at + size]
    begins = {b"\0": 1, b"\1": 33}.get(frame[:1])
    held = ipv6_in(frame[begins:]) if begins else None
    return held if held is not None and len(held) == len(frame) - begins else None


def packet_of(frame):
    packet = inside(frame.link, frame.data)
    return ipv6_in(packet) or framed_in(packet)


def classic(data, order, unit):
    if len(data) < 24:
        stop("the head of the capture is cut off")
    link = struct.unpack(order + "I", data[20:24])[0] & 0xFFFF
    at = 24
    while at < len(data):
        if at + 16 > len(data):
            stop("the last packet is cut off")
        seconds, rest, size, whole = struct.unpack(order + "IIII", data[at : at + 16])
        if at + 16 + size > len(data):
            stop("the last packet is cut off")
        if size == whole:
            yield Frame(link, seconds * 1000000 + rest // unit, data[at + 16 : at + 16 + size], False)
        at += 16 + size


def options(body, order):
    """Returns the options of a block by their codes; of equal ones the last counts."""
    found, at = {}, 0
    while at + 4 <= len(body):
        code, size = struct.unpack(order + "HH", body[at : at + 4])
        if code == 0:
            break
        found[code] = body[at + 4 : at + 4 + size]
        at += 4 + size + -size % 4
    return found


def tick(resolution):
    """Returns how many microseconds a unit of time is, by the option if_tsresol."""
    value = resolution[0] if resolution else 6
    return 1000000 / (2 ** (value & 127) if value & 128 else 10**value)


def sections(data):
    at, order, links, ours = 0, "", [], False
    while at < len(data):
        if data[at : at + 4] == b"\x0a\x0d\x0d\x0a":
            order = {b"\x1a\x2b\x3c\x4d": ">", b"\x4d\x3c\x2b\x1a": "<"}.get(data[at + 8 : at + 12])
            links = []
        if not order or at + 12 > len(data):
            stop("a block of the capture is none")
        kind, size = struct.unpack(order + "II", data[at : at + 8])
        if size < 12 or size % 4 or at + size > len(data):
            stop("a block of the capture is cut off")
        body = data[at + 8 : at + size - 4]
        if kind == 0x0A0D0D0A:
            ours = OWN in options(body[16:], order).values()
        elif kind == 1 and len(body) >= 8:
            links.append((struct.unpack(order + "H", body[:2])[0], tick(options(body[8:], order).get(9))))
        elif kind == 6 and len(body) >= 20:
            yield from enhanced(body, order, links, ours)
        elif kind == 3 and len(body) >= 4 and links:
            whole = struct.unpack(order + "I", body[:4])[0]
            if whole <= len(body) - 4:
                yield Frame(links[0][0], None, body[4 : 4 + whole], False)
        at += size


def enhanced(body, order, links, ours):
    place, high, low, taken, whole = struct.unpack(order + "IIIII", body[:20])
    if place >= len(links) or 20 + taken > len(body):
        stop("a block of the capture is none")
    if taken != whole:
        return
    flags = options(body[20 + taken + -taken % 4 :], order).get(2, b"\0\0\0\0")
    came_in = struct.unpack(order + "I", flags)[0] & 3 == 1 if len(flags) == 4 else False
    link, unit = links[place]
    yield Frame(link, int((high * 2**32 + low) * unit), body[20 : 20 + taken], ours and came_in)


def frames(data):
    for order in "<", ">":
        for magic, unit in (0xA1B2C3D4, 1), (0xA1B23C4D, 1000):
            if data[:4] == struct.pack(order + "I", magic):
                return classic(data, order, unit)
    if data[:4] == b"\x0a\x0d\x0d\x0a":
        return sections(data)
    stop("it is no capture, neither pcap nor pcapng")


def main(flags, texts):
    lines, before = [], None
    for frame in frames(sys.stdin.buffer.read()):
        packet = packet_of(frame)
        if packet is None or (frame.is_copy and "--all" not in flags):
            continue
        if "--wait" in flags and frame.moment is not None:
            gone = 0 if before is None else (frame.moment - before) // 1000
            before = frame.moment if before is None or gone > 0 else before
            lines += [f"wait {gone}"] if gone > 0 else []
        lines += [texts[0] + packet.hex(), *texts[1:]]
    sys.stdout.write("".join(line + "\n" for line in lines))


if __name__ == "__main__":
    main([word for word in sys.argv[2:] if word in ("--wait", "--all")], [word for word in sys.argv[2:] if word not in ("--wait", "--all")])
