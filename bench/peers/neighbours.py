"""Puts packets on links, each behind an Ethernet header.

    neighbours.py                          lines `LINK PACKET` of standard input, to all nodes of a link
    neighbours.py LINK SOLICIT ANSWER      waits five seconds for the first, and then sends the second to who asks
"""
import socket
import sys
import time

IPV6, ALL_NODES, ASKER = 0x86DD, "333300000001", "0200000000ff"


def opened(link):
    it = socket.socket(socket.AF_PACKET, socket.SOCK_RAW, socket.htons(IPV6))
    it.bind((link, IPV6))
    it.settimeout(0.2)
    return it


def framed(to, packet):
    """The link-layer address at the end of a neighbour message is its sender's."""
    return bytes.fromhex(to + packet[-12:] + f"{IPV6:04x}" + packet)


def send_lines():
    links = {}
    for link, packet in map(str.split, sys.stdin):
        links.setdefault(link, opened(link)).send(framed(ALL_NODES, packet))
        time.sleep(0.01)


def answer(link, solicit, packet):
    it, until, heard = opened(link), time.monotonic() + 5, ""
    print("ready", flush=True)
    while time.monotonic() < until:
        try:
            heard = it.recv(2048)[14:].hex()
        except TimeoutError:
            continue
        if heard == solicit:
            it.send(framed(ASKER, packet))
            time.sleep(0.2)
            return
    sys.exit(heard or "nothing")


if len(sys.argv) == 1:
    send_lines()
else:
    answer(*sys.argv[1:])
