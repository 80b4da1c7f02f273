#!/usr/bin/env python3
"""Which Binding Updates of a capture are authentic: scapy reads the capture, and libmip the messages.

    updates.py CAPTURE

For each update to a correspondent a line has its number in the capture, its home address, its care-of address, and whether its authenticator is the one of the tokens of the tests
that were captured before it (RFC 6275 sections 5.2.5 and 5.2.6). An update to a home agent, which IPsec protects, is left out.
"""
import sys

import mip
from scapy.layers.inet6 import IPv6
from scapy.utils import PcapReader

tokens = {}  # by kind, node, address that was tested, and nonce index


def judged(packet, update, body):
    """Whether an update is authentic, in words."""
    careof = update.options.alternate or packet.source
    if not update.options.nonces or not update.options.authorization:
        return "has no nonce indices or no authenticator"
    home_index, careof_index = update.options.nonces
    deletes = update.lifetime == 0 or careof == packet.sender
    home = tokens.get((mip.Kind.HOME_TEST, packet.destination, packet.sender, home_index))
    other = None if deletes else tokens.get((mip.Kind.CAREOF_TEST, packet.destination, careof, careof_index))
    if home is None or (other is None and not deletes):
        return "is of tests that were not captured"
    is_good = mip.is_authentic(mip.kbm(home, other), packet.sender if deletes else careof, packet.destination, body)
    return "is authentic" if is_good else "is NOT authentic"


def look(number, data):
    try:
        packet = mip.read_packet(data)
        message = mip.message_in(data)
    except mip.Refused:
        return
    if message.kind in (mip.Kind.HOME_TEST, mip.Kind.CAREOF_TEST):
        tokens[mip.Kind(message.kind), packet.source, packet.destination, message.index] = message.token
    if message.kind == mip.Kind.UPDATE and not message.registration:
        careof = message.options.alternate or packet.source
        print(f"packet {number}: the update {message.sequence} of {packet.sender} at {careof} {judged(packet, message, data[packet.body:])}")


for count, frame in enumerate(PcapReader(sys.argv[1]), 1):
    if IPv6 in frame:
        look(count, bytes(frame[IPv6].original or frame[IPv6]))
