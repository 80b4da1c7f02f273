"""Stored packets through mip.py: for each line of digits on standard input its listing, as packets.c writes it. Where scapy is there, each field of each mobility message that can be read is
compared with what scapy reads; the last line, on standard error, says of how many."""
import sys

import mip

try:
    from scapy.layers import inet6 as scapy
except ImportError:
    scapy = None

WORDS = {mip.Status.PACKET_SHORT: "short", mip.Status.PACKET_VERSION: "version", mip.Status.PACKET_LENGTH: "length", mip.Status.PACKET_HEADER: "header",
         mip.Status.PACKET_ROUTE: "route", mip.Status.PACKET_OPTION: "option"}


def fail(packet, name, ours, theirs):
    sys.exit(f"libmip: {name} is {ours}, and scapy reads {theirs}: {packet.hex()}")


def compare(packet):
    """Compares a packet's message with scapy's reading, and returns whether it has one."""
    head, read = mip.read_packet(packet), scapy.IPv6(packet)
    if head.proto != 135 or scapy.MIP6MH_Generic in read:
        return False
    try:
        message = mip.message_in(packet)
    except mip.Refused:
        return False
    layer = next((it for it in (read.getlayer(number) for number in range(8)) if it is not None and type(it).__name__.startswith("MIP6MH_")), None)
    if layer is None:
        return False
    number = lambda it: int.from_bytes(it, "big") if isinstance(it, bytes) else it
    pairs = [("source", str(head.source), read.src), ("destination", str(head.destination), read.dst), ("hop", head.hop, read.hlim),
             ("class", head.traffic_class, read.tc), ("flow", head.flow, read.fl), ("kind", message.kind, layer.mhtype)]
    if message.kind in (1, 2, 3, 4):
        pairs.append(("cookie", message.cookie, number(layer.cookie)))
    if message.kind in (3, 4):
        pairs += [("index", message.index, layer.index), ("token", message.token, layer.token)]
    if message.kind in (5, 6):
        pairs += [("sequence", message.sequence, layer.seq), ("lifetime", message.lifetime, layer.mhtime)]
    if message.kind in (6, 7):
        pairs.append(("status", message.status, layer.status))
    if message.kind == 7:
        pairs.append(("home", str(message.home), layer.ha))
    options = {type(it).__name__: it for it in layer.options}
    of = lambda name, field: getattr(options[name], field) if name in options else None
    it, nonces = message.options, of("MIP6OptNonceIndices", "hni")
    proof = of("MIP6OptBindingAuthData", "authenticator")
    pairs += [("advice", it.advice, of("MIP6OptBRAdvice", "rinter")), ("alternate", it.alternate and str(it.alternate), of("MIP6OptAltCoA", "acoa")),
              ("nonces", it.nonces, None if nonces is None else (nonces, options["MIP6OptNonceIndices"].coni)),
              ("authorization", it.authorization and number(it.authorization), None if proof is None else number(proof))]
    for name, ours, theirs in pairs:
        if ours != theirs:
            fail(packet, name, ours, theirs)
    return True


compared = 0
for place, line in enumerate(sys.stdin, 1):
    data = bytes.fromhex(line.strip()) if line.strip() != "-" else b""
    print(f"== {place}")
    try:
        print(mip.decode(data), end="")
    except mip.Refused as refusal:
        print("drop", WORDS[refusal.status])
        continue
    compared += scapy is not None and compare(data)
print(f"{compared} messages are as scapy reads them" if scapy else "scapy is not there, so no message is compared with it", file=sys.stderr)
