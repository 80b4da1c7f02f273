"""scapy's mobility messages, and what `mip decode` says of each, field by field.

    messages.py [COUNT]

Draws COUNT messages of each kind (20 where it is not given) with scapy, with options and extension headers, the same ones in each run, and compares the listing with
the values that scapy was given. Then it tells what decode says of scapy's own lengths of two options, which are not those of RFC 6275. Nothing is sent.
MIP names the program.
"""
import ipaddress
import os
import random
import subprocess
import sys

from scapy.layers import inet6 as scapy

MIP = os.environ["MIP"]
draw = random.Random(6275)


def decoded(packet):
    it = subprocess.run([MIP, "decode"], input=bytes(packet), capture_output=True, timeout=60, check=False)
    return it.stdout.decode().splitlines()


def address():
    return str(ipaddress.IPv6Address((0x20010DB8 << 96) + draw.getrandbits(64)))


def digits(text):
    return ipaddress.IPv6Address(text).packed.hex()


def octets():
    return draw.randbytes(8)


def options():
    """Some options in any order, authorization last, and their lines in the order of a listing."""
    advice, nonces, other, proof = draw.getrandbits(16), (draw.getrandbits(16), draw.getrandbits(16)), address(), draw.getrandbits(96)
    all_of_them = [
        (scapy.MIP6OptBRAdvice(rinter=advice), f"advice {advice}"),
        (scapy.MIP6OptNonceIndices(olen=4, hni=nonces[0], coni=nonces[1]), f"nonces {nonces[0]} {nonces[1]}"),
        (scapy.MIP6OptAltCoA(acoa=other), f"alternate {digits(other)}"),
        (scapy.MIP6OptBindingAuthData(olen=12, authenticator=proof), f"authorization {proof:024x}"),
    ]
    chosen = [it for it in all_of_them if draw.getrandbits(1)]
    last = [it for it in chosen if it is all_of_them[3]]
    first = [it for it in chosen if it is not all_of_them[3]]
    written = draw.sample(first, len(first)) + last
    return [it[0] for it in written], [it[1] for it in chosen]


def message(kind, more):
    """A message of this kind with these options, and the lines of its fields."""
    cookie, token, index, sequence, lifetime = octets(), octets(), draw.getrandbits(16), draw.getrandbits(16), draw.getrandbits(16)
    flags, status, home = "".join(it for it in "AHLK" if draw.getrandbits(1)), draw.getrandbits(8), address()
    numbers = [f"sequence {sequence}", f"lifetime {lifetime}"]
    if kind == "brr":
        return scapy.MIP6MH_BRR(options=more), []
    if kind in ("hoti", "coti"):
        return (scapy.MIP6MH_HoTI if kind == "hoti" else scapy.MIP6MH_CoTI)(cookie=cookie, options=more), [f"cookie {cookie.hex()}"]
    if kind in ("hot", "cot"):
        make = scapy.MIP6MH_HoT if kind == "hot" else scapy.MIP6MH_CoT
        return make(index=index, cookie=cookie, token=token, options=more), [f"index {index}", f"cookie {cookie.hex()}", f"token {token.hex()}"]
    if kind == "bu":
        it = scapy.MIP6MH_BU(seq=sequence, flags=flags, mhtime=lifetime, options=more)
        return it, [numbers[0], f"flags {flags or '-'}", numbers[1]]
    if kind == "ba":
        flags = flags[-1:] if flags.endswith("K") else ""
        it = scapy.MIP6MH_BA(status=status, flags=flags, seq=sequence, mhtime=lifetime, options=more)
        return it, [f"status {status}", f"flags {flags or '-'}", *numbers]
    return scapy.MIP6MH_BE(status=status, ha=home, options=more), [f"status {status}", f"home {digits(home)}"]


def headers():
    """An IPv6 header, or more, and the lines of a listing before its protocol."""
    source, destination, route, home = address(), address(), address(), address()
    hop, traffic, flow = draw.getrandbits(8), draw.getrandbits(8), draw.getrandbits(20)
    packet = scapy.IPv6(src=source, dst=destination, hlim=hop, tc=traffic, fl=flow)
    routed, named = draw.getrandbits(1), draw.getrandbits(1)
    if routed:
        packet /= scapy.IPv6ExtHdrRouting(type=2, segleft=1, addresses=[route])
    if named:
        packet /= scapy.IPv6ExtHdrDestOpt(options=[scapy.HAO(hoa=home)])
    lines = [f"source {digits(source)}", f"destination {digits(destination)}", f"hop {hop}", f"class {traffic}", f"flow {flow}"]
    return packet, [*lines, f"route {digits(route) if routed else '-'}", f"home {digits(home) if named else '-'}"]


def compare(what, packet, wanted):
    found = decoded(packet)
    if found != wanted:
        sys.exit(f"messages: a {what} of scapy is another one to decode: {bytes(packet).hex()}\n  scapy  {wanted}\n  decode {found}")


def main():
    count = int(sys.argv[1]) if len(sys.argv) > 1 else 20
    lines = 0
    for kind in ("brr", "hoti", "coti", "hot", "cot", "bu", "ba", "be"):
        for _ in range(count):
            front, head = headers()
            more, told = options()
            body, fields = message(kind, more)
            wanted = [*head, "proto 135", f"message {kind}", *fields, *told]
            compare(kind, front / body, wanted)
            lines += len(wanted)
    print(f"scapy: {8 * count} mobility messages of 8 kinds, all {lines} lines of their listings are scapy's values")
    for kind, body in (
        (144, scapy.ICMPv6HAADRequest(id=5)),
        (145, scapy.ICMPv6HAADReply(id=5, addresses=[address(), address()])),
        (146, scapy.ICMPv6MPSol(id=5)),
        (147, scapy.ICMPv6MPAdv(id=5) / scapy.ICMPv6NDOptPrefixInfo(prefixlen=64, prefix="2001:db8:1::")),
    ):
        front, head = headers()
        compare(f"message of type {kind}", front / body, [*head, "proto 58", f"icmp {kind}"])
    print("scapy: the messages of types 144 to 147 are those")
    for name, option in (("Nonce Indices", scapy.MIP6OptNonceIndices()), ("Binding Authorization Data", scapy.MIP6OptBindingAuthData())):
        said = decoded(scapy.IPv6(src=address(), dst=address()) / scapy.MIP6MH_BU(options=[option]))[-1]
        print(f"scapy: {name} with the length {option.olen} that scapy gives it: {said}")


if __name__ == "__main__":
    main()
