"""Mutated packets through mip.py and through the program that MIP names: `mutated.py COUNT DIGITS..`. Each is one of these packets in which some bytes were changed, put in, taken out or
cut off, the same ones in each run. Every tenth keeps its payload length right, and every third of those its checksum."""
import os
import random
import subprocess
import sys

import mip

WORDS = ("short", "version", "length", "header", "route", "option")
draw = random.Random(6275)


def mutated(packet):
    data = bytearray(packet)
    for _ in range(draw.choice((1, 1, 1, 2, 4))):
        at = draw.randrange(len(data)) if data else 0
        how = draw.randrange(8)
        if how < 5 and data:
            data[at] = draw.choice((0, 1, 255, data[at] ^ 1 << draw.randrange(8), draw.randrange(256)))
        elif how == 5:
            data[at:at] = draw.randbytes(draw.choice((1, 2, 8)))
        elif how == 6:
            del data[at : at + draw.choice((1, 2, 8))]
        else:
            del data[at:]
    if len(data) > 48 and draw.randrange(10):
        data[4:6] = (len(data) - 40).to_bytes(2, "big")
        if data[6] == 135 and draw.randrange(3) and len(data) < 65000:
            data[44:46] = mip.checksum(bytes(data[8:24]), bytes(data[24:40]), 135, bytes(data[40:]), 4).to_bytes(2, "big")
    return bytes(data)


def ours(packet):
    try:
        return mip.decode(packet)
    except mip.Refused as refusal:
        return f"drop {WORDS[refusal.status - mip.Status.PACKET_SHORT]}\n"


packets, seen = [bytes.fromhex(it) for it in sys.argv[2:]], {}
for _ in range(int(sys.argv[1])):
    packet = mutated(draw.choice(packets))
    theirs = subprocess.run([os.environ["MIP"], "decode"], input=packet, capture_output=True, timeout=60, check=False).stdout.decode()
    if ours(packet) != theirs:
        sys.exit(f"mutated: the library and the program differ on {packet.hex()}")
    last = next((it for it in theirs.split("\n") if it.startswith(("drop", "fault", "message", "icmp", "body"))), "")
    word = last if last.startswith(("drop", "fault")) else last.split(" ")[0]
    seen[word] = seen.get(word, 0) + 1
print(f"mutated: {sum(seen.values())} packets, 0 differ:", ", ".join(f"{word} {count}" for word, count in sorted(seen.items(), key=lambda it: -it[1])))
