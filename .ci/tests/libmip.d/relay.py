"""Between a TUN device in this name space and a UDP port, as the conformance kit speaks to it: `relay.py NAME PORT` until it is ended. What the kit sends to PORT
goes into the device, and what comes out goes to the kit's port, PORT + 1."""
import select
import socket
import sys

IPV6 = 0x86DD
name, port = sys.argv[1], int(sys.argv[2])
kit = socket.socket(socket.AF_INET, socket.SOCK_DGRAM)
kit.bind(("127.0.0.1", port))
device = socket.socket(socket.AF_PACKET, socket.SOCK_DGRAM, socket.htons(IPV6))
device.bind((name, IPV6))
print("ready", flush=True)
while True:
    for it in select.select([kit, device], [], [])[0]:
        if it is kit:
            device.sendto(kit.recv(65536)[1:], (name, IPV6))
        else:
            packet, (_, _, kind, *_) = device.recvfrom(65536)
            if kind != socket.PACKET_OUTGOING and packet[24] != 0xFF:
                kit.sendto(b"\0" + packet, ("127.0.0.1", port + 1))
