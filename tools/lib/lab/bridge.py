#!/usr/bin/env python3
"""Joins a hub and three nodes, which are processes of mip, with the TUN devices of three Linux hosts.

    bridge.py FOLDER MIP

FOLDER has the network and the configuration of each node, and gets their traces. What a host sends goes out as its node would send data by what its trace
says: into the tunnel, with a routing header or with a Home Address option. All that comes is the node's, and what it hands up is the host's. The ICMPv6
messages of hosts, of which a node does nothing, are opened here. Each packet passes the hub.
"""
import fcntl
import os
import selectors
import socket
import struct
import sys
import time

import packets
from hubs import Hubs
from known import Known
from network import FRONT, HOST_PORT, NODE_PORT, Network
from program import Program

ROLES = "agent", "mobile", "correspondent"
PATIENCE = 10  # seconds for which an answer to a move is held back


def tun(name):
    """A device whose packets are read and written whole."""
    it = os.open("/dev/net/tun", os.O_RDWR | os.O_NONBLOCK)
    fcntl.ioctl(it, 0x400454CA, struct.pack("16sH22s", name.encode(), 0x1001, b""))
    return it


class Bridge:
    def __init__(self, folder, mip):
        self.folder, self.mip = folder, mip
        self.network = Network(f"{folder}/network")
        self.wait = selectors.DefaultSelector()
        self.known = {role: Known() for role in ROLES}
        self.ended, self.unsent, self.asked = {}, 0, []
        self.front = self.listen(FRONT, self.from_node)
        self.hosts = {role: tun(role) for role in ROLES}
        for role in ROLES:
            self.join(role)
        self.control = socket.socket(socket.AF_UNIX)
        self.control.bind(f"{folder}/control")
        self.control.listen()
        self.watch(self.control, self.ask)
        self.hubs = Hubs(folder, self.network, self.start, self.forget)
        self.hubs.move(self.network.at)

    def join(self, role):
        self.listen(HOST_PORT[role], lambda it: self.from_hub(role, it))
        self.watch(self.hosts[role], lambda it: self.from_host(role, it))
        self.start(role, "node", lambda _, words: self.told(role, words))

    def watch(self, it, call, first=False):
        self.wait.register(it, selectors.EVENT_READ, (not first, call))

    def listen(self, port, call):
        it = socket.socket(socket.AF_INET, socket.SOCK_DGRAM)
        it.setsockopt(socket.SOL_SOCKET, socket.SO_RCVBUF, 1 << 20)
        it.bind(("127.0.0.1", port))
        self.watch(it, call)
        return it

    # Processes.

    def start(self, name, command, line):
        program = Program(self.folder, name, self.mip, command, line)
        self.watch(program.out, lambda _: self.read(program), first=True)
        return program

    def forget(self, program):
        if program.out in self.wait.get_map():
            self.wait.unregister(program.out)

    def read(self, program):
        if program.read():
            return
        self.forget(program)
        if not self.hubs.ended(program):
            self.ended[program.name] = f"has ended with status {program.process.wait()}: {program.last or 'it has written nothing'}"

    # Packets.

    def to(self, port, frame):
        self.front.sendto(frame, ("127.0.0.1", port))

    def post(self, role, frame):
        """A frame of this role goes to the hub; a mobile on no link has nobody who hears it."""
        if role == "mobile" and self.network.at not in self.network.links:
            self.unsent += 1
        else:
            self.to(self.hubs.port, frame)

    def from_node(self, it):
        frame, (_, port) = it.recvfrom(4097)
        for role in ROLES:
            if NODE_PORT[role] == port:
                self.post(role, frame)

    def from_hub(self, role, it):
        frame, (_, port) = it.recvfrom(4097)
        if self.hubs.holds(port, role, frame):
            self.to_role(role, frame)

    def from_host(self, role, device):
        it = os.read(device, 4096)
        if not packets.is_packet(it) or packets.source(it).hex() != self.network.address[role] or it[24] == 0xFF:
            return
        out = self.outgoing(role, it)
        if out is None:
            self.unsent += 1
        else:
            self.post(role, b"\0" + out)

    def outgoing(self, role, it):
        """What its node makes of such data, or None where it could not send it."""
        known, peer = self.known[role], packets.destination(it).hex()
        if role == "correspondent" and known.careof_of(peer):
            return packets.routed(it, bytes.fromhex(known.careof_of(peer)))
        if role != "mobile" or known.careof == self.network.home:
            return it
        if known.careof and known.is_bound(peer):
            return packets.named(it, bytes.fromhex(known.careof))
        if known.careof and known.is_registered() and packets.may_enter_tunnel(it):
            return packets.tunnelled(it, bytes.fromhex(known.careof), bytes.fromhex(known.agent))
        return None

    def to_role(self, role, frame):
        """To the node, or to the host where its node does nothing with such a packet."""
        it = frame[33:] if frame[:1] == b"\1" else frame[1:]
        inner = it if role == "agent" else packets.opened(it)
        is_own = frame[:1] == b"\0" and packets.is_packet(inner) and packets.destination(inner).hex() == self.network.address[role]
        if is_own and (packets.is_icmp_of_hosts(inner) or role == "agent" and inner[6] in (packets.TCP, packets.UDP)):
            self.to_host(role, inner)
        else:
            self.to(NODE_PORT[role], frame)

    def to_host(self, role, it):
        try:
            os.write(self.hosts[role], it)
        except OSError:
            pass  # its device is not up

    def told(self, role, words):
        self.known[role].take(words)
        if words[0] == "up":
            _, _, _, origin, target, proto, body = words
            ends = bytes.fromhex(origin), bytes.fromhex(target)
            self.to_host(role, packets.packet(*ends, int(proto), bytes.fromhex(body.strip("-"))))

    # What is asked.

    def ask(self, control):
        it, _ = control.accept()
        it.settimeout(1)
        try:
            words = it.recv(200).decode("ascii", "replace").split()
        except OSError:
            words = []
        if words == ["status"]:
            self.answer(it, "\n".join(self.status()))
        elif words[:1] == ["move"] and len(words) == 3 and words[2].isdigit():
            self.move(it, words[1], int(words[2]))
        else:
            self.answer(it, "bad words")

    def answer(self, it, text):
        try:
            it.sendall(text.encode() + b"\n")
        except OSError:
            pass  # who asked has gone
        it.close()

    def move(self, it, link, gap):
        if link != "-" and link not in self.network.links:
            self.answer(it, f"no link has the name {link}: they are {' '.join(self.network.links)}, and - for none")
        elif self.hubs.is_under_way():
            self.answer(it, "another move is under way")
        else:
            self.asked.append((it, len(self.hubs.moves) + (gap != 0), time.time() + gap / 1000 + PATIENCE))
            self.hubs.move(link, gap)

    def is_settled(self):
        """Whether the mobile knows where it stands, and its agent too."""
        known, careof = self.known["mobile"], self.network.careof(self.network.at)
        if careof is None:
            return True
        return known.careof == careof and known.is_registered() == (careof != self.network.home)

    def answer_moves(self):
        for each in list(self.asked):
            it, number, due = each
            if len(self.hubs.moves) > number and self.is_settled():
                taken = time.time() - self.hubs.moves[number][0]
                how = "nobody hears it" if self.network.at == "-" else f"it and its agent know that after {1000 * taken:.0f} ms"
                text = f"the mobile stands on {self.network.at}: {how}"
            elif time.time() > due:
                text = f"the mobile and its agent do not know of the move after {PATIENCE} s; see status"
            else:
                continue
            self.asked.remove(each)
            self.answer(it, text)

    def status(self):
        at, moves = self.network.at, self.hubs.moves
        where = f"{at}, {self.network.prefix(at)}" if at != "-" else "no link"
        yield f"the mobile stands on {where}, for {time.time() - moves[-1][0]:.0f} s; moves: {len(moves) - 1}"
        for role in ROLES:
            for text in self.known[role].said(self.network.home):
                yield f"{role}: {text}"
        if self.hubs.dropped:
            yield f"hub: dropped {self.hubs.dropped}"
        for name, text in self.ended.items():
            yield f"{name} {text}"
        yield f"lost: {self.hubs.lost} packets for an address that nobody held, {self.unsent} that the mobile could not send"

    # Turns.

    def turn(self):
        """What has come is taken, texts of processes first."""
        come = self.wait.select(0.005 if self.asked else 1)
        for key, _ in sorted(come, key=lambda it: it[0].data[0]):
            key.data[1](key.fileobj)
        for role, frame in self.hubs.exchange() or []:
            self.to_role(role, frame)
        self.answer_moves()

    def begin(self):
        """Until each process has written a line. A text where one has ended."""
        while not self.hubs.program or any(known.lines == 0 for known in self.known.values()):
            self.turn()
            if self.ended:
                return "; ".join(f"{name} {text}" for name, text in self.ended.items())
        return "ready"


def main():
    bridge = Bridge(*sys.argv[1:])
    said = bridge.begin()
    print(said, flush=True)
    while said == "ready" and os.path.exists(bridge.folder):
        bridge.turn()


if __name__ == "__main__":
    main()
