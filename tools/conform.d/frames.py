"""Frames, and the UDP port on 127.0.0.1 at which they come and go.

A frame is byte 0 and an IPv6 packet; or byte 1, the two addresses of a shield, and a packet. A shield stands for IPsec between a mobile and its agent.
"""
import asyncio
import errno
import random
import socket
import struct
import time

LONGEST = 4096
ERRORS_TOO = 11  # IP_RECVERR: a port that is closed is told
MOMENTS_TOO = 35  # SO_TIMESTAMPNS: when a datagram came, however late it is read
MOMENT = struct.Struct("qq")


def write_frame(packet, shield=None):
    """A frame with this packet; a shield is the pair of addresses from and to."""
    return b"\0" + packet if shield is None else b"\1" + shield[0] + shield[1] + packet


def read_frame(datagram):
    """The shield and the packet of a frame, or None where the datagram is no frame."""
    if datagram[:1] == b"\0":
        return None, datagram[1:]
    if datagram[:1] == b"\1" and len(datagram) >= 33:
        return (datagram[1:17], datagram[17:33]), datagram[33:]
    return None


def free_port():
    """A UDP port that nothing has at this moment, and that Linux gives to nobody who names none."""
    while True:
        port = random.randrange(10000, 32000)
        with socket.socket(socket.AF_INET, socket.SOCK_DGRAM) as it:
            try:
                it.bind(("127.0.0.1", port))
                return port
            except OSError:
                pass


def moment_of(more):
    """When a datagram came, on the clock of time.monotonic."""
    now = time.monotonic()
    for level, kind, data in more:
        if level == socket.SOL_SOCKET and kind == MOMENTS_TOO:
            seconds, nanoseconds = MOMENT.unpack(data[: MOMENT.size])
            return min(now, now - time.time() + seconds + nanoseconds / 1e9)
    return now


class UdpLink:
    """A port of our own, any one where it is 0, and that of the node at its other end. Each datagram goes to `heard`, whatever it is; `is_closed` tells that nobody listens there."""

    def __init__(self, own, other):
        self.other, self.heard, self.is_closed = other, None, False
        self.moment = 0.0  # of the last datagram
        self.socket = socket.socket(socket.AF_INET, socket.SOCK_DGRAM)
        self.socket.setblocking(False)
        self.socket.setsockopt(socket.SOL_IP, ERRORS_TOO, 1)
        self.socket.setsockopt(socket.SOL_SOCKET, socket.SO_RCVBUF, 1 << 20)
        self.socket.setsockopt(socket.SOL_SOCKET, MOMENTS_TOO, 1)
        self.socket.bind(("127.0.0.1", own))
        self.port = self.socket.getsockname()[1]

    def begin(self, heard):
        self.heard = heard
        asyncio.get_running_loop().add_reader(self.socket, self._ready)

    def send(self, packet, shield=None):
        try:
            self.socket.sendto(write_frame(packet, shield), ("127.0.0.1", self.other))
            self.is_closed = False
        except OSError as fault:
            self._note(fault)

    def _ready(self):
        try:
            datagram, more, _, _ = self.socket.recvmsg(LONGEST + 1, 64)
            self.moment = moment_of(more)
            self.heard(datagram)
        except OSError as fault:
            self._note(fault)

    def _note(self, fault):
        """Notes a closed port, and takes the fault out of the socket's queue."""
        if fault.errno == errno.ECONNREFUSED:
            self.is_closed = True
        try:
            self.socket.recvmsg(LONGEST, 512, socket.MSG_ERRQUEUE)
        except OSError:
            pass

    def end(self):
        asyncio.get_running_loop().remove_reader(self.socket)
        self.socket.close()
