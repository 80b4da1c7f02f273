"""A TUN device in a name space of its own, behind which the device under test is a host. It wants root, and ip by its Debian name iproute2."""
import asyncio
import fcntl
import os
import shlex
import struct
import subprocess

import frames

TUN = "/dev/net/tun"
TUNSETIFF, PLAIN_TUN = 0x400454CA, 0x1001


class NoDevice(Exception):
    """The TUN device cannot be made."""


def ip(*words):
    ran = subprocess.run(["ip", *words], capture_output=True, text=True, check=False)
    if ran.returncode:
        raise NoDevice(f"ip {' '.join(words)}: {ran.stderr.strip()}")
    return ran.stdout


class Unseen:
    """A shield over a link that has none to show: it is as wanted, whatever is wanted."""

    def __eq__(self, other):
        return True

    def __hash__(self):
        return 0

    def __str__(self):
        return "not seen"


class TunLink:
    """The kit's end of the device. In the name space it has the address of the device under test, and the default route."""

    is_closed, unseen = False, Unseen()

    def __init__(self, name, space, own):
        self.name, self.space, self.heard, self.fd = name, space, None, -1
        if os.geteuid() != 0 or not os.path.exists(TUN):
            raise NoDevice(f"--tun wants root and {TUN}")
        self.is_made = space not in [line.split()[0] for line in ip("netns", "list").splitlines() if line]
        if self.is_made:
            ip("netns", "add", space)
        try:
            self._make(own)
        except (NoDevice, OSError) as fault:
            self.end()
            raise NoDevice(f"the device {name} in the name space {space}: {fault}") from fault

    def _make(self, own):
        self.fd = os.open(TUN, os.O_RDWR | os.O_NONBLOCK)
        fcntl.ioctl(self.fd, TUNSETIFF, struct.pack("16sH22s", self.name.encode(), PLAIN_TUN, b""))
        ip("link", "set", self.name, "netns", self.space)
        inside = ("-n", self.space)
        ip(*inside, "link", "set", "lo", "up")
        ip(*inside, "link", "set", self.name, "addrgenmode", "none", "up")
        ip(*inside, "addr", "add", f"{own}/64", "dev", self.name, "nodad")
        ip(*inside, "-6", "route", "add", "default", "dev", self.name)

    def started(self, command):
        """The words that start a host's program in the name space."""
        return ["ip", "netns", "exec", self.space, *shlex.split(command)]

    def begin(self, heard):
        self.heard = heard
        asyncio.get_running_loop().add_reader(self.fd, self._ready)

    def send(self, packet, shield=None):
        try:
            os.write(self.fd, packet)
        except OSError:  # the kernel takes no such packet
            pass

    def _ready(self):
        try:
            packet = os.read(self.fd, frames.LONGEST)
        except OSError:
            return
        if packet[24:25] != b"\xff":  # what a host tells its link is nobody's answer
            self.heard(frames.write_frame(packet))

    def end(self):
        if self.fd >= 0:
            if self.heard:
                asyncio.get_running_loop().remove_reader(self.fd)
            os.close(self.fd)
        if self.is_made:
            ip("netns", "del", self.space)
