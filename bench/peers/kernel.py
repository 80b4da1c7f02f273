"""What stands on the link of a kernel in QEMU: it sends our packets there, and compares what comes back with what our nodes send.

    kernel.py VMLINUZ INITRAMFS

MIP names the program.
"""
import ipaddress
import os
import re
import socket
import subprocess
import sys
import time

AGENT, PEER, HOME, CAREOF = (f"2001:db8:{at}" for at in ("1::1", "2::2", "1::77", "3::77"))
UDP, MOBILITY, HOST, GUEST = 17, 135, bytes.fromhex("020000000001"), bytes.fromhex("020000000002")
# neighbour discovery and multicast listeners, which Linux sends by itself
OWN = {*range(130, 138), 143}


def packed(address):
    return ipaddress.IPv6Address(address).packed


def checksummed(source, to, proto, body, at):
    """The body with its checksum at this place."""
    pseudo = packed(source) + packed(to) + len(body).to_bytes(4, "big") + bytes([0, 0, 0, proto])
    data = pseudo + body + bytes(len(body) % 2)
    total = sum(int.from_bytes(data[i : i + 2], "big") for i in range(0, len(data), 2))
    while total > 0xFFFF:
        total = (total & 0xFFFF) + (total >> 16)
    return body[:at] + ((0xFFFF - total) or 0xFFFF).to_bytes(2, "big") + body[at + 2 :]


def datagram(source, port, to, to_port, data):
    head = port.to_bytes(2, "big") + to_port.to_bytes(2, "big") + (8 + len(data)).to_bytes(2, "big") + bytes(2)
    return checksummed(source, to, UDP, head + data, 6)


def packet(source, to, proto, body):
    return bytes([0x60, 0, 0, 0]) + len(body).to_bytes(2, "big") + bytes([proto, 64]) + packed(source) + packed(to) + body


def replay(*events):
    """The trace of these events on a network in which the mobile has gone to the third link and has registered."""
    digits = lambda address: packed(address).hex()
    lines = ["mip 1", "seed " + bytes(range(32)).hex(), "start 0"]
    lines += [f"link n{n} 20010db8000{n}0000" for n in (1, 2, 3)]
    lines += [f"agent g n1 {digits(AGENT)} 10 1800 16", f"correspondent c n2 {digits(PEER)} 2", f"mobile m n1 {digits(HOME)} g", "serve g m", "outsider o"]
    lines += ["run", "move m n3", "advertise n3", "carry 10", *events]
    ran = subprocess.run([os.environ["MIP"], "replay"], input="\n".join(lines) + "\n", capture_output=True, text=True, check=True)
    return ran.stdout.splitlines()


def sent(trace, node):
    """The packets that a node sends outside of shields, in order."""
    return [bytes.fromhex(words[-1]) for words in map(str.split, trace) if words[0] == "sent" and words[2] == node and words[3] == "-"]


class Guest:
    """A kernel in QEMU with one link, over UDP on 127.0.0.1."""

    def __init__(self, kernel, initramfs, role):
        self.link = socket.socket(socket.AF_INET, socket.SOCK_DGRAM)
        self.link.bind(("127.0.0.1", 0))
        with socket.socket(socket.AF_INET, socket.SOCK_DGRAM) as free:
            free.bind(("127.0.0.1", 0))
            self.to = free.getsockname()
        here = f"remote.type=inet,remote.host=127.0.0.1,remote.port={self.link.getsockname()[1]}"
        there = f"local.type=inet,local.host=127.0.0.1,local.port={self.to[1]}"
        words = f"console=ttyS0 quiet panic=-1 role={role} home={HOME} careof={CAREOF} peer={PEER} agent={AGENT}"
        self.qemu = subprocess.Popen(
            ["qemu-system-x86_64", "-m", "256", "-nographic", "-no-reboot", "-nodefaults", "-serial", "stdio", "-kernel", kernel, "-initrd", initramfs,
             "-append", words, "-netdev", f"dgram,id=link,{there},{here}", "-device", f"e1000,netdev=link,mac={GUEST.hex(':')}"],
            stdin=subprocess.DEVNULL, stdout=subprocess.PIPE, text=True, errors="replace")

    def __enter__(self):
        said = []
        for line in self.qemu.stdout:
            said.append(line)
            if "guest ready" in line:
                time.sleep(0.5)
                return self
        sys.exit("kernel: the guest did not come up:\n" + "".join(it for it in said if not it.startswith("[")))

    def __exit__(self, *_):
        self.qemu.kill()
        self.qemu.wait()
        self.link.close()

    def heard(self, seconds):
        """The next packet within so many seconds that Linux does not send by itself."""
        until = time.monotonic() + seconds
        while (left := until - time.monotonic()) > 0:
            self.link.settimeout(left)
            try:
                frame = self.link.recv(4096)
            except TimeoutError:
                break
            body = frame[14:]
            is_own = body[6:7] == b"\x00" or body[6:7] == b"\x3a" and body[40] in OWN
            if frame[12:14] == b"\x86\xdd" and not is_own:
                return body[: 40 + int.from_bytes(body[4:6], "big")]
        return None

    def answer(self, packet):
        """What comes back to this packet, which is sent again where nothing does: a link that has just come up loses some."""
        while self.heard(0.2):
            pass
        for _ in range(10):
            self.link.sendto(GUEST + HOST + b"\x86\xdd" + packet, self.to)
            found = self.heard(4)
            if found:
                return found
        return b""


def same(what, found, wanted):
    if found != wanted:
        sys.exit(f"kernel: {what} differs\n  Linux {found.hex()}\n  ours  {wanted.hex()}")


def correspondent(boot):
    asks, answers = datagram(HOME, 40000, PEER, 7, b"by the home address"), datagram(PEER, 7, HOME, 40000, b"by the home address")
    # data that comes to the mobile through its agent leads to a binding; then both send straight
    bound = [f"data c {packed(HOME).hex()} 253 00", "carry 30"]
    trace = replay(*bound, f"data m {packed(PEER).hex()} 17 {asks.hex()}", f"data c {packed(HOME).hex()} 17 {answers.hex()}", "carry 10")
    ours = [next(it for it in sent(trace, node) if body in it) for node, body in (("m", asks), ("c", answers))]

    # mobility messages that are wrong in one way, of each kind that a correspondent takes
    lengths = {1: 1, 2: 1, 5: 1}
    wrong = []
    for kind, length in lengths.items():
        fine = bytes([59, length, kind, 0, 0, 0]) + bytes(8 * length + 2)
        for body in (bytes([6]) + fine[1:], bytes([59, length - 1]) + fine[2:8 * length]):
            wrong.append(packet(CAREOF, PEER, MOBILITY, checksummed(CAREOF, PEER, MOBILITY, body, 4)))
    refusals = [sent(replay(f"inject o n2 {it.hex()}", "carry 1"), "c")[-1] for it in wrong]

    with Guest(*boot, "correspondent") as guest:
        same("the answer to data with a Home Address option", guest.answer(ours[0]), ours[1])
        print("kernel: Linux takes our data with its Home Address option, and its answer with the type 2 routing header is ours, byte for byte")
        for it, refusal in zip(wrong, refusals):
            same(f"the answer to {it.hex()}", guest.answer(it), refusal)
    print(f"kernel: {len(wrong)} mobility messages with a wrong Payload Proto or too short a Header Len: Linux's Parameter Problems are ours, byte for byte")


def mobile(boot):
    asks, answers = datagram(PEER, 40000, HOME, 7, b"through the tunnel"), datagram(HOME, 7, PEER, 40000, b"through the tunnel")
    to_home = [f"data c {packed(HOME).hex()} 17 {asks.hex()}", "carry 1"]
    tunnel = next(it for it in sent(replay(*to_home), "g") if asks in it)
    with Guest(*boot, "mobile") as guest:
        back = guest.answer(tunnel)
    if not back.endswith(packet(HOME, PEER, UDP, answers)):
        sys.exit(f"kernel: Linux does not answer through the tunnel: {back.hex()}")
    trace = replay(*to_home, f"inject o n3 {back.hex()}", "carry 10")
    up = [words for words in map(str.split, trace) if words[:2] == ["up", "c"] and words[-1] == answers.hex()]
    if not up:
        sys.exit("kernel: our agent does not pass on what Linux tunnels:\n" + "\n".join(trace[-8:]))
    print("kernel: Linux opens our agent's tunnel, and our agent opens Linux's: its answer is handed up at the correspondent")


def name_of(kernel):
    return re.search(r"vmlinuz-(.*)", kernel)[1] + ", Debian's"


if __name__ == "__main__":
    print("kernel: " + name_of(sys.argv[1]))
    correspondent(sys.argv[1:3])
    mobile(sys.argv[1:3])
