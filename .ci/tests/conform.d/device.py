"""A device under test as a process: one of this folder, with faults, or with bad manners.

    device.py TOOLS ROLE PORT KIT [--MANNER] [FAULT ..]
    device.py TOOLS ROLE INTERFACE raw [--MANNER] [FAULT ..]

TOOLS is the folder of the kit, PORT the device's own port, KIT the kit's; with `raw` the device sees each packet of an interface of its name space. A manner is one of: silent, twice, late (3 s), garbage (what is no packet), frameless (what is no frame),
flood (10,000 packets for one, which nobody asked for), closes (after ten packets).
"""
import asyncio
import importlib
import pathlib
import socket
import sys
import time

HERE = pathlib.Path(__file__).resolve().parent
sys.path[:0] = [sys.argv[1], str(HERE)]
import frames  # noqa: E402

MANNERS = ("silent", "twice", "late", "garbage", "frameless", "flood", "closes")
LATE, FLOOD, LAST, IPV6 = 3, 10000, 10, 0x86DD


class Port:
    """The device's port, at which each answer goes out in its manner."""

    def __init__(self, device, port, kit, manner):
        self.device, self.manner, self.count, self.begun = device, manner, 0, time.monotonic()
        self.is_raw = kit == "raw"
        if self.is_raw:
            self.socket, self.to = socket.socket(socket.AF_PACKET, socket.SOCK_DGRAM, socket.htons(IPV6)), (port, IPV6)
            self.socket.bind((port, IPV6))
        else:
            self.socket, self.to = socket.socket(socket.AF_INET, socket.SOCK_DGRAM), ("127.0.0.1", int(kit))
            self.socket.bind(("127.0.0.1", int(port)))
        self.socket.setblocking(False)

    def out(self, datagram):
        try:
            self.socket.sendto(datagram[1:] if self.is_raw else datagram, self.to)
        except OSError:  # a full buffer, or a kit that has gone
            pass

    def ready(self):
        data = self.socket.recv(frames.LONGEST + 1)
        frame = (None, data) if self.is_raw else frames.read_frame(data)
        self.count += 1
        if self.manner == "closes" and self.count > LAST:
            sys.exit(0)
        if frame is None or self.manner == "silent":
            return
        if hasattr(self.device, "begin"):
            self.device.send(frame[1], frame[0])
        else:
            for it in self.device.take(frame[1], time.monotonic() - self.begun):
                self.answer(b"\0" + it)

    def answer(self, datagram):
        if self.manner == "late":
            asyncio.get_running_loop().call_later(LATE, self.out, datagram)
            return
        changed = {"garbage": datagram[:30], "frameless": b"\7" + datagram[1:]}.get(self.manner, datagram)
        for _ in range({"twice": 2, "flood": FLOOD}.get(self.manner, 1)):
            self.out(changed)


async def serve(port):
    if hasattr(port.device, "begin"):
        port.device.begin(port.answer)
    print("at 0", flush=True)  # as a `mip node` says that it listens
    asyncio.get_running_loop().add_reader(port.socket, port.ready)
    await asyncio.sleep(3600)


def main(words):
    manners = [it.removeprefix("--") for it in words if it.startswith("--")]
    role, port, kit, *faults = [it for it in words if not it.startswith("--")]
    if any(it not in MANNERS for it in manners):
        sys.exit(f"device: no such manner: {manners}")
    module, own = importlib.import_module(role), importlib.import_module(f"cases_{role}").ROLE.own
    make = getattr(module, "link", None) or module.make  # a device that sends by itself has a link of its own
    device = make(socket.inet_pton(socket.AF_INET6, own), set(faults))
    asyncio.run(serve(Port(device, port, kit, manners[0] if manners else "")))


if __name__ == "__main__":
    main(sys.argv[2:])
