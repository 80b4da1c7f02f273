"""The conformance kit in front of a kernel in QEMU: frames of the kit are put on the guest's link, and what the guest sends goes back in frames.

    conform.py VMLINUZ INITRAMFS

MIP names the program.
"""
import pathlib
import select
import socket
import subprocess
import sys

import kernel

KIT = pathlib.Path(__file__).resolve().parent.parent.parent / "tools" / "conform"
# what a kernel decides without a daemon: extension headers, and the form of a mobility message
CASES = ("proto-discarded", "proto-told", "length-discarded", "length-told", "length-told-update", "option-discards", "option-told", "routing-header")
# what it does where `ip xfrm` has told it of a binding
BOUND = ("talk-bound", "data-bound")
HEAD = kernel.GUEST + kernel.HOST + b"\x86\xdd"


def is_own(packet):
    """Whether Linux sends this by itself."""
    return packet[6] == 0 or packet[6] == 58 and packet[40] in kernel.OWN


def relay(guest, port, kit):
    """Carries packets until the kit has ended."""
    while kit.poll() is None:
        for it in select.select([guest.link, port], [], [], 0.1)[0]:
            data = it.recv(4096)
            if it is port:
                guest.link.sendto(HEAD + data[1:], guest.to)
            elif data[12:14] == b"\x86\xdd" and not is_own(data[14:]):
                size = 40 + int.from_bytes(data[18:20], "big")
                port.sendto(b"\0" + data[14 : 14 + size], ("127.0.0.1", port.getsockname()[1] + 1))


def main(boot):
    print("conform: " + kernel.name_of(boot[0]))
    with kernel.Guest(*boot, "correspondent") as guest, socket.socket(socket.AF_INET, socket.SOCK_DGRAM) as port:
        port.bind(("127.0.0.1", 0))
        for more in (CASES, (*BOUND, "--bound", kernel.HOME, kernel.CAREOF)):
            words = [KIT, "correspondent", "--port", str(port.getsockname()[1]), "--patience", "3", "--case", *more]
            kit = subprocess.Popen(words, stdout=subprocess.PIPE, text=True)
            relay(guest, port, kit)
            print(kit.stdout.read(), end="")
            if kit.returncode not in (0, 1):
                sys.exit(kit.returncode)


main(sys.argv[1:3])
