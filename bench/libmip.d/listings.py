"""Tells what a listing takes from Python, over ctypes and by scapy: `listings.py DIGITS`."""
import sys
import time
import timeit

import mip

packet = bytes.fromhex(sys.argv[1])


def nanoseconds(call, times):
    return min(timeit.repeat(call, timer=time.process_time, number=times, repeat=5)) / times * 1e9


print(f"\nFrom Python `mip.decode` takes {nanoseconds(lambda: mip.decode(packet), 20000):,.0f} ns of the same update, and `mip.message_in` {nanoseconds(lambda: mip.message_in(packet), 5000):,.0f} ns.")
try:
    from scapy.layers.inet6 import IPv6
except ImportError:
    print("scapy is not there.")
else:
    print(f"scapy's `IPv6(packet)` takes {nanoseconds(lambda: IPv6(packet), 200):,.0f} ns, and `IPv6(packet).show(dump=True)` {nanoseconds(lambda: IPv6(packet).show(dump=True), 50):,.0f} ns.")
