"""The runs and audits of runs.c through mip.py: a line each with `replay` or `audit`, the status, the file of the input, and the file of the text that it has to write."""
import sys

import mip


def contents(path):
    with open(path, "rb") as it:
        return it.read()


done = 0
for line in sys.stdin:
    call, status, path, told = line.split()
    found = {"replay": mip.replay, "audit": mip.audit}[call](contents(path))
    if found != (mip.Status(int(status)), contents(told).decode("ascii")):
        sys.exit(f"{path} is answered otherwise, with the status {found[0]}")
    done += 1
print(f"{done} runs")
