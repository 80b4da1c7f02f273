"""Asks the bridge of a lab, and writes its answer: ask.py FOLDER WORDS."""
import socket
import sys

it = socket.socket(socket.AF_UNIX)
it.settimeout(120)
try:
    it.connect(f"{sys.argv[1]}/control")
    it.sendall(" ".join(sys.argv[2:]).encode())
    answer = b""
    while text := it.recv(1 << 16):
        answer += text
except OSError as why:
    sys.exit(f"lab: its bridge does not answer ({why}): tools/lab down, then up")
sys.stdout.write(answer.decode())
