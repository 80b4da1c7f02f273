"""Shows what is lost between two hosts, as a line that grows and as numbers.

    measure.py ping ADDRESS COUNT MOVES      a ping each tenth of a second: `.` came back, `x` did not within a second
    measure.py tcp ADDRESS COUNT MOVES PORT  a line over TCP each tenth of a second: `.` something came back in it, `_` nothing did
    measure.py serve                         writes a port, and sends all back that comes there over TCP

MOVES has a line a move, its moment and its link; each move that comes meanwhile stands in the line as `[LINK]`.
"""
import os
import socket
import struct
import sys
import time

EACH, PATIENCE, COLUMNS = 0.1, 1.0, 100
ECHO_REQUEST, ECHO_REPLY = 128, 129


class Line:
    """The line that grows, with the moves in it."""

    def __init__(self, moves):
        self.moves, self.known, self.width = moves, len(read_moves(moves)), 0

    def put(self, text):
        if self.width + len(text) > COLUMNS:
            print()
            self.width = 0
        print(text, end="", flush=True)
        self.width += len(text)

    def add(self, mark, moment):
        """A mark of this moment, behind the moves before it."""
        come = read_moves(self.moves)
        while self.known < len(come) and come[self.known][0] <= moment:
            self.put(f"[{come[self.known][1]}]")
            self.known += 1
        self.put(mark)


def read_moves(path):
    with open(path, encoding="ascii") as it:
        return [(float(at), link) for at, link in map(str.split, it)]


def longest(marks, wanted):
    return max(map(len, "".join(it if it == wanted else " " for it in marks).split(" ")))


class Pings:
    def __init__(self, address):
        self.link = socket.socket(socket.AF_INET6, socket.SOCK_RAW, socket.IPPROTO_ICMPV6)
        self.link.connect((address, 0))
        self.id, self.sent, self.back, self.marks = os.getpid() & 0xFFFF, [], {}, ""

    def send(self):
        head = struct.pack(">BBHHH", ECHO_REQUEST, 0, 0, self.id, len(self.sent) & 0xFFFF)
        self.sent.append(time.time())
        try:
            self.link.send(head + bytes(56))
        except OSError:
            pass  # then it does not come back

    def take(self, until):
        """The answers that come until then."""
        while (left := until - time.time()) > 0:
            self.link.settimeout(left)
            try:
                it = self.link.recv(2048)
            except OSError:
                continue
            if it[0] == ECHO_REPLY and struct.unpack(">H", it[4:6])[0] == self.id:
                self.back.setdefault(struct.unpack(">H", it[6:8])[0], time.time())

    def mark(self, line, wait):
        """A mark for each ping of which it is known by now whether it came back."""
        while len(self.marks) < len(self.sent):
            number = len(self.marks)
            if number not in self.back and time.time() - self.sent[number] < wait:
                return
            self.marks += "." if number in self.back else "x"
            line.add(self.marks[-1], self.sent[number])

    def run(self, count, line):
        begun = time.time()
        for number in range(count):
            self.send()
            self.take(begun + (number + 1) * EACH)
            self.mark(line, PATIENCE)
        while len(self.marks) < count:
            self.take(time.time() + EACH)
            self.mark(line, PATIENCE)

    def said(self):
        lost = self.marks.count("x")
        times = sorted(1000 * (self.back[n] - self.sent[n]) for n in self.back)
        middle = f", {times[len(times) // 2]:.1f} ms in the middle and {times[-1]:.1f} ms at most" if times else ""
        return f"ping: {len(self.sent)} sent, {len(self.back)} came back, {lost} lost, {longest(self.marks, 'x')} of them in a row{middle}"


class Lines:
    """Lines of four bytes with their numbers, which a server sends back."""

    def __init__(self, address, port):
        self.link = socket.create_connection((address, int(port)), 10)
        self.link.setsockopt(socket.IPPROTO_TCP, socket.TCP_NODELAY, 1)
        self.sent, self.bytes, self.marks, self.silence = 0, 0, "", 0.0
        self.last = time.time()

    def take(self, until):
        before = self.bytes
        while (left := until - time.time()) > 0:
            self.link.settimeout(left)
            try:
                it = self.link.recv(4096)
            except OSError:
                continue
            self.bytes += len(it)
            now = time.time()
            self.silence, self.last = max(self.silence, now - self.last), now
        return "." if self.bytes > before else "_"

    def run(self, count, line):
        begun = time.time()
        while self.bytes < 4 * count and len(self.marks) < count + 10 / EACH:
            if self.sent < count:
                self.link.sendall(f"{self.sent % 1000:3d}\n".encode())
                self.sent += 1
            self.marks += self.take(begun + (len(self.marks) + 1) * EACH)
            line.add(self.marks[-1], time.time())

    def said(self):
        return f"tcp: {self.sent} lines sent, {self.bytes // 4} came back, {1000 * self.silence:.0f} ms the longest silence"


def serve():
    server = socket.create_server(("::", 0), family=socket.AF_INET6)
    print(server.getsockname()[1], flush=True)
    it, _ = server.accept()
    while text := it.recv(4096):
        it.sendall(text)


def measure(kind, address, count, moves, *port):
    try:
        it = (Pings if kind == "ping" else Lines)(address, *port)
    except OSError as why:
        sys.exit(f"lab: {kind}: {why}")
    try:
        it.run(int(count), Line(moves))
    except (KeyboardInterrupt, BrokenPipeError, ConnectionError):
        pass
    print("\n" + it.said())


if __name__ == "__main__":
    if sys.argv[1] == "serve":
        serve()
    else:
        measure(*sys.argv[1:])
