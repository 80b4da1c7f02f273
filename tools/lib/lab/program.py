"""A process of mip, whose text is read as it comes."""
import os
import subprocess
import time

TURNS = "1000000"


class Program:
    """It ends with the process that started it. Its text is kept line by line, and `line` is called with the words of each."""

    def __init__(self, folder, name, mip, command, line):
        with open(f"{folder}/{name}.config", "rb") as config:
            words = ["setpriv", "--pdeathsig", "KILL", mip, command, TURNS]
            self.process = subprocess.Popen(words, stdin=config, stdout=subprocess.PIPE)
        self.out = self.process.stdout.fileno()
        self.kept = open(f"{folder}/{name}.trace", "wb", buffering=0)
        self.name, self.line, self.rest, self.last = name, line, b"", ""
        self.began = time.monotonic()

    def read(self):
        """Takes what it has written; False where it has ended."""
        text = os.read(self.out, 1 << 16)
        *lines, self.rest = (self.rest + text).split(b"\n")
        for line in lines:
            self.kept.write(line + b"\n")
            self.last = line.decode()
            self.line(self, self.last.split(" "))
        return text != b""

    def end(self):
        """Ends it, or takes leave of one that has ended; its status."""
        self.process.kill()
        self.kept.close()
        self.process.stdout.close()
        return self.process.wait()
