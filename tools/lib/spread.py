"""Spreads a schedule over time: spread.py MIP LOSS SEED [LINK LINK MS].. < SCHEDULE

Each packet arrives so long after it was posted as the pair of links takes. `carry` and `wait` become `wait`, `deliver` and `lose`. What is posted when is
known from a run alone, so the schedule so far is run before each step.
"""
import random
import subprocess
import sys

NUMBERED = "deliver", "repeat", "lose", "bind", "tell"


def stop(why):
    print(f"spread: {why}", file=sys.stderr)
    sys.exit(2)


class Network:
    """Where nodes stand, which link has a prefix, and how long a packet is under way."""

    def __init__(self, lines, delays):
        self.delays, self.links, self.at = delays, {}, {}
        for words in lines:
            if words[0] == "link":
                self.links[words[2]] = words[1]
            elif words[0] in ("agent", "correspondent", "mobile"):
                self.at[words[1]] = words[2]
        for link in {link for pair in delays for link in pair} - {"-"} - set(self.links.values()):
            stop(f"--delay names the link {link}, which the schedule has not")

    def takes(self, start, end):
        exact = self.delays.get((start, end), self.delays.get((end, start)))
        if exact is not None:
            return exact
        if start == end:
            return 0
        either = [self.delays[pair] for pair in ((start, "-"), ("-", start), (end, "-"), ("-", end)) if pair in self.delays]
        return either[0] if either else self.delays.get(("-", "-"), 0)


class Spread:
    def __init__(self, mip, loss, seed, network, head, start):
        self.mip, self.loss, self.network = mip, loss, network
        self.draw = random.Random(seed)
        self.out, self.now, self.gone = list(head), start, set()
        self.start = start

    def arrivals(self, more=()):
        """When each packet arrives that is under way after these lines: (moment, number), the first one first."""
        text = "\n".join([*self.out, *more]) + "\n"
        run = subprocess.run([self.mip, "replay"], input=text, capture_output=True, text=True, check=False)
        if run.returncode:
            stop(f"the schedule is refused: {run.stdout.strip()}")
        now, at, come = self.start, dict(self.network.at), []
        for words in map(str.split, run.stdout.splitlines()):
            if words[0] == "at":
                now = int(words[1])
            elif words[0] == "moved":
                at[words[1]] = words[2]
            elif words[0] in ("sent", "injected") and int(words[1]) not in self.gone:
                start = words[3] if words[0] == "injected" else at[words[2]]
                end = self.network.links.get(words[-1][48:64], "-")
                come.append((now + self.network.takes(start, end), int(words[1])))
        return sorted(come)

    def wait(self, until):
        """Time goes on to this moment. Waits have a limit each."""
        while self.now < until:
            step = min(until - self.now, 600000)
            self.out.append(f"wait {step}")
            self.now += step

    def arrive(self, number):
        self.gone.add(number)
        is_lost = self.draw.random() * 100 < self.loss
        self.out.append(f"{'lose' if is_lost else 'deliver'} {number}")

    def next(self, until):
        """The first packet that arrives by this moment, also of those that are posted before it; None where none does."""
        come = self.arrivals()
        first = min(come[0][0], until) if come else until
        if first > self.now:
            come = self.arrivals([f"wait {min(first - self.now, 600000)}"])
        return come[0] if come and come[0][0] <= until else None

    def carry(self, count):
        for _ in range(count):
            come = self.arrivals()
            if not come:
                return
            moment, number = self.next(max(come[0][0], self.now))
            self.wait(moment)
            self.arrive(number)

    def pass_time(self, length):
        until = self.now + length
        while (it := self.next(until)) is not None:
            self.wait(it[0])
            self.arrive(it[1])
        self.wait(until)

    def event(self, words):
        if words[0] == "carry":
            self.carry(int(words[1]))
        elif words[0] == "wait":
            self.pass_time(int(words[1]))
        else:
            self.out.append(" ".join(words))


def main():
    mip, loss, seed, *rest = sys.argv[1:]
    delays = {(rest[i], rest[i + 1]): int(rest[i + 2]) for i in range(0, len(rest), 3)}
    lines = [line.split() for line in sys.stdin.read().splitlines()]
    if ["run"] not in lines:
        stop("the schedule has no line `run`")
    events = lines.index(["run"]) + 1
    for number, words in enumerate(lines[events:], events + 1):
        if words and words[0] in NUMBERED:
            stop(f"line {number}: `{words[0]}` names packets by their numbers, which are others once packets take time")
    head = [" ".join(words) for words in lines[:events]]
    start = next((int(words[1]) for words in lines[:events] if words[:1] == ["start"] and len(words) == 2), 0)
    it = Spread(mip, float(loss), int(seed), Network([words for words in lines[:events] if len(words) > 2], delays), head, start)
    it.arrivals()
    for words in lines[events:]:
        it.event(words or [""])
    it.arrivals()
    print("\n".join(it.out))


main()
