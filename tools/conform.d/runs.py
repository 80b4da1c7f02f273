"""Runs cases at a target: the proved node or the device. A packet that comes belongs to the case that has one of its addresses."""
import asyncio
import dataclasses
import random
import secrets
import time

import cases
import frames
import packets

AT_ONCE = 0.3  # s within which no packet is sent again for want of an answer
MOST = 200  # packets that a case takes; a device that sends more floods it
LAST_LOOK = 0.02  # s, behind the end of a patience: this process may have stood still, and what came stands in the socket
MISSES = 5  # cases in a row to which nothing at all came: then the device is taken for gone
UNANSWERED = 0.6  # s that a silence takes where the device has no way to answer a later packet
QUIET = 0.02  # s that are waited for more behind the answer that ends a silence


@dataclasses.dataclass
class Came:
    """A packet, or what is none."""

    moment: float
    data: bytes
    said: dict
    shield: tuple = None
    fault: str = ""


@dataclasses.dataclass
class Result:
    """What a case had at one target: its steps as far as they went, what is wrong, and what came too late."""

    steps: list
    wrong: list
    late: list
    names: dict = dataclasses.field(default_factory=dict)  # of addresses, as they are written


class Run:
    """One case at one target."""

    def __init__(self, session, case, addresses):
        self.session, self.case, self.env = session, case, cases.Env(addresses, session.draw_for(case))
        self.inbox, self.seen, self.late = [], [], []
        self.moments = {}  # of each packet that came, when it came last
        self.twice = []  # packets that came twice at once
        self.event, self.has_ended, self.begun = asyncio.Event(), False, time.monotonic()
        self.ignores = set(case.ignores) | set(session.role.ignores)
        self.barriers, self.is_silent = [], False  # what the answers that end a silence look like, of those that did not come yet
        self.moment = self.begun  # of the last packet, sent or come

    def send(self, packet, shield=None):
        self.moment = time.monotonic()
        self.session.sent += 1
        self.session.link.send(packet, shield)

    def hear(self, data, shield, fault=""):
        """Takes a packet in, and reads it with this case's keys."""
        now = getattr(self.session.link, "moment", 0) or time.monotonic()
        if self.has_ended:
            it = self.came(now, data, shield, fault)
            if it.said["kind"] not in self.ignores and len(self.late) < MOST:
                self.late.append(f"{max(now - self.begun, 0):.1f} s after the case began: {it.fault or said_text(it.said)}")
            return
        if now - self.moments.get(data, -AT_ONCE) < AT_ONCE:
            self.twice.append(data)
        self.moments[data] = now
        if not fault and (ended := next((it for it in self.barriers if it(data)), None)):
            self.barriers.remove(ended)
            self.seen.append(data)
        elif len(self.seen) < MOST:
            it = self.came(now, data, shield, fault)
            self.inbox.append(it)
            if it.said["kind"] not in self.ignores:
                self.seen.append(data)
        self.event.set()

    def came(self, now, data, shield, fault):
        try:
            if not fault:
                said = self.env.read(data) | {"bytes": data, "shield": self.session.unseen or (shield and " ".join(map(packets.shown, shield)))}
                return Came(now, data, said, shield)
        except packets.NotPacket as it:
            fault = f"what came is no packet: {it}"
        return Came(now, data, {"kind": "no packet", "bytes": data}, shield, f"{fault}: {data[:80].hex() or '-'}")

    def again(self, came):
        """Words on a packet that came before."""
        return ["it is the same packet as one that came before"] if self.seen.count(came.data) > 1 else []

    def why_quiet(self):
        if self.session.link.is_closed:
            return "nothing came: nobody listens at the device's port"
        return f"nothing came within {self.session.patience} s"

    def taken(self, kinds):
        """The next packet of the inbox; those that may come at any time are passed over unless they are looked for."""
        while self.inbox:
            it = self.inbox.pop(0)
            if self.counts(it, kinds):
                it.said["seconds"], self.moment = it.moment - self.moment, it.moment
                return it
        return None

    def counts(self, it, kinds=()):
        return it.fault or it.said["kind"] in kinds or it.said["kind"] not in self.ignores

    async def next(self, kinds, more=0, may_be_quiet=False):
        """The next packet, or None where nothing comes: within the patience and `more` seconds, or, where silence is permitted, before a later packet is answered."""
        if may_be_quiet:
            await (self.sleep_quietly(more, kinds) if more else self.quiet(kinds))
            return self.taken(kinds)
        patience = self.session.patience + more
        until = time.monotonic() + patience
        while not (it := self.taken(kinds)):
            left = until - time.monotonic()
            if left <= 0 or self.session.link.is_closed and left < patience - 0.3:
                await self.heard(LAST_LOOK)
                return self.taken(kinds)
            await self.heard(min(left, 0.1))
        return it

    async def sleep_quietly(self, seconds, kinds=()):
        """Waits so long, or until something comes that counts."""
        until = time.monotonic() + seconds
        while not any(self.counts(it, kinds) for it in self.inbox) and (left := until - time.monotonic()) > 0:
            await self.heard(min(left, 0.1))

    async def heard(self, seconds):
        self.event.clear()
        try:
            await asyncio.wait_for(self.event.wait(), seconds)
        except TimeoutError:
            pass

    async def quiet(self, kinds=()):
        """Waits until the device has had the time to answer: until it answers a later packet, or for the patience where it answers none. Such silence is no sign of life."""
        until, found = time.monotonic() + self.session.patience, self.session.role.barrier(self.env)
        self.is_silent = False
        if found is None:
            await self.sleep_quietly(UNANSWERED, kinds)
            return
        packet, shield, barrier = found
        self.barriers.append(barrier)
        self.send(packet, shield)
        while barrier in self.barriers and time.monotonic() < until and not self.session.link.is_closed:
            await self.heard(min(0.1, max(until - time.monotonic(), 0)))
            if not self.session.has_barrier and any(it.said["kind"] in kinds for it in self.inbox):
                break
        if barrier in self.barriers:
            await self.heard(LAST_LOOK)
        self.is_silent = barrier in self.barriers
        self.session.has_barrier = self.session.has_barrier or not self.is_silent
        await asyncio.sleep(self.session.grace)

    def why_no_silence(self):
        """Why silence is no answer of this device, or nothing."""
        if self.session.link.is_closed:
            return ["nobody listens at the device's port"]
        if self.is_silent and self.session.has_barrier:
            return ["the device no longer answers, so that its silence tells nothing"]
        return []

    async def sleep(self, seconds):
        self.session.leave(self)
        await asyncio.sleep(seconds)

    async def perform(self):
        """The steps of the case in order, to the first that is not as it says."""
        steps = []
        for step in self.case.steps:
            done = await step.perform(self)
            steps.append(done)
            if done.wrong:
                break
        else:
            steps.append(await self.ending())
        self.has_ended = True
        return Result(steps, steps[-1].wrong, self.late, {packets.shown(address): name for name, address in self.env.addresses.items()})

    async def ending(self):
        """Nothing more comes."""
        done = await cases.Nothing().perform(self)
        done.text = "nothing more"
        if len(self.seen) >= MOST:
            done.wrong = [f"more than {MOST} packets came"]
        return done


def packet_text(data):
    """A packet in a few words."""
    try:
        said = packets.read(data)
    except packets.NotPacket as fault:
        return f"no packet ({fault}) {data[:80].hex()}"
    return said_text(said)


HIDDEN = ("kind", "hop", "proto", "message", "bytes", "quoted", "seconds", "carried")


def said_text(said, hidden=HIDDEN):
    """The fields of a packet in one line."""
    words = [said["kind"]]
    for field, value in said.items():
        if field not in hidden and value not in (None, "", b""):
            words.append(f"{field} {cases.told(value)}")
    return " ".join(words[:1]) + (" with " if words[1:] else "") + ", ".join(words[1:])


class Session:
    """A target with its link: cases run at it one after the other, and those that wait beside each other."""

    def __init__(self, link, role, patience, grace=QUIET):
        self.link, self.role, self.patience, self.grace = link, role, patience, grace
        self.owners, self.lock, self.holder, self.last = {}, asyncio.Lock(), None, None
        self.count, self.sent, self.strays, self.has_barrier, self.misses = 0, 0, [], False, 0
        self.seed, self.unseen = "", getattr(link, "unseen", None)  # what stands for a shield that the link cannot show
        self.kept = {}  # what a role keeps from case to case

    def begin(self):
        self.link.begin(self.heard)

    def draw_for(self, case):
        """Where the cookies of a case are drawn from: the same ones in each run with the same seed."""
        return random.Random(f"{self.seed} {case.name}") if self.seed else secrets.SystemRandom()

    def heard(self, datagram):
        self.count += 1
        shield, data = frames.read_frame(datagram) or (None, datagram)
        fault = "" if frames.read_frame(datagram) else "what came is no frame"
        run = None if fault else self.owner(data)
        if run is None and not fault and self.role.is_stray(data):
            return
        run = run or self.holder or self.last
        if run:
            run.hear(data, shield, fault)
        elif len(self.strays) < MOST:
            self.strays.append(fault or packet_text(data))

    def owner(self, data):
        """The run that has an address of this packet, from the outside in."""
        for at in range(0, min(len(data) - 15, 160), 8):
            if data[at : at + 16] in self.owners:
                return self.owners[data[at : at + 16]]
        return None

    def leave(self, run):
        """Lets other cases go on while this one waits."""
        if self.holder is run and not self.role.is_exclusive:
            self.holder = None
            self.lock.release()

    def own(self, run):
        """What comes to an address of this run is the run's from now on."""
        for name, address in run.env.addresses.items():
            if name not in self.role.shared:
                self.owners[address] = run
        return run

    async def run(self, case, addresses):
        """The result of a case, or None where the device answers no longer; a case that waited goes on beside the next ones."""
        await self.lock.acquire()
        if self.misses >= MISSES:
            self.lock.release()
            return None
        run = self.holder = self.last = self.own(Run(self, case, addresses))
        try:
            return await run.perform()
        finally:
            self.misses = 0 if run.seen else self.misses + 1
            if self.holder is run:
                self.holder = None
                self.lock.release()
