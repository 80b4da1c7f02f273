"""Runs a table of cases at a device under test: tools/conform --help tells how."""
import argparse
import asyncio
import contextlib
import dataclasses
import importlib
import random
import secrets
import sys

import frames
import judge
import nodes
import packets
import report
import runs
import tun

ROLES = ("correspondent", "agent", "mobile")
TRIES = 6  # times half the patience that a device has for its first answer
HELLO = 65535  # the number of a case for the packets that ask whether the device is there
AT_ONCE = 8  # devices that are started, or proved nodes with a case of their own, at the same time
ALL_PASSED, SOME_FAILED, WORDS, NEVER_ANSWERED, KIT_IS_WRONG, INTERRUPTED = 0, 1, 2, 3, 4, 130


def stop(why, status=WORDS):
    print(f"conform: {why}", file=sys.stderr)
    sys.exit(status)


class Words(argparse.ArgumentParser):
    """Words that are wrong are told in one line."""

    def error(self, message):
        stop(f"{message}; see --help")


def positive(text):
    number = float(text)
    if not 0 < number < 1000:
        raise ValueError
    return number


def address(text):
    return packets.shown(packets.packed(text))


def writable(path):
    """A file that can be written to, which is seen before the run and not behind it."""
    try:
        with open(path, "a", encoding="utf-8"):
            return path
    except OSError as fault:
        raise argparse.ArgumentTypeError(f"{path}: {fault.strerror}") from fault


def port(text):
    number = int(text)
    if not 1 <= number <= 65535:
        raise ValueError
    return number


def words():
    it = Words(prog="conform", add_help=False, allow_abbrev=False)
    it.add_argument("role", choices=ROLES)
    it.add_argument("--port", type=port)
    it.add_argument("--kit-port", type=port)
    it.add_argument("--start", metavar="COMMAND")
    it.add_argument("--tun", metavar="NAME")
    it.add_argument("--name-space", default="conform")
    it.add_argument("--address", type=address)
    it.add_argument("--bound", nargs=2, type=address, default=[], metavar=("HOME", "CAREOF"))
    it.add_argument("--case", nargs="+", default=[], metavar="NAME")
    it.add_argument("--patience", type=positive, default=2.0)
    it.add_argument("--junit", metavar="FILE", type=writable)
    it.add_argument("--seed", default="")
    for flag in ("--slow", "--list", "--json", "--no-data", "--fill", "--config"):
        it.add_argument(flag, action="store_true")
    found = it.parse_args()
    if found.port is None and (found.config or not (found.list or found.start or found.tun)):
        it.error("the port of the device is missing: --port takes 1 to 65535")
    if found.port and not found.kit_port:
        found.kit_port = found.port + 1 if found.port < 65535 else it.error("the kit's port is missing: --kit-port takes 1 to 65535")
    return found


def waits(case):
    """The seconds for which a case waits: those that wait longest begin first."""
    return sum(getattr(it, "seconds", 0) for it in case.steps)


class Kit:
    """The cases of one role at the device and at proved nodes."""

    def __init__(self, given, role, chosen):
        self.given, self.role, self.chosen = given, role, chosen
        self.own = packets.packed(given.address or role.own)
        self.number = random.Random(given.seed).randbytes(4) if given.seed else secrets.token_bytes(4)
        self.found, self.notes, self.begun, self.device, self.has_answered = {}, [], [], None, False
        self.room = asyncio.Semaphore(AT_ONCE)

    def addresses(self, case):
        return self.role.addresses(self.role.cases.index(case), self.number, self.own)

    async def run(self):
        mip = nodes.program()
        try:
            if self.given.tun or not self.given.start:
                self.device = runs.Session(self.link(), self.role, self.given.patience)
                self.device.seed = self.given.seed
                self.device.begin()
                await self.host()
                if not await self.greet(self.device):
                    return NEVER_ANSWERED
            step = self.role.at_one_node
            order = sorted([it for it in self.chosen if not it.fills], key=lambda it: (not it.talks, -waits(it)))
            await asyncio.gather(*[self.part(mip, order[at : at + step]) for at in range(0, len(order), step)])
            for it in self.chosen:
                if it.fills:
                    await self.part(mip, [it])
            await self.linger()
        finally:
            for it in self.begun:
                await it.end()
            if self.device:
                self.device.link.end()
        return None if self.found and (self.device or self.has_answered) else NEVER_ANSWERED

    def link(self):
        """The kit's end of the link to a device that stands."""
        if self.given.tun:
            return tun.TunLink(self.given.tun, self.given.name_space, packets.shown(self.own))
        return frames.UdpLink(self.given.kit_port, self.given.port)

    async def host(self):
        """Starts the program of the host behind a TUN device, where there is one."""
        if self.given.tun and self.given.start:
            self.begun.append(nodes.Host(await nodes.process(self.device.link.started(self.given.start))))

    async def part(self, mip, part):
        """The cases of one proved node."""
        node = nodes.Node(mip, self.role, self.own, part)
        if self.role.at_one_node > 1:
            await self.started(node)
            await asyncio.gather(*[self.both(case, node) for case in part])
        else:
            async with self.room:
                await self.started(node)
                await self.both(part[0], node)
                await self.ended(node)

    async def started(self, it):
        self.begun.append(it)
        return await it.begin()

    async def ended(self, it):
        self.begun.remove(it)
        await it.end()

    async def greet(self, session):
        """Whether the device answers anything at all; and whether it answers what ends a silence."""
        run = session.own(runs.Run(session, self.chosen[0], self.role.addresses(HELLO, self.number, self.own)))
        for _ in range(TRIES):
            found = self.role.barrier(run.env)
            if found:
                run.barriers.append(found[2])
                run.send(*found[:2])
            for packet in self.role.hello(run.env):
                run.send(packet)
            for _ in range(20):
                await asyncio.sleep(self.given.patience / 40)
                if found and found[2] not in run.barriers:
                    session.has_barrier = True
                    return True
                if not found and session.count:
                    return True
            if session.count:
                return True
        return False

    async def at_device(self, case):
        """The result of a case at the device that stands, or at one that is started for it."""
        addresses = self.addresses(case) | {name: packets.packed(it) for name, it in zip("HA", self.given.bound)}
        if self.given.bound:
            case = self.role.once_bound(case)
        if self.device:
            return await self.device.run(case, addresses)
        it = nodes.Started(self.given.start, self.role, self.given.patience)
        async with self.device_room():
            await self.started(it)
            it.session.seed = self.given.seed
            await self.greet(it.session)
            try:
                return await it.session.run(case, addresses)
            finally:
                self.has_answered = self.has_answered or it.session.count > 0
                await self.ended(it)

    def device_room(self):
        """Room for so many devices at once; the proved nodes of a role with one a case have it already."""
        return contextlib.nullcontext() if self.role.at_one_node == 1 else self.room

    async def both(self, case, node):
        ours, theirs = await asyncio.gather(node.session.run(case, self.addresses(case)), self.at_device(case))
        if ours and theirs:
            self.found[case.name] = (case, ours, theirs)
        self.progress(case)

    async def linger(self):
        """Waits for what comes late, where the device does not answer at once."""
        if self.device and not self.device.has_barrier:
            await asyncio.sleep(3 * self.given.patience)
        if self.device and self.device.misses >= runs.MISSES:
            self.notes.append(f"the device no longer answered: nothing came to {runs.MISSES} cases in a row")
        if self.device and self.device.count > 1000 + 20 * self.device.sent:
            self.notes.append(f"the device floods: it sent {self.device.count} packets, and {self.device.sent} were sent to it")

    def progress(self, case):
        if sys.stderr.isatty():
            done = len(self.found)
            print(f"\r{done} of {len(self.chosen)}  {case.name[:40]:40}", end="\n" if done == len(self.chosen) else "", file=sys.stderr, flush=True)

    def told(self):
        """The verdicts in the order of the table."""
        return [judge.judge(*self.found[it.name]) for it in self.chosen if it.name in self.found]


def chosen_of(role, given):
    names = {it.name for it in role.cases}
    for name in given.case:
        if name not in names:
            stop(f"there is no case {name}; --list has them all")
    if given.case:
        return [it for it in role.cases if it.name in given.case]
    if given.tun:
        role = dataclasses.replace(role, cases=[it for it in role.cases if "unprotected" not in it.name])  # what has no shield cannot be told from what has one
    return [it for it in role.cases if (given.slow or not it.is_slow) and (given.fill or not it.fills) and not (given.no_data and it.talks)]


def list_cases(chosen):
    for it in chosen:
        print(f"{it.level:6} {it.section:8} {it.name}: {it.says}{' (slow)' if it.is_slow else ''}")


def status_of(verdicts):
    outcomes = {it.outcome for it in verdicts}
    return KIT_IS_WRONG if judge.KIT in outcomes else SOME_FAILED if judge.FAILED in outcomes else ALL_PASSED


def tell(kit, status):
    verdicts, left = kit.told(), len(kit.chosen) - len(kit.found)
    if kit.given.json:
        print(report.json_of(kit.role.name, verdicts, left, kit.notes))
    else:
        for it in verdicts:
            print(report.text_of(it))
        print(report.summary(verdicts, left, kit.notes))
    if kit.given.junit:
        with open(kit.given.junit, "w", encoding="utf-8") as it:
            it.write(report.junit_of(kit.role.name, verdicts, left))
    if status == NEVER_ANSWERED:
        print("conform: the device never answered", file=sys.stderr)
    return status


def main():
    given = words()
    role = importlib.import_module(f"cases_{given.role}").ROLE
    chosen = chosen_of(role, given)
    if given.list:
        list_cases(chosen)
        return ALL_PASSED
    if given.config:
        own = packets.packed(given.address or role.own)
        print("\n".join(role.configuration(given.port, given.kit_port, own, chosen)))
        return ALL_PASSED
    kit = Kit(given, role, chosen)
    try:
        status = asyncio.run(kit.run())
    except nodes.NoProgram as fault:
        stop(f"there is no proved node to compare with: {fault}", 70)
    except (tun.NoDevice, OSError) as fault:
        stop(f"{fault}")
    except KeyboardInterrupt:
        status = INTERRUPTED
    return tell(kit, status_of(kit.told()) if status is None else status)


if __name__ == "__main__":
    sys.exit(main())
