"""Runs the cases of a role at a device with each of its faults, and compares the cases that fail with a table.

    faults.py TOOLS ROLE [--more | --slow] [--write] [FAULT ..]

TOOLS is the folder of the kit. ROLE.py beside this script has the device, with `FAULTS`, by name what each does wrong, and `make(own, faults)`. The table is ROLE.faults, or with
--more ROLE.more_faults, which takes longer, or with --slow ROLE.slow_faults, of the slow cases: a line a fault, with its name and the cases that fail or are warned of.
--write prints such lines in place of comparing. The device runs in this process, so that all of them run at the same time beside one run at proved nodes. MIP names the program.
"""
import asyncio
import functools
import importlib
import pathlib
import sys
import time

HERE = pathlib.Path(__file__).resolve().parent
sys.path[:0] = [sys.argv[1], str(HERE)]
import cases  # noqa: E402
import judge  # noqa: E402
import main  # noqa: E402
import nodes  # noqa: E402
import runs  # noqa: E402

PATIENCE, GRACE = 0.2, 0.002  # s: a device in this process answers at once
AT_ONCE, DEVICES = 16, 24  # proved nodes, and devices, at the same time


class MemoryLink:
    """A device in this process."""

    def __init__(self, device):
        self.device, self.heard, self.is_closed, self.begun = device, None, False, time.monotonic()

    def begin(self, heard):
        self.heard = heard

    def send(self, packet, shield=None):
        for it in self.device.take(packet, time.monotonic() - self.begun):
            asyncio.get_running_loop().call_soon(self.heard, b"\0" + it)

    def end(self):
        pass


def link_of(module, own, faults):
    """A device with these faults: a link of its own where it has work of its own, or one that answers."""
    return module.link(own, faults) if hasattr(module, "link") else MemoryLink(module.make(own, faults))


async def at_device(role, chosen, addresses, link, room):
    """The results of the cases at a device, one after the other; where each wants its own proved node, each has a device of its own too."""

    async def at_one(some):
        async with room:
            session = runs.Session(link(), role, PATIENCE, GRACE)
            session.begin()
            found = await asyncio.gather(*[session.run(it, addresses[it.name]) for it in some])
            session.link.end()
            return list(zip(some, found))

    parts = [chosen] if role.at_one_node > 1 else [[it] for it in chosen]
    return {it.name: result for part in await asyncio.gather(*map(at_one, parts)) for it, result in part}


async def at_proved(role, chosen, addresses, own):
    """The results at proved nodes."""
    mip, step, begun, room = nodes.program(), role.at_one_node, [], asyncio.Semaphore(AT_ONCE)
    try:
        async def part(some):
            node = nodes.Node(mip, role, own, some)
            async with room:
                begun.append(node)
                await node.begin()
                found = await asyncio.gather(*[node.session.run(it, addresses[it.name]) for it in some])
                begun.remove(node)
                await node.end()
                return found

        found = await asyncio.gather(*[part(chosen[at : at + step]) for at in range(0, len(chosen), step)])
        return {it.name: result for it, result in zip(chosen, [one for some in found for one in some])}
    finally:
        for node in begun:
            await node.end()


async def verdicts(role, chosen, faults):
    """For each fault the names of the cases that are not passed."""
    module = importlib.import_module(role.name)
    own, run = main.packets.packed(role.own), b"\1\2\3\4"
    addresses = {it.name: role.addresses(role.cases.index(it), run, own) for it in chosen}
    links = [functools.partial(link_of, module, own, {it} if it != "none" else set()) for it in faults]
    room = asyncio.Semaphore(DEVICES)
    proved, *found = await asyncio.gather(at_proved(role, chosen, addresses, own), *[at_device(role, chosen, addresses, it, room) for it in links])
    told = {}
    for fault, results in zip(faults, found):
        judged = [judge.judge(it, proved[it.name], results[it.name]) for it in chosen]
        for it in judged:
            if it.outcome == judge.KIT:
                sys.exit(f"faults: the kit is wrong: {it.case.name}: {'; '.join(it.why)}")
        told[fault] = [it.case.name for it in judged if it.outcome != judge.PASSED]
    return told


def told(role, chosen, faults, order):
    """For each fault the names of the cases that are not passed, in the order of the table of cases."""
    return {fault: sorted(names, key=order.index) for fault, names in asyncio.run(verdicts(role, chosen, faults)).items()}


def read_table(path):
    return {line.split()[0]: line.split()[1:] for line in path.read_text().splitlines() if line.strip() and not line.startswith("#")}


def main_of(words):
    flags, words = {it for it in words if it.startswith("--")}, [it for it in words if not it.startswith("--")]
    role = importlib.import_module(f"cases_{words[0]}").ROLE
    table = HERE / f"{role.name}.{'slow_' if '--slow' in flags else 'more_' if '--more' in flags else ''}faults"
    wanted = read_table(table) if table.exists() else {}
    module = importlib.import_module(role.name)
    faults = words[1:] or (["none", *module.FAULTS] if "--write" in flags else list(wanted))
    chosen = [it for it in sorted(role.cases, key=lambda it: (not it.talks, -main.waits(it))) if it.is_slow == ("--slow" in flags) and not it.fills]
    order = [it.name for it in role.cases]
    found = told(role, chosen, faults, order)
    # a machine that stands still for a second may let a case fail: what is not as the table says is tried once more
    doubtful = [fault for fault, names in found.items() if "--write" not in flags and names != wanted.get(fault)]
    if doubtful:
        found |= told(role, chosen, doubtful, order)
    if "--write" in flags:
        print("\n".join(" ".join([fault, *names]) for fault, names in found.items()))
        return 0
    wrong = [f"{fault}: {set(names) ^ set(wanted.get(fault, ()))}" for fault, names in found.items() if names != wanted.get(fault)]
    for it in wrong:
        print(f"faults: {role.name}: other cases fail than the table names: {it}", file=sys.stderr)
    if not wrong:
        print(f"faults: {role.name}: {len(found) - 1} faults, each found by the cases that the table names")
    return 1 if wrong else 0


if __name__ == "__main__":
    sys.exit(main_of(sys.argv[2:]))
