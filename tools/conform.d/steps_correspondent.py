"""What the table of a correspondent's cases is written with, beside `cases`: packets that are special in one way, and steps that look at data or fill the cache."""
import dataclasses

import cases
import packets
import tokens
from cases import Send, coti, edited, mobility, raw

KINDS = ("data", "reply")


@dataclasses.dataclass(frozen=True)
class Talk:
    """The next data that the device sends to the home address comes as `words` say. An echo request asks for some; a device that sends data anyway need not answer it."""

    source: str
    option: str
    words: dict
    level: str = ""

    def text(self):
        return "data with " + ", ".join(f"{field} {cases.told(value)}" for field, value in self.words.items())

    def ask(self, env):
        body = packets.summed(env.address(self.option or self.source), env.address("C"), packets.ICMP, packets.icmp(128, env.cookie("echo")), 2)
        headers = cases.headers_of(env, None, self.option)
        return packets.packet(env.address(self.source), env.address("C"), packets.ICMP, body, headers=headers)

    async def perform(self, run):
        await run.quiet()  # what the device sent before has come
        run.inbox = [it for it in run.inbox if it.said["kind"] not in KINDS]
        done = cases.Done(self.text(), level=self.level, named=tuple(self.words))
        run.send(self.ask(run.env))
        came = await run.next(KINDS)
        if came is None or came.fault:
            done.wrong = [came.fault if came else f"the device sent no data to {packets.shown(run.env.address('H'))}, and answered no echo request: --no-data leaves such cases out"]
            return done
        said = {field: came.said[field] for field in ("source", "destination", "route", "option", "shield")} | {"kind": "data"}
        done.came = [said]
        done.wrong = cases.Expect("data", self.words).differences(said, run.env)
        return done


def place(*names):
    """One of these addresses."""
    return cases.Word(" or ".join(names), lambda value, env: value in [packets.shown(env.address(it)) for it in names])


def talk(source="H", option=None, level="", **words):
    return Talk(source, option, words, level)


@dataclasses.dataclass(frozen=True)
class Counted:
    """Finds where the sequence numbers of the home address stand: a deletion is accepted, or denied with the last number. The case's own ones count from there."""

    async def perform(self, run):
        run.env.base = run.env.draw.randrange(65536)
        for step in cases.tests(careof=None) + (cases.bu(0, lifetime=0, careof_test=None),):
            done = await step.perform(run)
            if done.wrong:
                return done
        accepted, denied = cases.ba(0, 0, lifetime=cases.anything), cases.ba(135, cases.anything)
        done = await cases.one(accepted, denied).perform(run)
        if not done.wrong:
            run.env.base = (run.env.base + done.came[0]["sequence"]) % 65536
        return cases.Done("the sequence number is found", wrong=done.wrong, came=done.came, named=tuple(done.came[0]) if done.came else ())


def counted():
    return Counted()


@dataclasses.dataclass(frozen=True)
class Filled:
    """Homes are bound until one is denied, so many at most; then it has to be denied with 130."""

    most: int

    async def perform(self, run):
        home, done = run.env.address("H"), None
        for step in cases.tests():
            await step.perform(run)
        for at in range(self.most):
            run.env.addresses["H"] = home[:8] + bytes([2 + at]) + home[9:]
            for step in cases.tests(careof=None):
                await step.perform(run)
            await cases.bu().perform(run)
            accepted, denied = cases.ba(0), cases.ba(130, authentic=True)
            done = await cases.one(accepted, denied).perform(run)
            if done.wrong or done.choice == 1:
                break
        return cases.Done(f"after {at} homes {done.text}", sent=b"", came=done.came, wrong=done.wrong, is_lax=True)


def filled(most=80):
    return Filled(most)


@dataclasses.dataclass(frozen=True)
class Skipped:
    """A step that is done already."""

    async def perform(self, run):
        return cases.Done("the device has the binding already", is_lax=True)


def without(case, steps):
    """The case without these steps and those in front of them."""
    last = next((at + len(steps) for at in range(len(case.steps)) if case.steps[at : at + len(steps)] == steps), 0)
    return dataclasses.replace(case, steps=(Skipped(),) * last + case.steps[last:])


# --- packets that are special in one way


def spelled_zero(field):
    """A Care-of Test Init whose checksum is 0, with these two bytes in its place."""

    def make(env):
        cookie = env.cookie("careof")
        source, own = env.address("A"), env.address("C")
        rest = packets.checksum(source, own, packets.MOBILITY, packets.test_init("coti", cookie[:6] + b"\0\0"), 4)
        env.cookies["careof"] = cookie[:6] + rest.to_bytes(2, "big")
        body = packets.test_init("coti", env.cookies["careof"])
        return packets.packet(source, own, packets.MOBILITY, body[:4] + field + body[6:]), None

    return Send(f"coti from A to C, whose checksum is spelled {field.hex()}", make)


def sealed_with(make_key, text):
    """An update with a key that `make_key` makes of the two tokens."""

    def make(env):
        home, careof = env.tests["home"], env.tests["careof"]
        nonces = home[0].to_bytes(2, "big") + careof[0].to_bytes(2, "big")
        body = packets.update(env.sequence(1), "A", 10, [("nonces", nonces), ("auth", bytes(12))])
        body = body[:-12] + tokens.authenticator(make_key(home[1], careof[1]), env.address("A"), env.address("C"), body)
        return mobility(env, body, "A", "C", "H"), None

    return Send(f"bu from A to C, home H, sequence 1, lifetime 10, flags A, its key {text}", make)


def with_option(kind, size=4):
    """A Care-of Test Init behind a Destination Options header with an unknown option."""
    header = bytes([0]) + packets.option(kind, bytes(size))
    header += packets.padding(7 - len(header))
    return coti(headers=[(packets.OPTIONS, header)])


def update_for(home, text):
    """An update for a home address that is none."""

    def make(env):
        body = packets.update(1, "A", 10, [("nonces", bytes(4)), ("auth", bytes(12))])
        option = packets.packed(home)
        body = packets.summed(option, env.address("C"), packets.MOBILITY, body, 4)
        return packets.packet(env.address("A"), env.address("C"), packets.MOBILITY, body, headers=[(packets.OPTIONS, packets.home_option(option))])

    return raw(make, f"bu from A to C, whose home address is {text}")


def message_of(kind, fields, text):
    """A message that is no test init and no update, from A to the device."""
    return raw(lambda env: mobility(env, packets.message(packets.KINDS.index(kind), fields), "A", "C"), text)


def tiny(env):
    return packets.packet(env.address("A"), env.address("C"), packets.MOBILITY, bytes([packets.NONE, 0, 2, 0]))


def echo(env, source, option=None):
    """An echo request, as a ping sends it."""
    body = packets.summed(env.address(option or source), env.address("C"), packets.ICMP, packets.icmp(128, env.cookie("echo")), 2)
    headers = [(packets.OPTIONS, packets.home_option(env.address(option)))] if option else []
    return packets.packet(env.address(source), env.address("C"), packets.ICMP, body, headers=headers)


def bu_behind(more):
    """An update whose Binding Authorization Data has something behind it, and is right for all that stands there."""

    def make(env):
        home, careof = env.tests["home"], env.tests["careof"]
        nonces = home[0].to_bytes(2, "big") + careof[0].to_bytes(2, "big")
        body = packets.update(env.sequence(1), "A", 10, [("nonces", nonces), ("auth", bytes(12)), more])
        proof_at = len(body) - len(more) - 12
        key = tokens.kbm(home[1], careof[1])
        covered = body[:proof_at]
        body = covered + tokens.authenticator(key, env.address("A"), env.address("C"), covered + bytes(12)) + more
        return mobility(env, body, "A", "C", "H"), None

    return Send(f"bu from A to C, home H, sequence 1, lifetime 10, flags A, with {more.hex()} behind the authorization", make)


def resealed(step):
    """The update of a step, whose lifetime was changed on the way, with its checksum made anew."""

    def make(env):
        packet, _ = step.make(env)
        head, body = packet[:64], packet[64:]
        body = edited(body, {11: body[11] ^ 1})
        return head + packets.summed(env.address("H"), env.address("C"), packets.MOBILITY, body, 4), None

    return Send(step.text + ", then its lifetime changed", make)


def update_of_another_proto(env):
    """An update that says that a header of protocol 17 follows, where nothing does."""
    return mobility(env, edited(packets.update(1, "A", 10), {0: 17}), "A", "C", "H")
