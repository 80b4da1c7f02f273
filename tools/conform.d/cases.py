"""What a case is: a name, the section of its rule, one sentence, and steps that send, wait and expect.

The fields of a step name addresses (`H` is the case's home address, `A` its care-of address, `C` the device), cookies and tests of earlier steps. `Env` knows what they
stand for at one target. README.md tells how a case is written.
"""
import dataclasses
import secrets
import struct

import packets
import tokens

MUST, SHOULD = "MUST", "SHOULD"
# fields whose text is the name of an address
ADDRESSES = {"source", "destination", "route", "option", "home", "alternate", "prefix"}
# what two right implementations may have different: compared only where a case names it
FREE = {"hop", "index", "token", "cookie", "auth", "message", "advice", "quoted", "body", "proto", "nonces", "identifier", "seconds", "bytes", "carried"}


@dataclasses.dataclass(frozen=True)
class Case:
    """A row of a table of cases."""

    name: str
    section: str
    level: str
    says: str
    steps: tuple
    is_slow: bool = False
    talks: bool = False  # the device has to send data of its own, or answer an echo request
    fills: bool = False  # the device takes no other home for minutes afterwards
    ours: bool = False  # our own choice and no rule of RFC 6275: another answer never fails a device
    ignores: tuple = ()  # kinds of packets that may come at any time
    options: dict = dataclasses.field(default_factory=dict)  # of the role, for its cases alone


def flat(steps):
    """Steps, some of them given as tuples of steps."""
    return tuple(it for step in steps for it in (flat(step) if isinstance(step, tuple) else (step,)))


def must(name, section, says, *steps, **more):
    return Case(name, section, MUST, says, flat(steps), **more)


def should(name, section, says, *steps, **more):
    return Case(name, section, SHOULD, says, flat(steps), **more)


class Env:
    """What the names of a case stand for at one target: addresses, cookies, tests, and the key of the last update."""

    def __init__(self, addresses, draw=secrets.SystemRandom()):
        self.addresses, self.draw = addresses, draw  # names and their 16 bytes; where cookies are drawn from
        self.cookies, self.tests = {}, {}
        self.base = 0  # sequence numbers of steps count from here
        self.seal = None  # key, care-of address and peer of the last update
        self.sent = b""  # the last packet sent
        self.history = []  # packets, shields and seals of all that was sent
        self.more = {}  # whatever a role keeps of its own

    def address(self, name):
        """The bytes of an address, by its name or as it is written."""
        return self.addresses[name] if name in self.addresses else packets.packed(name)

    def cookie(self, name):
        """A new cookie under this name."""
        self.cookies[name] = self.draw.randbytes(8)
        return self.cookies[name]

    def sequence(self, number):
        return (self.base + number) % 65536

    def read(self, data):
        """The fields of a packet; `authentic` says whether its authenticator is that of the last update's key, and `sequence` counts from the base."""
        said = packets.read(data)
        if said["kind"] in ("ba", "bu"):
            said["sequence"] = (said["sequence"] - self.base) % 65536
        if said["kind"] == "ba":
            said["authentic"] = None if "auth" not in said else self.is_authentic(said)
        return said

    def is_authentic(self, said):
        return self.seal is not None and said["auth"] == tokens.authenticator(*self.seal, said["message"])

    def wanted(self, field, value):
        """What a field is to be, where a case names it."""
        if isinstance(value, Word) or value is None:
            return value
        if field == "shield":
            return " ".join(packets.shown(self.address(it)) for it in value)
        if field in ADDRESSES:
            return packets.shown(self.address(value))
        return self.cookies[value] if field == "cookie" else value


class Word:
    """A permission in words: `text` says it, `test` of the field's value and the Env decides."""

    def __init__(self, text, test):
        self.text, self.test = text, test

    def __repr__(self):
        return self.text


def at_most(number):
    return Word(f"{number} at most", lambda value, env: value is not None and value <= number)


def between(least, most):
    return Word(f"from {least} to {most}", lambda value, env: value is not None and least <= value <= most)


def one_of(*values):
    return Word(" or ".join(map(str, values)), lambda value, env: value in values)


anything = Word("anything", lambda value, env: True)
front_of_sent = Word("a front of the packet sent", lambda value, env: len(value) > 0 and env.sent.startswith(value))


def unlike(words, said, env, front=""):
    """The fields that are not as the words say. A field whose words are fields again is a packet within the packet."""
    found = []
    for field, value in words.items():
        has = said.get(field)
        if isinstance(value, dict):
            found += unlike(value, has or {}, env, f"{front}{field} ")
            continue
        wanted = env.wanted(field, value)
        if not (wanted.test(has, env) if isinstance(wanted, Word) else has == wanted):
            found.append(f"{front}{field} is {told(has)} and not {told(wanted)}")
    return found


# --- steps


@dataclasses.dataclass
class Done:
    """What became of a step."""

    text: str
    sent: bytes = b""
    came: list = dataclasses.field(default_factory=list)  # the fields of each packet that the step took
    wrong: list = dataclasses.field(default_factory=list)  # what is not as the step's words permit
    choice: int = 0  # which of several permitted answers came
    level: str = ""
    named: tuple = ()  # the fields that the step's words speak of
    is_lax: bool = False


@dataclasses.dataclass(frozen=True)
class Send:
    """Sends the packet and shield that `make` makes of the Env."""

    text: str
    make: object

    async def perform(self, run):
        packet, shield = self.make(run.env)
        run.env.sent = packet
        run.env.history.append((packet, shield, run.env.seal))
        run.send(packet, shield)
        return Done(f"sent {self.text}", sent=packet)


@dataclasses.dataclass(frozen=True)
class Wait:
    """Lets time go by; other cases go on meanwhile."""

    seconds: float

    async def perform(self, run):
        await run.sleep(self.seconds)
        return Done(f"waited {self.seconds} s")


@dataclasses.dataclass(frozen=True)
class Expect:
    """A packet of this kind comes next, and its fields are as `words` say; others are compared with the proved node's."""

    kind: str
    words: dict
    keep: str = ""  # the name under which a test is kept
    level: str = ""
    patience: float = 0  # seconds that are waited beside the kit's own patience
    is_lax: bool = False  # fields of which the words do not speak are not compared with the proved node's

    def text(self):
        fields = ", ".join(f"{field} {told(value)}" for field, value in self.words.items())
        return f"{self.kind}{' with ' if fields else ''}{fields}"

    def differences(self, said, env):
        """How the packet is another one than this, as pairs of texts."""
        if said["kind"] != self.kind:
            return [f"{said['kind']} came in place of {self.kind}"]
        return unlike(self.words, said, env)

    def take(self, said, env):
        """Keeps what later steps name."""
        if self.keep:
            env.tests[self.keep] = (said["index"], said["token"])

    async def perform(self, run):
        return await OneOf((self,), self.level, self.patience).perform(run)


@dataclasses.dataclass(frozen=True)
class Nothing:
    """Nothing comes: for so many seconds, or, with 0, before the device answers a later packet."""

    level: str = ""
    seconds: float = 0
    words = {}
    kind = "nothing"
    patience = 0
    is_lax = False

    def text(self):
        return "nothing"

    async def perform(self, run):
        return await OneOf((self,), self.level, self.seconds).perform(run)


@dataclasses.dataclass(frozen=True)
class OneOf:
    """One of several answers comes, which may be Nothing."""

    choices: tuple
    level: str = ""
    patience: float = 0

    def text(self):
        return ", or ".join(it.text() for it in self.choices)

    async def perform(self, run):
        kinds = {it.kind for it in self.choices}
        done = Done(self.text(), level=self.level, named=tuple(self.choices[0].words))
        came = await run.next(kinds, self.patience, may_be_quiet="nothing" in kinds)
        if came is None:
            if "nothing" in kinds:
                done.choice = next(at for at, it in enumerate(self.choices) if it.kind == "nothing")
                done.wrong = run.why_no_silence()
            else:
                done.wrong = [run.why_quiet()]
            return done
        done.came = [came.said]
        if came.fault:
            done.wrong = [came.fault]
            return done
        self._judge(came, run, done)
        return done

    def _judge(self, came, run, done):
        best = None
        for at, it in enumerate(self.choices):
            found = [f"{came.said['kind']} came, and nothing is permitted"] if it.kind == "nothing" else it.differences(came.said, run.env)
            if not found:
                done.choice, done.named, done.wrong, done.is_lax = at, tuple(it.words), [], it.is_lax
                it.take(came.said, run.env)
                return
            if best is None or it.kind == came.said["kind"]:
                best = found
        done.wrong = best + run.again(came)


@dataclasses.dataclass(frozen=True)
class Several:
    """So many packets come, in any order."""

    parts: tuple
    level: str = ""

    def text(self):
        return ", and ".join(it.text() for it in self.parts)

    async def perform(self, run):
        left, kinds = list(self.parts), {it.kind for it in self.parts}
        done = Done(self.text(), level=self.level)
        found = {}
        while left and not done.wrong:
            came = await run.next(kinds, max(it.patience for it in left))
            if came is None or came.fault:
                done.wrong = [came.fault if came else run.why_quiet()]
                done.came = list(found.values()) + ([came.said] if came else [])
                return done
            fits = next((it for it in left if not it.differences(came.said, run.env)), None)
            part = fits or next((it for it in left if it.kind == came.said["kind"]), left[0])
            done.wrong = [] if fits else part.differences(came.said, run.env) + run.again(came)
            left.remove(part)
            part.take(came.said, run.env)
            left_out = () if done.wrong else came.said.keys() - {"kind"} if part.is_lax else part.words
            found[self.parts.index(part)] = {key: value for key, value in came.said.items() if key not in left_out}
        done.came = [found[at] for at in sorted(found)]
        return done


def told(value):
    """A value of a field as a report has it."""
    if isinstance(value, bytes):
        return value.hex() or "-"
    if isinstance(value, tuple):
        return " ".join(map(str, value))
    if isinstance(value, dict):
        return "(" + ", ".join(f"{k} {told(v)}" for k, v in value.items() if k not in ("message", "quoted", "carried")) + ")"
    return {None: "none", True: "yes", False: "no", "": "-"}.get(value, str(value)) if not isinstance(value, int) or isinstance(value, bool) else str(value)


def wait(seconds):
    return Wait(seconds)


def lax(it):
    """The same expectation, for a step that only leads to the rule of its case: what its words do not name is not compared."""
    return dataclasses.replace(it, is_lax=True)


def nothing(seconds=0, level=""):
    return Nothing(level, seconds)


def several(*parts, level=""):
    return Several(parts, level)


def one(*choices, level=""):
    return OneOf(choices, level)


# --- packets that a step sends


def edited(body, edits):
    """The body with some of its bytes replaced: places and bytes."""
    it = bytearray(body)
    for at, value in (edits or {}).items():
        it[at] = value
    return bytes(it)


def headers_of(env, route, option):
    """The extension headers for a routing header and a Home Address option, or none of them."""
    found = []
    if route is not None:
        found.append((packets.ROUTING, packets.routing(env.address(route))))
    if option is not None:
        found.append((packets.OPTIONS, packets.home_option(env.address(option))))
    return found


def mobility(env, body, source, destination, option=None, route=None, after=None, cut=0, more=b"", length=None, hop=64, headers=None):
    """A packet with a mobility message and its checksum. `cut` takes bytes from the message's end, `more` adds some; `after` replaces bytes once the checksum is made."""
    first, last = env.address(option or source), env.address(route or destination)
    body = packets.summed(first, last, packets.MOBILITY, body[: len(body) - cut] + more, 4)
    body = edited(body, after)
    headers = headers_of(env, route, option) if headers is None else headers
    return packets.packet(env.address(source), env.address(destination), packets.MOBILITY, body, hop, headers, length)


def init(kind, source, destination, cookie, option, options, before, wrong):
    def make(env):
        body = edited(packets.test_init(kind, env.cookie(cookie), options), before)
        return mobility(env, body, source, destination, option, **wrong), None

    return Send(f"{kind} from {source} to {destination}" + (f", option {option}" if option else "") + noted(before, wrong), make)


def noted(before, wrong):
    """What is special of a packet, for a report."""
    words = [f"byte {at} is {value:02x}" for at, value in {**(before or {}), **(wrong.get("after") or {})}.items()]
    words += [f"{key} {told(value)}" for key, value in wrong.items() if key not in ("after", "headers")]
    return "".join(f", {it}" for it in words)


def hoti(source="H", destination="C", cookie="home", option=None, options=(), before=None, **wrong):
    """A Home Test Init. `before` replaces bytes before the checksum is made; `wrong` are the words of `mobility`."""
    return init("hoti", source, destination, cookie, option, options, before, wrong)


def coti(source="A", destination="C", cookie="careof", option=None, options=(), before=None, **wrong):
    return init("coti", source, destination, cookie, option, options, before, wrong)


def hot(destination="H", cookie="home", keep="home", level="", **words):
    """A Home Test with the cookie of the init, kept under a name."""
    return Expect("hot", {"source": "C", "destination": destination, "cookie": cookie, **words}, keep, level)


def cot(destination="A", cookie="careof", keep="careof", level="", **words):
    return Expect("cot", {"source": "C", "destination": destination, "cookie": cookie, **words}, keep, level)


def tests(home="H", careof="A", names=("home", "careof")):
    """Both tests, kept under these names; without a care-of address the home test alone."""
    steps = (hoti(home, cookie=names[0]), lax(hot(home, names[0], names[0])))
    return steps + ((coti(careof, cookie=names[1]), lax(cot(careof, names[1], names[1]))) if careof else ())


def key_of(env, home_test, careof_test):
    home = env.tests[home_test][1]
    return tokens.kbm(home, env.tests[careof_test][1] if careof_test else b"")


def changed(data):
    """The same with its last bit turned."""
    return data[:-1] + bytes([data[-1] ^ 1])


def update_options(env, alternate, nonces, words):
    """The options of an update in the order of the words; others stand there as bytes."""
    values = {"advice": b"\0\5", "nonces": nonces, "alternate": alternate and env.address(alternate), "auth": bytes(12)}
    return [it if isinstance(it, bytes) else (it, values[it]) for it in words if isinstance(it, bytes) or values[it] is not None]


def bu(sequence=1, lifetime=10, flags="A", source="A", destination="C", home="H", alternate=None, home_test="home", careof_test="careof", indices=(None, None),
       registers=None, options=("nonces", "alternate", "auth"), aligned=True, before=None, spoiled=False, **wrong):
    """A Binding Update to a correspondent.

    `home` stands in the Home Address option unless it is the source. The key is that of the tests; with `careof_test` None it is that of the home test alone. `indices` are in
    place of the tests' own, `registers` is the address in the authenticator in place of the right one, `spoiled` turns a bit of the authenticator. `before` replaces bytes of
    the message before the authenticator is made.
    """

    def make(env):
        is_deletion = lifetime == 0 or (alternate or source) == home
        careof = env.address(registers or (home if is_deletion else alternate or source))
        given = (env.tests[home_test][0], env.tests[careof_test][0] if careof_test else 0)
        nonces = b"".join((own if it is None else it).to_bytes(2, "big") for it, own in zip(indices, given))
        body = edited(packets.update(env.sequence(sequence), flags, lifetime, update_options(env, alternate, nonces, options), aligned), before)
        env.seal = (key_of(env, home_test, careof_test), careof, env.address(destination))
        if "auth" in options:
            proof = tokens.authenticator(*env.seal, body)
            body = body[:-12] + (changed(proof) if spoiled else proof)
        return mobility(env, body, source, destination, None if home == source else home, **wrong), None

    note = f", alternate {alternate}" if alternate else ""
    note += "".join(f", {word} index {it}" for word, it in zip(("home", "care-of"), indices) if it is not None)
    note += ", its authenticator spoiled" if spoiled else ""
    return Send(f"bu from {source} to {destination}, home {home}, sequence {sequence}, lifetime {lifetime}, flags {flags or '-'}{note}{noted(before, wrong)}", make)


def ba(status, sequence=1, level="", **words):
    """A Binding Acknowledgement. The lifetime of one that accepts is 10 at most where none is named, as an update asks for; that of one that denies has no meaning."""
    lifetime = anything if status != 0 else between(1, 10)
    return Expect("ba", {"source": "C", "status": status, "sequence": sequence, "lifetime": lifetime, **words}, level=level)


def ok(sequence=1, **words):
    """An update is accepted: more is not looked at but what is named."""
    return lax(Expect("ba", {"status": 0, "sequence": sequence, **words}))


def denied(status, sequence=1, **words):
    """An update is denied: more is not looked at but what is named."""
    return lax(Expect("ba", {"status": status, "sequence": sequence, **words}))


def be(status, home="::", destination="A", level="", **words):
    """A Binding Error."""
    return Expect("be", {"source": "C", "destination": destination, "status": status, "home": home, **words}, level=level)


def problem(pointer, destination="A", level="", code=0, **words):
    """An ICMPv6 Parameter Problem that quotes the packet sent."""
    return Expect("problem", {"source": "C", "destination": destination, "code": code, "pointer": pointer, "quoted": front_of_sent, **words}, level=level)


def data(source="A", destination="C", option="H", route=None, proto=packets.NONE, body=b"", headers=None, hop=64):
    """Data, of protocol 59 where none is named: no next header, so that nobody answers it."""

    def make(env):
        found = headers_of(env, route, option) if headers is None else headers
        return packets.packet(env.address(source), env.address(destination), proto, body, hop, found), None

    return Send(f"data from {source} to {destination}" + (f", option {option}" if option else "") + (f", route {route}" if route else ""), make)


def again(back=1):
    """The packet that was sent so many packets before, byte for byte."""

    def make(env):
        packet, shield, env.seal = env.history[-back]
        return packet, shield

    return Send("the same packet again" if back == 1 else f"the packet that was sent {back} packets before, again", make)


def raw(make, text="bytes"):
    """Whatever packet `make` makes of the Env."""
    return Send(text, lambda env: (make(env), None))
