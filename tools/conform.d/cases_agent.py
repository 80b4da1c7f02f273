"""Cases of a home agent."""
import secrets

import packets
from cases import Expect, at_most, must, nothing, one, should, wait
from roles import Role
from steps_agent import (
    ack, agents, accepted, answered, back, binding_error, denied, deregistered, deregistration, discovery, echo, fresh, home_test, home_test_init, itself, lowered, message, out, plain,
    prefixes, refused, registered, registration, solicitation, some, tunnel, whole_ack)

HOMES = 8  # that the agent is to serve
UNKNOWN_OPTION = packets.option(99, b"whatever")
NEVER = {"home": 2}  # a home that no case registers, unless the agent is wrong
OTHER_PADDING = bytes([1, 4, 1, 2, 3, 4])

REGISTRATIONS = (
    must("registered", "10.3.1", "A registration is acknowledged with status 0, or 1 where prefixes are to be discovered.", fresh("H"), registration(), ack(accepted)),
    must("acknowledgement", "10.3.1", "The acknowledgement of a registration has its sequence number, goes to its source with a type 2 routing header that names the home, and is protected.",
         fresh("H"), registration(sequence=3), whole_ack(accepted, sequence=3, lifetime=some)),
    must("lifetime-short", "10.3.1", "The lifetime that is granted is not longer than the one asked for.", fresh("H"), registration(lifetime=10), ack(accepted, lifetime=at_most(10))),
    must("lifetime-long", "10.3.1", "The longest lifetime can be asked for: a registration is granted for some time.", fresh("H"), registration(lifetime=65535), ack(accepted, lifetime=some)),
    should("unasked-acknowledgement", "9.5.4", "A registration without flag A that is accepted is not acknowledged.", fresh("H"), registration(flags="H"), nothing()),
    must("registered-in-silence", "10.3.1", "A registration without flag A is one all the same.", fresh("H"), registration(flags="H"), plain(), tunnel("A"), ignores=("ba",)),
    must("care-of-source", "9.5.1", "Without an Alternate Care-of Address option the care-of address is the update's source.", fresh("H"), registration(), answered(), plain(), tunnel("A")),
    must("care-of-alternate", "9.5.1", "With an Alternate Care-of Address option its address is the care-of address.",
         fresh("H"), registration(alternate="B"), answered(), plain(), tunnel("B")),
    must("acknowledgement-alternate", "9.5.4", "The acknowledgement goes to the update's source, and not to an Alternate Care-of Address.",
         fresh("H"), registration(alternate="B"), ack(destination="A")),
    must("moved", "10.3.1", "A later registration with another care-of address takes the place of the first.",
         fresh("H"), registered("A"), registered("B", sequence=2), plain(), tunnel("B")),
    must("renewed", "10.3.1", "A registration is renewed by a later one with the same care-of address.", fresh("H"), registered(), registration(sequence=2), ack(accepted), plain(), tunnel("A")),
    must("two-homes", "10.1", "Two mobiles are registered at their own care-of addresses.",
         fresh("H", "H2"), registered("A"), registered("B", "H2"), plain(), tunnel("A"), plain(destination="H2"), tunnel("B")),
    must("flags-others", "6.1.7", "Flags L and K and reserved bits are no reason to refuse a registration.",
         fresh("H"), registration(flags="AHLK", before={8: 0xFF, 9: 0xFF}), ack(accepted)),
    must("option-unknown", "6.2.1", "A mobility option that is not known is skipped.", fresh("H"), registration(alternate="B", options=(UNKNOWN_OPTION,)), answered(), plain(), tunnel("B")),
    must("padding-contents", "6.2.3", "What stands in padding is of no account.", fresh("H"), registration(options=(OTHER_PADDING,)), ack(accepted)),
    must("checksum", "9.2", "A registration with a wrong checksum is dropped in silence, and registers nothing.",
         fresh("H"), registration(after={5: 0x5A, 4: 0xA5}), nothing(), plain(), nothing(), options=NEVER),
    must("checksum-care-of", "6.1.1", "The checksum of a registration counts the home address as source: one over the care-of address is wrong.",
         fresh("H"), registration(over="A"), nothing(), plain(), nothing(), options=NEVER),
    should("payload-proto", "9.2", "A mobility message whose Payload Proto is not 59 is answered by a Parameter Problem that points at it.",
           message(packets.with_options(bytes([6, 1, 1, 0, 0, 0]), (bytes(10),)), "A", "G"), Expect("problem", {"destination": "A", "code": 0, "pointer": 40}, is_lax=True)),
    should("header-length", "9.2", "A mobility message whose Header Len is too small for its type is answered by a Parameter Problem that points at it.",
           message(bytes([59, 0, 5, 0, 0, 0, 0, 0]), "A", "G"), Expect("problem", {"destination": "A", "code": 0, "pointer": 41}, is_lax=True)),
    must("message-unknown", "9.2", "A mobility message of an unknown type is answered by a Binding Error with status 2.",
         message(packets.message(99, bytes(10)), "A", "G"), binding_error(2, "::", "A")),
    must("update-cut", "9.2", "An update whose end is missing registers nothing.", fresh("H"), registration(alternate="A", cut=8), one(nothing(), Expect("problem", {}, is_lax=True)), plain(), nothing(), options=NEVER),
)

DENIALS = (
    must("not-home-subnet", "10.3.1", "A home address that is not of the agent's home subnet is not registered.", registration(home="F"), refused()),
    should("not-home-subnet-status", "10.3.1", "A home address that is not of the agent's home subnet is denied with status 132.",
           registration(home="F"), whole_ack(132, sequence=1, route="F", home="F", lifetime=at_most(65535))),
    must("not-served", "10.3.1", "A mobile that the agent does not serve is not registered.", registration(home="N"), refused(), plain(destination="N"), nothing()),
    should("not-served-status", "10.3.1", "A mobile that the agent does not serve is told so, with status 133.", registration(home="N"), ack(133)),
    must("denied-sequence", "9.5.4", "A denial has the sequence number of its update.", registration(sequence=9, home="N"), one(nothing(), ack(denied, sequence=9))),
    must("denied-way", "9.5.4", "A denial goes to the source of its update, with a routing header that names the home.",
         registration(home="N"), one(nothing(), ack(denied, destination="A", route="N"))),
    must("care-of-multicast", "6.1.7", "A care-of address that is a multicast address is not registered.", fresh("H"), registration(alternate="ff02::1"), refused(), plain(), nothing(), options=NEVER),
    must("care-of-link-local", "6.1.7", "A care-of address that is link-local is not registered.", fresh("H"), registration(alternate="fe80::77"), refused(), plain(), nothing(), options=NEVER),
    must("care-of-loopback", "6.1.7", "A care-of address that is the loopback address is not registered.", fresh("H"), registration(alternate="::1"), refused(), plain(), nothing(), options=NEVER),
    must("care-of-unspecified", "6.1.7", "A care-of address that is the unspecified address is not registered.", fresh("H"), registration(alternate="::"), refused(), plain(), nothing(), options=NEVER),
    must("care-of-home-link", "6.1.8", "A care-of address of the agent's own link is denied with status 174.",
         fresh("H"), registration(alternate="N"), ack(174), ours=True, options=NEVER),
    must("sequence-equal", "9.5.1", "A registration with the sequence number of the one before is denied with status 135.", fresh("H"), registration(sequence=5), answered(), registration(sequence=5), ack(135)),
    must("sequence-older", "9.5.1", "A registration with an earlier sequence number is denied with status 135.", fresh("H"), registration(sequence=5), answered(), registration(sequence=4), ack(135)),
    must("sequence-carried", "9.5.1", "A denial with status 135 carries the last sequence number that was accepted.",
         fresh("H"), registration(sequence=9), answered(), registration(sequence=4), ack(135, sequence=9)),
    must("sequence-behind", "9.5.1", "A sequence number that is 32768 ahead is an earlier one.", fresh("H"), registration(sequence=1), answered(), registration(sequence=32769), ack(135)),
    must("sequence-ahead", "9.5.1", "A sequence number that is 32767 ahead is later.", fresh("H"), registration(sequence=1), answered(), registration(sequence=32768), ack(accepted)),
    must("sequence-around", "9.5.1", "Sequence numbers go round: each of three that are 32767 apart is later than the one before.",
         fresh("H"), registration(sequence=1), ack(accepted), registration(sequence=32768), ack(accepted), registration(sequence=65535), ack(accepted)),
    must("sequence-old-changes-nothing", "9.5.1", "A registration with an old sequence number changes nothing.",
         fresh("H"), registration(sequence=5), answered(), registration(sequence=5, source="B"), answered(), plain(), tunnel("A")),
    must("unprotected", "5.1", "A registration that is not protected registers nothing.", fresh("H"), registration(shield=None), refused(), plain(), nothing(), options=NEVER),
    must("protected-by-another", "5.1", "A registration that is protected by another mobile registers nothing.", fresh("H"), registration(shield=("H2", "G")), refused(), plain(), nothing(), options=NEVER),
    must("unprotected-deregistration", "5.1", "A deregistration that is not protected ends nothing.", fresh("H"), registered(), deregistration(shield=None), refused(), plain(), tunnel("A")),
    must("unprotected-move", "5.1", "A registered mobile is not moved by an update that is not protected.",
         fresh("H"), registered(), registration(sequence=2, source="B", shield=None), refused(), plain(), tunnel("A")),
    must("home-flag-missing", "9.5.1", "An update without flag H and without authorization is dropped in silence, and registers nothing.",
         fresh("H"), registration(flags="A"), nothing(), plain(), nothing(), options=NEVER),
)

TUNNELS = (
    must("tunnel", "10.4.2", "What comes for a registered home goes into a tunnel from the agent to the care-of address.", fresh("H"), registered(), plain(), tunnel("A", source="G")),
    must("tunnel-contents", "10.4.2", "The tunnel carries the packet as it came, its hop limit one less.", fresh("H"), registered(), plain(), tunnel(carried=lowered)),
    must("tunnel-hop-limit-2", "10.4.2", "A packet with hop limit 2 still goes into the tunnel.", fresh("H"), registered(), plain(hop=2), tunnel(carried=lowered)),
    must("tunnel-hop-limit-1", "10.4.2", "A packet with hop limit 1 goes into no tunnel.", fresh("H"), registered(), plain(hop=1), one(nothing(), Expect("exceeded", {"destination": "P"}, is_lax=True))),
    must("tunnel-echo", "10.4.1", "The agent does not answer an echo request for a mobile: it goes into the tunnel.", fresh("H"), registered(), echo(), tunnel(carried=lowered)),
    must("tunnel-no-next-header", "10.4.2", "A packet without a next header goes into the tunnel.", fresh("H"), registered(), plain(proto=packets.NONE, body=b""), tunnel(carried=lowered)),
    must("tunnel-long", "10.4.2", "A packet of 1,200 bytes goes into the tunnel.", fresh("H"), registered(), plain(body=bytes(range(256)) * 4 + bytes(136)), tunnel(carried=lowered)),
    must("tunnel-option", "10.4.2", "A packet with a Home Address option of somebody else goes into the tunnel as it is.", fresh("H"), registered(), plain(option="Q"), tunnel(carried=lowered)),
    must("tunnel-message", "10.4.2", "A mobility message for a mobile goes into the tunnel, and the agent does not look at its checksum.",
         fresh("H"), registered(), message(packets.test_init("coti", b"a cookie"), after={5: 1}), tunnel(carried=lowered)),
    should("home-test-protected", "10.4.6", "A Home Test for a mobile goes through a protected tunnel.", fresh("H"), registered(), home_test(), tunnel(shield=("G", "H"))),
    must("home-test-tunnelled", "10.4.6", "A Home Test for a mobile is tunnelled to it.", fresh("H"), registered(), home_test(), tunnel(carried=lowered)),
    must("not-registered", "10.4.1", "What comes for a home that is not registered goes nowhere.", fresh("H"), plain(), nothing(), options=NEVER),
)

REVERSE = (
    must("reverse", "10.4.5", "What a mobile sends through its reverse tunnel goes on to its destination.", fresh("H"), registered(), back(plain("H", "P")), out(source="H", destination="P")),
    must("reverse-contents", "10.4.5", "The packet of a reverse tunnel goes on as it is.", fresh("H"), registered(), back(plain("H", "P", proto=packets.NONE, body=b"", hop=3)), out("none")),
    must("reverse-source", "10.4.5", "A tunnel whose source is not the registered care-of address is not opened.", fresh("H"), registered(), back(plain("H", "P"), source="B"), nothing()),
    must("reverse-moved", "10.4.5", "A tunnel from the care-of address before the last is not opened.", fresh("H"), registered(), registered("B", sequence=2), back(plain("H", "P")), nothing()),
    must("reverse-stranger", "10.4.5", "A tunnel with a packet of somebody who is no mobile of the agent is not opened.", fresh("H"), registered(), back(plain("Q", "P")), nothing()),
    must("reverse-other-home", "10.4.5", "A mobile cannot send through its tunnel in another mobile's name.",
         fresh("H", "H2"), registered(), registered("B", "H2"), back(plain("H2", "P")), nothing()),
    must("reverse-not-registered", "10.4.5", "A tunnel of a mobile that is not registered is not opened.", fresh("H"), back(plain("H", "P")), nothing(), options=NEVER),
    must("reverse-deregistered", "10.4.5", "A tunnel of a mobile that has deregistered is not opened.", fresh("H"), registered(), deregistered(), back(plain("H", "P")), nothing()),
    must("reverse-cut", "10.4.5", "A tunnel with a front of a packet is not opened.", fresh("H"), registered(), back(plain("H", "P"), cut=30), one(nothing(), Expect("problem", {}, is_lax=True))),
    must("reverse-home-test-init", "10.4.6", "A Home Test Init of a protected reverse tunnel goes on to the correspondent.",
         fresh("H"), registered(), back(home_test_init(), shield=("H", "G")), out("hoti")),
    should("reverse-unprotected", "10.4.6", "A Home Test Init of a reverse tunnel that is not protected goes nowhere.", fresh("H"), registered(), back(home_test_init()), nothing()),
    should("reverse-protected-by-another", "10.4.6", "A Home Test Init of a reverse tunnel that is protected by another mobile goes nowhere.",
           fresh("H"), registered(), back(home_test_init(), shield=("H2", "G")), nothing()),
    must("reverse-to-a-mobile", "10.4.5", "What a mobile sends to another mobile goes on to its home, or straight into its tunnel.",
         fresh("H", "H2"), registered(), registered("B", "H2"), back(plain("H", "H2")), one(out(), tunnel("B"))),
)

DEREGISTRATIONS = (
    must("deregistered", "10.3.2", "A deregistration is acknowledged with status 0.", fresh("H"), registered(), deregistration(), ack(0)),
    must("deregistered-lifetime", "10.3.2", "The lifetime in the acknowledgement of a deregistration is 0.", fresh("H"), registered(), deregistration(), ack(lifetime=0)),
    must("deregistered-way", "9.5.4", "The acknowledgement of a deregistration goes to the home address, without a routing header, and is protected.",
         fresh("H"), registered(), deregistration(sequence=4), ack(sequence=4, source="G", destination="H", route=None, shield=("G", "H"))),
    must("deregistered-tunnel", "10.3.2", "After a deregistration nothing more is tunnelled.", fresh("H"), registered(), deregistered(), plain(), nothing()),
    must("deregistered-by-address", "10.3.2", "An update whose care-of address is the home address is a deregistration.",
         fresh("H"), registered(), deregistration(lifetime=900), ack(accepted, lifetime=0), plain(), nothing()),
    must("deregistered-by-alternate", "10.3.2", "An update from elsewhere whose Alternate Care-of Address is the home address is a deregistration.",
         fresh("H"), registered(), registration(sequence=2, alternate="H"), answered(), plain(), nothing()),
    must("deregistered-away", "9.5.4", "A deregistration from the care-of address is acknowledged there, with a routing header.",
         fresh("H"), registered(), registration(sequence=2, lifetime=0), ack(0, destination="A", route="H"), plain(), nothing()),
    must("deregistered-old", "9.5.1", "A deregistration with an old sequence number is denied with 135 and ends nothing.",
         fresh("H"), registration(sequence=5), answered(), deregistration(sequence=5), ack(135), plain(), tunnel("A")),
    must("registered-again", "10.3.1", "A mobile that has deregistered can register again.", fresh("H"), registered(), deregistered(), registration(sequence=3, source="B"), ack(accepted), plain(), tunnel("B")),
    must("deregistered-alone", "10.3.2", "A deregistration ends the registration of its own home alone.",
         fresh("H", "H2"), registered(), registered("B", "H2"), deregistered(), plain(destination="H2"), tunnel("B")),
    must("not-registered-deregistration", "10.3.2", "The deregistration of a home that is not registered is answered with 133, or as one that was accepted.",
         fresh("H"), deregistration(), one(ack(133), ack(0)), options=NEVER),
    must("sequence-kept", "5.1", "A sequence number is kept beyond a deregistration.", fresh("H"), registered(sequence=5), deregistered(sequence=6), registration(sequence=6), ack(135), ours=True),
)

DISCOVERY = (
    must("discovery", "10.5.1", "A discovery request to the home-agents anycast address is answered by a reply with its identifier.", discovery(), agents(identifier=4711)),
    must("discovery-itself", "10.5.1", "A discovery reply names the agent itself.", discovery(), agents(agents=itself)),
    must("discovery-source", "10.5.1", "A discovery reply comes from the agent's own address.", discovery(), agents(source="G")),
    must("discovery-identifier", "10.5.1", "The greatest and the least identifier are returned.", discovery(65535), agents(identifier=65535), discovery(0), agents(identifier=0)),
    must("discovery-reserved", "6.5", "Reserved bits of a discovery request have no effect.", discovery(reserved=b"\xff\xff"), agents(identifier=4711)),
    must("discovery-checksum", "6.5", "A discovery request with a wrong checksum is dropped in silence.", discovery(spoiled=True), nothing()),
    must("prefixes", "10.6.2", "A prefix solicitation of a registered mobile is answered by a prefix advertisement with its identifier.",
         fresh("H"), registered(), solicitation(), prefixes(identifier=4711)),
    must("prefixes-way", "10.6.2", "A prefix advertisement goes from the agent to the care-of address, with a routing header that names the home.",
         fresh("H"), registered(), solicitation(), prefixes(source="G", route="H")),
    must("prefixes-contents", "10.6.2", "A prefix advertisement tells the home subnet prefix.", fresh("H"), registered(), solicitation(), prefixes(length=64, valid=some)),
    should("prefixes-protected", "6.8", "A prefix advertisement is protected.", fresh("H"), registered(), solicitation(), prefixes(shield=("G", "H"))),
    should("solicitation-unprotected", "6.7", "A prefix solicitation that is not protected is not answered.", fresh("H"), registered(), solicitation(shield=None), nothing()),
    must("solicitation-checksum", "6.7", "A prefix solicitation with a wrong checksum is dropped in silence.", fresh("H"), registered(), solicitation(spoiled=True), nothing()),
    must("solicitation-not-registered", "9.3.1", "A prefix solicitation of a mobile that is not registered is not answered by an advertisement.",
         fresh("H"), solicitation(), one(binding_error(1, "H", "A"), nothing()), options=NEVER),
    must("option-unbound", "9.3.1", "Data with a Home Address option that names a home without a registration is answered by a Binding Error with status 1.",
         fresh("H"), plain("A", "G", proto=packets.NONE, body=b"", option="H"), binding_error(1, "H", "A"), options=NEVER),
    must("option-elsewhere", "9.3.1", "Data with a Home Address option from another address than the care-of address is answered by a Binding Error with status 1.",
         fresh("H"), registered(), plain("B", "G", proto=packets.NONE, body=b"", option="H"), binding_error(1, "H", "B")),
    must("option-bound", "9.3.1", "Data with a Home Address option from the registered care-of address is no error.",
         fresh("H"), registered(), plain("A", "G", proto=packets.NONE, body=b"", option="H"), nothing()),
    must("routing-header", "6.4", "An agent sends no packet on by a type 2 routing header.", fresh("H"), plain("P", "G", proto=packets.NONE, body=b"", route="H"),
         one(nothing(), Expect("problem", {}, is_lax=True)), options=NEVER),
)

EXPIRY = (
    must("expired-tunnel", "10.3.1", "When its time is over a registration is gone: nothing more is tunnelled, until the mobile registers again.",
         fresh("H"), registration(lifetime=1), answered(), wait(5), plain(), nothing(), registration(sequence=2), ack(accepted), plain(), tunnel("A"), is_slow=True, options={"home": 4}),
    must("expired-reverse", "10.4.5", "When its time is over a registration is gone: its reverse tunnel is not opened.",
         fresh("H"), registration(lifetime=1), answered(), wait(5), back(plain("H", "P")), nothing(), is_slow=True, options={"home": 5}),
    must("not-yet-expired", "10.3.1", "A registration of 8 s stands after 5 s.",
         fresh("H"), registration(lifetime=2), ack(accepted, lifetime=2), wait(5), plain(), tunnel("A"), is_slow=True, options={"home": 6}),
    must("renewed-in-time", "10.3.1", "A renewed registration stands when the time of the first is over.",
         fresh("H"), registration(lifetime=1), answered(), wait(2), registration(sequence=2, lifetime=900), answered(), wait(4), plain(), tunnel("A"), is_slow=True, options={"home": 7}),
    must("shortened", "10.3.1", "A renewed registration with a shorter lifetime ends by it.",
         fresh("H"), registered(), registration(sequence=2, lifetime=1), answered(), wait(5), plain(), nothing(), is_slow=True, options={"home": 3}),
)

CASES = REGISTRATIONS + DENIALS + TUNNELS + REVERSE + DEREGISTRATIONS + DISCOVERY + EXPIRY


def home(number):
    """One of the homes that the agent serves, 2001:db8:1::71 to ::78 where the agent is 2001:db8:1::1."""
    return (0x71 + number % HOMES).to_bytes(8, "big")


def addresses(number, run, own):
    """Homes are those that the agent serves; the other addresses are a case's own, and others in another run of the kit. What comes to them belongs to the case that is under way; a
    slow one, which waits while others are under way, has names for them that are its own."""
    tail = b"\2" + run + number.to_bytes(2, "big")
    at = lambda link, more=0: packets.packed(f"2001:db8:{link}::")[:8] + bytes([more]) + tail
    case = CASES[number] if number < len(CASES) else None
    found = {
        "G": own, "ANY": own[:8] + bytes.fromhex("fdfffffffffffffe"), "H": own[:8] + home(case.options.get("home", 0) if case else 0), "H2": own[:8] + home(1),
        "N": own[:8] + b"\1" + tail[1:] + b"\1", "F": packets.packed("2001:db8:9::77"), "A": at(3), "B": at(4), "P": at(2), "Q": at(2, 1), "Z": at(6)}
    return found | ({f"its {it}": found[it] for it in ("H", "A", "B", "P", "Q", "Z")} if case and case.is_slow else {})


def barrier(env):
    """A discovery request from an address that stands for nothing else."""
    source, identifier = env.address("Z"), secrets.randbelow(65536)
    packet, shield = discovery(identifier, source="Z").make(env)
    return packet, shield, lambda it: it[24:40] == source and it[44:46] == identifier.to_bytes(2, "big")


def hello(env):
    """An echo request, which any host answers."""
    yield echo("Z", "G").make(env)[0]


def configuration(port, kit, own, _):
    lines = ["mip 1", f"seed {secrets.token_hex(32)}", "self 0", f"port {port}", f"default {kit}", f"agent {own.hex()} 10 1800 16"]
    return lines + [f"serve {(own[:8] + home(number)).hex()}" for number in range(HOMES)]


NAMES = ("G", "ANY", "H", "H2", "N", "F", "A", "B", "P", "Q", "Z")
ROLE = Role("agent", "G", "2001:db8:1::1", CASES, addresses, configuration, barrier, hello, shared=NAMES)
