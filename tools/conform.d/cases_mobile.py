"""Cases of a mobile node."""
import secrets

import cases
import packets
from cases import at_most, between, nothing, one
from roles import Role
from steps_mobile import (
    AtHome, Comes, Hurries, Probes, Registers, ahead_of, answer, arrives, backs_off, binding_error, bound, careof_test, coti_seen, data_in, has, has_not, home_ack, home_bu, home_test, hoti_seen,
    indices_of, inits, inside, later, message, no_probing, no_update, other_cookie, peer_ack, peer_bu, pending, probing, refresh_request, sealed, some, stays)

AGAIN = between(0.7, 3.0)  # s until a message without an answer is sent again: 1 s, or 1.5 s for a first registration, on a machine that may be busy
SILENT = 1.8  # s in which it would have been sent again
PEERS = 6
INITS = ("tunnel", "coti", "hoti")  # that are sent again while a test is missing


def must(name, section, says, *steps, **more):
    """A case between two stays at home, at which nothing of an earlier case is left."""
    return cases.must(name, section, says, AtHome(), *steps, AtHome(is_last=True), **more)


def should(name, section, says, *steps, **more):
    return cases.should(name, section, says, AtHome(), *steps, AtHome(is_last=True), **more)


REGISTRATION = (
    must("registration", "11.7.1", "On a foreign link the mobile sends its home agent an update with flags A and H.", arrives(), home_bu(flags=has("A", "H"))),
    must("registration-source", "11.7.1", "The source of the update is the care-of address, and its Home Address option names the home address.", arrives(), home_bu(source="A", option="H")),
    must("registration-alternate", "11.7.1", "The update has an Alternate Care-of Address option with the care-of address.", arrives(), home_bu(alternate="A")),
    must("registration-protected", "11.7.1", "The update is protected.", arrives(), home_bu(shield=("H", "G"))),
    must("registration-lifetime", "11.7.1", "The update asks for a lifetime.", arrives(), home_bu(lifetime=some)),
    should("resent", "11.8", "An update that is not acknowledged is sent again after 1 to 1.5 s.", arrives(), home_bu(), home_bu(seconds=AGAIN, patience=2), is_slow=True),
    must("resent-sequence", "11.8", "An update that is sent again has a later sequence number.", arrives(), home_bu(), home_bu(sequence=later("G"), patience=2)),
    must("resent-later", "11.8", "The time until an update is sent again doubles.", arrives(), home_bu(), home_bu(patience=2), home_bu(seconds=backs_off, patience=5), is_slow=True),
    must("acknowledged", "11.7.3", "An update that is acknowledged with status 0 is not sent again.", arrives(), home_bu(), home_ack(), no_update(SILENT, "G")),
    must("acknowledged-1", "6.1.8", "Status 1 is an acceptance too: the update is not sent again.", arrives(), home_bu(), home_ack(1), no_update(SILENT, "G"), is_slow=True),
    must("acknowledged-sequence", "11.7.3", "An acknowledgement with another sequence number than the last update's does not count: the update is sent again.",
         arrives(), home_bu(), home_ack(ahead=7), home_bu(patience=2)),
    must("acknowledged-unprotected", "5.1", "An acknowledgement of the home agent that is not protected does not count: the update is sent again.",
         arrives(), home_bu(), home_ack(shield=None), home_bu(patience=2)),
    must("acknowledged-stranger", "11.7.3", "An acknowledgement of somebody else does not count: the update is sent again.", arrives(), home_bu(), home_ack(source="X", shield=None), home_bu(patience=2), is_slow=True),
    must("acknowledged-checksum", "9.2", "An acknowledgement with a wrong checksum does not count: the update is sent again.",
         arrives(), home_bu(), home_ack(after={4: 0x12, 5: 0x34}), home_bu(patience=2), is_slow=True),
    should("refused", "11.7.3", "An update that is refused with status 129 is not sent again at once.", arrives(), home_bu(), home_ack(129, lifetime=0), no_update(SILENT, "G"), is_slow=True),
    must("sequence-out", "11.7.3", "After status 135 the mobile sends an update with a sequence number that is later than that of the acknowledgement.",
         arrives(), home_bu(), home_ack(135, ahead=1000, lifetime=0), home_bu(sequence=ahead_of("G", 1000), patience=1)),
    must("moved", "11.5.3", "On another foreign link the mobile registers its new care-of address.", Registers("A"), arrives("B"), home_bu(source="B", option="H", alternate="B")),
    must("moved-sequence", "11.7.1", "The update of another link has a later sequence number.", Registers("A"), arrives("B"), home_bu(sequence=later("G"))),
    should("stays", "11.5.1", "The router that advertises itself again is no reason to register.", Registers("A"), stays(), no_update(to="G")),
    should("renewed", "11.7.1", "A registration of 8 s is renewed before its end.", Registers("A", lifetime=2), home_bu(lifetime=some, seconds=between(1, 8.5), patience=8), is_slow=True),
)

HOME = (
    must("home", "11.5.5", "At home the mobile deregisters: an update with flags A and H and lifetime 0.", Registers("A"), arrives("H"), home_bu(flags=has("A", "H"), lifetime=0)),
    must("home-source", "11.5.5", "The source of the deregistration is the home address, without a Home Address option.", Registers("A"), arrives("H"), home_bu(source="H", option=None)),
    must("home-protected", "11.5.5", "The deregistration is protected.", Registers("A"), arrives("H"), home_bu(shield=("H", "G"))),
    must("home-sequence", "11.7.1", "The deregistration has a later sequence number.", Registers("A"), arrives("H"), home_bu(sequence=later("G"))),
    should("home-resent", "11.8", "A deregistration that is not acknowledged is sent again.", Registers("A"), arrives("H"), home_bu(), home_bu(lifetime=0, seconds=AGAIN, patience=2), is_slow=True),
    must("home-acknowledged", "11.7.3", "A deregistration that is acknowledged is not sent again.", Registers("A"), arrives("H"), home_bu(), home_ack(lifetime=0), no_update(SILENT, "G")),
    must("home-sequence-out", "11.7.3", "After status 135 the mobile deregisters with a sequence number that is later than that of the acknowledgement.",
         Registers("A"), arrives("H"), home_bu(), home_ack(135, ahead=1000, lifetime=0), home_bu(lifetime=0, sequence=ahead_of("G", 1000), patience=1)),
    should("home-bindings", "11.7.2", "At home the mobile ends its bindings: it asks for a home test, straight.",
           bound(), arrives("H"), home_bu(), home_ack(lifetime=0), Comes("hoti", {"source": "H", "destination": "P", "shield": None}), home_test(), peer_bu(), peer_ack(lifetime=0)),
    must("home-bindings-update", "11.7.2", "The update that ends a binding comes from the home address, has lifetime 0 and the home test's authenticator.",
         bound(), arrives("H"), home_bu(), home_ack(lifetime=0), Probes(only_home=True), home_test(),
         peer_bu(source="H", option=None, lifetime=0, nonces=indices_of("home"), bytes=sealed), peer_ack(lifetime=0)),
)

ROUTABILITY = (
    must("home-test-init", "11.6.1", "A Home Test Init goes from the home address to the peer, through the reverse tunnel.",
         Registers(), data_in(), hoti_seen(source="A", destination="G", inner={"source": "H", "option": None}), ignores=("coti",)),
    should("home-test-init-protected", "5.2.5", "A Home Test Init is protected in its tunnel.", Registers(), data_in(), hoti_seen(shield=("H", "G")), ignores=INITS),
    must("care-of-test-init", "11.6.1", "A Care-of Test Init goes from the care-of address to the peer, straight.",
         Registers(), data_in(), coti_seen(source="A", option=None, route=None, shield=None), ignores=INITS),
    must("cookies", "5.2.5", "The cookies of both test inits are different ones.", Registers(), data_in(), inits(cookie=other_cookie), ignores=INITS),
    must("cookies-new", "5.2.5", "Return routability that begins anew has new cookies.",
         pending(), peer_ack(136, lifetime=0, seal=""), hoti_seen(inner={"cookie": other_cookie}), ignores=INITS),
    should("test-inits-resent", "11.8", "Test inits that are not answered are sent again after a second.",
           Registers(), data_in(), Probes(), inits(patience=2), is_slow=True),
    must("home-test-alone", "11.6.2", "A Home Test alone makes no update.", probing(), home_test(), no_update()),
    must("care-of-test-alone", "11.6.2", "A Care-of Test alone makes no update.", probing(), careof_test(), no_update()),
    must("update", "11.7.2", "With both tests the mobile sends the peer an update from its care-of address, with a Home Address option and without flag H.",
         probing(), home_test(), careof_test(), peer_bu(source="A", option="H", flags=has_not("H"), shield=None)),
    must("update-lifetime", "11.7.2", "The update of a peer asks for 420 s at most.", probing(), home_test(), careof_test(), peer_bu(lifetime=between(1, 105))),
    must("update-indices", "6.2.6", "The update of a peer has the nonce indices of both tests.", probing(), home_test(index=300), careof_test(index=77), peer_bu(nonces=indices_of("home", "careof"))),
    must("update-authentic", "5.2.6", "The authenticator of the update is that of both tokens.", probing(), home_test(), careof_test(), peer_bu(bytes=sealed)),
    must("home-test-cookie", "11.6.2", "A Home Test with another cookie is dropped.", probing(), careof_test(), home_test(spoiled=True), no_update()),
    must("care-of-test-cookie", "11.6.2", "A Care-of Test with another cookie is dropped.", probing(), home_test(), careof_test(spoiled=True), no_update()),
    must("home-test-straight", "11.6.2", "A Home Test that did not come through the agent's tunnel is dropped.", probing(), careof_test(), home_test(straight=True), no_update()),
    must("care-of-test-tunnelled", "11.6.2", "A Care-of Test that came through the agent's tunnel is dropped.", probing(), home_test(), careof_test(in_tunnel=True), no_update()),
    must("home-test-stranger", "11.6.2", "A Home Test of another node is dropped.", probing(), careof_test(), home_test(source="Q"), no_update()),
    must("care-of-test-stranger", "11.6.2", "A Care-of Test of another node is dropped.", probing(), home_test(), careof_test(source="Q"), no_update()),
    must("home-test-checksum", "9.2", "A Home Test with a wrong checksum is dropped.", probing(), careof_test(), home_test(after={4: 1, 5: 2}), no_update()),
    should("home-test-unprotected", "5.2.5", "A Home Test in a tunnel that is not protected is dropped.", probing(), careof_test(), home_test(shield=None), no_update()),
    must("home-test-tunnel-stranger", "11.6.2", "A Home Test in a tunnel that is not the agent's is dropped.",
         probing(), careof_test(), home_test(outer="X", shield=None), no_update()),
    should("tunnel-stranger", "11.3.3", "Data in a tunnel that is not the agent's is no reason to begin return routability.", Registers(), data_in(outer="X"), no_probing()),
)

BINDINGS = (
    should("update-resent", "11.8", "An update of a peer that is not acknowledged is sent again after a second.", pending(), peer_bu(seconds=AGAIN, patience=2), is_slow=True),
    must("update-resent-sequence", "11.8", "It then has a later sequence number and the authenticator of its own.", pending(), peer_bu(sequence=later("P"), bytes=sealed, patience=2)),
    must("update-resent-later", "11.8", "The time until an update of a peer is sent again doubles.", pending(), peer_bu(patience=2), peer_bu(seconds=backs_off, patience=4), is_slow=True),
    must("bound", "11.7.3", "An update of a peer that is acknowledged is not sent again.", bound(), no_update(SILENT)),
    must("bound-not-authentic", "11.7.3", "An acknowledgement of a peer with a wrong authenticator does not count: the update is sent again.", pending(), peer_ack(seal="wrong"), peer_bu(patience=2)),
    must("bound-no-authenticator", "11.7.3", "An acknowledgement of a peer without an authenticator does not count: the update is sent again.", pending(), peer_ack(seal=""), peer_bu(patience=2)),
    must("bound-sequence", "11.7.3", "An acknowledgement of a peer with another sequence number does not count: the update is sent again.", pending(), peer_ack(ahead=3), peer_bu(patience=2), is_slow=True),
    must("bound-stranger", "11.7.3", "An acknowledgement of another node does not count: the update is sent again.", pending(), peer_ack(source="Q"), peer_bu(patience=2), is_slow=True),
    must("peer-sequence-out", "11.7.3", "After status 135 of a peer its next update has a sequence number that is later than that of the acknowledgement.",
         pending(), peer_ack(135, ahead=1000, lifetime=0), peer_bu(sequence=ahead_of("P", 1000), bytes=sealed, patience=1)),
    should("home-nonce", "11.7.3", "After status 136 of a peer return routability begins anew.", pending(), peer_ack(136, lifetime=0, seal=""), inits()),
    should("care-of-nonce", "11.7.3", "After status 137 of a peer return routability begins anew.", pending(), peer_ack(137, lifetime=0, seal=""), inits()),
    should("both-nonces", "11.7.3", "After status 138 of a peer return routability begins anew.", pending(), peer_ack(138, lifetime=0, seal=""), inits()),
    should("peer-refused", "11.7.3", "An update that a peer refuses with status 130 is not sent again at once.", pending(), peer_ack(130, lifetime=0), no_update(SILENT), is_slow=True),
    must("update-rate", "11.8", "A peer gets three updates a second at most.", probing(), home_test(), careof_test(), Hurries()),
    should("refresh", "11.7.4", "A Binding Refresh Request of a bound peer makes return routability begin anew.", bound(), refresh_request(), inits(cookie=other_cookie)),
    must("refresh-stranger", "11.7.4", "A Binding Refresh Request of a node without a binding is dropped.", bound(), refresh_request("Q"), no_probing()),
    should("binding-error", "11.3.6", "After a Binding Error with status 1 the binding is gone: data through the tunnel makes return routability begin anew.",
           bound(), binding_error(), data_in(), inits()),
    should("binding-error-home", "11.3.6", "A Binding Error that names another home address ends no binding.", bound(), binding_error(home="X"), data_in(), no_probing()),
    should("binding-error-stranger", "11.3.6", "A Binding Error of another node ends no binding.", bound(), binding_error(source="Q"), data_in(), no_probing()),
    should("binding-renewed", "11.7.2", "A binding of 8 s is renewed before its end.", pending(), peer_ack(lifetime=2), inits(patience=8), is_slow=True),
)

OTHERS = (
    must("message-unknown", "9.2", "A mobility message of an unknown type is answered by a Binding Error with status 2.",
         Registers(), message(packets.message(99, bytes(10))), one(*answer("be", status=2, destination="P"))),
    should("payload-proto", "9.2", "A mobility message whose Payload Proto is not 59 is answered by a Parameter Problem that points at it.",
           Registers(), message(packets.with_options(bytes([6, 1, 2, 0, 0, 0]), (bytes(10),))), one(*answer("problem", code=0, pointer=40, destination="P"))),
    should("header-length", "9.2", "A mobility message whose Header Len is too small for its type is answered by a Parameter Problem that points at it.",
           Registers(), message(bytes([59, 0, 3, 0, 0, 0, 0, 0])), one(*answer("problem", code=0, pointer=41, destination="P"))),
    must("checksum", "9.2", "A mobility message with a wrong checksum is dropped in silence.",
         Registers(), message(packets.test_init("coti", b"a cookie"), after={4: 1, 5: 2}), nothing()),
    should("correspondent", "9.4.2", "A mobile answers a Care-of Test Init as any node does.",
           Registers(), message(packets.test_init("coti", b"a cookie")), one(*answer("cot", destination="P"))),
    must("routing-header", "6.4", "A packet with a routing header that names another address than the home address is dropped.",
         Registers(), message(packets.test_init("coti", b"a cookie"), route="X"), one(nothing(), *answer("problem"))),
    must("home-option", "9.3.1", "A packet with a Home Address option of a node without a binding is answered by a Binding Error with status 1.",
         Registers(), message(packets.message(0, bytes(2)), option="Q"), one(*answer("be", status=1, destination="P", home="Q"))),
    must("tunnel-in-tunnel", "11.3.3", "Data in two tunnels, one in the other, is no reason to begin return routability.",
         Registers(), cases.Send("data from P to H in two tunnels", lambda env: (inside(env, inside(env, data_in().make(env)[0])), None)), no_probing(), ours=True),
)

CASES = REGISTRATION + HOME + ROUTABILITY + BINDINGS + OTHERS


def addresses(number, _run, own):
    """Nearly the same in each case: a mobile is at one place at a time, and has room for some peers alone. They are several, as a mobile may send a peer three updates a second."""
    at = lambda link, number=0: packets.packed(f"2001:db8:{link}::{number:x}")
    care = lambda link: at(link)[:8] + own[8:]
    return {"H": own, "G": own[:8] + (1).to_bytes(8, "big"), "A": care(3), "B": care(4), "P": at(2, 0x10 + number % PEERS), "Q": at(2, 3), "X": at(5, 0x99), "Z": at(6, 0x88)}


def barrier(env):
    """A Home Test Init, which a mobile answers as a correspondent: at home, or through its tunnel where it is registered."""
    cookie, source = secrets.token_bytes(8), env.address("Z")
    init = packets.packet(source, env.address("H"), packets.MOBILITY, packets.summed(source, env.address("H"), packets.MOBILITY, packets.test_init("hoti", cookie), 4))
    if env.more.get("at") == "H":
        return init, None, lambda it: it[24:40] == source and it[48:56] == cookie
    if not env.more.get("is registered"):
        return None
    return inside(env, init), (env.address("G"), env.address("H")), lambda it: it[6] == packets.TUNNEL and it[64:80] == source and it[88:96] == cookie


def hello(env):
    """The mobile comes home, where it answers a Home Test Init."""
    yield arrives("H").make(env)[0]
    yield barrier(env)[0]


def configuration(port, kit, own, _):
    agent = own[:8] + (1).to_bytes(8, "big")
    return ["mip 1", f"seed {secrets.token_hex(32)}", "self 0", f"port {port}", f"default {kit}", f"mobile {own.hex()} {agent.hex()}"]


NAMES = ("H", "G", "A", "B", "P", "Q", "X", "Z")
ROLE = Role("mobile", "H", "2001:db8:1::77", CASES, addresses, configuration, barrier, hello, ignores=("bu", "hoti"), shared=NAMES, is_exclusive=True, at_one_node=1)
