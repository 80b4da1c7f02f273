"""Cases of a correspondent node."""
import secrets

import packets
import tokens
from cases import Expect, Word, again, anything, ba, be, between, bu, cot, coti, data, denied, flat, hot, hoti, lax, must, nothing, ok, one, one_of, problem, raw, should, tests, wait
from roles import Role
from steps_correspondent import bu_behind, counted, echo, filled, message_of, place, resealed, sealed_with, spelled_zero, talk, tiny, update_for, update_of_another_proto, with_option, without

UNKNOWN = 60000  # a nonce index that no node has given
OLD = one_of(136, 137, 138)  # a nonce that is no longer taken
PASSED_OVER, DISCARDED, TOLD, TOLD_ONCE = 0x1E, 0x5E, 0x9E, 0xDE  # unknown destination options, by what RFC 8200 section 4.2 says of their two highest bits

# what shows whether the device has the binding of H to A
bound = (data(), nothing())
unbound = (data(), lax(Expect("be", {"status": 1})))
bind = (tests(), bu(), ok())
delete = bu(sequence=2, lifetime=0, careof_test=None)
# the answers to what is no packet for the device: nothing, or an error message of ICMPv6
dropped = one(nothing(), problem(anything, code=anything))
# an old update once more: it may be denied or passed over, but never accepted
refused = one(denied(one_of(135, 136, 137, 138), anything), nothing())


def another(name):
    """Another token than the one that is kept under this name."""
    return Word(f"another token than that of {name}", lambda value, env: value != env.tests[name][1])


def same_by_index(name):
    """The token that is kept under this name, where its index is the same."""
    return Word(f"the token of {name}", lambda value, env: value == env.tests[name][1])


TESTS = (
    must("home-test", "9.4.1", "A Home Test Init is answered by a Home Test with its cookie, to its source.", hoti(), hot(route=None, option=None)),
    must("care-of-test", "9.4.2", "A Care-of Test Init is answered by a Care-of Test with its cookie, to its source.", coti(), cot(route=None, option=None)),
    must("tokens-of-two-kinds", "5.2.5", "The home keygen token and the care-of keygen token of one address differ.",
         hoti("A", cookie="home"), hot("A"), coti(), cot(token=another("home"))),
    must("tokens-of-two-homes", "5.2.5", "The home keygen tokens of two addresses differ.",
         hoti(), hot(), hoti("H2", cookie="other"), hot("H2", "other", "other", token=another("home"))),
    must("tokens-of-two-places", "5.2.5", "The care-of keygen tokens of two addresses differ.",
         coti(), cot(), coti("B", cookie="other"), cot("B", "other", "other", token=another("careof"))),
    must("home-test-twice", "9.4.1", "A second Home Test Init is answered like the first, with its own cookie.", hoti(), hot(), hoti(cookie="other"), hot("H", "other")),
    must("home-test-with-option", "9.4.1", "A Home Test Init with a Home Address option is dropped in silence.", hoti("A", option="H"), nothing()),
    must("care-of-test-with-option", "9.4.2", "A Care-of Test Init with a Home Address option is dropped in silence.", coti(option="H"), nothing()),
    must("test-with-option-bound", "9.4.2", "A Care-of Test Init with a Home Address option is dropped in silence where the binding is held, too.",
         bind, coti(option="H"), nothing()),
    must("tests-bound", "9.3.2", "Tests go to the home address and to the care-of address, without a routing header, where a binding is held, too.",
         bind, hoti(), hot(route=None), coti(), cot(route=None)),
    must("test-reserved", "6.1.4", "The reserved fields of a Care-of Test Init are passed over.", coti(before={3: 0xFF, 6: 0xFF, 7: 0xFF}), cot()),
    must("test-option-unknown", "6.2.1", "A mobility option of an unknown type in a Care-of Test Init is skipped.", coti(options=(packets.option(77, bytes(6)),)), cot()),
    must("test-padded", "6.2.3", "Padding of any length and contents in a Home Test Init is passed over.",
         hoti(options=(b"\0", packets.option(1, b"\1\2\3"), b"\0\0", packets.option(1, bytes(14)))), hot()),
    must("checksum-zero", "6.1.1", "A checksum that comes out as zero is spelled so.", spelled_zero(b"\0\0"), cot()),
    should("checksum-ones", "6.1.1", "A checksum that comes out as zero may be spelled with all bits set, which is zero too in ones' complement.", spelled_zero(b"\xff\xff"), cot()),
)

RECEPTION = (
    must("checksum-test", "9.2", "A test init with a wrong checksum is dropped in silence.", coti(after={4: 0, 5: 1}), nothing()),
    must("checksum-update", "9.2", "An update with a wrong checksum is dropped in silence and changes nothing.", tests(), bu(after={4: 0, 5: 1}), nothing(), unbound),
    must("type-unknown", "9.2", "A mobility message of an unknown type is answered by a Binding Error with status 2, without a home address.", coti(before={2: 99}), be(2)),
    must("type-unknown-option", "9.3.3", "The Binding Error about a packet with a Home Address option names that address, and goes to the packet's source.",
         coti(before={2: 99}, option="H"), one(be(2, home="H"), be(1, home="H"))),
    must("type-unknown-bound", "9.3.3", "The Binding Error about an unknown type names the home address and goes to the packet's source where the binding is held, too.",
         bind, coti(before={2: 99}, option="H"), be(2, home="H", route=None)),
    must("proto-discarded", "9.2", "A test init whose Payload Proto is not 59 is not answered.", coti(before={0: 6}), dropped),
    should("proto-told", "9.2", "A Payload Proto other than 59 is answered by a Parameter Problem, code 0, that points at it.", coti(before={0: 6}), problem(40)),
    should("proto-told-option", "9.2", "The Parameter Problem about a Payload Proto goes to the packet's source, and points behind its extension headers.",
           raw(update_of_another_proto, "bu from A to C, home H, whose Payload Proto is 17"), problem(64, route=None)),
    must("length-discarded", "9.2", "A test init whose Header Len is below its least is not answered.", message_of("coti", b"\0\0", "coti of 8 bytes from A to C"), dropped),
    should("length-told", "9.2", "A Header Len below the least is answered by a Parameter Problem, code 0, that points at it.", message_of("coti", b"\0\0", "coti of 8 bytes from A to C"), problem(41)),
    should("length-told-update", "9.2", "A Binding Update of 8 bytes is answered by a Parameter Problem that points at its Header Len.",
           message_of("bu", b"\0\1", "bu of 8 bytes from A to C"), problem(41)),
    must("truncated-message", "6.1.1", "A message that ends before its Header Len says is not answered.", coti(cut=8), dropped),
    must("truncated-update", "6.1.1", "An update that ends before its Header Len says changes nothing.", tests(), bu(cut=8), dropped, unbound),
    must("truncated-field", "6.1.1", "A message of fewer than 8 bytes is not answered.", raw(tiny, "4 bytes of a mobility message from A to C"), dropped),
    must("data-unbound", "9.3.1", "Data with a Home Address option of which there is no binding is answered by a Binding Error with status 1 that names it.", data(), be(1, home="H")),
    must("data-unbound-udp", "9.3.1", "A datagram with a Home Address option of which there is no binding is answered by a Binding Error, and by nothing else.",
         data(proto=17, body=bytes.fromhex("000900090008") + bytes(2)), be(1, home="H")),
    must("data-unbound-icmp", "9.3.1", "An echo request with a Home Address option of which there is no binding is answered by a Binding Error, and by nothing else.",
         raw(lambda env: echo(env, "A", "H"), "echo from A to C, option H"), be(1, home="H")),
    must("data-bound", "9.3.1", "Data with the Home Address option of a held binding, from its care-of address, is taken.", bind, bound),
    must("data-other-place", "9.3.1", "Data with the Home Address option of a held binding from another address than its care-of address is answered by a Binding Error.",
         bind, data("B"), be(1, home="H", destination="B")),
    must("data-other-home", "9.3.1", "Data with another Home Address option than that of the binding is answered by a Binding Error that names it.",
         bind, data(option="H2"), be(1, home="H2")),
    must("data-from-home", "9.3.1", "Data from the home address, without an option, is taken.", data("H", option=None), nothing()),
    must("option-passed-over", "RFC 8200", "An unknown destination option whose highest bits are 00 is skipped.", with_option(PASSED_OVER), cot()),
    must("option-discards", "RFC 8200", "An unknown destination option whose highest bits are 01 has the packet discarded in silence.", with_option(DISCARDED), nothing()),
    must("option-told", "RFC 8200", "An unknown destination option whose highest bits are 10 or 11 has the packet discarded.", with_option(TOLD), dropped, with_option(TOLD_ONCE), dropped),
    must("routing-header", "6.4", "A test init with a type 2 routing header that names another node is not answered by a test.", coti(route="X"), dropped),
    should("test-unasked", "9.2", "A Home Test that nobody asked for is dropped in silence.", message_of("hot", bytes(18), "hot from A to C"), nothing()),
    should("acknowledgement-unasked", "9.2", "A Binding Acknowledgement that nobody asked for is dropped in silence.", message_of("ba", bytes(6), "ba from A to C"), nothing()),
    should("error-unasked", "9.2", "A Binding Error is not answered.", message_of("be", b"\1" + bytes(17), "be from A to C"), nothing()),
    should("refresh-unasked", "9.2", "A Binding Refresh Request is not answered by a node that is no mobile.", message_of("brr", b"\0\0", "brr from A to C"), nothing()),
)

VERDICTS = (
    must("accepted", "9.5.1", "An authentic update with flag A is acknowledged with status 0 and its own sequence number, to its source with a routing header to the home.",
         tests(), bu(), ba(0, destination="A", route="H", option=None, authentic=True)),
    should("accepted-without-a", "9.5.4", "An update without flag A that is accepted is not acknowledged.", tests(), bu(flags=""), nothing()),
    must("accepted-without-a-binds", "9.5.2", "An update without flag A makes a binding, too.", tests(), bu(flags=""), one(nothing(), ok()), bound),
    must("any-first-sequence", "9.5.1", "Any sequence number is accepted where there is no binding.", tests(), bu(sequence=40000), ok(40000)),
    must("lifetime-asked", "9.5.2", "The lifetime that is granted is not above the one asked for.", tests(), bu(lifetime=1), ok(lifetime=1)),
    must("lifetime-most", "5.2.6", "A binding by return routability lasts 420 s at most.", tests(), bu(lifetime=65535), ok(lifetime=between(1, 105))),
    must("home-registration", "10.3.1", "A node that is no home agent denies an update with flag H with 131.",
         tests(), bu(flags="AH", options=()), ba(131, authentic=anything), unbound),
    must("home-registration-bound", "9.5.1", "An update with flag H for a home that has a binding without it is denied, and the binding stays.",
         bind, bu(sequence=2, flags="AH", options=()), denied(one_of(131, 139), 2), bound),
    must("home-multicast", "9.5.1", "An update for a multicast home address is dropped in silence.", update_for("ff0e::1", "multicast"), dropped),
    must("home-link-local", "9.5.1", "An update for a link-local home address is dropped in silence.", update_for("fe80::1", "link-local"), dropped),
    must("home-unspecified", "9.5.1", "An update for the unspecified home address is dropped in silence.", update_for("::", "unspecified"), dropped),
    must("home-loopback", "9.5.1", "An update for the loopback address is dropped in silence.", update_for("::1", "loopback"), dropped),
    must("place-multicast", "6.1.7", "An update with a multicast care-of address is dropped in silence.", tests(), bu(alternate="ff0e::1"), nothing(), unbound),
    must("place-link-local", "6.1.7", "An update with a link-local care-of address is dropped in silence.", tests(), bu(alternate="fe80::1"), nothing(), unbound),
    must("indices-missing", "9.5.1", "An update without Nonce Indices is dropped in silence.", tests(), bu(options=("auth",)), nothing(), unbound),
    must("authorization-missing", "9.5.1", "An update without Binding Authorization Data is dropped in silence.", tests(), bu(options=("nonces",)), nothing(), unbound),
    must("options-missing", "9.5.1", "An update without any option is dropped in silence.", tests(), bu(options=()), nothing(), unbound),
    must("home-index", "9.5.1", "A home nonce index that is not known is denied with 136, without an authenticator.",
         tests(), bu(indices=(UNKNOWN, None)), ba(136, authentic=None, destination="A", route="H"), unbound),
    must("care-of-index", "9.5.1", "A care-of nonce index that is not known is denied with 137, without an authenticator.",
         tests(), bu(indices=(None, UNKNOWN)), ba(137, authentic=None, destination="A", route="H"), unbound),
    must("both-indices", "9.5.1", "Two nonce indices that are not known are denied with 138, without an authenticator.",
         tests(), bu(indices=(UNKNOWN, UNKNOWN)), ba(138, authentic=None, destination="A", route="H"), unbound),
    must("index-without-a", "9.5.4", "A nonce index that is not known is told where flag A is not set, too.", tests(), bu(flags="", indices=(UNKNOWN, UNKNOWN)), denied(138, authentic=None)),
    must("index-keeps", "9.5.1", "An update that is denied for its nonces leaves the binding as it is.", bind, bu(sequence=2, alternate="B", indices=(UNKNOWN, UNKNOWN)), denied(138, 2, authentic=None), bound),
    must("authenticator", "9.5.1", "An update whose authenticator is wrong in one bit is dropped in silence.", tests(), bu(spoiled=True), nothing(), unbound),
    must("authenticator-keeps", "9.5.1", "An update whose authenticator is wrong leaves the binding and its sequence number.",
         bind, bu(sequence=9, spoiled=True), nothing(), bound, bu(sequence=2), ok(2)),
    must("authenticator-place", "6.2.7", "The authenticator covers the care-of address.", tests(), bu(registers="B"), nothing(), unbound),
    must("authenticator-home", "5.2.5", "The home token is that of the home address.", tests("H2"), bu(), nothing(), unbound),
    must("authenticator-token", "5.2.5", "The care-of token is that of the care-of address.", tests(careof="B"), bu(), nothing(), unbound),
    must("key-home-alone", "5.2.5", "A key of the home token alone makes no binding.", tests(), sealed_with(lambda home, careof: tokens.kbm(home), "of the home token alone"), nothing(), unbound),
    must("key-swapped", "5.2.5", "A key of both tokens in the wrong order makes no binding.", tests(), sealed_with(lambda home, careof: tokens.kbm(careof, home), "of the tokens in the wrong order"), nothing(), unbound),
    must("key-kinds", "5.2.5", "A care-of token makes no home token, nor a home token a care-of token.",
         hoti("A", cookie="careof"), hot("A", "careof", "careof"), coti("H", cookie="home"), cot("H", "home", "home"), bu(), nothing(), unbound),
    must("changed-on-the-way", "6.2.7", "The authenticator covers the lifetime.", tests(), resealed(bu()), nothing(), unbound),
)

PLACES = (
    must("alternate", "9.5.1", "The care-of address is the Alternate Care-of Address, with the token for that one; the acknowledgement goes to the source.",
         tests(careof="B"), bu(alternate="B"), ok(destination="A"), data("B"), nothing(), unbound),
    must("alternate-token", "9.5.1", "The token of the source makes no binding for an Alternate Care-of Address.", tests(), bu(alternate="B"), nothing(), data("B"), be(1, home="H", destination="B")),
    must("alternate-same", "6.2.5", "An Alternate Care-of Address may be the source.", tests(), bu(alternate="A"), ok(), bound),
    must("alternate-from-home", "9.5.4", "An update from the home address with an Alternate Care-of Address makes a binding, and is acknowledged without a routing header.",
         tests(), bu(source="H", alternate="A"), ok(destination="H", route=None), bound),
    must("moved", "9.5.2", "A later update has its care-of address take the place of the former.",
         bind, coti("B", cookie="new"), cot("B", "new", "new"), bu(source="B", sequence=2, careof_test="new"), ok(2, destination="B"), data("B"), nothing(), unbound),
    must("tokens-again", "5.2.5", "Two tokens make more than one update.", bind, bu(sequence=2), ok(2), bound),
    must("binding-ends", "9.5.2", "A binding ends with its lifetime.", tests(), bu(lifetime=1), ok(lifetime=1), bound, wait(5), unbound),
    must("binding-renewed", "9.5.2", "An update before the end makes the binding last from then on.", tests(), bu(lifetime=2), ok(lifetime=2), wait(5), bu(sequence=2, lifetime=2), ok(2, lifetime=2), wait(5), bound),
)

SEQUENCES = (
    must("sequence-same", "9.5.1", "An update with the sequence number of the last one is denied with 135, which carries that number.",
         tests(), bu(sequence=5), ok(5), bu(sequence=5), denied(135, 5)),
    must("sequence-less", "9.5.1", "An update with a lower sequence number is denied with 135, which carries the last number and not its own.",
         tests(), bu(sequence=5), ok(5), bu(sequence=3), ba(135, 5, authentic=True)),
    must("sequence-less-without-a", "9.5.4", "A sequence number out of window is told where flag A is not set, too.", tests(), bu(sequence=5), ok(5), bu(sequence=4, flags=""), denied(135, 5)),
    must("sequence-keeps", "9.5.1", "An update that is denied with 135 leaves the binding as it is.",
         tests(), coti("B", cookie="new"), cot("B", "new", "new"), bu(sequence=5), ok(5), bu(source="B", sequence=5, careof_test="new"), denied(135, 5, destination="B"), bound),
    must("sequence-skips", "9.5.1", "A sequence number 32767 above the last is accepted.", tests(), bu(sequence=15), ok(15), bu(sequence=32782), ok(32782)),
    must("sequence-half", "9.5.1", "A sequence number 32768 above the last is denied with 135.", tests(), bu(sequence=15), ok(15), bu(sequence=32783), denied(135, 15)),
    must("sequence-wraps", "9.5.1", "Sequence number 0 comes after 65535.", tests(), bu(sequence=65535), ok(65535), bu(sequence=0), ok(0)),
    must("sequence-wraps-back", "9.5.1", "Sequence number 65535 does not come after 0.", tests(), bu(sequence=0), ok(0), bu(sequence=65535), denied(135, 0)),
    must("sequence-of-each-home", "9.5.1", "Each home address has a sequence number of its own.", tests(), bu(sequence=9), ok(9),
         hoti("H2", cookie="other"), hot("H2", "other", "other"), bu(home="H2", home_test="other", sequence=3), ok(3)),
    must("replay", "5.2.8", "An update that comes once more is denied with 135.", bind, again(), denied(135, 1)),
    must("replay-after-deletion", "9.5.3", "An update that comes once more after the binding was deleted is not accepted.", bind, delete, ok(2), again(2), refused, unbound),
    must("replay-after-end", "5.2.8", "An update that comes once more after its binding has ended is not accepted.", tests(), bu(lifetime=1), ok(lifetime=1), wait(5), again(), refused, unbound),
    must("deletion-again", "9.5.1", "A deletion that comes once more is not accepted.", bind, delete, ok(2), again(), refused),
)

DELETIONS = (
    must("deletion", "9.5.3", "An update with lifetime 0, under the home token alone, deletes the binding and is acknowledged.",
         bind, delete, ba(0, 2, lifetime=anything, destination="A", route="H", authentic=True), unbound),
    must("deletion-from-home", "9.5.3", "An update from the home address, which is its care-of address, deletes the binding; it is acknowledged there, without a routing header.",
         bind, bu(source="H", sequence=2, careof_test=None), ba(0, 2, lifetime=anything, destination="H", route=None, authentic=True), unbound),
    must("deletion-from-home-zero", "9.5.3", "An update from the home address with lifetime 0 deletes the binding.",
         bind, bu(source="H", sequence=2, lifetime=0, careof_test=None), ok(2, destination="H", route=None), unbound),
    must("deletion-alternate", "9.5.1", "An update whose Alternate Care-of Address is the home address deletes the binding.",
         bind, bu(sequence=2, alternate="H", careof_test=None), ok(2, destination="A"), unbound),
    must("deletion-index", "9.5.1", "The care-of nonce index of a deletion is not looked at.", bind, bu(sequence=2, lifetime=0, careof_test=None, indices=(None, UNKNOWN)),
         ok(2), unbound),
    must("deletion-home-index", "9.5.1", "A deletion whose home nonce index is not known is denied with 136.", bind, bu(sequence=2, lifetime=0, careof_test=None, indices=(UNKNOWN, 0)),
         denied(136, 2, authentic=None), bound),
    must("deletion-both-tokens", "5.2.5", "A deletion under the key of both tokens is dropped in silence.", bind, bu(sequence=2, lifetime=0), nothing(), bound),
    must("deletion-spoiled", "9.5.1", "A deletion whose authenticator is wrong leaves the binding.", bind, bu(sequence=2, lifetime=0, careof_test=None, spoiled=True), nothing(), bound),
    must("deletion-sequence", "9.5.1", "A deletion with an old sequence number is denied with 135, and leaves the binding.", bind, bu(lifetime=0, careof_test=None), denied(135, 1), bound),
    must("deletion-of-none", "9.5.3", "A deletion of a binding that is not there makes none.", tests(careof=None), bu(lifetime=0, careof_test=None), ok(), unbound),
    should("deletion-without-a", "9.5.4", "A deletion without flag A is not acknowledged.", bind, bu(sequence=2, lifetime=0, careof_test=None, flags=""), nothing(), unbound),
)

OPTIONS = (
    must("options-ordered", "6.2.1", "Options before the authorization come in any order.", tests(careof="B"), bu(alternate="B", options=("alternate", "nonces", "auth")), ok()),
    must("options-unaligned", "6.2.1", "Options that are not aligned are read.", tests(), bu(options=(b"\0", "nonces", b"\1\4\7\7\7\7\0", "auth"), aligned=False), ok()),
    must("options-padded", "6.2.3", "Padding of any length and contents is passed over.", tests(), bu(options=(packets.option(1, bytes([9] * 8)), b"\0\0", "nonces", packets.option(1, b""), "auth")), ok()),
    must("option-unknown", "6.2.1", "An option of an unknown type in an update is skipped.", tests(), bu(options=(packets.option(77, bytes(6)), "nonces", packets.option(250, b""), "auth")), ok()),
    must("padding-last", "9.5.1", "Binding Authorization Data with padding behind it is dropped in silence.", tests(), bu_behind(bytes([1, 6]) + bytes(6)), nothing(), unbound),
    must("option-last", "9.5.1", "Binding Authorization Data with another option behind it is dropped in silence.", tests(), bu_behind(packets.option(77, bytes(6))), nothing(), unbound),
    must("indices-short", "6.2.6", "Nonce Indices of 2 bytes are none.", tests(), bu(options=(packets.option(4, b"\0\0"), "auth")), nothing(), unbound),
    must("authorization-short", "6.2.7", "Binding Authorization Data of 10 bytes is none.", tests(), bu(options=("nonces", packets.option(5, bytes(10)))), nothing(), unbound),
    must("option-past-end", "6.2.1", "An option that runs past the end of its message makes no binding.", tests(), bu(options=("nonces", bytes([77, 200]) + bytes(4))), dropped, unbound),
    must("update-reserved", "6.1.7", "The reserved bits of an update are passed over.", tests(), bu(before={3: 0xFF, 8: 0x8F, 9: 0xFF}), ok()),
    must("flags-key-local", "6.1.7", "Flags L and K do not hinder an update to a correspondent.", tests(), bu(flags="ALK"), ok()),
)

BEACONS = ("data", "reply")
TALKS = (
    must("talk-unbound", "9.3.2", "Data to a home address without a binding goes there, without a routing header; an update with a wrong authenticator does not change that.",
         counted(), talk(destination="H", route=None), tests(), bu(spoiled=True), nothing(), talk(destination="H", route=None), talks=True, ignores=BEACONS),
    should("talk-bound", "9.3.2", "Data to a home address with a binding goes to the care-of address, with a type 2 routing header that has the home address.",
           counted(), bind, talk("A", "H", destination="A", route="H"), talks=True, ignores=BEACONS),
    must("talk-moved", "9.3.2", "Data does not go to the care-of address that a later one took the place of.",
         counted(), bind, coti("B", cookie="new"), cot("B", "new", "new"), bu(source="B", sequence=2, careof_test="new"), ok(2, destination="B"),
         talk("B", "H", destination=place("B", "H"), route=anything), talks=True, ignores=BEACONS),
    must("talk-deleted", "9.5.3", "Data goes to the home address once the binding is deleted.", counted(), bind, delete, ok(2), talk(destination="H", route=None),
         talks=True, ignores=BEACONS),
    must("talk-ended", "9.5.2", "Data goes to the home address once the binding has ended.", counted(), tests(), bu(lifetime=1), ok(lifetime=1), wait(5), talk(destination="H", route=None),
         talks=True, ignores=BEACONS),
)

SLOW = (
    must("token-205-s", "5.2.7", "A token is taken for 210 s at least.", tests(), wait(205), bu(), ok(), is_slow=True),
    must("token-242-s", "5.2.7", "A token is taken for 240 s at most.", tests(), wait(242), bu(), denied(OLD, authentic=None), unbound, is_slow=True),
    must("home-token-242-s", "5.2.7", "An old home token with a new care-of token is denied with 136.", tests(), wait(242), coti(), cot(), bu(), denied(136, authentic=None), unbound, is_slow=True),
    must("care-of-token-242-s", "5.2.7", "An old care-of token with a new home token is denied with 137.", tests(), wait(242), hoti(), hot(), bu(), denied(137, authentic=None), unbound, is_slow=True),
    must("replay-after-deletion-205-s", "5.2.8", "An update that comes once more 205 s after the binding was deleted is not accepted.",
         bind, delete, ok(2), wait(205), again(2), refused, unbound, is_slow=True),
    must("replay-after-end-205-s", "5.2.8", "An update that comes once more 200 s after its binding has ended is not accepted.",
         tests(), bu(lifetime=1), ok(lifetime=1), wait(205), again(), refused, unbound, is_slow=True),
    must("binding-stands", "9.5.2", "A binding of 40 s stands after 37 s, and has ended after 42 s.", tests(), bu(), ok(1, lifetime=10), wait(37), bound, wait(5), unbound, is_slow=True),
)

ROOM = (
    must("room", "9.5.4", "A node that has no room for another home denies its update with 130; there need be no such moment.", filled(), fills=True),
)

CASES = TALKS + TESTS + RECEPTION + VERDICTS + PLACES + SEQUENCES + DELETIONS + OPTIONS + ROOM + SLOW


# the homes to which a device has to send data, by the numbers of the cases that look at it: they are always the same
HOMES = {at: packets.packed(f"2001:db8:1::e{at:03x}") for at, it in enumerate(CASES) if it.talks}


def addresses(number, run, own):
    """A case's own addresses: those of another run of the kit are others, since a device keeps sequence numbers for long."""
    tail = b"\2" + run + number.to_bytes(2, "big")
    at = lambda link, more=0: packets.packed(f"2001:db8:{link}::")[:8] + bytes([more]) + tail
    home = HOMES.get(number) or at(1)
    return {"C": own, "H": home, "H2": at(1, 1), "A": at(3), "B": at(4), "X": at(5), "Z": at(6)}


def barrier(env):
    """A Care-of Test Init from an address that stands for nothing else; an ICMPv6 error about it is an answer, too."""
    cookie, source, own = env.draw.randbytes(8), env.address("Z"), env.address("C")
    body = packets.summed(source, own, packets.MOBILITY, packets.test_init("coti", cookie), 4)
    return packets.packet(source, own, packets.MOBILITY, body), None, lambda it: it[24:40] == source and cookie in it


def hello(env):
    """An echo request, which any host answers."""
    yield echo(env, "Z")


LAST_TURN = 1000000  # that a configuration may name


def configuration(port, kit, own, cases):
    """A correspondent that sends data to each home of the cases that look for it, as often as a configuration has room for."""
    homes = [HOMES[CASES.index(it)].hex() for it in cases if it.talks]
    lines = ["mip 1", f"seed {secrets.token_hex(32)}", "self 0", f"port {port}", f"default {kit}", f"correspondent {own.hex()} 64"]
    return lines + [f"payload {turn} {home} 253 74616c6b" for turn in beats(1000 // len(homes) if homes else 0) for home in homes]


def beats(count):
    """The turns at which a node sends data, so many at most: each tenth at first, ever fewer later."""
    turn = 10
    while count and turn <= LAST_TURN:
        yield turn
        turn, count = turn + 10 + turn // 40, count - 1


def is_stray(data):
    """Whether a packet is data for the home of a case that has not begun."""
    return data[24:40] in HOMES.values()


ROLE = Role("correspondent", "C", "2001:db8:2::2", CASES, addresses, configuration, barrier, hello, ignores=("brr",), shared=("C",), is_stray=is_stray,
            once_bound=lambda case: without(case, flat(bind)))
