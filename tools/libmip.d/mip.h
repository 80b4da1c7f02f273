/* mip.h: Mobile IPv6 (RFC 6275) from C. Packets and messages are read and written, listed and sealed, a correspondent node and a home agent are objects that
   take packets and give packets, and whole schedules are run. docs/LIBRARY.md tells how it is linked.

   .ci/header makes this file of the sources of the library, so it is not edited. Every function that is declared here, but for those that are written out
   below, is proved to do what its comment says, for all arguments that keep to what a caller owes, and to read and write no other memory.

   What a caller owes, and nothing checks:
   - a pointer is not null, also where its length is 0, and has as many bytes behind it as its length says;
   - no two arguments of a call overlap, but that two which are only read may;
   - structs and buffers are initialised (`= {0}`), also those that are only written;
   - a `bool` is 0 or 1;
   - a handle is all zeros before it is opened; it is neither copied nor written to while it is open, and it is closed before its memory goes.

   Threads: no call has a state beside its arguments, and memory comes from malloc, realloc and free of the C library. So any threads may call at once, but
   for two on the same handle. A handle stays on the thread that opened it.

   A call that returns a status (enum mip_status) and does not end with MIP_OK has changed nothing, but for what it says that it tells or writes: a handle is
   as it was, and so is a buffer. Where there is too little room, *size tells what is needed.
   Addresses have 16 bytes, moments are milliseconds, and numbers are the host's; a `place` counts bytes from 0. */
#ifndef MIP_H
#define MIP_H

#include <stdbool.h>
#include <stddef.h>
#include <stdint.h>

#ifdef __cplusplus
extern "C" {
#endif

/* The version: 100 for each step of its first number, and one for each of its second. */
#define MIP_VERSION 100

/* The version of the library: the first number times 100, and the second. */
uint32_t mip_version(void);

/* ---- What a call tells by the number that it returns. ---- */

enum mip_status {
    /* The call did what it says. */
    MIP_OK = 0,
    /* The input is outside its grammar. */
    MIP_BAD = 2,
    /* Memory has run out, and nothing has changed. */
    MIP_MEMORY = 5,
    /* The input is longer than is taken. */
    MIP_TOO_LONG = 6,
    /* The trace that is audited is not the permitted one. */
    MIP_DIFFERS = 9,
    /* There is too little room: the size that is wanted is told. */
    MIP_NO_ROOM = 10,
    /* The handle is closed. */
    MIP_CLOSED = 11,
    /* The moment is before that of the last call, or is 2^62 or more. */
    MIP_LATE = 12,
    /* The handle is open already. */
    MIP_ALREADY_OPEN = 13,
    /* A value is outside its range, as each call says, and nothing has changed. */
    MIP_ARGUMENT = 14,
    /* There is none: no answer is left, no binding stands, or no row is at the place. */
    MIP_NONE = 15,
    /* No packet: the bytes end inside a header. */
    MIP_PACKET_SHORT = 16,
    /* No packet: the version is not 6. */
    MIP_PACKET_VERSION = 17,
    /* No packet: the payload length is not the number of bytes behind the first 40. */
    MIP_PACKET_LENGTH = 18,
    /* No packet: the next-header number in `refused` may not stand where it stands. */
    MIP_PACKET_HEADER = 19,
    /* No packet: a routing header has a wrong length, type or number of segments left, or an address that is not routable. */
    MIP_PACKET_ROUTE = 20,
    /* No packet: a destination option of the type in `refused` runs past its header, is a wrong Home Address option, or is
       unknown and may not be skipped. */
    MIP_PACKET_OPTION = 21,
    /* The packet in a tunnel packet is refused as `PACKET_SHORT`. */
    MIP_INNER_SHORT = 24,
    /* The packet in a tunnel packet is refused as `PACKET_VERSION`. */
    MIP_INNER_VERSION = 25,
    /* The packet in a tunnel packet is refused as `PACKET_LENGTH`. */
    MIP_INNER_LENGTH = 26,
    /* The packet in a tunnel packet is refused as `PACKET_HEADER`. */
    MIP_INNER_HEADER = 27,
    /* The packet in a tunnel packet is refused as `PACKET_ROUTE`. */
    MIP_INNER_ROUTE = 28,
    /* The packet in a tunnel packet is refused as `PACKET_OPTION`. */
    MIP_INNER_OPTION = 29,
    /* A message has fewer than 8 bytes, or not as many as Header Len says. */
    MIP_MESSAGE_SIZE = 32,
    /* The checksum of a message does not hold. */
    MIP_MESSAGE_CHECKSUM = 33,
    /* The MH Type, in `kind`, is above 7. */
    MIP_MESSAGE_TYPE = 34,
    /* Payload Proto is not 59, No Next Header. */
    MIP_MESSAGE_PROTO = 35,
    /* Header Len is below the least of the message's type. */
    MIP_MESSAGE_HEADERLEN = 36,
    /* The mobility option at `place` may not stand there. */
    MIP_MESSAGE_OPTION = 37,
    /* An ICMPv6 message has fewer bytes than the fixed part of its type. */
    MIP_ICMP_SHORT = 40,
    /* The checksum of an ICMPv6 message does not hold. */
    MIP_ICMP_CHECKSUM = 41,
    /* The type in `kind` is none that Mobile IPv6 uses, or the code in `code` is not 0. */
    MIP_ICMP_TYPE = 42,
    /* At `place` begins an option of a wrong length, or a list that is no list of addresses. */
    MIP_ICMP_OPTION = 43,
    /* The hop limit of a neighbour message is not 255. */
    MIP_NEIGHBOUR_HOP = 48,
    /* A neighbour message has fewer than 24 bytes. */
    MIP_NEIGHBOUR_SHORT = 49,
    /* The checksum of a neighbour message does not hold. */
    MIP_NEIGHBOUR_CHECKSUM = 50,
    /* The type in `kind` is no neighbour message, or the code in `code` is not 0. */
    MIP_NEIGHBOUR_TYPE = 51,
    /* The target of a neighbour message is a multicast address. */
    MIP_NEIGHBOUR_TARGET = 52,
    /* At `place` begins an option of a wrong length. */
    MIP_NEIGHBOUR_OPTION = 53,
    /* A packet has a hop limit below 2, and does not enter a tunnel. */
    MIP_TUNNEL_HOP = 56,
    /* A packet would pass 65,535 bytes behind its fixed header. */
    MIP_TOO_BIG = 57,
    /* A packet is no tunnel packet: its proto is not 41. */
    MIP_NOT_TUNNEL = 58,
    /* A tunnel packet comes from somebody else than the tunnel's entry. */
    MIP_WRONG_ENTRY = 59,
};

/* ---- Reading a packet. ---- */

/* A packet's headers (RFC 8200 section 3, RFC 6275 sections 6.3 and 6.4). */
struct mip_packet_fields {
    uint8_t source[16];
    uint8_t destination[16];
    /* The hop limit. */
    uint8_t hop;
    /* The traffic class. */
    uint8_t traffic_class;
    /* The flow label, of 20 bits. */
    uint32_t flow;
    /* Whether there is a routing header of type 2. */
    bool has_route;
    /* The home address in the routing header. */
    uint8_t route[16];
    /* Whether there is a Home Address option. */
    bool has_home;
    /* The home address in the option. */
    uint8_t home[16];
    /* The next-header number of the body. */
    uint8_t proto;
    /* Where the body begins. A writer does not read it. */
    size_t body;
    /* What is refused by `MIP_PACKET_HEADER` and `MIP_PACKET_OPTION`, else 0. A writer does not read it. */
    uint8_t refused;
    /* Whom the packet is from: the Home Address option, or the source. A writer does not read it. */
    uint8_t sender[16];
    /* Whom the packet is for: the routing header's address, or the destination. A writer does not read it. */
    uint8_t receiver[16];
};

/* Reads a packet: the fixed header, at most one routing header of type 2 and one Destination Options header behind it,
   and the body (RFC 8200 section 3, RFC 6275 sections 6.3 and 6.4).
   Tells `MIP_OK` and all fields, or `MIP_PACKET_SHORT` to `MIP_PACKET_OPTION` and zeros but for `refused`. */
uint32_t mip_read_packet(const uint8_t *bytes, size_t bytes_len, struct mip_packet_fields *out);

/* ---- Reading a mobility message. ---- */

/* Mobility options (RFC 6275 section 6.2). */
struct mip_option_fields {
    /* Whether there is a Binding Refresh Advice (section 6.2.4). */
    bool has_advice;
    /* In units of 4 s. */
    uint16_t advice;
    /* Whether there is an Alternate Care-of Address (section 6.2.5). */
    bool has_alternate;
    uint8_t alternate[16];
    /* Whether there are Nonce Indices (section 6.2.6). */
    bool has_nonces;
    uint16_t home_index;
    uint16_t careof_index;
    /* Whether there is a binding number. Type 200 is this library's own, and in no standard. */
    bool has_number;
    /* Below 8. */
    uint8_t number;
    /* Whether there is Binding Authorization Data (section 6.2.7). */
    bool has_authorization;
    uint8_t authorization[12];
};

/* A mobility message (RFC 6275 section 6.1). A field that its kind does not have is 0, and a writer does not read it. */
struct mip_message_fields {
    /* The MH Type: 0 Binding Refresh Request, 1 Home Test Init, 2 Care-of Test Init, 3 Home Test, 4 Care-of Test,
       5 Binding Update, 6 Binding Acknowledgement, 7 Binding Error. */
    uint8_t kind;
    /* Of 1 to 4: the cookie, its first byte the highest. */
    uint64_t cookie;
    /* Of 3 and 4: the index of the nonce. */
    uint16_t index;
    /* Of 3 and 4: the keygen token. */
    uint8_t token[8];
    /* Of 5 and 6. */
    uint16_t sequence;
    /* Of 5: flag A, an acknowledgement is asked for. */
    bool ack;
    /* Of 5: flag H, a home registration. */
    bool registration;
    /* Of 5: flag L, the link-local address is that of the home address. */
    bool local;
    /* Of 5 and 6: flag K. */
    bool key;
    /* Of 5 and 6: the lifetime, in units of 4 s. */
    uint16_t lifetime;
    /* Of 6 and 7. */
    uint8_t status;
    /* Of 7: the home address. */
    uint8_t home[16];
    struct mip_option_fields options;
    /* Of a refused message: where in it the field stands that is wrong. A writer does not read it. */
    size_t place;
};

/* Reads the mobility message in the body of a packet (RFC 6275 section 6.1). `source` and `destination` are `sender` and
   `receiver` of the packet's fields.
   Tells `MIP_OK` and all fields, or the first of `MIP_MESSAGE_SIZE` to `MIP_MESSAGE_OPTION` that applies, with `place`
   (`MIP_MESSAGE_OPTION`: where the option begins) and zeros. */
uint32_t mip_read_message(const uint8_t source[16], const uint8_t destination[16], const uint8_t *body, size_t body_len, struct mip_message_fields *out);

/* ---- Reading a message of ICMPv6. ---- */

/* A Prefix Information option (RFC 4861 section 4.6.2, RFC 6275 section 7.2). */
struct mip_prefix_fields {
    /* How many bits of the address are the prefix. */
    uint8_t length;
    /* 0x80 on-link, 0x40 autonomous, 0x20 router address. */
    uint8_t flags;
    /* How long the prefix is valid, in seconds. */
    uint32_t valid;
    /* How long addresses with the prefix are preferred, in seconds. */
    uint32_t preferred;
    uint8_t address[16];
};

/* A message of ICMPv6 (RFC 4443 section 3.4, RFC 4861 section 4.2, RFC 6275 sections 6.5 to 6.8). A field that its kind does
   not have is 0. */
struct mip_icmp_fields {
    /* 4 Parameter Problem, 134 Router Advertisement, 144 and 145 Home Agent Address Discovery Request and Reply, 146 Mobile
       Prefix Solicitation, 147 Mobile Prefix Advertisement. */
    uint8_t kind;
    /* The code that `MIP_ICMP_TYPE` refuses, else 0. */
    uint8_t code;
    /* Of 4: where the field that is wrong lies in the packet that is quoted. */
    uint32_t pointer;
    /* Of 134: the hop limit that the link proposes. */
    uint8_t hop;
    /* Of 134: flag H, the router is a home agent. */
    bool agent;
    /* Of 134: how long the router serves as a default router, in seconds. */
    uint16_t life;
    /* Of 144 to 147. */
    uint16_t identifier;
    /* Where in the body the packet that is quoted (4), the agents' addresses of 16 bytes each (145) or the options (134, 147)
       begin. They reach to its end. */
    size_t rest;
    /* Of 134 and 147: whether there is a Prefix Information. */
    bool has_prefix;
    /* The first whose prefix has 64 bits, or the first. */
    struct mip_prefix_fields prefix;
    /* Of 134 and 147: whether there is an Advertisement Interval. */
    bool has_interval;
    /* The greatest time between two advertisements, in milliseconds. */
    uint32_t interval;
    /* Of 134 and 147: whether there is a Home Agent Information (RFC 6275 section 7.4). */
    bool has_agent_info;
    /* The greater, the more preferred. */
    uint16_t preference;
    /* How long the router serves as a home agent, in seconds. */
    uint16_t agent_life;
    /* Where the option begins that `MIP_ICMP_OPTION` refuses, else 0. */
    size_t place;
};

/* Reads a message of ICMPv6 (RFC 4443 section 3.4, RFC 4861 section 4.2, RFC 6275 sections 6.5 to 6.8). `source` and
   `destination` are `sender` and `receiver` of the packet's fields.
   Tells `MIP_OK` and all fields; the first of `MIP_ICMP_SHORT` to `MIP_ICMP_OPTION` that applies, with what is refused and
   zeros; or `MIP_ARGUMENT` where the body has more than 65,535 bytes. */
uint32_t mip_read_icmp(const uint8_t source[16], const uint8_t destination[16], const uint8_t *body, size_t body_len, struct mip_icmp_fields *out);

/* ---- Reading and writing a neighbour message. ---- */

/* A neighbour message (RFC 4861 sections 4.3 and 4.4). A field that its kind does not have is 0. */
struct mip_neighbour_fields {
    /* 135 Neighbour Solicitation, 136 Neighbour Advertisement. */
    uint8_t kind;
    /* The code that `MIP_NEIGHBOUR_TYPE` refuses, else 0. A writer does not read it. */
    uint8_t code;
    /* Of 136: flag R, the sender is a router. */
    bool router;
    /* Of 136: flag S, the message answers a solicitation. */
    bool solicited;
    /* Of 136: flag O, the message overrides what was heard before. */
    bool overrides;
    /* The address that is asked for, or advertised. */
    uint8_t target[16];
    /* Whether there is a link-layer address: option 1 of 135, option 2 of 136. */
    bool has_layer;
    uint8_t layer[6];
    /* Where the option begins that `MIP_NEIGHBOUR_OPTION` refuses, else 0. A writer does not read it. */
    size_t place;
};

/* Reads a neighbour message that came in a packet with this hop limit (RFC 4861 sections 7.1.1 and 7.1.2).
   Tells `MIP_OK` and all fields; the first of `MIP_NEIGHBOUR_HOP` to `MIP_NEIGHBOUR_OPTION` that applies, with what is
   refused and zeros; or `MIP_ARGUMENT` where the body has more than 65,535 bytes. */
uint32_t mip_read_neighbour(const uint8_t source[16], const uint8_t destination[16], uint8_t hop, const uint8_t *body, size_t body_len,
    struct mip_neighbour_fields *out);

/* Writes a neighbour message (RFC 4861 sections 4.3 and 4.4) with its checksum: its canonical spelling. Its packet has to
   have a hop limit of 255.
   Tells `MIP_OK`; `MIP_NO_ROOM`; `MIP_MEMORY`; `MIP_ARGUMENT` where `kind` is not 135 or 136, or `target` is a multicast
   address. */
uint32_t mip_write_neighbour(const uint8_t source[16], const uint8_t destination[16], const struct mip_neighbour_fields *message, uint8_t *out, size_t out_len,
    size_t *size);

/* ---- The listing of a packet. ---- */

/* Lists a packet: its headers, and what its body says, a line each.
   Tells `MIP_OK`; `MIP_NO_ROOM`; `MIP_MEMORY`; `MIP_PACKET_SHORT` to `MIP_PACKET_OPTION` where the bytes are no packet. */
uint32_t mip_decode(const uint8_t *packet, size_t packet_len, uint8_t *text, size_t text_len, size_t *size);

/* ---- Writing a packet. ---- */

/* Writes a packet with this body: its canonical spelling (RFC 8200 section 3, RFC 6275 sections 6.3 and 6.4).
   Tells `MIP_OK`; `MIP_NO_ROOM`; `MIP_MEMORY`; `MIP_TOO_BIG`; `MIP_ARGUMENT` where the flow label has more than 20 bits,
   `proto` names no body (0, 43, 44, 50, 51, 60), or `route` or `home` is present and not routable. */
uint32_t mip_write_packet(const struct mip_packet_fields *head, const uint8_t *body, size_t body_len, uint8_t *out, size_t out_len, size_t *size);

/* ---- Writing a mobility message. ---- */

/* Writes a mobility message from `source` to `destination`, home addresses where its packet has any, with its checksum
   (RFC 6275 section 6.1): its canonical spelling.
   Tells `MIP_OK`; `MIP_NO_ROOM`; `MIP_MEMORY`; `MIP_ARGUMENT` where `kind` is above 7 or a binding number is. */
uint32_t mip_write_message(const uint8_t source[16], const uint8_t destination[16], const struct mip_message_fields *message, uint8_t *out, size_t out_len,
    size_t *size);

/* ---- Writing a packet with a mobility message. ---- */

/* Writes a packet with a mobility message (RFC 6275 section 6.1), whose checksum counts home addresses where there are any.
   Tells `MIP_OK`; `MIP_NO_ROOM`; `MIP_MEMORY`; `MIP_ARGUMENT` where `mip_write_message` or `mip_write_packet` does. */
uint32_t mip_write_message_packet(const struct mip_packet_fields *head, const struct mip_message_fields *message, uint8_t *out, size_t out_len, size_t *size);

/* Writes a packet with an update or an acknowledgement and its authenticator under a key, between a care-of address and a
   correspondent (RFC 6275 section 6.2.7). Any other message is written as it is.
   Tells `MIP_OK`; `MIP_NO_ROOM`; `MIP_MEMORY`; `MIP_ARGUMENT` where `mip_write_message` or `mip_write_packet` does. */
uint32_t mip_write_authenticated_packet(const struct mip_packet_fields *head, const struct mip_message_fields *message, const uint8_t kbm[20],
    const uint8_t careof[16], const uint8_t peer[16], uint8_t *out, size_t out_len, size_t *size);

/* ---- Both ends of a tunnel. ---- */

/* Puts a packet into a tunnel from an entry to an exit: its hop limit becomes one less, and it becomes the body of a packet
   with hop limit 64 (RFC 2473 sections 3.1 and 5.1).
   Tells `MIP_OK`; `MIP_NO_ROOM`; `MIP_MEMORY`; `MIP_ARGUMENT` below 40 bytes; `MIP_TUNNEL_HOP`; `MIP_TOO_BIG` above 65,535. */
uint32_t mip_encapsulate(const uint8_t entry[16], const uint8_t exit[16], const uint8_t *packet, size_t packet_len, uint8_t *out, size_t out_len, size_t *size);

/* Takes a packet out of a tunnel that begins at an entry (RFC 2473 section 3.3). It begins at `place` of the tunnel packet,
   and `body` of its fields counts from there.
   Tells `MIP_OK`; `MIP_PACKET_SHORT` to `MIP_PACKET_OPTION` of the tunnel packet; `MIP_NOT_TUNNEL`; `MIP_WRONG_ENTRY`;
   `MIP_INNER_SHORT` to `MIP_INNER_OPTION` of the packet in it. After a refusal the fields are zeros but for `refused`. */
uint32_t mip_decapsulate(const uint8_t *packet, size_t packet_len, const uint8_t entry[16], struct mip_packet_fields *inner, size_t *place);

/* ---- Return routability's keyed values. ---- */

/* The home keygen token of an address under a nonce, by the correspondent's key Kcn (RFC 6275 section 5.2.5). */
void mip_home_token(const uint8_t kcn[20], const uint8_t address[16], const uint8_t nonce[8], uint8_t token[8]);

/* The care-of keygen token of an address under a nonce, by the correspondent's key Kcn (RFC 6275 section 5.2.5). */
void mip_careof_token(const uint8_t kcn[20], const uint8_t address[16], const uint8_t nonce[8], uint8_t token[8]);

/* The binding management key of an update that binds, from a home and a care-of keygen token (RFC 6275 section 5.2.5). */
void mip_kbm(const uint8_t home[8], const uint8_t careof[8], uint8_t kbm[20]);

/* The binding management key of an update that deletes a binding, from a home keygen token (RFC 6275 section 5.2.5). */
void mip_kbm_deleting(const uint8_t home[8], uint8_t kbm[20]);

/* The authenticator of a message whose last 12 bytes are its place, between a care-of address and a correspondent (RFC
   6275 section 6.2.7). Where an update deletes a binding, the home address stands for the care-of address. */
void mip_authenticator(const uint8_t kbm[20], const uint8_t careof[16], const uint8_t peer[16], const uint8_t *message, size_t message_len, uint8_t tag[12]);

/* Whether a message ends with its authenticator (RFC 6275 section 6.2.7). One of fewer than 18 bytes does not. */
bool mip_is_authentic(const uint8_t kbm[20], const uint8_t careof[16], const uint8_t peer[16], const uint8_t *message, size_t message_len);

/* ---- The checksum of what a packet carries. ---- */

/* The checksum of a body of this protocol: what has to stand in the two bytes at `at`, which count as zero (RFC 8200
   section 8.1). It stands at 4 in a mobility message and at 2 in a message of ICMPv6.
   Tells `MIP_OK`; `MIP_ARGUMENT` where `at` is odd, the two bytes pass the body's end, or the body has more than 65,535. */
uint32_t mip_checksum(const uint8_t source[16], const uint8_t destination[16], uint8_t proto, const uint8_t *body, size_t body_len, size_t at, uint16_t *sum);

/* ---- What an answer of a node is. ---- */

enum mip_answer_kind {
    /* An answer that no call for C gives. */
    MIP_ANSWER_OTHER = 0,
    /* The node sends a packet: the bytes are its. Where `is_shielded`, it is to be protected between `source` and `destination`. */
    MIP_ANSWER_SEND = 1,
    /* The node accepted the update in a packet: `number`, `home`, `binding`, `careof`, `sequence`, `end`, `home_index`,
       `careof_index`. */
    MIP_ANSWER_ACCEPTED = 2,
    /* The node denied the update in a packet: `number`, `status`. */
    MIP_ANSWER_DENIED = 3,
    /* The node dropped a packet: `number`, `why`. */
    MIP_ANSWER_DROPPED = 4,
    /* The node hands data up: `number`, `source`, `destination`, `proto`; the bytes are the payload. */
    MIP_ANSWER_UP = 5,
    /* What was asked for can't be, and the call changed nothing. */
    MIP_ANSWER_IDLE = 6,
    /* A home agent accepted a registration, or a deregistration: `home`, `careof`, `sequence`, `end`. */
    MIP_ANSWER_HOME = 7,
    /* A home agent has claimed an address, and answers for it from here on: `home`. */
    MIP_ANSWER_CLAIMED = 8,
    /* A home agent gives an address up: `home`. */
    MIP_ANSWER_RELEASED = 9,
};

/* ---- Why a packet, an update or a sending came to nothing, as numbers. Each sentence begins with the word of a trace. ---- */

enum mip_why {
    /* `nolink`: no declared link has the destination's prefix. */
    MIP_WHY_NOLINK = 0,
    /* `hop`: the hop limit is used up. */
    MIP_WHY_HOP = 1,
    /* `noholder`: nobody holds the destination. */
    MIP_WHY_NOHOLDER = 2,
    /* `shield`: the packet is shielded for somebody else. */
    MIP_WHY_SHIELD = 3,
    /* `detached`: the mobile is on no link. */
    MIP_WHY_DETACHED = 4,
    /* `unregistered`: the mobile has no agent to tunnel to. */
    MIP_WHY_UNREGISTERED = 5,
    /* `noroute`: no port is configured for the destination. No node of a run answers it. */
    MIP_WHY_NOROUTE = 6,
    /* `size`: a packet or a message has the wrong length, or is too long to send. */
    MIP_WHY_SIZE = 7,
    /* `short`: the packet ends inside a header. */
    MIP_WHY_SHORT = 8,
    /* `version`: the packet is not of version 6. */
    MIP_WHY_VERSION = 9,
    /* `length`: the payload length is not the number of bytes that follow. */
    MIP_WHY_LENGTH = 10,
    /* `header`: a next header that may not stand there. */
    MIP_WHY_HEADER = 11,
    /* `route`: a routing header that is not for this node, or has a wrong field. */
    MIP_WHY_ROUTE = 12,
    /* `option`: a destination option that may not stand there. */
    MIP_WHY_OPTION = 13,
    /* `checksum`: the checksum does not hold. */
    MIP_WHY_CHECKSUM = 14,
    /* `type`: the Mobility Header has an unknown type. */
    MIP_WHY_TYPE = 15,
    /* `proto`: the Payload Proto of the Mobility Header is not 59. */
    MIP_WHY_PROTO = 16,
    /* `headerlen`: the Mobility Header is too short for its type. */
    MIP_WHY_HEADERLEN = 17,
    /* `moption`: a mobility option that may not stand there. */
    MIP_WHY_MOPTION = 18,
    /* `address`: the destination is none of the node's addresses. */
    MIP_WHY_ADDRESS = 19,
    /* `probe`: a test init with a Home Address option. */
    MIP_WHY_PROBE = 20,
    /* `homeoption`: a Home Address option without a binding for it. */
    MIP_WHY_HOMEOPTION = 21,
    /* `unroutable`: the home or the care-of address is not routable. */
    MIP_WHY_UNROUTABLE = 22,
    /* `options`: an option that the update needs is missing. */
    MIP_WHY_OPTIONS = 23,
    /* `authenticator`: the authenticator is not the one of the tokens named. */
    MIP_WHY_AUTHENTICATOR = 24,
    /* `role`: the message is for another kind of node. */
    MIP_WHY_ROLE = 25,
    /* `icmp`: an ICMPv6 message that has no effect here. */
    MIP_WHY_ICMP = 26,
    /* `none`: the packet has no next header. */
    MIP_WHY_NONE = 27,
    /* `unshielded`: a message that must be shielded is not. */
    MIP_WHY_UNSHIELDED = 28,
    /* `entry`: a tunnel packet from somebody else than the tunnel's entry. */
    MIP_WHY_ENTRY = 29,
    /* `nested`: a tunnel inside a tunnel. */
    MIP_WHY_NESTED = 30,
    /* `cookie`: a test that answers no init of this node. */
    MIP_WHY_COOKIE = 31,
    /* `ack`: an acknowledgement of no update of this node. */
    MIP_WHY_ACK = 32,
    /* `error`: a Binding Error that has no effect here. */
    MIP_WHY_ERROR = 33,
    /* `refresh`: a refresh request without a binding. */
    MIP_WHY_REFRESH = 34,
    /* `frame`: a datagram that is no frame. No node of a run answers it. */
    MIP_WHY_FRAME = 35,
};

/* ---- A correspondent node by its handle. ---- */

struct mip_opaque;

/* What an open handle holds. C does not look into it. */
struct mip_held {
    struct mip_opaque *at;
};

/* A correspondent by a handle: all zeros is a closed one. C neither looks into it nor writes it, and copies it only while it
   is closed. */
struct mip_correspondent_handle {
    bool is_open;
    struct mip_held held;
};

/* Opens a handle on a correspondent node with its own address (RFC 6275 section 9), which draws its secrets from a seed, the
   node's number and the number of its life: a node that lost its state takes the next life. It keeps the bindings of `room`
   homes at most, and `numbers` bindings of each, 1 to 8; 1 is that of RFC 6275.
   Tells `MIP_OK`; `MIP_ALREADY_OPEN`; `MIP_MEMORY`; `MIP_ARGUMENT` where `numbers` is not 1 to 8, or `room` times `numbers` is
   2^32 or more. */
uint32_t mip_correspondent_open(struct mip_correspondent_handle *handle, const uint8_t own[16], const uint8_t seed[32], uint8_t node, uint32_t life,
    uint32_t room, uint8_t numbers);

/* Closes a handle: its node is given up, and its memory is free.
   Tells `MIP_OK`; `MIP_CLOSED` where it is closed already. */
uint32_t mip_correspondent_close(struct mip_correspondent_handle *handle);

/* Hands a packet to the node at a moment in milliseconds (RFC 6275 sections 9.3 to 9.5). The number is the caller's own, and
   stands in the answers. The answers wait for `mip_correspondent_next`, and those of the call before are forgotten.
   Tells `MIP_OK`, also where the packet is dropped; `MIP_CLOSED`; `MIP_LATE`; `MIP_MEMORY`. After each but `MIP_OK` the node
   and its answers are as they were. */
uint32_t mip_correspondent_take(struct mip_correspondent_handle *handle, uint64_t now, uint64_t number, const uint8_t *packet, size_t packet_len);

/* Has the node send data at a moment in milliseconds, on the direct way where a binding is held (RFC 6275 section 9.3.2). The
   answers are as those of `mip_correspondent_take`.
   Tells `MIP_OK`; `MIP_CLOSED`; `MIP_LATE`; `MIP_ARGUMENT` where `proto` is 41, 58, 59, 135, 0, 43, 44, 50, 51 or 60, or the
   payload has more than 512 bytes; `MIP_MEMORY`. After each but `MIP_OK` the node and its answers are as they were. */
uint32_t mip_correspondent_send(struct mip_correspondent_handle *handle, uint64_t now, const uint8_t to[16], uint8_t proto, const uint8_t *payload,
    size_t payload_len);

/* Has the node ask the care-of address that is held for a home for a Binding Update (RFC 6275 section 9.5.5), at a moment in
   milliseconds. The answer is `MIP_ANSWER_IDLE` where none is held.
   Tells `MIP_OK`; `MIP_CLOSED`; `MIP_LATE`; `MIP_MEMORY`. After each but `MIP_OK` the node and its answers are as they were. */
uint32_t mip_correspondent_refresh(struct mip_correspondent_handle *handle, uint64_t now, const uint8_t home[16]);

/* Lets time go on to a moment in milliseconds: rows past their time are given up, and no answer is left.
   Tells `MIP_OK`; `MIP_CLOSED`; `MIP_LATE`; `MIP_MEMORY`. After each but `MIP_OK` the node and its answers are as they were. */
uint32_t mip_correspondent_tick(struct mip_correspondent_handle *handle, uint64_t now);

/* An answer of a node. A field that its kind does not name is 0. */
struct mip_answer_fields {
    /* What it is: a number of `enum mip_answer_kind`, which names the fields. */
    uint8_t kind;
    /* The number of the packet, as it was given. */
    uint64_t number;
    /* The home address of an update or of a registration, or the address that an agent claims or gives up. */
    uint8_t home[16];
    /* The binding number; 0 where a home has one binding. */
    uint8_t binding;
    /* The care-of address of an update or of a registration; the home address where it deletes the binding. */
    uint8_t careof[16];
    /* The sequence number of an update or of a registration. */
    uint16_t sequence;
    /* The end of the binding or of the registration, in milliseconds. */
    uint64_t end;
    /* The home nonce index. */
    uint16_t home_index;
    /* Whether there is a care-of nonce index: an update that deletes has none. */
    bool has_careof_index;
    uint16_t careof_index;
    /* The status of the acknowledgement. */
    uint8_t status;
    /* Why: a number of `enum mip_why`. */
    uint8_t why;
    /* Whether a packet that is sent is to be protected (RFC 6275 section 5.1), between `source` and `destination`. */
    bool is_shielded;
    /* Whom data is from, a home address where there is one; who protects a packet. */
    uint8_t source[16];
    /* Whom data is for, a home address where there is one; whom a packet is protected for. */
    uint8_t destination[16];
    /* The protocol of data. */
    uint8_t proto;
};

/* Tells the next answer of the last call: its fields, and its packet or payload.
   Tells `MIP_OK`; `MIP_CLOSED`; `MIP_NONE` where no answer is left; `MIP_NO_ROOM` with fields and size, after which the answer is
   still the next one. */
uint32_t mip_correspondent_next(struct mip_correspondent_handle *handle, struct mip_answer_fields *fields, uint8_t *bytes, size_t bytes_len, size_t *size);

/* Tells the care-of address that is held for a home at a moment in milliseconds (RFC 6275 section 9.1).
   Tells `MIP_OK`; `MIP_CLOSED`; `MIP_LATE`; `MIP_NONE` where none is held. The node stays as it was. */
uint32_t mip_correspondent_route(struct mip_correspondent_handle *handle, uint64_t now, const uint8_t peer[16], uint8_t careof[16]);

/* A row of a binding cache (RFC 6275 section 9.1). */
struct mip_row_fields {
    /* The home address. */
    uint8_t home[16];
    /* The binding number; 0 where a home has one binding. */
    uint8_t binding;
    /* The care-of address; the home address where the binding is deleted. */
    uint8_t careof[16];
    /* The sequence number of the update. */
    uint16_t sequence;
    /* The end of the binding, in milliseconds. */
    uint64_t end;
    /* How long the sequence number is kept, in milliseconds. */
    uint64_t kept_until;
};

/* Tells the row at a place from 0 of the node's binding cache at a moment in milliseconds, by home address and then by number
   (RFC 6275 section 9.1).
   Tells `MIP_OK`; `MIP_CLOSED`; `MIP_LATE`; `MIP_NONE` past the last row. The node stays as it was. */
uint32_t mip_correspondent_row(struct mip_correspondent_handle *handle, uint64_t now, uint32_t place, struct mip_row_fields *row);

/* ---- A home agent by its handle. ---- */

/* A home agent by a handle: all zeros is a closed one. C neither looks into it nor writes it, and copies it only while it
   is closed. */
struct mip_agent_handle {
    bool is_open;
    struct mip_held held;
};

/* Opens a handle on a home agent with its own address (RFC 6275 section 10), which serves the homes of `serves`, 16 bytes
   each, and registers `room` of them at most at a time. It answers discovery of agents with its `preference`, and sends
   no router advertisements.
   Tells `MIP_OK`; `MIP_ALREADY_OPEN`; `MIP_MEMORY`; `MIP_ARGUMENT` where `serves` is no list of addresses that packets are
   routed to. */
uint32_t mip_agent_open(struct mip_agent_handle *handle, const uint8_t own[16], uint16_t preference, uint32_t room, const uint8_t *serves, size_t serves_len);

/* Closes a handle: its agent is given up, and its memory is free. The caller gives up the addresses that the agent had
   claimed.
   Tells `MIP_OK`; `MIP_CLOSED` where it is closed already. */
uint32_t mip_agent_close(struct mip_agent_handle *handle);

/* The protection that a packet came under, which stands for IPsec between a mobile and its agent (RFC 6275 section 5.1). All
   zeros is none. */
struct mip_shield_fields {
    /* Whether the packet came under protection. */
    bool is_shielded;
    /* Who protected it: a mobile's home address. */
    uint8_t from[16];
    /* Whom it was protected for: the agent's address. */
    uint8_t to[16];
};

/* Hands a packet to the agent at a moment in milliseconds, with the protection that it came under (RFC 6275 sections 10.3 to
   10.5). The number is the caller's own, and stands in the answers. `others` are the addresses of the home link that somebody
   else holds, 16 bytes each: the agent claims none of them, and of each address that it claims or gives up an answer tells.
   The answers wait for `mip_agent_next`, and those of the call before are forgotten.
   Tells `MIP_OK`, also where the packet is dropped; `MIP_CLOSED`; `MIP_LATE`; `MIP_ARGUMENT` where `others` is no list of
   addresses; `MIP_MEMORY`. After each but `MIP_OK` the agent and its answers are as they were. */
uint32_t mip_agent_take(struct mip_agent_handle *handle, uint64_t now, uint64_t number, const struct mip_shield_fields *shield, const uint8_t *others,
    size_t others_len, const uint8_t *packet, size_t packet_len);

/* Lets time go on to a moment in milliseconds: the registrations whose time is over end, and their addresses are given up
   (RFC 6275 section 10.3.1). The answers are as those of `mip_agent_take`.
   Tells `MIP_OK`; `MIP_CLOSED`; `MIP_LATE`; `MIP_MEMORY`. After each but `MIP_OK` the agent and its answers are as they were. */
uint32_t mip_agent_tick(struct mip_agent_handle *handle, uint64_t now);

/* Tells the agent at a moment in milliseconds that its prefix is valid and preferred for so many seconds from now on, of
   which each registered home is told (RFC 6275 section 10.6). The answers are as those of `mip_agent_take`.
   Tells `MIP_OK`; `MIP_CLOSED`; `MIP_LATE`; `MIP_MEMORY`. After each but `MIP_OK` the agent and its answers are as they were. */
uint32_t mip_agent_plan(struct mip_agent_handle *handle, uint64_t now, uint32_t valid, uint32_t preferred);

/* Tells the agent at a moment in milliseconds of the advertisement of another home agent of its link: its preference, and for
   how many seconds it lives (RFC 6275 section 10.5.1). No answer is left.
   Tells `MIP_OK`; `MIP_CLOSED`; `MIP_LATE`; `MIP_MEMORY`. After each but `MIP_OK` the agent and its answers are as they were. */
uint32_t mip_agent_heard(struct mip_agent_handle *handle, uint64_t now, const uint8_t agent[16], uint16_t preference, uint16_t life);

/* Tells the next answer of the last call: its fields, and its packet.
   Tells `MIP_OK`; `MIP_CLOSED`; `MIP_NONE` where no answer is left; `MIP_NO_ROOM` with fields and size, after which the answer is
   still the next one. */
uint32_t mip_agent_next(struct mip_agent_handle *handle, struct mip_answer_fields *fields, uint8_t *bytes, size_t bytes_len, size_t *size);

/* Tells the care-of address that is registered for a home at a moment in milliseconds (RFC 6275 section 10.1).
   Tells `MIP_OK`; `MIP_CLOSED`; `MIP_LATE`; `MIP_NONE` where none is registered. The agent stays as it was. */
uint32_t mip_agent_careof(struct mip_agent_handle *handle, uint64_t now, const uint8_t home[16], uint8_t careof[16]);

/* A home that is registered at an agent (RFC 6275 section 10.1). */
struct mip_registration_fields {
    /* The home address. */
    uint8_t home[16];
    /* The care-of address. */
    uint8_t careof[16];
    /* The sequence number of the update. */
    uint16_t sequence;
    /* The end of the registration, in milliseconds. */
    uint64_t end;
};

/* Tells the home at a place from 0 among those that are registered at a moment in milliseconds, in order of address (RFC 6275
   section 10.1).
   Tells `MIP_OK`; `MIP_CLOSED`; `MIP_LATE`; `MIP_NONE` past the last one. The agent stays as it was. */
uint32_t mip_agent_row(struct mip_agent_handle *handle, uint64_t now, uint32_t place, struct mip_registration_fields *row);

/* Tells the moment in milliseconds of the first end of a registration: the next one that `mip_agent_tick` is wanted at.
   Tells `MIP_OK`; `MIP_CLOSED`; `MIP_NONE` where no registration ends. The agent stays as it was. */
uint32_t mip_agent_due(struct mip_agent_handle *handle, uint64_t *due);

/* ---- Whole runs: what the program `mip` writes of them. ---- */

/* Runs a schedule, and writes the trace of its run, as `mip replay` does. Where the schedule is bad it writes the line that
   tells which of its lines is, and why. The run is made anew each time that it is asked for, also with too little room.
   Tells `MIP_OK`; `MIP_BAD`; `MIP_TOO_LONG` where the schedule has more than 16,777,216 bytes or 20,000 lines of events;
   `MIP_NO_ROOM` with size; `MIP_MEMORY`. */
uint32_t mip_replay(const uint8_t *schedule, size_t schedule_len, uint8_t *out, size_t out_len, size_t *size);

/* Judges the trace that stands behind a schedule and a line `trace`, as `mip audit` does: it writes `yes` where it is the
   trace of the schedule's run, and else `no` with the number of the first line that differs.
   Tells `MIP_OK`, where it is; `MIP_DIFFERS`; `MIP_BAD`; `MIP_TOO_LONG` where the input has more than 16,777,216 bytes, 2,000
   lines of events, or 20,000 of the trace; `MIP_NO_ROOM` with size; `MIP_MEMORY`. */
uint32_t mip_audit(const uint8_t *input, size_t input_len, uint8_t *out, size_t out_len, size_t *size);

/* The name of one of enum mip_status, or "unknown". */
static inline const char *mip_status_name(uint32_t number)
{
    switch (number) {
    case MIP_OK: return "ok";
    case MIP_BAD: return "bad";
    case MIP_MEMORY: return "memory";
    case MIP_TOO_LONG: return "too long";
    case MIP_DIFFERS: return "differs";
    case MIP_NO_ROOM: return "no room";
    case MIP_CLOSED: return "closed";
    case MIP_LATE: return "late";
    case MIP_ALREADY_OPEN: return "already open";
    case MIP_ARGUMENT: return "argument";
    case MIP_NONE: return "none";
    case MIP_PACKET_SHORT: return "packet short";
    case MIP_PACKET_VERSION: return "packet version";
    case MIP_PACKET_LENGTH: return "packet length";
    case MIP_PACKET_HEADER: return "packet header";
    case MIP_PACKET_ROUTE: return "packet route";
    case MIP_PACKET_OPTION: return "packet option";
    case MIP_INNER_SHORT: return "inner short";
    case MIP_INNER_VERSION: return "inner version";
    case MIP_INNER_LENGTH: return "inner length";
    case MIP_INNER_HEADER: return "inner header";
    case MIP_INNER_ROUTE: return "inner route";
    case MIP_INNER_OPTION: return "inner option";
    case MIP_MESSAGE_SIZE: return "message size";
    case MIP_MESSAGE_CHECKSUM: return "message checksum";
    case MIP_MESSAGE_TYPE: return "message type";
    case MIP_MESSAGE_PROTO: return "message proto";
    case MIP_MESSAGE_HEADERLEN: return "message headerlen";
    case MIP_MESSAGE_OPTION: return "message option";
    case MIP_ICMP_SHORT: return "icmp short";
    case MIP_ICMP_CHECKSUM: return "icmp checksum";
    case MIP_ICMP_TYPE: return "icmp type";
    case MIP_ICMP_OPTION: return "icmp option";
    case MIP_NEIGHBOUR_HOP: return "neighbour hop";
    case MIP_NEIGHBOUR_SHORT: return "neighbour short";
    case MIP_NEIGHBOUR_CHECKSUM: return "neighbour checksum";
    case MIP_NEIGHBOUR_TYPE: return "neighbour type";
    case MIP_NEIGHBOUR_TARGET: return "neighbour target";
    case MIP_NEIGHBOUR_OPTION: return "neighbour option";
    case MIP_TUNNEL_HOP: return "tunnel hop";
    case MIP_TOO_BIG: return "too big";
    case MIP_NOT_TUNNEL: return "not tunnel";
    case MIP_WRONG_ENTRY: return "wrong entry";
    }
    return "unknown";
}

/* The name of one of enum mip_answer_kind, or "unknown". */
static inline const char *mip_answer_kind_name(uint32_t number)
{
    switch (number) {
    case MIP_ANSWER_OTHER: return "other";
    case MIP_ANSWER_SEND: return "send";
    case MIP_ANSWER_ACCEPTED: return "accepted";
    case MIP_ANSWER_DENIED: return "denied";
    case MIP_ANSWER_DROPPED: return "dropped";
    case MIP_ANSWER_UP: return "up";
    case MIP_ANSWER_IDLE: return "idle";
    case MIP_ANSWER_HOME: return "home";
    case MIP_ANSWER_CLAIMED: return "claimed";
    case MIP_ANSWER_RELEASED: return "released";
    }
    return "unknown";
}

/* The name of one of enum mip_why, or "unknown". */
static inline const char *mip_why_name(uint32_t number)
{
    switch (number) {
    case MIP_WHY_NOLINK: return "nolink";
    case MIP_WHY_HOP: return "hop";
    case MIP_WHY_NOHOLDER: return "noholder";
    case MIP_WHY_SHIELD: return "shield";
    case MIP_WHY_DETACHED: return "detached";
    case MIP_WHY_UNREGISTERED: return "unregistered";
    case MIP_WHY_NOROUTE: return "noroute";
    case MIP_WHY_SIZE: return "size";
    case MIP_WHY_SHORT: return "short";
    case MIP_WHY_VERSION: return "version";
    case MIP_WHY_LENGTH: return "length";
    case MIP_WHY_HEADER: return "header";
    case MIP_WHY_ROUTE: return "route";
    case MIP_WHY_OPTION: return "option";
    case MIP_WHY_CHECKSUM: return "checksum";
    case MIP_WHY_TYPE: return "type";
    case MIP_WHY_PROTO: return "proto";
    case MIP_WHY_HEADERLEN: return "headerlen";
    case MIP_WHY_MOPTION: return "moption";
    case MIP_WHY_ADDRESS: return "address";
    case MIP_WHY_PROBE: return "probe";
    case MIP_WHY_HOMEOPTION: return "homeoption";
    case MIP_WHY_UNROUTABLE: return "unroutable";
    case MIP_WHY_OPTIONS: return "options";
    case MIP_WHY_AUTHENTICATOR: return "authenticator";
    case MIP_WHY_ROLE: return "role";
    case MIP_WHY_ICMP: return "icmp";
    case MIP_WHY_NONE: return "none";
    case MIP_WHY_UNSHIELDED: return "unshielded";
    case MIP_WHY_ENTRY: return "entry";
    case MIP_WHY_NESTED: return "nested";
    case MIP_WHY_COOKIE: return "cookie";
    case MIP_WHY_ACK: return "ack";
    case MIP_WHY_ERROR: return "error";
    case MIP_WHY_REFRESH: return "refresh";
    case MIP_WHY_FRAME: return "frame";
    }
    return "unknown";
}

#ifdef __cplusplus
}
#endif
#endif
