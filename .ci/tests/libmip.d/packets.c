/* Lists packets through the library: for each line of digits on standard input what mip_decode says, and on standard error the same listing put together from the fields of
   mip_read_packet, mip_read_message and mip_read_icmp. Each packet and each text stands in a block of its exact size, and each text is asked for once with a byte too few.
   With a word --again it writes each packet anew from its fields, and its digits; with --neighbours each neighbour message. */
#include "digits.h"

static const char *const refusals[] = {"short", "version", "length", "header", "route", "option"};
static const char *const faults[] = {"size", "checksum", "type", "proto", "headerlen", "moption"};
static const char *const kinds[] = {"brr", "hoti", "coti", "hot", "cot", "bu", "ba", "be"};

static void digits(const char *word, bool is_there, const uint8_t *bytes, size_t size)
{
    fprintf(stderr, "%s ", word);
    put_digits(stderr, bytes, is_there ? size : 0);
    fputc('\n', stderr);
}

static void tell_options(const struct mip_option_fields *it)
{
    if (it->has_advice)
        fprintf(stderr, "advice %u\n", it->advice);
    if (it->has_nonces)
        fprintf(stderr, "nonces %u %u\n", it->home_index, it->careof_index);
    if (it->has_number)
        fprintf(stderr, "number %u\n", it->number);
    if (it->has_alternate)
        digits("alternate", true, it->alternate, 16);
    if (it->has_authorization)
        digits("authorization", true, it->authorization, 12);
}

static void tell_flags(const struct mip_message_fields *it)
{
    bool any = it->ack || it->registration || it->local || it->key;
    fprintf(stderr, "flags %s%s%s%s%s\n", it->ack ? "A" : "", it->registration ? "H" : "", it->local ? "L" : "", it->key ? "K" : "", any ? "" : "-");
}

static void tell_message(const struct mip_message_fields *it)
{
    fprintf(stderr, "message %s\n", kinds[it->kind]);
    if (it->kind == 3 || it->kind == 4)
        fprintf(stderr, "index %u\n", it->index);
    if (it->kind >= 1 && it->kind <= 4)
        fprintf(stderr, "cookie %016llx\n", (unsigned long long)it->cookie);
    if (it->kind == 3 || it->kind == 4)
        digits("token", true, it->token, 8);
    if (it->kind == 6 || it->kind == 7)
        fprintf(stderr, "status %u\n", it->status);
    if (it->kind == 6)
        tell_flags(it);
    if (it->kind == 5 || it->kind == 6)
        fprintf(stderr, "sequence %u\n", it->sequence);
    if (it->kind == 5)
        tell_flags(it);
    if (it->kind == 5 || it->kind == 6)
        fprintf(stderr, "lifetime %u\n", it->lifetime);
    if (it->kind == 7)
        digits("home", true, it->home, 16);
    tell_options(&it->options);
}

static void tell_body(const struct mip_packet_fields *it, const uint8_t *packet, size_t size)
{
    size_t left = size - it->body;
    uint8_t *body = own(left);
    memcpy(body, packet + it->body, left);
    if (it->proto == 135) {
        struct mip_message_fields message;
        memset(&message, 0xa5, sizeof message);
        uint32_t status = mip_read_message(it->sender, it->receiver, body, left, &message);
        if (status)
            fprintf(stderr, "fault %s\n", faults[status - MIP_MESSAGE_SIZE]);
        else
            tell_message(&message);
    } else if (it->proto == 58) {
        struct mip_icmp_fields icmp;
        memset(&icmp, 0xa5, sizeof icmp);
        if (mip_read_icmp(it->sender, it->receiver, body, left, &icmp))
            fputs("fault icmp\n", stderr);
        else
            fprintf(stderr, "icmp %u\n", icmp.kind);
    } else {
        digits("body", true, body, left);
    }
    free(body);
}

static void tell_fields(const uint8_t *packet, size_t size)
{
    struct mip_packet_fields it;
    memset(&it, 0xa5, sizeof it);
    uint32_t status = mip_read_packet(packet, size, &it);
    if (status) {
        fprintf(stderr, "drop %s\n", refusals[status - MIP_PACKET_SHORT]);
        return;
    }
    digits("source", true, it.source, 16);
    digits("destination", true, it.destination, 16);
    fprintf(stderr, "hop %u\nclass %u\nflow %u\n", it.hop, it.traffic_class, it.flow);
    digits("route", it.has_route, it.route, 16);
    digits("home", it.has_home, it.home, 16);
    fprintf(stderr, "proto %u\n", it.proto);
    tell_body(&it, packet, size);
}

static void list(const uint8_t *packet, size_t size)
{
    size_t needed = 12345;
    uint8_t none = 0xa5;
    uint32_t status = mip_decode(packet, size, &none, 0, &needed);
    if (none != 0xa5)
        FAIL("something is written where there is no room");
    if (status >= MIP_PACKET_SHORT && status <= MIP_PACKET_OPTION) {
        printf("drop %s\n", refusals[status - MIP_PACKET_SHORT]);
        return;
    }
    if (status != MIP_NO_ROOM)
        FAIL("status %u and not MIP_NO_ROOM", status);
    uint8_t *text = own(needed - 1);
    memset(text, 0xa5, needed - 1);
    size_t again = 0;
    if (mip_decode(packet, size, text, needed - 1, &again) != MIP_NO_ROOM || again != needed)
        FAIL("a byte too few is not told");
    for (size_t i = 0; i + 1 < needed; i++)
        if (text[i] != 0xa5)
            FAIL("something is written where there is too little room");
    free(text);
    text = own(needed);
    if (mip_decode(packet, size, text, needed, &again) != MIP_OK || again != needed)
        FAIL("a text is not told in a block of its size");
    fwrite(text, 1, needed, stdout);
    free(text);
}

/* Takes the packet out of a tunnel packet and puts it in again. */
static void tunnel_again(const struct mip_packet_fields *outer, const uint8_t *packet, size_t size)
{
    struct mip_packet_fields inner = {.hop = 0};
    size_t place = 0, needed = 0, left = size - outer->body;
    if (mip_decapsulate(packet, size, outer->destination, &inner, &place) != MIP_WRONG_ENTRY)
        FAIL("a tunnel has another entry");
    if (mip_decapsulate(packet, size, outer->source, &inner, &place) != MIP_OK)
        return;
    uint8_t *carried = own(left), *out = own(size);
    memcpy(carried, packet + place, left);
    if (place != outer->body || inner.hop != carried[7])
        FAIL("the packet in a tunnel begins at %zu", place);
    carried[7]++;
    if (mip_encapsulate(outer->source, outer->destination, carried, left, out, size, &needed) != MIP_OK || needed != size || memcmp(out, packet, size) != 0)
        FAIL("a tunnel packet is another one the second time");
    free(carried);
    free(out);
}

/* Writes a packet once more from what was read of it, with a byte too little room first. */
static void write_again(uint8_t *packet, size_t size)
{
    struct mip_packet_fields head = {.hop = 0};
    struct mip_message_fields message = {.kind = 0};
    if (mip_read_packet(packet, size, &head) != MIP_OK)
        FAIL("a packet of a node is none");
    const uint8_t *body = packet + head.body;
    size_t left = size - head.body;
    bool is_message = head.proto == 135 && mip_read_message(head.sender, head.receiver, body, left, &message) == MIP_OK;
    if (head.proto == 41)
        tunnel_again(&head, packet, size);
    uint8_t *out = NULL;
    size_t needed = 0;
    for (size_t room = 0;; room = room ? needed : needed - 1) {
        free(out);
        out = own(room);
        uint32_t status = is_message ? mip_write_message_packet(&head, &message, out, room, &needed) : mip_write_packet(&head, body, left, out, room, &needed);
        if (status != (room == needed ? MIP_OK : MIP_NO_ROOM))
            FAIL("a packet is written with the status %u", status);
        if (status == MIP_OK)
            break;
    }
    put_digits(stdout, out, needed);
    putchar('\n');
    free(out);
}

/* The packet of a neighbour message, its message written once more. The target stands behind 8 bytes of the message, and the link-layer address at its end. */
static void neighbour_again(uint8_t *packet, size_t size)
{
    struct mip_packet_fields head = {.hop = 0};
    struct mip_neighbour_fields it;
    memset(&it, 0, sizeof it);
    if (mip_read_packet(packet, size, &head) != MIP_OK || mip_read_neighbour(head.source, head.destination, head.hop, packet + head.body, size - head.body, &it) != MIP_OK)
        FAIL("a neighbour message is none");
    if (it.kind != packet[head.body] || memcmp(it.target, packet + head.body + 8, 16) != 0 || !it.has_layer || memcmp(it.layer, packet + size - 6, 6) != 0)
        FAIL("a neighbour message has other fields");
    size_t left = size - head.body, needed = 0;
    uint8_t *out = own(left);
    if (mip_write_neighbour(head.source, head.destination, &it, out, left - 1, &needed) != MIP_NO_ROOM || needed != left)
        FAIL("too little room is not told of a neighbour message");
    if (mip_write_neighbour(head.source, head.destination, &it, out, left, &needed) != MIP_OK)
        FAIL("a neighbour message is not written");
    put_digits(stdout, packet, head.body);
    put_digits(stdout, out, left);
    putchar('\n');
    free(out);
}


int main(int count, char **words)
{
    const char *how = count > 1 ? words[1] : "";
    static char line[140000];
    for (unsigned number = 1; fgets(line, sizeof line, stdin); number++) {
        line[strcspn(line, "\n")] = 0;
        size_t size;
        uint8_t *packet = bytes_of(line, &size);
        if (*how) {
            (strcmp(how, "--again") == 0 ? write_again : neighbour_again)(packet, size);
            free(packet);
            continue;
        }
        printf("== %u\n", number);
        fprintf(stderr, "== %u\n", number);
        list(packet, size);
        tell_fields(packet, size);
        free(packet);
    }
    return 0;
}
