/* Plain C readers of packets and mobility messages (RFC 8200, RFC 6275 section 6), and keyed values over a SHA-1 of its own (FIPS 180-4, RFC 2104). */
#include "plain.h"

#include <string.h>

static uint16_t two(const uint8_t *at) { return (uint16_t)(at[0] << 8 | at[1]); }

bool plain_read_packet(const uint8_t *bytes, size_t size, struct plain_packet *out)
{
    memset(out, 0, sizeof *out);
    if (size < 40 || bytes[0] >> 4 != 6 || two(bytes + 4) + 40u != size)
        return false;
    out->traffic_class = (uint8_t)(bytes[0] << 4 | bytes[1] >> 4);
    out->flow = (uint32_t)(bytes[1] & 15) << 16 | two(bytes + 2);
    out->hop = bytes[7];
    out->source = bytes + 8;
    out->destination = bytes + 24;
    size_t at = 40;
    uint8_t next = bytes[6];
    while (next == 43 || next == 60) {
        if (size - at < 8 || size - at < 8 + 8u * bytes[at + 1])
            return false;
        size_t end = at + 8 + 8u * bytes[at + 1];
        if (next == 43) {
            if (out->route || bytes[at + 1] != 2 || bytes[at + 2] != 2 || bytes[at + 3] != 1)
                return false;
            out->route = bytes + at + 8;
        } else {
            for (size_t option = at + 2; option < end;) {
                if (bytes[option] == 0) {
                    option++;
                    continue;
                }
                if (end - option < 2 || end - option < 2u + bytes[option + 1])
                    return false;
                if (bytes[option] == 201) {
                    if (out->home || bytes[option + 1] != 16)
                        return false;
                    out->home = bytes + option + 2;
                } else if (bytes[option] != 1 && bytes[option] >> 6) {
                    return false;
                }
                option += 2u + bytes[option + 1];
            }
        }
        next = bytes[at];
        at = end;
    }
    if (next == 0 || next == 44 || next == 50 || next == 51)
        return false;
    out->proto = next;
    out->body = at;
    return true;
}

static uint32_t sum_of(const uint8_t *bytes, size_t size, uint32_t sum)
{
    for (; size > 1; bytes += 2, size -= 2)
        sum += two(bytes);
    return size ? sum + (uint32_t)(bytes[0] << 8) : sum;
}

uint16_t plain_checksum(const uint8_t *source, const uint8_t *destination, uint8_t proto, const uint8_t *body, size_t size, size_t at)
{
    uint32_t sum = sum_of(source, 16, proto);
    sum = sum_of(destination, 16, sum);
    sum += (uint32_t)(size >> 16) + (uint32_t)(size & 0xffff);
    sum = sum_of(body, at, sum);
    sum = sum_of(body + at + 2, size - at - 2, sum);
    while (sum >> 16)
        sum = (sum & 0xffff) + (sum >> 16);
    return (uint16_t)~sum;
}

bool plain_read_message(const uint8_t *source, const uint8_t *destination, const uint8_t *body, size_t size, struct plain_message *out)
{
    static const uint8_t least[8] = {0, 1, 1, 2, 2, 1, 1, 2};
    static const uint8_t options[8] = {8, 16, 16, 24, 24, 12, 12, 24};
    memset(out, 0, sizeof *out);
    if (size < 8 || size != 8 + 8u * body[1])
        return false;
    if (plain_checksum(source, destination, 135, body, size, 4) % 0xffff != two(body + 4) % 0xffff)
        return false;
    uint8_t kind = body[2];
    if (kind > 7 || body[0] != 59 || body[1] < least[kind])
        return false;
    out->kind = kind;
    switch (kind) {
    case 3: case 4:
        out->index = two(body + 6);
        out->token = body + 16; /* fall through */
    case 1: case 2: out->cookie = body + 8; break;
    case 5:
        out->sequence = two(body + 6);
        out->flags = body[8];
        out->lifetime = two(body + 10);
        break;
    case 6:
        out->status = body[6];
        out->flags = body[7];
        out->sequence = two(body + 8);
        out->lifetime = two(body + 10);
        break;
    case 7:
        out->status = body[6];
        out->home = body + 8;
        break;
    }
    for (size_t at = options[kind]; at < size;) {
        if (body[at] == 0) {
            at++;
            continue;
        }
        if (size - at < 2 || size - at < 2u + body[at + 1])
            return false;
        const uint8_t *value = body + at + 2;
        switch (body[at]) {
        case 2:
            if (out->has_advice || body[at + 1] != 2)
                return false;
            out->has_advice = true;
            out->advice = two(value);
            break;
        case 3:
            if (out->alternate || body[at + 1] != 16)
                return false;
            out->alternate = value;
            break;
        case 4:
            if (out->has_nonces || body[at + 1] != 4)
                return false;
            out->has_nonces = true;
            out->home_index = two(value);
            out->careof_index = two(value + 2);
            break;
        case 5:
            if (body[at + 1] != 12 || at + 14 != size)
                return false;
            out->authorization = value;
            break;
        }
        at += 2u + body[at + 1];
    }
    return true;
}

static uint32_t rotated(uint32_t x, unsigned by) { return x << by | x >> (32 - by); }

static void add_block(struct plain_sha1 *it, const uint8_t *block)
{
    uint32_t w[80], a = it->state[0], b = it->state[1], c = it->state[2], d = it->state[3], e = it->state[4];
    for (int i = 0; i < 16; i++)
        w[i] = (uint32_t)two(block + 4 * i) << 16 | two(block + 4 * i + 2);
    for (int i = 16; i < 80; i++)
        w[i] = rotated(w[i - 3] ^ w[i - 8] ^ w[i - 14] ^ w[i - 16], 1);
#define ROUNDS(from, to, f, k)                             \
    for (int i = from; i < to; i++) {                      \
        uint32_t next = rotated(a, 5) + (f) + e + k + w[i]; \
        e = d;                                             \
        d = c;                                             \
        c = rotated(b, 30);                                \
        b = a;                                             \
        a = next;                                          \
    }
    ROUNDS(0, 20, (b & c) | (~b & d), 0x5a827999)
    ROUNDS(20, 40, b ^ c ^ d, 0x6ed9eba1)
    ROUNDS(40, 60, (b & c) | (b & d) | (c & d), 0x8f1bbcdc)
    ROUNDS(60, 80, b ^ c ^ d, 0xca62c1d6)
    it->state[0] += a;
    it->state[1] += b;
    it->state[2] += c;
    it->state[3] += d;
    it->state[4] += e;
}

void plain_sha1_begin(struct plain_sha1 *it)
{
    static const uint32_t first[5] = {0x67452301, 0xefcdab89, 0x98badcfe, 0x10325476, 0xc3d2e1f0};
    memcpy(it->state, first, sizeof first);
    it->size = 0;
}

void plain_sha1_add(struct plain_sha1 *it, const uint8_t *bytes, size_t size)
{
    size_t held = it->size % 64;
    it->size += size;
    if (held) {
        size_t taken = size < 64 - held ? size : 64 - held;
        memcpy(it->block + held, bytes, taken);
        bytes += taken;
        size -= taken;
        if (held + taken < 64)
            return;
        add_block(it, it->block);
    }
    for (; size >= 64; bytes += 64, size -= 64)
        add_block(it, bytes);
    memcpy(it->block, bytes, size);
}

void plain_sha1_end(struct plain_sha1 *it, uint8_t digest[20])
{
    uint64_t bits = it->size * 8;
    static const uint8_t pad[64] = {0x80};
    uint8_t length[8];
    for (int i = 0; i < 8; i++)
        length[i] = (uint8_t)(bits >> (56 - 8 * i));
    plain_sha1_add(it, pad, 1 + (119 - it->size % 64) % 64);
    plain_sha1_add(it, length, 8);
    for (int i = 0; i < 20; i++)
        digest[i] = (uint8_t)(it->state[i / 4] >> (24 - 8 * (i % 4)));
}

void plain_hmac(const uint8_t key[20], const uint8_t *const parts[], const size_t sizes[], size_t count, uint8_t digest[20])
{
    uint8_t pad[64];
    struct plain_sha1 it;
    memset(pad, 0x36, sizeof pad);
    for (int i = 0; i < 20; i++)
        pad[i] ^= key[i];
    plain_sha1_begin(&it);
    plain_sha1_add(&it, pad, 64);
    for (size_t i = 0; i < count; i++)
        plain_sha1_add(&it, parts[i], sizes[i]);
    plain_sha1_end(&it, digest);
    for (int i = 0; i < 64; i++)
        pad[i] ^= 0x36 ^ 0x5c;
    plain_sha1_begin(&it);
    plain_sha1_add(&it, pad, 64);
    plain_sha1_add(&it, digest, 20);
    plain_sha1_end(&it, digest);
}

void plain_token(const uint8_t kcn[20], const uint8_t address[16], const uint8_t nonce[8], uint8_t kind, uint8_t token[8])
{
    uint8_t digest[20];
    const uint8_t *parts[] = {address, nonce, &kind};
    const size_t sizes[] = {16, 8, 1};
    plain_hmac(kcn, parts, sizes, 3, digest);
    memcpy(token, digest, 8);
}

void plain_kbm(const uint8_t home[8], const uint8_t careof[8], uint8_t kbm[20])
{
    struct plain_sha1 it;
    plain_sha1_begin(&it);
    plain_sha1_add(&it, home, 8);
    plain_sha1_add(&it, careof, 8);
    plain_sha1_end(&it, kbm);
}

void plain_authenticator(const uint8_t kbm[20], const uint8_t careof[16], const uint8_t peer[16], const uint8_t *message, size_t size, uint8_t out[12])
{
    static const uint8_t no_checksum[2];
    uint8_t digest[20];
    const uint8_t *parts[] = {careof, peer, message, no_checksum, message + 6};
    const size_t sizes[] = {16, 16, 4, 2, size - 18};
    plain_hmac(kbm, parts, sizes, 5, digest);
    memcpy(out, digest, 12);
}

bool plain_is_authentic(const uint8_t kbm[20], const uint8_t careof[16], const uint8_t peer[16], const uint8_t *message, size_t size)
{
    uint8_t wanted[12];
    if (size < 18)
        return false;
    plain_authenticator(kbm, careof, peer, message, size, wanted);
    return memcmp(wanted, message + size - 12, 12) == 0;
}
