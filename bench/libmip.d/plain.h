/* Plain C that does what some calls of mip.h do, as one would write it by hand: what bench/libmip compares the library with. Nothing is proved of it. */
#ifndef PLAIN_H
#define PLAIN_H
#include <stdbool.h>
#include <stddef.h>
#include <stdint.h>

struct plain_packet {
    const uint8_t *source, *destination, *route, *home;
    uint8_t hop, traffic_class, proto;
    uint32_t flow;
    size_t body;
};

struct plain_message {
    uint8_t kind, status, flags;
    uint16_t sequence, lifetime, index, home_index, careof_index, advice;
    const uint8_t *cookie, *token, *home, *alternate, *authorization;
    bool has_nonces, has_advice;
};

bool plain_read_packet(const uint8_t *bytes, size_t size, struct plain_packet *out);
bool plain_read_message(const uint8_t *source, const uint8_t *destination, const uint8_t *body, size_t size, struct plain_message *out);
uint16_t plain_checksum(const uint8_t *source, const uint8_t *destination, uint8_t proto, const uint8_t *body, size_t size, size_t at);

struct plain_sha1 {
    uint32_t state[5];
    uint64_t size;
    uint8_t block[64];
};
void plain_sha1_begin(struct plain_sha1 *it);
void plain_sha1_add(struct plain_sha1 *it, const uint8_t *bytes, size_t size);
void plain_sha1_end(struct plain_sha1 *it, uint8_t digest[20]);
void plain_hmac(const uint8_t key[20], const uint8_t *const parts[], const size_t sizes[], size_t count, uint8_t digest[20]);
void plain_token(const uint8_t kcn[20], const uint8_t address[16], const uint8_t nonce[8], uint8_t kind, uint8_t token[8]);
void plain_kbm(const uint8_t home[8], const uint8_t careof[8], uint8_t kbm[20]);
void plain_authenticator(const uint8_t kbm[20], const uint8_t careof[16], const uint8_t peer[16], const uint8_t *message, size_t size, uint8_t out[12]);
bool plain_is_authentic(const uint8_t kbm[20], const uint8_t careof[16], const uint8_t peer[16], const uint8_t *message, size_t size);
#endif
