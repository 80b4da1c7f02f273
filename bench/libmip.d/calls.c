/* `calls NAME COUNT UPDATE`: makes COUNT calls of the library, or of the plain C beside it, whose name is NAME, on the packet of an update whose digits are UPDATE. What stands before
   the calls is the same for each COUNT up to MOST. `calls --time NAME UPDATE` writes the nanoseconds of one call. */
#include "mip.h"
#include "plain.h"

#include <stdio.h>
#include <stdlib.h>
#include <string.h>
#include <time.h>

#define MOST 1001
static const uint8_t key[20] = {1, 2, 3}, nonce[8] = {4, 5};
static const uint8_t seed[32] = {0, 1, 2, 3, 4, 5, 6, 7, 8, 9, 10, 11, 12, 13, 14, 15, 16, 17, 18, 19, 20, 21, 22, 23, 24, 25, 26, 27, 28, 29, 30, 31};
static uint8_t packet[2048], text[8192], out[2048], inits[2][64], updates[MOST][256];
static size_t size, text_size, out_size, update_sizes[MOST], body;
static struct mip_packet_fields head;
static struct mip_message_fields message;
static struct mip_correspondent_handle node;
static struct plain_packet plain_head;
static struct plain_message plain_message;

static void must(uint32_t status)
{
    if (status != MIP_OK) {
        fprintf(stderr, "calls: %s\n", mip_status_name(status));
        exit(1);
    }
}

static void answer(struct mip_answer_fields *kept)
{
    struct mip_answer_fields fields = {0};
    while (mip_correspondent_next(&node, &fields, out, sizeof out, &out_size) == MIP_OK)
        *kept = fields;
}

/* A test init of this kind to the node, and the token of the test that it answers. */
static void token_of(uint8_t kind, const uint8_t source[16], uint8_t token[8], uint16_t *index)
{
    struct mip_packet_fields to = {.hop = 64, .proto = 135}, back = {.hop = 0};
    struct mip_message_fields init = {.kind = kind, .cookie = 7}, test = {.kind = 0};
    struct mip_answer_fields kept = {0};
    memcpy(to.source, source, 16);
    memcpy(to.destination, head.destination, 16);
    must(mip_write_message_packet(&to, &init, inits[kind - 1], sizeof inits[0], &out_size));
    must(mip_correspondent_take(&node, 0, 0, inits[kind - 1], 56));
    answer(&kept);
    must(mip_read_packet(out, out_size, &back));
    must(mip_read_message(back.sender, back.receiver, out + back.body, out_size - back.body, &test));
    memcpy(token, test.token, 8);
    *index = test.index;
}

/* An open node, and updates with one sequence number after another that it will accept. */
static void prepare(void)
{
    uint8_t home[8], careof[8], kbm[20];
    must(mip_correspondent_open(&node, head.destination, seed, 0, 0, 64, 1));
    token_of(1, head.home, home, &message.options.home_index);
    token_of(2, head.source, careof, &message.options.careof_index);
    mip_kbm(home, careof, kbm);
    message.lifetime = 100;
    for (int i = 0; i < MOST; i++) {
        message.sequence = (uint16_t)(i + 1);
        must(mip_write_authenticated_packet(&head, &message, kbm, head.source, head.destination, updates[i], sizeof updates[0], &update_sizes[i]));
    }
}

static void read_packet(int i) { (void)i; must(mip_read_packet(packet, size, &head)); }
static void read_message(int i) { (void)i; must(mip_read_message(head.sender, head.receiver, packet + body, size - body, &message)); }
static void decode(int i) { (void)i; must(mip_decode(packet, size, text, sizeof text, &text_size)); }
static void token(int i) { (void)i; mip_home_token(key, head.home, nonce, out); }
static void authentic(int i) { (void)i; out[0] = mip_is_authentic(key, head.source, head.destination, packet + body, size - body); }
static void write_update(int i) { (void)i; must(mip_write_authenticated_packet(&head, &message, key, head.source, head.destination, out, sizeof out, &out_size)); }
static void take_init(int i) { (void)i; must(mip_correspondent_take(&node, 0, 0, inits[0], 56)); must(mip_correspondent_next(&node, &(struct mip_answer_fields){0}, out, sizeof out, &out_size)); }
static void take_update(int i)
{
    struct mip_answer_fields kept = {0};
    must(mip_correspondent_take(&node, 0, 0, updates[i % MOST], update_sizes[i % MOST]));
    answer(&kept);
}
static void plain_packets(int i) { (void)i; if (!plain_read_packet(packet, size, &plain_head)) exit(1); }
static void plain_messages(int i) { (void)i; if (!plain_read_message(head.sender, head.receiver, packet + body, size - body, &plain_message)) exit(1); }
static void plain_tokens(int i) { (void)i; plain_token(key, head.home, nonce, 0, out); }
static void plain_authentic(int i) { (void)i; out[0] = plain_is_authentic(key, head.source, head.destination, packet + body, size - body); }

static const struct { const char *name; void (*call)(int); } calls[] = {
    {"mip_read_packet", read_packet}, {"mip_read_message", read_message}, {"mip_decode", decode}, {"mip_home_token", token}, {"mip_is_authentic", authentic},
    {"mip_write_authenticated_packet", write_update}, {"take_init", take_init}, {"take_update", take_update}, {"plain_read_packet", plain_packets},
    {"plain_read_message", plain_messages}, {"plain_token", plain_tokens}, {"plain_is_authentic", plain_authentic}};

int main(int count, char **words)
{
    if (count != 4)
        return 2;
    int is_timed = strcmp(words[1], "--time") == 0;
    for (const char *digits = words[3]; digits[2 * size]; size++) {
        unsigned byte = 0;
        sscanf(digits + 2 * size, "%2x", &byte);
        packet[size] = (uint8_t)byte;
    }
    must(mip_read_packet(packet, size, &head));
    body = head.body;
    must(mip_read_message(head.sender, head.receiver, packet + body, size - body, &message));
    prepare();
    for (size_t i = 0; i < sizeof calls / sizeof *calls; i++)
        if (strcmp(calls[i].name, words[1 + is_timed]) == 0) {
            int times = is_timed ? (calls[i].call == take_update ? MOST : 100000) : atoi(words[2]);
            struct timespec from, to;
            clock_gettime(CLOCK_PROCESS_CPUTIME_ID, &from);
            for (int j = 0; j < times; j++)
                calls[i].call(j);
            clock_gettime(CLOCK_PROCESS_CPUTIME_ID, &to);
            if (is_timed)
                printf("%.0f\n", ((double)(to.tv_sec - from.tv_sec) * 1e9 + (double)(to.tv_nsec - from.tv_nsec)) / times);
            mip_correspondent_close(&node);
            return 0;
        }
    return 2;
}
