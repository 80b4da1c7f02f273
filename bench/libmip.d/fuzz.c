/* A packet through every reader and through both nodes, for libFuzzer. The packet stands in a block of its exact size. */
#include "mip.h"

#include <stdlib.h>
#include <string.h>

int LLVMFuzzerTestOneInput(const uint8_t *data, size_t size);
int LLVMFuzzerTestOneInput(const uint8_t *data, size_t size)
{
    static uint8_t text[1 << 16], out[1 << 16];
    struct mip_packet_fields packet = {.hop = 0};
    struct mip_message_fields message = {.kind = 0};
    struct mip_icmp_fields icmp = {.kind = 0};
    struct mip_correspondent_handle node = {0};
    struct mip_answer_fields answer = {.kind = 0};
    uint8_t own[16] = {0x20, 0x01, 0x0d, 0xb8, 0, 2, [15] = 2}, seed[32] = {0};
    size_t told = 0, place = 0;
    uint8_t *block = malloc(size ? size : 1);
    memcpy(block, data, size);
    if (mip_read_packet(block, size, &packet) == MIP_OK) {
        mip_read_message(packet.sender, packet.receiver, block + packet.body, size - packet.body, &message);
        mip_read_icmp(packet.sender, packet.receiver, block + packet.body, size - packet.body, &icmp);
        mip_read_neighbour(packet.sender, packet.receiver, packet.hop, block + packet.body, size - packet.body, &(struct mip_neighbour_fields){.kind = 0});
        mip_write_packet(&packet, block + packet.body, size - packet.body, out, sizeof out, &told);
        mip_write_message_packet(&packet, &message, out, sizeof out, &told);
    }
    mip_decode(block, size, text, sizeof text, &told);
    mip_decapsulate(block, size, own, &packet, &place);
    mip_encapsulate(own, own, block, size, out, sizeof out, &told);
    if (mip_correspondent_open(&node, own, seed, 0, 0, 4, 8) == MIP_OK) {
        mip_correspondent_take(&node, 1, 0, block, size);
        while (mip_correspondent_next(&node, &answer, out, sizeof out, &told) == MIP_OK)
            ;
        mip_correspondent_close(&node);
    }
    struct mip_agent_handle agent = {0};
    struct mip_shield_fields shield = {.is_shielded = true};
    memcpy(shield.from, packet.sender, 16);
    memcpy(shield.to, packet.receiver, 16);
    if (mip_agent_open(&agent, packet.receiver, 1, 4, packet.sender, 16) == MIP_OK) {
        mip_agent_take(&agent, 1, 0, &shield, packet.sender, size % 2 ? 16 : 0, block, size);
        while (mip_agent_next(&agent, &answer, out, sizeof out, &told) == MIP_OK)
            ;
        mip_agent_close(&agent);
    }
    free(block);
    return 0;
}
