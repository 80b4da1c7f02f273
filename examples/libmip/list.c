/* Lists the packet on standard input, as `mip decode` does. */
#include <mip.h>
#include <stdio.h>

int main(void)
{
    static uint8_t packet[65575], text[200000];
    size_t size = 0, length = fread(packet, 1, sizeof packet, stdin);
    uint32_t status = mip_decode(packet, length, text, sizeof text, &size);
    if (status != MIP_OK)
        return fprintf(stderr, "list: %s\n", mip_status_name(status)), 8;
    return fwrite(text, 1, size, stdout) != size;
}
