/* A correspondent node (RFC 6275 section 9) on a UDP port of 127.0.0.1, or on a TUN device: it takes what comes, and sends what the node answers.
       correspondent ADDRESS udp PORT [PEER ..]      a datagram is byte 0 and an IPv6 packet; its own go to PORT + 1
       correspondent ADDRESS tun NAME [PEER ..]      wants root
   It sends a word to each PEER every half second, on the direct way to whom it holds a binding of. What it accepts and what is handed up it prints. */
#include <arpa/inet.h>
#include <fcntl.h>
#include <linux/if.h>
#include <linux/if_tun.h>
#include <mip.h>
#include <poll.h>
#include <stdio.h>
#include <stdlib.h>
#include <string.h>
#include <sys/ioctl.h>
#include <sys/random.h>
#include <time.h>
#include <unistd.h>

static struct mip_correspondent_handle node;  /* all zeros: closed */
static int link_end;
static bool is_udp;  /* a byte 0 stands before each packet then */

static uint64_t now(void) { struct timespec t; clock_gettime(CLOCK_MONOTONIC, &t); return (uint64_t)t.tv_sec * 1000 + (uint64_t)t.tv_nsec / 1000000; }
static void fail(const char *what) { perror(what); exit(1); }

static void open_link(const char *name)
{
    struct sockaddr_in at = {.sin_family = AF_INET, .sin_addr.s_addr = htonl(INADDR_LOOPBACK), .sin_port = htons((uint16_t)atoi(name))}, to = at;
    struct ifreq device = {.ifr_flags = IFF_TUN | IFF_NO_PI};
    to.sin_port = htons((uint16_t)(atoi(name) + 1));
    strncpy(device.ifr_name, name, IFNAMSIZ - 1);
    link_end = is_udp ? socket(AF_INET, SOCK_DGRAM, 0) : open("/dev/net/tun", O_RDWR);
    if (is_udp ? bind(link_end, (struct sockaddr *)&at, sizeof at) || connect(link_end, (struct sockaddr *)&to, sizeof to) : ioctl(link_end, TUNSETIFF, &device))
        fail(name);
}

/* Sends and prints what the node answers to a call that ended so. */
static void answer(uint32_t status)
{
    static uint8_t frame[1 + 65575];
    struct mip_answer_fields it = {0};
    char home[INET6_ADDRSTRLEN], careof[INET6_ADDRSTRLEN];
    size_t size = 0;
    if (status != MIP_OK)
        fprintf(stderr, "correspondent: %s\n", mip_status_name(status));
    while (mip_correspondent_next(&node, &it, frame + is_udp, sizeof frame - is_udp, &size) == MIP_OK) {
        if (it.kind == MIP_ANSWER_SEND && write(link_end, frame, size + is_udp) < 0)
            perror("correspondent: a packet is lost");
        if (it.kind == MIP_ANSWER_ACCEPTED)
            printf("accepted %s at %s\n", inet_ntop(AF_INET6, it.home, home, sizeof home), inet_ntop(AF_INET6, it.careof, careof, sizeof careof));
        if (it.kind == MIP_ANSWER_UP)
            printf("up %zu bytes from %s\n", size, inet_ntop(AF_INET6, it.source, home, sizeof home));
    }
    fflush(stdout);
}

int main(int count, char **words)
{
    static uint8_t frame[1 + 65575];
    uint8_t own[16], peer[16], seed[32];
    if (count < 4 || inet_pton(AF_INET6, words[1], own) != 1 || getrandom(seed, sizeof seed, 0) != sizeof seed)
        return fprintf(stderr, "correspondent ADDRESS udp|tun PORT|NAME [PEER ..]\n"), 2;
    is_udp = strcmp(words[2], "udp") == 0;
    open_link(words[3]);
    if (mip_correspondent_open(&node, own, seed, 0, 0, 64, 1) != MIP_OK)
        return 1;
    for (uint64_t number = 0, due = now();;) {
        struct pollfd ready = {link_end, POLLIN, 0};
        ssize_t size = poll(&ready, 1, 50) > 0 ? read(link_end, frame, sizeof frame) : 0;
        if (size > is_udp && (!is_udp || frame[0] == 0))
            answer(mip_correspondent_take(&node, now(), number++, frame + is_udp, (size_t)size - is_udp));
        for (int i = 4; now() >= due && i < count; i++)
            if (inet_pton(AF_INET6, words[i], peer) == 1)
                answer(mip_correspondent_send(&node, now(), peer, 253, (const uint8_t *)"hello", 5));
        if (now() >= due)
            due += 500;
    }
}
