/* What runs in the guest: it opens mobility messages, so that the kernel judges them, and sends each UDP datagram to port 7 of an address back. */
#include <arpa/inet.h>
#include <stdio.h>
#include <sys/socket.h>
#include <unistd.h>

int main(int count, char **words) {
    struct sockaddr_in6 at = {.sin6_family = AF_INET6, .sin6_port = htons(7)}, from;
    int echo = socket(AF_INET6, SOCK_DGRAM, 0);
    char datagram[2048];
    if (count != 2 || inet_pton(AF_INET6, words[1], &at.sin6_addr) != 1 || bind(echo, (struct sockaddr *)&at, sizeof at) ||
        socket(AF_INET6, SOCK_RAW, 135) < 0) {
        perror("guest");
        return 1;
    }
    printf("guest ready\n");
    fflush(stdout);
    for (;;) {
        socklen_t length = sizeof from;
        ssize_t size = recvfrom(echo, datagram, sizeof datagram, 0, (struct sockaddr *)&from, &length);
        if (size >= 0) sendto(echo, datagram, size, 0, (struct sockaddr *)&from, length);
        else sleep(1);
    }
}
