/* A client for bench/serve.sh: asks a server at a port of 127.0.0.1 a number of times and keeps a number of requests outstanding. It says how
 * many replies came in a second. A request that is lost for a second is sent anew; a reply that isn't 48 bytes ends it with 1. With a
 * fourth argument it asks as that many clients by turns, whose addresses are 127.1.0.0 and those after it. */
#define _GNU_SOURCE
#include <arpa/inet.h>
#include <errno.h>
#include <stdio.h>
#include <stdlib.h>
#include <string.h>
#include <sys/socket.h>
#include <sys/time.h>
#include <time.h>
#include <unistd.h>

static double now(void) {
    struct timespec at;
    clock_gettime(CLOCK_MONOTONIC, &at);
    return at.tv_sec + at.tv_nsec / 1e9;
}

static struct sockaddr_in server;
static long clients;

static void ask(int fd, long number) {
    unsigned char request[48] = {0x23, 0, 6, 0xec};
    memcpy(request + 40, &number, sizeof number);
    struct iovec bytes = {request, sizeof request};
    union {
        struct cmsghdr header;
        char room[CMSG_SPACE(sizeof(struct in_pktinfo))];
    } from = {{0}};
    struct msghdr message = {.msg_name = &server, .msg_namelen = sizeof server, .msg_iov = &bytes, .msg_iovlen = 1};
    if (clients) {
        struct in_pktinfo source = {.ipi_spec_dst = {htonl(0x7f010000 + number % clients)}};
        message.msg_control = from.room;
        message.msg_controllen = sizeof from.room;
        struct cmsghdr *item = CMSG_FIRSTHDR(&message);
        item->cmsg_level = IPPROTO_IP;
        item->cmsg_type = IP_PKTINFO;
        item->cmsg_len = CMSG_LEN(sizeof source);
        memcpy(CMSG_DATA(item), &source, sizeof source);
    }
    if (sendmsg(fd, &message, 0) != sizeof request && errno != ECONNREFUSED) exit(1);
}

int main(int count, char **words) {
    if (count != 4 && count != 5) return 1;
    clients = count == 5 ? atol(words[4]) : 0;
    long outstanding = atol(words[2]), wanted = atol(words[3]), asked = 0, lost = 0;
    int fd = socket(AF_INET, SOCK_DGRAM, 0);
    server = (struct sockaddr_in){.sin_family = AF_INET, .sin_port = htons(atoi(words[1])), .sin_addr = {htonl(INADDR_LOOPBACK)}};
    struct timeval second = {1, 0};
    /* One client alone learns that nobody listens yet. */
    if ((!clients && connect(fd, (struct sockaddr *)&server, sizeof server)) || setsockopt(fd, SOL_SOCKET, SO_RCVTIMEO, &second, sizeof second))
        return 1;
    double begin = now();
    while (asked < outstanding) ask(fd, asked++);
    for (long heard = 0; heard < wanted;) {
        unsigned char reply[1024];
        long length = recv(fd, reply, sizeof reply, 0);
        if (length == 48) {
            heard++;
            ask(fd, asked++);
        } else if (length >= 0) {
            fprintf(stderr, "a reply of %ld bytes\n", length);
            return 1;
        } else if (errno == EAGAIN || errno == EWOULDBLOCK) {
            if (++lost > 10) return 1;
            for (long i = 0; i < outstanding; i++) ask(fd, asked++);
        } else if (errno == ECONNREFUSED) {
            /* Nobody listens yet. */
            if (now() - begin > 10) return 1;
            usleep(10000);
            ask(fd, asked++);
        } else
            return 1;
    }
    printf("%.0f\n", wanted / (now() - begin));
    return 0;
}
