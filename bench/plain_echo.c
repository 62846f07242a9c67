/* A baseline for bench/serve.sh and bench/turn.sh: the system calls of a server's turn, and nothing else. It waits for a datagram for two
 * seconds, reads the clock twice, and sends 48 bytes back; for a number of turns, or until it is ended. */
#include <netinet/in.h>
#include <stdio.h>
#include <stdlib.h>
#include <sys/socket.h>
#include <sys/time.h>
#include <time.h>

int main(int count, char **words) {
    if (count < 2) return 1;
    long turns = count > 2 ? atol(words[2]) : -1, answered = 0;
    int fd = socket(AF_INET, SOCK_DGRAM, 0);
    struct sockaddr_in at = {.sin_family = AF_INET, .sin_port = htons(atoi(words[1])), .sin_addr = {htonl(INADDR_ANY)}};
    struct timeval two = {2, 0};
    if (bind(fd, (struct sockaddr *)&at, sizeof at) || setsockopt(fd, SOL_SOCKET, SO_RCVTIMEO, &two, sizeof two)) return 1;
    for (; turns; turns--) {
        unsigned char piece[1024];
        struct sockaddr_in from;
        socklen_t size = sizeof from;
        struct timespec arrived, sent;
        if (recvfrom(fd, piece, sizeof piece, 0, (struct sockaddr *)&from, &size) < 48) continue;
        clock_gettime(CLOCK_MONOTONIC, &arrived);
        clock_gettime(CLOCK_MONOTONIC, &sent);
        answered += sendto(fd, piece, 48, 0, (struct sockaddr *)&from, size) == 48;
    }
    printf("%ld\n", answered);
    return 0;
}
