// In the machine: the receiver's line and the questions of a client outside, each over a port of
// virtio-serial.   relay LINE NTP PULL   (cc -O2 -static -o relay relay.c)
// LINE: each H or L pulls the simulated line up or down (the file PULL), and is sent back.
// NTP: 50 bytes are a port of the loopback and a request; the 48 bytes of an answer come back.
#include <arpa/inet.h>
#include <fcntl.h>
#include <poll.h>
#include <sched.h>
#include <string.h>
#include <sys/mman.h>
#include <sys/prctl.h>
#include <sys/socket.h>
#include <signal.h>
#include <unistd.h>

enum { FRAME = 50, ANSWER = 48 };

// Pulls the line as it is told.
static int line(int port, const char *path) {
  char level;
  for (;;) {
    if (read(port, &level, 1) != 1) { usleep(20000); continue; }  // nobody is at the other end
    int pull = open(path, O_WRONLY);
    const char *word = level == 'H' ? "pull-up" : "pull-down";
    if (pull < 0 || write(pull, word, strlen(word)) < 0) return 1;
    close(pull);
    if (write(port, &level, 1) != 1) usleep(20000);
  }
}

// Carries requests to the loopback, and answers back.
static int ntp(int port) {
  int link = socket(AF_INET, SOCK_DGRAM, 0), have = 0;
  unsigned char frame[FRAME], answer[600];
  struct sockaddr_in to = {.sin_family = AF_INET};
  to.sin_addr.s_addr = htonl(INADDR_LOOPBACK);
  struct pollfd ends[2] = {{.fd = port, .events = POLLIN}, {.fd = link, .events = POLLIN}};
  while (poll(ends, 2, -1) > 0) {
    if (ends[1].revents && recv(link, answer, sizeof answer, MSG_DONTWAIT) >= ANSWER &&
        write(port, answer, ANSWER) != ANSWER)
      usleep(20000);
    if (!ends[0].revents) continue;
    ssize_t got = read(port, frame + have, FRAME - have);
    if (got <= 0) { have = 0; usleep(20000); continue; }
    if ((have += got) < FRAME) continue;
    have = 0;
    memcpy(&to.sin_port, frame, 2);
    sendto(link, frame + 2, ANSWER, 0, (void *)&to, sizeof to);  // a closed port is a lost request
  }
  return 1;
}

int main(int count, char **words) {
  if (count != 4) return 2;
  struct sched_param priority = {.sched_priority = 50};
  int lines = open(words[1], O_RDWR), asks = open(words[2], O_RDWR);
  if (lines < 0 || asks < 0) return 1;
  int child = fork();
  if (child == 0) prctl(PR_SET_PDEATHSIG, SIGKILL);
  sched_setscheduler(0, SCHED_FIFO, &priority);
  mlockall(MCL_CURRENT | MCL_FUTURE);
  return child == 0 ? ntp(asks) : line(lines, words[3]);
}
