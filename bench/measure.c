// Runs a command a number of times, and says the least time in ns and the greatest peak of memory in KiB. It is plain C since a process
// counts what its parent had when it was started, which is much more for Python.
#include <fcntl.h>
#include <stdio.h>
#include <stdlib.h>
#include <sys/resource.h>
#include <sys/wait.h>
#include <time.h>
#include <unistd.h>

static double now(void) {
    struct timespec at;
    clock_gettime(CLOCK_MONOTONIC, &at);
    return at.tv_sec * 1e9 + at.tv_nsec;
}

int main(int count, char **words) {
    double least = 1e18;
    long peak = 0;
    for (int run = 0; run < atoi(words[1]); run++) {
        double begin = now();
        pid_t child = fork();
        if (child == 0) {
            dup2(open("/dev/null", O_WRONLY), 1);
            execv(words[2], words + 2);
            _exit(127);
        }
        int status;
        struct rusage used;
        wait4(child, &status, 0, &used);
        double took = now() - begin;
        if (status != 0) {
            fprintf(stderr, "%s %s ended with the status %d\n", words[2], words[3], WEXITSTATUS(status));
            return 1;
        }
        if (took < least) least = took;
        if (used.ru_maxrss > peak) peak = used.ru_maxrss;
    }
    printf("%.0f %ld\n", least, peak);
    return count < 3;
}
