/* timed PROGRAM: runs PROGRAM with the input and output that it has itself, and says on standard
   error how many nanoseconds it took and how many KiB of memory were resident at most. */
#include <stdio.h>
#include <sys/resource.h>
#include <sys/wait.h>
#include <time.h>
#include <unistd.h>

int main(int argc, char **argv) {
    struct timespec from, to;
    struct rusage used;
    int status;
    if (argc != 2) return 2;
    clock_gettime(CLOCK_MONOTONIC, &from);
    pid_t child = fork();
    if (child == 0) execv(argv[1], argv + 1), _exit(127);
    if (child < 0 || wait4(child, &status, 0, &used) < 0) return perror("timed"), 1;
    clock_gettime(CLOCK_MONOTONIC, &to);
    fprintf(stderr, "%lld %ld\n",
            (to.tv_sec - from.tv_sec) * 1000000000LL + (to.tv_nsec - from.tv_nsec), used.ru_maxrss);
    return WIFEXITED(status) ? WEXITSTATUS(status) : 1;
}
