// stopwatch INPUT OUTPUT PROGRAM: runs PROGRAM from the file INPUT into the file OUTPUT and prints the processor seconds that it took, user
// and system together, so that what else runs on the machine counts as little as may be.
#define _DEFAULT_SOURCE
#include <fcntl.h>
#include <stdio.h>
#include <sys/resource.h>
#include <sys/time.h>
#include <sys/wait.h>
#include <unistd.h>

static double seconds(struct timeval t) {
    return (double)t.tv_sec + (double)t.tv_usec / 1e6;
}

int main(int argc, char **argv) {
    if (argc != 4) {
        fprintf(stderr, "usage: stopwatch INPUT OUTPUT PROGRAM\n");
        return 2;
    }
    pid_t child = fork();
    if (child < 0) {
        perror("stopwatch");
        return 2;
    }
    if (child == 0) {
        int in = open(argv[1], O_RDONLY);
        int out = open(argv[2], O_WRONLY | O_CREAT | O_TRUNC, 0644);
        if (in >= 0 && out >= 0 && dup2(in, 0) == 0 && dup2(out, 1) == 1) execl(argv[3], argv[3], (char *)0);
        perror(argv[3]);
        _exit(127);
    }
    int status;
    struct rusage used;
    if (wait4(child, &status, 0, &used) != child || !WIFEXITED(status) || WEXITSTATUS(status) != 0) {
        fprintf(stderr, "stopwatch: %s did not end with 0\n", argv[3]);
        return 1;
    }
    printf("%.6f\n", seconds(used.ru_utime) + seconds(used.ru_stime));
    return 0;
}
