// Runs a program once: measure INPUT OUTPUT PROGRAM WORD..
//
// Prints the seconds that it took, those of processor time, and its peak memory in KiB, on one line.
// Fails where it fails.
// It is in C, since a child begins with the memory of whoever started it.
#include <fcntl.h>
#include <stdio.h>
#include <stdlib.h>
#include <sys/resource.h>
#include <sys/wait.h>
#include <time.h>
#include <unistd.h>

static double seconds(void) {
    struct timespec now;
    clock_gettime(CLOCK_MONOTONIC, &now);
    return (double)now.tv_sec + 1e-9 * (double)now.tv_nsec;
}

static void opened_as(const char *path, int flags, int as) {
    int fd = open(path, flags, 0644);
    if (fd < 0 || dup2(fd, as) < 0) {
        perror(path);
        _exit(127);
    }
    close(fd);
}

int main(int argc, char **argv) {
    if (argc < 4) {
        fprintf(stderr, "usage: measure INPUT OUTPUT PROGRAM WORD..\n");
        return 2;
    }
    double start = seconds();
    pid_t child = fork();
    if (child < 0) {
        perror("fork");
        return 1;
    }
    if (child == 0) {
        opened_as(argv[1], O_RDONLY, STDIN_FILENO);
        opened_as(argv[2], O_WRONLY | O_CREAT | O_TRUNC, STDOUT_FILENO);
        execv(argv[3], argv + 3);
        perror(argv[3]);
        _exit(127);
    }
    int status;
    struct rusage used;
    if (wait4(child, &status, 0, &used) < 0) {
        perror("wait4");
        return 1;
    }
    double took = seconds() - start;
    double worked = (double)(used.ru_utime.tv_sec + used.ru_stime.tv_sec) +
                    1e-6 * (double)(used.ru_utime.tv_usec + used.ru_stime.tv_usec);
    printf("%.3f %.3f %ld\n", took, worked, used.ru_maxrss);
    if (!WIFEXITED(status) || WEXITSTATUS(status) != 0) {
        fprintf(stderr, "measure: %s did not end with status 0\n", argv[3]);
        return 1;
    }
    return 0;
}
