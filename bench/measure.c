/* Runs a program with standard input and output from and to files: prints its seconds of processor time and the most
   kilobytes that were resident. A small program of its own, since a child's figure begins with its parent's. */
#include <stdio.h>
#include <fcntl.h>
#include <unistd.h>
#include <sys/resource.h>
#include <sys/wait.h>

int main(int argc, char **argv) {
    int status;
    struct rusage usage;
    if (argc < 4) return 2;
    if (fork() == 0) {
        dup2(open(argv[1], O_RDONLY), 0);
        dup2(open(argv[2], O_WRONLY | O_CREAT | O_TRUNC, 0600), 1);
        execv(argv[3], argv + 3);
        _exit(127);
    }
    wait(&status);
    getrusage(RUSAGE_CHILDREN, &usage);
    printf("%ld.%06ld %ld\n", (long)(usage.ru_utime.tv_sec + usage.ru_stime.tv_sec) + (usage.ru_utime.tv_usec + usage.ru_stime.tv_usec) / 1000000,
           (long)(usage.ru_utime.tv_usec + usage.ru_stime.tv_usec) % 1000000, usage.ru_maxrss);
    return WIFEXITED(status) ? WEXITSTATUS(status) : 1;
}
