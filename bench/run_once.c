/* Runs one command with standard input from a file and its output thrown away, and writes its exit status, its
 * seconds and its peak memory in bytes. The peak of a process counts that of the process which it was forked from,
 * so this program, which is small, stands between Python and what is measured. */
#include <fcntl.h>
#include <stdio.h>
#include <stdlib.h>
#include <sys/resource.h>
#include <sys/time.h>
#include <sys/wait.h>
#include <time.h>
#include <unistd.h>

static double now(void)
{
    struct timespec time;
    clock_gettime(CLOCK_MONOTONIC, &time);
    return time.tv_sec + time.tv_nsec / 1e9;
}

static void become(const char *input, char **words)
{
    dup2(open(input, O_RDONLY), STDIN_FILENO);
    dup2(open("/dev/null", O_WRONLY), STDOUT_FILENO);
    execv(words[0], words);
    perror(words[0]);
    _exit(127);
}

int main(int count, char **words)
{
    if (count < 3) {
        fprintf(stderr, "usage: run_once INPUT COMMAND..\n");
        return 2;
    }
    double began = now();
    pid_t child = fork();
    if (child < 0) {
        perror("fork");
        return 1;
    }
    if (child == 0)
        become(words[1], words + 2);
    int status;
    struct rusage usage;
    if (wait4(child, &status, 0, &usage) < 0) {
        perror("wait4");
        return 1;
    }
    printf("%d %.6f %ld\n", WIFEXITED(status) ? WEXITSTATUS(status) : 128, now() - began, usage.ru_maxrss * 1024);
    return 0;
}
