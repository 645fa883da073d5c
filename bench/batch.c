/* For bench/bench: runs a program several times, one run after the other, with no input and its outputs thrown away.
 *
 *   batch COUNT STATUS PROGRAM [WORD ..]
 *
 * It prints the microseconds of a processor, user and system, that all runs took, and the greatest peak memory of a run in KiB.
 * It is a program of its own since a run's peak has in it what the process held that started the run: here that is little. It
 * ends with status 1 where a run cannot be started or does not end with STATUS.
 */
#define _GNU_SOURCE
#include <errno.h>
#include <fcntl.h>
#include <spawn.h>
#include <stdio.h>
#include <stdlib.h>
#include <string.h>
#include <sys/resource.h>
#include <sys/wait.h>

extern char **environ;

static long long microseconds(struct timeval t)
{
    return t.tv_sec * 1000000LL + t.tv_usec;
}

/* Runs the program once, with what it took in *used. Its status is 256 where a signal stopped it, -1 where it was not run. */
static int run(char **words, const posix_spawn_file_actions_t *ways, struct rusage *used)
{
    pid_t child;
    int status, fault = posix_spawnp(&child, words[0], ways, NULL, words, environ);

    if (fault) {
        fprintf(stderr, "%s: %s\n", words[0], strerror(fault));
        return -1;
    }
    while (wait4(child, &status, 0, used) < 0)
        if (errno != EINTR)
            return -1;
    return WIFEXITED(status) ? WEXITSTATUS(status) : 256;
}

int main(int count, char **words)
{
    posix_spawn_file_actions_t ways;
    long long spent = 0;
    long peak = 0;

    if (count < 4 || posix_spawn_file_actions_init(&ways) ||
        posix_spawn_file_actions_addopen(&ways, 0, "/dev/null", O_RDONLY, 0) ||
        posix_spawn_file_actions_addopen(&ways, 1, "/dev/null", O_WRONLY, 0) ||
        posix_spawn_file_actions_addopen(&ways, 2, "/dev/null", O_WRONLY, 0))
        return 1;
    for (long left = atol(words[1]); left > 0; left--) {
        struct rusage used;
        int status = run(words + 3, &ways, &used);
        if (status != atoi(words[2])) {
            fprintf(stderr, "a run ended with status %d\n", status);
            return 1;
        }
        spent += microseconds(used.ru_utime) + microseconds(used.ru_stime);
        if (used.ru_maxrss > peak)
            peak = used.ru_maxrss;
    }
    printf("%lld %ld\n", spent, peak);
    return 0;
}
