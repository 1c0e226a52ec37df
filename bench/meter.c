/* Runs a command once and prints what it took: microseconds of processor time (user and system together), peak
 * resident kilobytes, and its exit status. What the command writes goes to the file OUTPUT.
 *
 *   meter OUTPUT COMMAND WORD..
 *
 * It is small, and linked statically: Linux hands the peak of the process that calls exec down to the program that it
 * runs, so the peak of a large parent, such as Python, would be counted.
 */
#include <fcntl.h>
#include <spawn.h>
#include <stdio.h>
#include <sys/resource.h>
#include <sys/wait.h>

extern char **environ;

static long microseconds(struct timeval time) {
    return time.tv_sec * 1000000L + time.tv_usec;
}

int main(int argc, char **argv) {
    if (argc < 3) return 2;
    /* Emptied here: in the child the time to drop what an earlier command wrote would be counted as its own. */
    int output = open(argv[1], O_WRONLY | O_CREAT | O_TRUNC | O_CLOEXEC, 0644);
    if (output < 0) return 5;
    posix_spawn_file_actions_t streams;
    posix_spawn_file_actions_init(&streams);
    posix_spawn_file_actions_addopen(&streams, 0, "/dev/null", O_RDONLY, 0);
    posix_spawn_file_actions_adddup2(&streams, output, 1);
    posix_spawn_file_actions_addopen(&streams, 2, "/dev/null", O_WRONLY, 0);
    pid_t child;
    if (posix_spawnp(&child, argv[2], &streams, NULL, argv + 2, environ) != 0) return 3;
    int status;
    struct rusage use;
    if (wait4(child, &status, 0, &use) < 0) return 4;
    long took = microseconds(use.ru_utime) + microseconds(use.ru_stime);
    printf("%ld %ld %d\n", took, use.ru_maxrss, WIFEXITED(status) ? WEXITSTATUS(status) : 128 + WTERMSIG(status));
    return 0;
}
