/* Runs a program once for each request on standard input, several at a time, and writes an answer for each on standard
 * output: a process is started and ended for each in about a millisecond. A request is a line of three numbers: its own,
 * how many words it has, and how many bytes of standard input; then the words, each ended by a zero byte, and the bytes.
 * An answer is a line of four numbers: the request's, the status (as wait tells it), and how many bytes the program wrote
 * to standard output and to standard error; then those bytes.
 *
 * usage: run_many SIDE_BY_SIDE SECONDS PROGRAM
 *
 * A program that has not ended after so many seconds of processor time is stopped by a signal, which its status tells. */
#define _GNU_SOURCE
#include <spawn.h>
#include <stdio.h>
#include <stdlib.h>
#include <string.h>
#include <sys/mman.h>
#include <sys/resource.h>
#include <sys/wait.h>
#include <unistd.h>

extern char **environ;

struct running {
    pid_t pid;
    unsigned long number;
    int in, out, errors;
};

static void fail(const char *what)
{
    perror(what);
    exit(2);
}

/* A file in memory with these bytes, at its start. */
static int in_memory(const char *bytes, size_t length)
{
    int fd = memfd_create("", MFD_CLOEXEC);

    if (fd < 0)
        fail("memfd_create");
    for (size_t done = 0; done < length;) {
        ssize_t count = write(fd, bytes + done, length - done);
        if (count <= 0)
            fail("write");
        done += count;
    }
    lseek(fd, 0, SEEK_SET);
    return fd;
}

static char *taken(size_t length)
{
    char *bytes = malloc(length + 1);

    if (bytes == NULL || fread(bytes, 1, length, stdin) != length)
        fail("request");
    return bytes;
}

/* Reads a word up to its zero byte. */
static char *word(void)
{
    char *text = NULL;
    size_t room = 0;

    if (getdelim(&text, &room, 0, stdin) < 0)
        fail("word");
    return text;
}

/* Starts the next request, if there is one. */
static int begin(struct running *one, char *program, rlim_t seconds)
{
    unsigned long words, length;

    if (scanf("%lu %lu %lu", &one->number, &words, &length) != 3 || getchar() != '\n')
        return 0;
    char **given = calloc(words + 2, sizeof *given);
    given[0] = program;
    for (unsigned long i = 1; i <= words; i++)
        given[i] = word();
    char *bytes = taken(length);
    one->in = in_memory(bytes, length);
    one->out = in_memory("", 0);
    one->errors = in_memory("", 0);
    posix_spawn_file_actions_t files;
    posix_spawn_file_actions_init(&files);
    posix_spawn_file_actions_adddup2(&files, one->in, 0);
    posix_spawn_file_actions_adddup2(&files, one->out, 1);
    posix_spawn_file_actions_adddup2(&files, one->errors, 2);
    struct rlimit limit = {seconds, seconds};
    if (posix_spawn(&one->pid, program, &files, NULL, given, environ) != 0)
        fail("posix_spawn");
    /* It may have ended already: then there is nothing to limit. */
    (void)prlimit(one->pid, RLIMIT_CPU, &limit, NULL);
    posix_spawn_file_actions_destroy(&files);
    for (unsigned long i = 1; i <= words; i++)
        free(given[i]);
    free(given);
    free(bytes);
    return 1;
}

/* Writes what stands in a file in memory. */
static void give(int fd, size_t length)
{
    char *bytes = malloc(length + 1);

    if (bytes == NULL || pread(fd, bytes, length, 0) != (ssize_t)length || fwrite(bytes, 1, length, stdout) != length)
        fail("answer");
    free(bytes);
    close(fd);
}

static void end(struct running *one, int status)
{
    size_t out = lseek(one->out, 0, SEEK_END), errors = lseek(one->errors, 0, SEEK_END);

    close(one->in);
    printf("%lu %d %zu %zu\n", one->number, status, out, errors);
    give(one->out, out);
    give(one->errors, errors);
}

int main(int count, char **words)
{
    if (count != 4)
        return 2;
    int most = atoi(words[1]), busy = 0, more = 1;
    struct running *all = calloc(most, sizeof *all);

    if (all == NULL)
        fail("start");
    while (more || busy > 0) {
        for (int i = 0; i < most && more; i++)
            if (all[i].pid == 0) {
                more = begin(&all[i], words[3], atoi(words[2]));
                busy += more;
            }
        int status;
        pid_t ended = busy > 0 ? wait(&status) : 0;
        for (int i = 0; i < most && ended > 0; i++)
            if (all[i].pid == ended) {
                end(&all[i], status);
                all[i].pid = 0;
                busy--;
                break;
            }
    }
    return 0;
}
