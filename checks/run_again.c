/* Loaded before the program (LD_PRELOAD), it runs the program's `main` once for each request on standard input, all in one
 * process, since starting one costs more than most answers do. What the program reads from its standard input, and what it
 * writes to its standard output and error, stay in memory; its other files are the system's. The program has to be started
 * with at least as many words as any request has: they are put in the place of those.
 *
 * A request is a line of three numbers: its own, how many words it has, and how many bytes of standard input; then the
 * words, each ended by a zero byte, and the bytes. An answer is a line of four numbers: the request's, the status (as wait
 * tells it), and how many bytes the program wrote to standard output and to standard error; then those bytes. An answer
 * is written as soon as it is there: where a request ends the process, the last answer is that of the request before.
 *
 * An answer that takes longer than MOST_SECONDS ends the process by a signal. */
#define _GNU_SOURCE
#include <dlfcn.h>
#include <stdio.h>
#include <stdlib.h>
#include <string.h>
#include <sys/syscall.h>
#include <unistd.h>

#define MOST_SECONDS 10

struct text {
    char *bytes;
    size_t length, room;
};

typedef int main_function(int, char **, char **);

static main_function *own_main;
/* What is left of the standard input of the request that is answered, and what was written for it. */
static struct text given;
static size_t taken;
static struct text written[2];
static struct text reply;

static void fail(const char *what)
{
    perror(what);
    _exit(2);
}

static void make_room(struct text *text, size_t more)
{
    if (text->room - text->length >= more)
        return;
    text->room = 2 * (text->length + more);
    text->bytes = realloc(text->bytes, text->room);
    if (text->bytes == NULL)
        fail("memory");
}

static void append(struct text *text, const void *bytes, size_t count)
{
    make_room(text, count + 1);
    if (count > 0)
        memcpy(text->bytes + text->length, bytes, count);
    text->length += count;
}

/* ---- what the program calls */

ssize_t read(int file, void *buffer, size_t count)
{
    if (file != 0)
        return syscall(SYS_read, file, buffer, count);
    size_t part = given.length - taken < count ? given.length - taken : count;
    memcpy(buffer, given.bytes + taken, part);
    taken += part;
    return part;
}

ssize_t write(int file, const void *bytes, size_t count)
{
    if (file != 1 && file != 2)
        return syscall(SYS_write, file, bytes, count);
    append(&written[file - 1], bytes, count);
    return count;
}

/* ---- requests and answers */

/* Reads the words of a request into the places of the program's own; the places after them stay empty. */
static void take_words(char **words, int places, int count)
{
    if (count >= places)
        fail("too many words");
    for (int i = 1; i < places; i++) {
        size_t room = 0;
        free(words[i]);
        words[i] = NULL;
        if (i <= count && getdelim(&words[i], &room, 0, stdin) < 0)
            fail("word");
    }
}

static void take_input(size_t length)
{
    given.length = taken = 0;
    make_room(&given, length + 1);
    if (fread(given.bytes, 1, length, stdin) != length)
        fail("input");
    given.length = length;
}

static void answer(unsigned long number, int status)
{
    char line[100];

    reply.length = 0;
    append(&reply, line, snprintf(line, sizeof line, "%lu %d %zu %zu\n", number, (status & 255) << 8, written[0].length, written[1].length));
    append(&reply, written[0].bytes, written[0].length);
    append(&reply, written[1].bytes, written[1].length);
    for (size_t done = 0; done < reply.length;) {
        ssize_t count = syscall(SYS_write, 1, reply.bytes + done, reply.length - done);
        if (count <= 0)
            fail("answer");
        done += count;
    }
}

/* Stands in the place of the program's `main`. */
static int answer_all(int places, char **words, char **environment)
{
    unsigned long number, count, length;

    for (int i = 1; i < places; i++)
        words[i] = NULL;
    while (scanf("%lu %lu %lu", &number, &count, &length) == 3 && getchar() == '\n') {
        take_words(words, places, count);
        take_input(length);
        written[0].length = written[1].length = 0;
        alarm(MOST_SECONDS);
        answer(number, own_main(count + 1, words, environment));
    }
    return 0;
}

int __libc_start_main(main_function *first, int count, char **words, void (*init)(void), void (*end)(void), void (*leave)(void), void *stack)
{
    int (*start)(main_function *, int, char **, void (*)(void), void (*)(void), void (*)(void), void *) = dlsym(RTLD_NEXT, "__libc_start_main");

    own_main = first;
    return start(answer_all, count, words, init, end, leave, stack);
}
