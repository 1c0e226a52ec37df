/* Loaded before the program (LD_PRELOAD): refuses the growth of memory of the index in REFUSED, counted from 1 over
 * malloc and realloc; with REFUSED_ON set, every later one too. It writes "refused" to standard error when it does. */
#define _GNU_SOURCE
#include <dlfcn.h>
#include <errno.h>
#include <stddef.h>
#include <stdlib.h>
#include <unistd.h>

static unsigned long growths;

static int is_refused(void)
{
    static const char message[] = "refused\n";
    const char *index = getenv("REFUSED");
    unsigned long wanted = index == NULL ? 0 : strtoul(index, NULL, 10);

    growths++;
    if (wanted == 0 || growths < wanted)
        return 0;
    if (growths > wanted && getenv("REFUSED_ON") == NULL)
        return 0;
    if (write(STDERR_FILENO, message, sizeof message - 1) < 0)
        _exit(3);
    errno = ENOMEM;
    return 1;
}

void *malloc(size_t size)
{
    static void *(*next)(size_t);

    if (next == NULL)
        next = (void *(*)(size_t))dlsym(RTLD_NEXT, "malloc");
    return is_refused() ? NULL : next(size);
}

void *realloc(void *block, size_t size)
{
    static void *(*next)(void *, size_t);

    if (next == NULL)
        next = (void *(*)(void *, size_t))dlsym(RTLD_NEXT, "realloc");
    return is_refused() ? NULL : next(block, size);
}
