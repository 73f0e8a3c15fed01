/* A library to be loaded before others: the Nth growth of the process is refused, as the system refuses it.

   REFUSE_CALL=N refuses the Nth call of malloc or realloc, counted from 1 over all threads. */
#define _GNU_SOURCE
#include <errno.h>
#include <stddef.h>
#include <stdlib.h>

extern void *__libc_malloc(size_t size);
extern void *__libc_realloc(void *block, size_t size);

static long refused, calls;

__attribute__((constructor)) static void begin(void)
{
    const char *number = getenv("REFUSE_CALL");
    calls = 0;
    refused = number ? strtol(number, NULL, 10) : 0;
}

static int is_refused(void)
{
    if (refused == 0 || __atomic_add_fetch(&calls, 1, __ATOMIC_SEQ_CST) != refused)
        return 0;
    errno = ENOMEM;
    return 1;
}

void *malloc(size_t size)
{
    return is_refused() ? NULL : __libc_malloc(size);
}

void *realloc(void *block, size_t size)
{
    return is_refused() ? NULL : __libc_realloc(block, size);
}
