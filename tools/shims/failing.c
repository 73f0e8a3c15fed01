/* A library to be loaded before others: socket calls that fail.

   FAIL_CALLS=N:E fails each Nth send and each Nth receive with the error number E; FAIL_WHERE=PATH fails every call with EIO
   once a file of that name is there; FAIL_BIND=E fails each bind with the error number E. */
#define _GNU_SOURCE
#include <dlfcn.h>
#include <errno.h>
#include <stdlib.h>
#include <sys/socket.h>
#include <sys/types.h>
#include <unistd.h>

static long every, error_number, sends, receives;
static const char *where;

__attribute__((constructor)) static void begin(void)
{
    const char *calls = getenv("FAIL_CALLS");
    where = getenv("FAIL_WHERE");
    if (calls) {
        char *rest;
        every = strtol(calls, &rest, 10);
        error_number = *rest == ':' ? strtol(rest + 1, NULL, 10) : EIO;
    }
}

static int fails(long *count)
{
    if (where && access(where, F_OK) == 0) {
        errno = EIO;
        return 1;
    }
    if (every > 0 && __atomic_add_fetch(count, 1, __ATOMIC_SEQ_CST) % every == 0) {
        errno = (int)error_number;
        return 1;
    }
    return 0;
}

#define NEXT(name) ((__typeof__(&name))dlsym(RTLD_NEXT, #name))

int bind(int socket, const struct sockaddr *address, socklen_t size)
{
    const char *number = getenv("FAIL_BIND");
    if (number) {
        errno = (int)strtol(number, NULL, 10);
        return -1;
    }
    return NEXT(bind)(socket, address, size);
}

ssize_t send(int socket, const void *bytes, size_t length, int flags)
{
    return fails(&sends) ? -1 : NEXT(send)(socket, bytes, length, flags);
}

ssize_t sendto(int socket, const void *bytes, size_t length, int flags, const struct sockaddr *to, socklen_t size)
{
    return fails(&sends) ? -1 : NEXT(sendto)(socket, bytes, length, flags, to, size);
}

ssize_t recv(int socket, void *bytes, size_t length, int flags)
{
    return fails(&receives) ? -1 : NEXT(recv)(socket, bytes, length, flags);
}

ssize_t recvfrom(int socket, void *bytes, size_t length, int flags, struct sockaddr *from, socklen_t *size)
{
    return fails(&receives) ? -1 : NEXT(recvfrom)(socket, bytes, length, flags, from, size);
}
