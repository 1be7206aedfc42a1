/* Linked to the gateway in place of poll and read (ld's --wrap): a signal interrupts every call
 * once, and where both sides have bytes the server's come just behind the look, so the next finds
 * them. */
#include <errno.h>
#include <poll.h>
#include <stdbool.h>
#include <unistd.h>

int __real_poll(struct pollfd *ready, nfds_t n, int timeout);
int __wrap_poll(struct pollfd *ready, nfds_t n, int timeout);
ssize_t __real_read(int socket, void *bytes, size_t size);
ssize_t __wrap_read(int socket, void *bytes, size_t size);

/* Whether this call is the one to be interrupted: every other, from the first. */
static bool interrupted(bool *before)
{
    *before = !*before;
    errno = EINTR;
    return *before;
}

int __wrap_poll(struct pollfd *ready, nfds_t n, int timeout)
{
    static bool before;
    int count = interrupted(&before) ? -1 : __real_poll(ready, n, timeout);
    if (count == 2) {
        ready[1].revents = 0;
        count = 1;
    }
    return count;
}

ssize_t __wrap_read(int socket, void *bytes, size_t size)
{
    static bool before;
    return interrupted(&before) ? -1 : __real_read(socket, bytes, size);
}
