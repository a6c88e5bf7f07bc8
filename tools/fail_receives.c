/* Preloaded into a program, it lets each receive from a socket fail: no datagram ever comes. */
#include <errno.h>
#include <sys/socket.h>
#include <sys/types.h>

ssize_t recvfrom(int socket, void *room, size_t length, int flags, struct sockaddr *from,
                 socklen_t *from_length)
{
    (void)socket, (void)room, (void)length, (void)flags, (void)from, (void)from_length;
    errno = EIO;
    return -1;
}

ssize_t recv(int socket, void *room, size_t length, int flags)
{
    return recvfrom(socket, room, length, flags, 0, 0);
}

ssize_t recvmsg(int socket, struct msghdr *message, int flags)
{
    (void)message;
    return recvfrom(socket, 0, 0, flags, 0, 0);
}
