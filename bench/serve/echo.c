// A bare echo server: the least that any service over TCP takes for a request and its reply.
//
//     echo
//
// Takes a free port of this machine, prints it, and sends what comes on one connection back as it comes, until that ends.
#include <arpa/inet.h>
#include <netinet/tcp.h>
#include <stdio.h>
#include <stdlib.h>
#include <sys/socket.h>
#include <unistd.h>

enum { AT_ONCE = 1 << 16 };

static void fail(const char *why) {
    perror(why);
    exit(1);
}

int main(void) {
    struct sockaddr_in at = {.sin_family = AF_INET};
    socklen_t size = sizeof at;
    static unsigned char room[AT_ONCE];
    int yes = 1, listener = socket(AF_INET, SOCK_STREAM, 0);
    at.sin_addr.s_addr = htonl(INADDR_LOOPBACK);
    if (listener < 0 || bind(listener, (struct sockaddr *)&at, sizeof at) != 0 || listen(listener, 1) != 0) fail("echo");
    if (getsockname(listener, (struct sockaddr *)&at, &size) != 0) fail("echo");
    printf("%d\n", ntohs(at.sin_port));
    fflush(stdout);
    int stream = accept(listener, NULL, NULL);
    if (stream < 0) fail("echo");
    setsockopt(stream, IPPROTO_TCP, TCP_NODELAY, &yes, sizeof yes);
    for (;;) {
        ssize_t came = recv(stream, room, sizeof room, 0);
        if (came <= 0) return came < 0;
        for (ssize_t sent = 0; sent < came;) {
            ssize_t went = send(stream, room + sent, (size_t)(came - sent), MSG_NOSIGNAL);
            if (went <= 0) fail("echo");
            sent += went;
        }
    }
}
