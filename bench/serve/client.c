// Clients of a node that serves over TCP on this machine.
//
//     client pipelined PORT[,PORT..] FRAMES..
//     client turns PORT FRAMES
//
// FRAMES are files of frames: be32 length, then the payload. By `pipelined` there is a connection for each file, all at once, to
// the port at its place or to the one port: each writes its file as fast as it goes, takes the replies meanwhile, and ends its
// writing behind the last frame. Prints the seconds from the start until the first of them has all its replies, how many bytes
// had come back to all of them by then, and how many came back in all. By `turns` each frame is sent once the reply to the one
// before has come; prints how many were sent, and the median and the 99th of 100 of the microseconds from a frame to its reply.
#include <arpa/inet.h>
#include <errno.h>
#include <fcntl.h>
#include <netinet/tcp.h>
#include <poll.h>
#include <pthread.h>
#include <stdatomic.h>
#include <stdint.h>
#include <stdio.h>
#include <stdlib.h>
#include <string.h>
#include <sys/mman.h>
#include <sys/socket.h>
#include <sys/stat.h>
#include <time.h>
#include <unistd.h>

enum { MOST = 16, AT_ONCE = 1 << 18, LONGEST = 1 << 16 };

typedef struct {
    int stream;
    const unsigned char *frames;
    size_t size;
    // The bytes that came back, on a line of the processor's cache of their own.
    _Alignas(128) _Atomic unsigned long long back;
    pthread_t thread;
} Load;

static pthread_barrier_t start;
static Load loads[MOST];
static int count;
static double began, took;
static unsigned long long back_by_then;
static atomic_flag is_over = ATOMIC_FLAG_INIT;

static void fail(const char *why) {
    fprintf(stderr, "client: %s: %s\n", why, strerror(errno));
    exit(1);
}

static double seconds(void) {
    struct timespec now;
    clock_gettime(CLOCK_MONOTONIC, &now);
    return (double)now.tv_sec + 1e-9 * (double)now.tv_nsec;
}

static int connected(const char *port) {
    struct sockaddr_in to = {.sin_family = AF_INET, .sin_port = htons((uint16_t)atoi(port))};
    to.sin_addr.s_addr = htonl(INADDR_LOOPBACK);
    int stream = socket(AF_INET, SOCK_STREAM, 0), yes = 1;
    if (stream < 0 || connect(stream, (struct sockaddr *)&to, sizeof to) != 0) fail("no connection");
    setsockopt(stream, IPPROTO_TCP, TCP_NODELAY, &yes, sizeof yes);
    return stream;
}

static void opened(Load *load, const char *port, const char *path) {
    int file = open(path, O_RDONLY);
    struct stat told;
    if (file < 0 || fstat(file, &told) != 0) fail("no file of frames");
    void *frames = mmap(NULL, (size_t)told.st_size, PROT_READ, MAP_PRIVATE | MAP_POPULATE, file, 0);
    if (frames == MAP_FAILED) fail("no memory for the frames");
    close(file);
    load->stream = connected(port);
    load->frames = frames;
    load->size = (size_t)told.st_size;
}

// The bytes that have come back to all.
static unsigned long long all_back(void) {
    unsigned long long back = 0;
    for (int i = 0; i < count; i++) back += atomic_load_explicit(&loads[i].back, memory_order_relaxed);
    return back;
}

// What counts once the first has all its replies: from then on fewer are at work.
static void over(void) {
    if (atomic_flag_test_and_set(&is_over)) return;
    took = seconds() - began;
    back_by_then = all_back();
}

// Writes all frames and takes all replies until the node closes.
static void *pipelined(void *of) {
    Load *load = of;
    unsigned char *room = malloc(AT_ONCE);
    size_t sent = 0;
    if (!room) fail("no room");
    pthread_barrier_wait(&start);
    for (;;) {
        struct pollfd ready = {.fd = load->stream, .events = (short)(POLLIN | (sent < load->size ? POLLOUT : 0))};
        if (poll(&ready, 1, 60000) <= 0) fail("nothing comes");
        if (ready.revents & POLLOUT) {
            size_t left = load->size - sent;
            ssize_t went = send(load->stream, load->frames + sent, left < AT_ONCE ? left : AT_ONCE, MSG_DONTWAIT | MSG_NOSIGNAL);
            if (went < 0 && errno != EAGAIN) fail("a write failed");
            if (went > 0) sent += (size_t)went;
            if (sent == load->size) shutdown(load->stream, SHUT_WR);
        }
        if (ready.revents & (POLLIN | POLLHUP | POLLERR)) {
            // The bytes of TCP are dropped by MSG_TRUNC and not copied.
            ssize_t came = recv(load->stream, room, AT_ONCE, MSG_DONTWAIT | MSG_TRUNC);
            if (came < 0 && errno != EAGAIN) fail("a read failed");
            if (came == 0) break;
            if (came > 0) atomic_fetch_add_explicit(&load->back, (unsigned long long)came, memory_order_relaxed);
        }
    }
    over();
    free(room);
    return NULL;
}

static void all_pipelined(char *ports, char **paths) {
    if (count > MOST) fail("too many files");
    pthread_barrier_init(&start, NULL, (unsigned)count + 1);
    char *port = strtok(ports, ",");
    for (int i = 0; i < count; i++) {
        opened(&loads[i], port, paths[i]);
        char *next = strtok(NULL, ",");
        port = next ? next : port;
        if (pthread_create(&loads[i].thread, NULL, pipelined, &loads[i]) != 0) fail("no thread");
    }
    began = seconds();
    pthread_barrier_wait(&start);
    for (int i = 0; i < count; i++) pthread_join(loads[i].thread, NULL);
    printf("%.6f %llu %llu\n", took, back_by_then, all_back());
}

static void whole(int stream, unsigned char *into, size_t len) {
    while (len) {
        ssize_t came = recv(stream, into, len, 0);
        if (came <= 0) fail("the reply is cut");
        into += came;
        len -= (size_t)came;
    }
}

static size_t length_at(const unsigned char *head) {
    return (size_t)head[0] << 24 | (size_t)head[1] << 16 | (size_t)head[2] << 8 | head[3];
}

static int less(const void *one, const void *other) {
    double a = *(const double *)one, b = *(const double *)other;
    return (a > b) - (a < b);
}

static void in_turn(const char *port, const char *path) {
    static Load load;
    opened(&load, port, path);
    static unsigned char reply[LONGEST];
    size_t at = 0, sent = 0, most = load.size / 4;
    double *each = malloc(most * sizeof *each);
    if (!each) fail("no room");
    while (at + 4 <= load.size) {
        size_t len = 4 + length_at(load.frames + at);
        double since = seconds();
        if (send(load.stream, load.frames + at, len, MSG_NOSIGNAL) != (ssize_t)len) fail("a write failed");
        whole(load.stream, reply, 4);
        if (length_at(reply) > LONGEST) fail("a reply that is too long");
        whole(load.stream, reply, length_at(reply));
        each[sent++] = (seconds() - since) * 1e6;
        at += len;
    }
    qsort(each, sent, sizeof *each, less);
    printf("%zu %.2f %.2f\n", sent, each[sent / 2], each[sent * 99 / 100]);
}

int main(int argc, char **argv) {
    if (argc >= 4 && strcmp(argv[1], "pipelined") == 0) {
        count = argc - 3;
        all_pipelined(argv[2], argv + 3);
    } else if (argc == 4 && strcmp(argv[1], "turns") == 0) {
        in_turn(argv[2], argv[3]);
    } else {
        fprintf(stderr, "usage: client pipelined PORT[,PORT..] FRAMES.. | client turns PORT FRAMES\n");
        return 2;
    }
    return 0;
}
