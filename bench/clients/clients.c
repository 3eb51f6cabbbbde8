// Many clients of one address of this machine, by one thread over epoll, or an echo to all of them by the same loop.
//
//     clients echo
//     clients load PORT FRAMES BUSY SILENT TURNS
//     clients rude PORT FRAMES COUNT HOW
//
// `echo` takes a free port, prints it, and sends what comes on each connection back as it comes, until its input ends. Of who takes nothing
// it reads no more.
// `load` connects SILENT clients that send an empty frame and then nothing, and BUSY ones, each of which sends its frames one after
// the other, TURNS of them, each once the reply to the one before is whole. FRAMES has the frames of the first client, then those of
// the second, and so on, all of one length. Prints the replies, the replies per second, the median and the 99th in 100 of the microseconds of the first client's
// turns, the same of all, and how many connections were lost.
// `rude` is one client until its input ends. FRAMES has COUNT frames of one length. HOW is `deaf`: it sends them again and again and takes no
// reply; `drip`: it sends a byte of the first each 10 ms; or `reset`: it sends more of the first each time, a byte at a time, and resets.
#include <arpa/inet.h>
#include <errno.h>
#include <fcntl.h>
#include <netinet/tcp.h>
#include <poll.h>
#include <stdint.h>
#include <stdio.h>
#include <stdlib.h>
#include <string.h>
#include <sys/epoll.h>
#include <sys/resource.h>
#include <sys/socket.h>
#include <time.h>
#include <unistd.h>

enum { AT_ONCE = 1024, PIECE = 1 << 16, QUEUE = 4096, GUESTS = 1 << 16 };

static unsigned char piece[PIECE];

// What a guest of the echo did not take yet.
static struct rest {
    unsigned char *bytes;
    size_t count;
} rests[GUESTS];

static void fail(const char *why) {
    perror(why);
    exit(1);
}

static double seconds(void) {
    struct timespec now;
    clock_gettime(CLOCK_MONOTONIC, &now);
    return (double)now.tv_sec + 1e-9 * (double)now.tv_nsec;
}

static void watch(int poll, int fd, uint32_t place, uint32_t events) {
    struct epoll_event event = {.events = events | EPOLLET, .data.u32 = place};
    if (epoll_ctl(poll, EPOLL_CTL_ADD, fd, &event) != 0) fail("epoll_ctl");
}

static void prompt(int fd) {
    int yes = 1;
    setsockopt(fd, IPPROTO_TCP, TCP_NODELAY, &yes, sizeof yes);
    if (fcntl(fd, F_SETFL, O_NONBLOCK) != 0) fail("fcntl");
}

// Sends all. The other side of a test takes what it is sent.
static int give(int fd, const unsigned char *from, size_t count) {
    while (count > 0) {
        ssize_t went = send(fd, from, count, MSG_NOSIGNAL);
        if (went < 0 && errno == EAGAIN) continue;
        if (went <= 0) return 0;
        from += went;
        count -= (size_t)went;
    }
    return 1;
}

static void many_files(void) {
    struct rlimit limit;
    getrlimit(RLIMIT_NOFILE, &limit);
    limit.rlim_cur = limit.rlim_max;
    setrlimit(RLIMIT_NOFILE, &limit);
}

// Sends what is taken of the bytes now. How many are left, or -1 where the connection has ended.
static ssize_t offer(int fd, const unsigned char *from, size_t count) {
    while (count > 0) {
        ssize_t went = send(fd, from, count, MSG_NOSIGNAL);
        if (went < 0 && errno == EAGAIN) break;
        if (went <= 0) return -1;
        from += went;
        count -= (size_t)went;
    }
    return (ssize_t)count;
}

// What is left of a guest's bytes, and once that is gone one read, of what is there. Whether the connection goes on.
static int echo_one(int fd) {
    struct rest *rest = &rests[fd];
    if (rest->count > 0) {
        ssize_t left = offer(fd, rest->bytes, rest->count);
        if (left < 0) return 0;
        memmove(rest->bytes, rest->bytes + rest->count - (size_t)left, (size_t)left);
        rest->count = (size_t)left;
        if (left > 0) return 1;
    }
    ssize_t came = recv(fd, piece, sizeof piece, 0);
    if (came < 0 && errno == EAGAIN) return 1;
    ssize_t left = came > 0 ? offer(fd, piece, (size_t)came) : -1;
    if (left <= 0) return left == 0;
    if (!rest->bytes) rest->bytes = malloc(PIECE);
    if (!rest->bytes) return 0;
    memcpy(rest->bytes, piece + came - left, (size_t)left);
    rest->count = (size_t)left;
    return 1;
}

static int echo(void) {
    struct sockaddr_in at = {.sin_family = AF_INET};
    socklen_t size = sizeof at;
    at.sin_addr.s_addr = htonl(INADDR_LOOPBACK);
    int listener = socket(AF_INET, SOCK_STREAM | SOCK_NONBLOCK, 0);
    if (listener < 0 || bind(listener, (struct sockaddr *)&at, sizeof at) != 0 || listen(listener, QUEUE) != 0) fail("echo");
    if (getsockname(listener, (struct sockaddr *)&at, &size) != 0) fail("echo");
    printf("%d\n", ntohs(at.sin_port));
    fflush(stdout);
    int poll = epoll_create1(0);
    watch(poll, listener, (uint32_t)listener, EPOLLIN);
    struct epoll_event input = {.events = EPOLLIN, .data.u32 = 0};
    if (epoll_ctl(poll, EPOLL_CTL_ADD, 0, &input) != 0) fail("epoll_ctl");
    struct epoll_event ready[AT_ONCE];
    for (;;) {
        int count = epoll_wait(poll, ready, AT_ONCE, -1);
        for (int each = 0; each < count; each++) {
            int fd = (int)ready[each].data.u32;
            if (fd == 0) return 0;
            if (fd != listener) {
                if (!echo_one(fd)) close(fd);
                continue;
            }
            for (int guest; (guest = accept(listener, NULL, NULL)) >= 0;) {
                if (guest >= GUESTS) fail("guests");
                rests[guest].count = 0;
                prompt(guest);
                watch(poll, guest, (uint32_t)guest, EPOLLIN | EPOLLOUT);
            }
        }
    }
}

struct client {
    int fd;
    uint32_t turns;    // those that are over
    uint32_t seen;     // the bytes of the reply that came
    uint32_t wanted;   // its length, once its word is there
    unsigned char word[4];
    double began;
};

static int connected(const char *port) {
    struct sockaddr_in at = {.sin_family = AF_INET, .sin_port = htons((uint16_t)atoi(port))};
    at.sin_addr.s_addr = htonl(INADDR_LOOPBACK);
    int fd = socket(AF_INET, SOCK_STREAM, 0);
    if (fd < 0 || connect(fd, (struct sockaddr *)&at, sizeof at) != 0) fail("connect");
    prompt(fd);
    return fd;
}

static int by_time(const void *one, const void *other) {
    float a = *(const float *)one, b = *(const float *)other;
    return (a > b) - (a < b);
}

static void told(float *times, size_t count) {
    if (count == 0) {
        printf(" 0 0");
        return;
    }
    qsort(times, count, sizeof *times, by_time);
    printf(" %.1f %.1f", 1e6 * times[count / 2], 1e6 * times[count * 99 / 100]);
}

// Bytes of a reply. Whether it is whole with them.
static int is_whole(struct client *who, const unsigned char *bytes, size_t count) {
    for (size_t each = 0; each < count && who->seen < 4; each++) {
        who->word[who->seen++] = bytes[each];
        if (who->seen == 4) {
            uint32_t length;
            memcpy(&length, who->word, 4);
            who->wanted = ntohl(length) + 4;
            who->seen += (uint32_t)(count - each - 1);
        }
        if (who->seen >= 4) return who->seen >= who->wanted;
    }
    who->seen += (uint32_t)count;
    return who->seen >= 4 && who->seen >= who->wanted;
}

static unsigned char *frames;
static size_t length_of_frame;

static int ask(struct client *who, uint32_t place, uint32_t turns) {
    const unsigned char *frame = frames + ((size_t)place * turns + who->turns) * length_of_frame;
    who->seen = 0;
    who->wanted = UINT32_MAX;
    who->began = seconds();
    return give(who->fd, frame, length_of_frame);
}

static void load_frames(const char *path, size_t count) {
    FILE *in = fopen(path, "rb");
    if (!in) fail(path);
    fseek(in, 0, SEEK_END);
    size_t size = (size_t)ftell(in);
    rewind(in);
    frames = malloc(size);
    length_of_frame = size / count;
    if (!frames || fread(frames, 1, size, in) != size) fail(path);
    fclose(in);
}

static int load(const char *port, const char *path, uint32_t busy, uint32_t silent, uint32_t turns) {
    size_t all = (size_t)busy * turns;
    load_frames(path, all);
    struct client *clients = calloc(busy, sizeof *clients);
    float *times = malloc(all * sizeof *times), *first = malloc(turns * sizeof *first);
    int poll = epoll_create1(0);
    if (!clients || !times || !first || poll < 0) fail("load");
    // A connection with no frame in its first two seconds is closed.
    static const unsigned char empty[4];
    for (uint32_t each = 0; each < silent; each++) {
        if (!give(connected(port), empty, sizeof empty)) fail("silent");
    }
    for (uint32_t each = 0; each < busy; each++) {
        clients[each].fd = connected(port);
        watch(poll, clients[each].fd, each, EPOLLIN);
        if (!ask(&clients[each], each, turns)) fail("ask");
    }
    size_t count = 0, count_of_first = 0;
    uint32_t over = 0, lost = 0;
    double start = seconds();
    for (uint32_t each = 0; each < busy; each++) clients[each].began = start;
    struct epoll_event ready[AT_ONCE];
    while (over < busy) {
        int events = epoll_wait(poll, ready, AT_ONCE, 30000);
        if (events <= 0) break;
        for (int each = 0; each < events; each++) {
            uint32_t place = ready[each].data.u32;
            struct client *who = &clients[place];
            ssize_t came = recv(who->fd, piece, sizeof piece, 0);
            if (came < 0 && errno == EAGAIN) continue;
            if (came <= 0) {
                close(who->fd);
                lost++, over++;
                continue;
            }
            if (!is_whole(who, piece, (size_t)came)) continue;
            float time = (float)(seconds() - who->began);
            times[count++] = time;
            if (place == 0) first[count_of_first++] = time;
            who->turns++;
            if (who->turns == turns || !ask(who, place, turns)) over++;
        }
    }
    double took = seconds() - start;
    printf("%zu %.0f", count, (double)count / took);
    told(first, count_of_first);
    told(times, count);
    printf(" %u\n", lost);
    return count == all ? 0 : 1;
}

// Waits so many milliseconds. Whether the input is open yet.
static int goes_on(int wait) {
    struct pollfd input = {.fd = 0, .events = POLLIN};
    return poll(&input, 1, wait) == 0;
}

// A connection until the other side ends it, that sends the frames and takes no reply.
static void be_deaf(int fd, uint32_t count) {
    size_t all = count * length_of_frame, at = 0;
    while (goes_on(0)) {
        ssize_t went = send(fd, frames + at, all - at, MSG_NOSIGNAL);
        if (went > 0) at = (at + (size_t)went) % all;
        else if (errno != EAGAIN || !goes_on(1)) return;
    }
}

static void be_slow(int fd) {
    for (size_t at = 0; goes_on(10); at = (at + 1) % length_of_frame) {
        if (send(fd, frames + at, 1, MSG_NOSIGNAL) < 0) return;
    }
}

static void be_gone(int fd, size_t count) {
    struct linger at_once = {.l_onoff = 1, .l_linger = 0};
    for (size_t at = 0; at < count; at++) give(fd, frames + at, 1);
    setsockopt(fd, SOL_SOCKET, SO_LINGER, &at_once, sizeof at_once);
}

static int rude(const char *port, const char *path, uint32_t count, const char *how) {
    load_frames(path, count);
    for (size_t round = 0; goes_on(1); round++) {
        int fd = connected(port);
        if (strcmp(how, "deaf") == 0) be_deaf(fd, count);
        else if (strcmp(how, "drip") == 0) be_slow(fd);
        else be_gone(fd, round % (length_of_frame + 1));
        close(fd);
    }
    return 0;
}

int main(int argc, char **argv) {
    many_files();
    if (argc == 2 && strcmp(argv[1], "echo") == 0) return echo();
    if (argc == 7 && strcmp(argv[1], "load") == 0) {
        return load(argv[2], argv[3], (uint32_t)atoi(argv[4]), (uint32_t)atoi(argv[5]), (uint32_t)atoi(argv[6]));
    }
    if (argc == 6 && strcmp(argv[1], "rude") == 0) return rude(argv[2], argv[3], (uint32_t)atoi(argv[4]), argv[5]);
    fprintf(stderr, "usage: clients echo | clients load PORT FRAMES BUSY SILENT TURNS | clients rude PORT FRAMES COUNT HOW\n");
    return 2;
}
