/* Round trips over the loopback, by many clients in one loop.

   round_trips redis|look|heard PORT CLIENTS TRIPS WINDOW [IDLE]

   Each client has up to WINDOW requests under way, until it has had TRIPS answers. A request is `PING` of Redis, or a message
   `look` of a session of `darkstar serve`, whose clients log in first, or a message on the channel `Bar` of the game
   `channels`, which each member hears. IDLE more sessions log in, leave their channels, and then do nothing. Prints the
   nanoseconds of a round trip: the time of all, by how many each client made. It fails where an answer is not the one that its
   request has. */
#include <arpa/inet.h>
#include <errno.h>
#include <netinet/tcp.h>
#include <stdint.h>
#include <stdio.h>
#include <stdlib.h>
#include <string.h>
#include <sys/epoll.h>
#include <sys/socket.h>
#include <time.h>
#include <unistd.h>

enum { ROOM = 1 << 16 };

struct client {
    int link;
    long sent, had;
    size_t held;
    unsigned char bytes[ROOM];
};

/* What is asked, and the byte that its answer has behind its length; 0 for Redis. */
struct request {
    const char *name;
    const void *bytes;
    size_t length;
    unsigned char answer;
};

static const char PONG[] = "+PONG\r\n";
static const struct request REQUESTS[] = {
    {"redis", "PING\r\n", 6, 0},
    {"look", "\0\0\0\5\2look", 9, 0x83},
    {"heard", "\0\0\0\6\3\3Barx", 10, 0x84},
};
static const struct request *request;

static void fail(const char *what) {
    fprintf(stderr, "round_trips: %s: %s\n", what, strerror(errno));
    exit(1);
}

static void put(int link, const void *bytes, size_t count) {
    const char *at = bytes;
    while (count > 0) {
        ssize_t put = write(link, at, count);
        if (put <= 0) fail("write");
        at += put;
        count -= put;
    }
}

static void take(int link, void *bytes, size_t count) {
    char *at = bytes;
    while (count > 0) {
        ssize_t taken = read(link, at, count);
        if (taken <= 0) fail("read");
        at += taken;
        count -= taken;
    }
}

static int joined(int port, int number) {
    int link = socket(AF_INET, SOCK_STREAM, 0), yes = 1;
    struct sockaddr_in to = {.sin_family = AF_INET, .sin_port = htons(port), .sin_addr = {htonl(INADDR_LOOPBACK)}};
    if (link < 0 || connect(link, (struct sockaddr *)&to, sizeof to) < 0) fail("connect");
    setsockopt(link, IPPROTO_TCP, TCP_NODELAY, &yes, sizeof yes);
    if (request->answer) {
        unsigned char login[64], answer[5];
        int length = snprintf((char *)login + 6, sizeof login - 6, "c%d", number);
        login[0] = login[1] = login[2] = 0;
        login[3] = length + 2;
        login[4] = 1;
        login[5] = length;
        put(link, login, 6 + length);
        take(link, answer, 5);
        if (answer[4] != 0x81) fail("login");
    }
    return link;
}

/* Leaves the channels, where the game has any, and waits until that is done. */
static void leave(int link) {
    static const char LEAVES[] = "\0\0\0\12\2leave Bar\0\0\0\12\2leave Foo\0\0\0\14\2members Bar";
    unsigned char answer[ROOM];
    if (request->answer != 0x84) return;
    put(link, LEAVES, sizeof LEAVES - 1);
    take(link, answer, 4);
    take(link, answer, (size_t)answer[2] << 8 | answer[3]);
    if (answer[0] != 0x83) fail("members");
}

static void ask(struct client *one) {
    put(one->link, request->bytes, request->length);
    one->sent++;
}

/* How many bytes the answer at the front has, or 0 where it is not whole. */
static size_t answer(struct client *one) {
    if (!request->answer) {
        if (one->held < sizeof PONG - 1) return 0;
        if (memcmp(one->bytes, PONG, sizeof PONG - 1) != 0) fail("answer");
        return sizeof PONG - 1;
    }
    if (one->held < 5) return 0;
    size_t length = 4 + ((size_t)one->bytes[2] << 8 | one->bytes[3]);
    if (one->bytes[4] != request->answer) fail("answer");
    return one->held < length ? 0 : length;
}

static void hear(struct client *one, long trips) {
    ssize_t taken = read(one->link, one->bytes + one->held, ROOM - one->held);
    if (taken <= 0) fail("read");
    one->held += taken;
    size_t length;
    while ((length = answer(one)) > 0) {
        memmove(one->bytes, one->bytes + length, one->held -= length);
        one->had++;
        if (one->sent < trips) ask(one);
    }
}

int main(int count, char **words) {
    if (count < 6) return 2;
    for (size_t i = 0; i < sizeof REQUESTS / sizeof *REQUESTS; i++)
        if (strcmp(words[1], REQUESTS[i].name) == 0) request = &REQUESTS[i];
    if (!request) return 2;
    int port = atoi(words[2]), clients = atoi(words[3]), idle = count > 6 ? atoi(words[6]) : 0;
    long trips = atol(words[4]), window = atol(words[5]), left = clients * trips;
    int base = (int)getpid() % 10000 * 1000;
    struct client *all = calloc(clients, sizeof *all);
    for (int i = 0; i < idle; i++) leave(joined(port, base + clients + i));
    int poll = epoll_create1(0);
    for (int i = 0; i < clients; i++) {
        all[i].link = joined(port, base + i);
        struct epoll_event want = {.events = EPOLLIN, .data.ptr = &all[i]};
        epoll_ctl(poll, EPOLL_CTL_ADD, all[i].link, &want);
    }
    struct timespec begin, end;
    clock_gettime(CLOCK_MONOTONIC, &begin);
    for (int i = 0; i < clients; i++)
        for (long n = 0; n < window && n < trips; n++) ask(&all[i]);
    while (left > 0) {
        struct epoll_event ready[64];
        int found = epoll_wait(poll, ready, 64, 60000);
        if (found <= 0) fail("epoll_wait");
        for (int i = 0; i < found; i++) {
            struct client *one = ready[i].data.ptr;
            long had = one->had;
            hear(one, trips);
            left -= one->had - had;
        }
    }
    clock_gettime(CLOCK_MONOTONIC, &end);
    printf("%.0f\n", ((end.tv_sec - begin.tv_sec) * 1e9 + (end.tv_nsec - begin.tv_nsec)) / trips);
    return 0;
}
