// What a relay is measured with: two that only copy datagrams, a load that counts them, and frames that go one at a time.
//
//     relay copy OWN1 PEER1 OWN2 PEER2          copies datagrams from wire 1 to wire 2 and back, until it is killed
//     relay rest OWN1 PEER1 OWN2 PEER2          the same, and sleeps until a datagram is there (epoll)
//     relay load OWN1 PEER1 OWN2 OCTETS COUNT   sends frames to PEER1 and counts those that come to OWN2
//     relay trips OWN1 PEER1 OWN2 OCTETS COUNT  the same one at a time, a millisecond apart
//     relay gaps OWN1 PEER1 OWN2 OCTETS COUNT RATE  the same at so many a second, whether they come or not
//     relay play OWN1 PEER1 OWN2 CAPTURE        as load, with the frames of a capture, each once
//
// Addresses are ports on loopback. The load has at most 32 frames under way, so that no socket's buffer overflows; a frame that does not
// come within a tenth of a second, of `play` within two seconds, is lost. It prints the frames that came, the seconds, and the frames a second.
// `gaps` prints the frames that came, and the longest time in milliseconds in which none did, from the first to the last that came.
// `trips` prints the frames that came, and the median and the 99th of a hundred of the microseconds from a send until the frame is there.
#include <arpa/inet.h>
#include <stdint.h>
#include <stdio.h>
#include <stdlib.h>
#include <string.h>
#include <sys/epoll.h>
#include <sys/socket.h>
#include <sys/time.h>
#include <time.h>
#include <unistd.h>

enum { WINDOW = 32, ROOM = 65536 };

static struct sockaddr_in at(const char *port) {
    struct sockaddr_in it = {.sin_family = AF_INET, .sin_port = htons(atoi(port))};
    it.sin_addr.s_addr = htonl(INADDR_LOOPBACK);
    return it;
}

static int bound(const char *port) {
    struct sockaddr_in own = at(port);
    int it = socket(AF_INET, SOCK_DGRAM, 0);
    if (it < 0 || bind(it, (struct sockaddr *)&own, sizeof own)) {
        perror("bind");
        exit(1);
    }
    return it;
}

static double now(void) {
    struct timespec it;
    clock_gettime(CLOCK_MONOTONIC, &it);
    return it.tv_sec + it.tv_nsec / 1e9;
}

// Both wires are asked in turn and no call waits, as in the relay that it is compared with.
static _Noreturn void copy(char **words) {
    int controlled = bound(words[0]), common = bound(words[2]);
    struct sockaddr_in inside = at(words[1]), outside = at(words[3]);
    static char room[ROOM];
    for (;;) {
        ssize_t count = recv(controlled, room, ROOM, MSG_DONTWAIT);
        if (count >= 0) sendto(common, room, count, 0, (struct sockaddr *)&outside, sizeof outside);
        count = recv(common, room, ROOM, MSG_DONTWAIT);
        if (count >= 0) sendto(controlled, room, count, 0, (struct sockaddr *)&inside, sizeof inside);
    }
}

static void watch(int queue, int wire) {
    struct epoll_event on = {.events = EPOLLIN, .data.fd = wire};
    if (epoll_ctl(queue, EPOLL_CTL_ADD, wire, &on)) {
        perror("epoll_ctl");
        exit(1);
    }
}

static _Noreturn void rest(char **words) {
    int controlled = bound(words[0]), common = bound(words[2]), queue = epoll_create1(0);
    struct sockaddr_in inside = at(words[1]), outside = at(words[3]);
    static char room[ROOM];
    watch(queue, controlled);
    watch(queue, common);
    for (;;) {
        struct epoll_event ready[2];
        int found = epoll_wait(queue, ready, 2, -1);
        for (int i = 0; i < found; i++) {
            int from = ready[i].data.fd, to = from == common ? controlled : common;
            struct sockaddr_in peer = from == common ? inside : outside;
            ssize_t count;
            while ((count = recv(from, room, ROOM, MSG_DONTWAIT)) >= 0) sendto(to, room, count, 0, (struct sockaddr *)&peer, sizeof peer);
        }
    }
}

static int by_size(const void *one, const void *other) {
    double a = *(const double *)one, b = *(const double *)other;
    return (a > b) - (a < b);
}

static int trips(char **words) {
    int from = bound(words[0]), to = bound(words[2]);
    struct sockaddr_in peer = at(words[1]);
    size_t octets = atoi(words[3]);
    long count = atol(words[4]), came = 0;
    static char frame[ROOM], room[ROOM];
    struct timeval wait = {.tv_usec = 100000};
    struct timespec gap = {.tv_nsec = 1000000};
    double *took = calloc(count, sizeof *took);
    setsockopt(to, SOL_SOCKET, SO_RCVTIMEO, &wait, sizeof wait);
    memset(frame, 0x5a, octets);
    for (long i = 0; i < count; i++) {
        double begin = now();
        sendto(from, frame, octets, 0, (struct sockaddr *)&peer, sizeof peer);
        if (recv(to, room, ROOM, 0) >= 0) took[came++] = (now() - begin) * 1e6;
        nanosleep(&gap, NULL);
    }
    qsort(took, came, sizeof *took, by_size);
    printf("%ld %.1f %.1f\n", came, came ? took[came / 2] : 0, came ? took[came * 99 / 100] : 0);
    return 0;
}

static int gaps(char **words) {
    int from = bound(words[0]), to = bound(words[2]);
    struct sockaddr_in peer = at(words[1]);
    size_t octets = atoi(words[3]);
    long count = atol(words[4]), sent = 0, came = 0;
    double rate = atof(words[5]), begin = now(), last = 0, longest = 0;
    static char frame[ROOM], room[ROOM];
    memset(frame, 0x5a, octets);
    // A frame that comes a second after the last one was sent is late enough to be lost.
    while (now() - begin < count / rate + 1) {
        for (; sent < count && sent <= (now() - begin) * rate; sent++)
            sendto(from, frame, octets, 0, (struct sockaddr *)&peer, sizeof peer);
        while (recv(to, room, ROOM, MSG_DONTWAIT) >= 0) {
            double at = now();
            if (came++ && at - last > longest) longest = at - last;
            last = at;
        }
        usleep(50);
    }
    printf("%ld %.1f\n", came, longest * 1e3);
    return 0;
}

struct frame {
    const char *octets;
    size_t count;
};

// Sends frames to a port, and prints how many of them came to another one and how fast.
static int send_all(char **ports, const struct frame *frames, long count, struct timeval wait) {
    int from = bound(ports[0]), to = bound(ports[2]);
    struct sockaddr_in peer = at(ports[1]);
    long sent = 0, came = 0, lost = 0;
    static char room[ROOM];
    setsockopt(to, SOL_SOCKET, SO_RCVTIMEO, &wait, sizeof wait);
    double begin = now();
    while (came + lost < count) {
        for (; sent < count && sent - came - lost < WINDOW; sent++)
            sendto(from, frames[sent].octets, frames[sent].count, 0, (struct sockaddr *)&peer, sizeof peer);
        if (recv(to, room, ROOM, 0) >= 0) came++;
        else lost = sent - came;
    }
    double seconds = now() - begin;
    printf("%ld %.3f %.0f\n", came, seconds, came / seconds);
    return 0;
}

static int load(char **words) {
    long count = atol(words[4]);
    static char octets[ROOM];
    struct frame *frames = calloc(count, sizeof *frames);
    memset(octets, 0x5a, sizeof octets);
    for (long i = 0; i < count; i++) frames[i] = (struct frame){octets, atoi(words[3])};
    return send_all(words, frames, count, (struct timeval){.tv_usec = 100000});
}

// The file is read whole: a classic capture in the order of octets of this machine, as `protect` writes it from one of that order.
static int play(char **words) {
    FILE *file = fopen(words[3], "rb");
    if (!file || fseek(file, 0, SEEK_END)) {
        perror(words[3]);
        return 1;
    }
    size_t size = ftell(file);
    char *octets = malloc(size);
    rewind(file);
    if (fread(octets, 1, size, file) != size) return 1;
    // 24 octets before the first frame, 16 before each one; the third number of these is its length.
    struct frame *frames = calloc(size / 16, sizeof *frames);
    long count = 0;
    for (size_t place = 24; place + 16 <= size; count++) {
        uint32_t length;
        memcpy(&length, octets + place + 8, sizeof length);
        frames[count] = (struct frame){octets + place + 16, length};
        place += 16 + length;
    }
    return send_all(words, frames, count, (struct timeval){.tv_sec = 2});
}

int main(int words, char **word) {
    if (words == 6 && !strcmp(word[1], "copy")) copy(word + 2);
    if (words == 6 && !strcmp(word[1], "rest")) rest(word + 2);
    if (words == 7 && !strcmp(word[1], "load")) return load(word + 2);
    if (words == 7 && !strcmp(word[1], "trips")) return trips(word + 2);
    if (words == 8 && !strcmp(word[1], "gaps")) return gaps(word + 2);
    if (words == 6 && !strcmp(word[1], "play")) return play(word + 2);
    return 2;
}
