// What comes to the stations of a loop, at ports FIRST and those after it, one for each of COUNT stations. Each answer is compared.
//     client FIRST COUNT visits SECONDS        each connects, has a request answered and goes, again and again
//     client FIRST COUNT trips SECONDS SIZE    each has SIZE requests under way all the time, sent together
//     client FIRST COUNT hold                  each has a request answered, and stays until standard input ends
//     client FIRST COUNT away TOTAL            each is there, and so many more connect to the first, which are closed at once
// Prints what there was a second: connections, or octets both ways; `hold` and `away` print "held" first, and go on with a line of input.
#include <arpa/inet.h>
#include <netinet/in.h>
#include <netinet/tcp.h>
#include <stdio.h>
#include <stdlib.h>
#include <string.h>
#include <sys/epoll.h>
#include <sys/socket.h>
#include <time.h>
#include <unistd.h>

enum { UNIT = 10, MOST = 400, AT_ONCE = 100 };

static unsigned char asks[UNIT * MOST], answers[UNIT * MOST];
static int first, count;

static void die(const char *what) {
    perror(what);
    exit(1);
}

static double now(void) {
    struct timespec time;
    clock_gettime(CLOCK_MONOTONIC, &time);
    return time.tv_sec + time.tv_nsec / 1e9;
}

// A frame without user data, bit by bit.
static void make(unsigned char *unit, unsigned control, unsigned to, unsigned from) {
    unsigned char head[] = {5, 0x64, 5, control, to & 255, to >> 8, from & 255, from >> 8};
    unsigned word = 0;
    for (size_t k = 0; k < sizeof head; k++) {
        word ^= head[k];
        for (int bit = 0; bit < 8; bit++) word = word & 1 ? word >> 1 ^ 0xA6BC : word >> 1;
    }
    memcpy(unit, head, sizeof head);
    unit[8] = ~word & 255;
    unit[9] = ~word >> 8 & 255;
}

static int visit(int number) {
    struct sockaddr_in place = {.sin_family = AF_INET, .sin_port = htons(first + number), .sin_addr.s_addr = htonl(INADDR_LOOPBACK)};
    int one = 1, stream = socket(AF_INET, SOCK_STREAM, 0);
    if (stream < 0 || connect(stream, (void *)&place, sizeof place)) die("connect");
    setsockopt(stream, IPPROTO_TCP, TCP_NODELAY, &one, sizeof one);
    return stream;
}

static void ask(int stream, size_t size) {
    if (write(stream, asks, size) != (ssize_t)size) die("write");
}

static void hear(int stream, size_t size) {
    unsigned char octets[UNIT * MOST];
    for (size_t came = 0; came < size;) {
        ssize_t more = read(stream, octets + came, size - came);
        if (more <= 0) die("read");
        came += more;
    }
    if (memcmp(octets, answers, size)) die("another answer");
}

// Goes without TIME_WAIT, so that ports don't run out.
static void leave(int stream) {
    struct linger at_once = {1, 0};
    setsockopt(stream, SOL_SOCKET, SO_LINGER, &at_once, sizeof at_once);
    close(stream);
}

static int *all(void) {
    int *streams = calloc(count, sizeof *streams);
    for (int k = 0; k < count; k++) streams[k] = visit(k);
    for (int k = 0; k < count; k++) ask(streams[k], UNIT);
    for (int k = 0; k < count; k++) hear(streams[k], UNIT);
    return streams;
}

static void visits(double seconds) {
    double begun = now();
    long made = 0;
    for (; now() < begun + seconds; made += count) {
        int *streams = all();
        for (int k = 0; k < count; k++) leave(streams[k]);
        free(streams);
    }
    printf("%.0f\n", made / (now() - begun));
}

static void trips(double seconds, size_t size) {
    int *streams = all(), set = epoll_create1(0), under_way = count;
    size_t *came = calloc(count, sizeof *came);
    struct epoll_event events[256];
    long octets = 0;
    double begun = now(), ended = begun;
    for (int k = 0; k < count; k++) {
        struct epoll_event event = {.events = EPOLLIN, .data.u32 = k};
        epoll_ctl(set, EPOLL_CTL_ADD, streams[k], &event);
        ask(streams[k], size);
    }
    while (under_way) {
        int ready = epoll_wait(set, events, 256, 5000);
        if (ready <= 0) die("no answer");
        ended = now();
        for (int k = 0; k < ready; k++) {
            unsigned char heard[UNIT * MOST];
            int number = events[k].data.u32;
            ssize_t more = read(streams[number], heard, size - came[number]);
            if (more <= 0 || memcmp(heard, answers + came[number], more)) die("another answer");
            came[number] += more;
            if (came[number] < size) continue;
            octets += 2 * size;
            came[number] = 0;
            if (ended < begun + seconds)
                ask(streams[number], size);
            else
                under_way--;
        }
    }
    printf("%.0f\n", octets / (ended - begun));
}

static void held(void) {
    puts("held");
    fflush(stdout);
    getchar();
}

static void away(long total) {
    all();
    held();
    double begun = now();
    for (long done = 0; done < total; done += AT_ONCE) {
        int streams[AT_ONCE];
        char octet;
        for (int k = 0; k < AT_ONCE; k++) streams[k] = visit(0);
        for (int k = 0; k < AT_ONCE; k++) {
            if (read(streams[k], &octet, 1) != 0) die("not turned away");
            leave(streams[k]);
        }
    }
    printf("%.0f\n", total / (now() - begun));
}

int main(int words, char **word) {
    if (words < 4) return 2;
    first = atoi(word[1]);
    count = atoi(word[2]);
    for (int k = 0; k < MOST; k++) {
        make(asks + UNIT * k, 0xC9, 10, 2);
        make(answers + UNIT * k, 0x0B, 2, 10);
    }
    if (!strcmp(word[3], "visits") && words == 5)
        visits(atof(word[4]));
    else if (!strcmp(word[3], "trips") && words == 6 && atoi(word[5]) <= MOST)
        trips(atof(word[4]), UNIT * (size_t)atoi(word[5]));
    else if (!strcmp(word[3], "away") && words == 5)
        away(atol(word[4]));
    else if (!strcmp(word[3], "hold"))
        all(), held();
    else
        return 2;
    return 0;
}
