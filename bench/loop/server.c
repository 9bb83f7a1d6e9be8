// Stations on one epoll loop in plain C: each has a port and at most one connection, and answers requests for the link's status.
// `server FIRST COUNT`: the ports are FIRST and those after it. Prints "ready" once all listen. A newer connection takes the place
// of the older one. If no descriptor is left, a connection is accepted with the spare one and closed.
#include "../plain.h"

#include <errno.h>
#include <fcntl.h>
#include <netinet/in.h>
#include <netinet/tcp.h>
#include <stdio.h>
#include <stdlib.h>
#include <string.h>
#include <sys/epoll.h>
#include <sys/socket.h>
#include <unistd.h>

enum { EVENTS = 256, READ = 4096, TURNS = 8, ENTRIES = 16, REQUEST_LINK_STATUS = 0xC9, LINK_STATUS = 0x0B, CHECKED_HEADER = 10 };

struct station {
    int door, stream;
    // octets of a frame that is not whole
    size_t held;
    uint8_t kept[MOST_UNIT];
    // answers that were not taken at once
    size_t waiting, sent;
    uint8_t *out;
};

static struct station *stations;
static int set, spare;

static void watch(int descriptor, uint32_t events, uint64_t number) {
    struct epoll_event event = {.events = events | EPOLLET, .data.u64 = number};
    if (epoll_ctl(set, EPOLL_CTL_ADD, descriptor, &event)) perror("epoll_ctl");
}

static void end(struct station *station) {
    if (station->stream >= 0) close(station->stream);
    free(station->out);
    station->stream = -1;
    station->out = NULL;
    station->held = station->waiting = station->sent = 0;
}

// Whether all that waits is sent.
static int send_rest(struct station *station) {
    while (station->sent < station->waiting) {
        ssize_t count = write(station->stream, station->out + station->sent, station->waiting - station->sent);
        if (count < 0 && errno == EINTR) continue;
        if (count < 0 && errno == EAGAIN) return 0;
        if (count <= 0) {
            end(station);
            return 0;
        }
        station->sent += count;
    }
    free(station->out);
    station->out = NULL;
    station->waiting = station->sent = 0;
    return 1;
}

// Sends these octets, and keeps those that are not taken.
static void put(struct station *station, const uint8_t *octets, size_t size) {
    ssize_t count = size ? write(station->stream, octets, size) : 0;
    if (count == (ssize_t)size) return;
    if (count < 0 && errno != EAGAIN && errno != EINTR) {
        end(station);
        return;
    }
    size_t rest = size - (count > 0 ? count : 0);
    station->out = malloc(rest);
    if (!station->out) {
        end(station);
        return;
    }
    memcpy(station->out, octets + size - rest, rest);
    station->waiting = rest;
}

// Answers the requests that are whole, and keeps what is not.
static void hear(struct station *station, const uint8_t *octets, size_t size) {
    uint8_t joined[MOST_UNIT + READ], answers[MOST_UNIT + READ];
    size_t made = 0;
    if (station->held) {
        memcpy(joined, station->kept, station->held);
        memcpy(joined + station->held, octets, size);
        octets = joined;
        size += station->held;
    }
    while (size >= CHECKED_HEADER) {
        size_t user = octets[2] < 5 ? 0 : octets[2] - 5;
        size_t unit = CHECKED_HEADER + user + 2 * ((user + 15) / 16);
        if (unit > size) break;
        struct frame frame;
        if (read_by_table(octets, unit, &frame) != FRAME_READ)
            unit = 1;
        else if (frame.control == REQUEST_LINK_STATUS) {
            struct frame answer = {.control = LINK_STATUS, .dest = frame.source, .source = frame.dest};
            made += write_by_table(&answer, answers + made);
        }
        octets += unit;
        size -= unit;
    }
    memcpy(station->kept, octets, size);
    station->held = size;
    put(station, answers, made);
}

// A turn of a connection: at most so many reads, so that one that sends without end costs itself alone. Whether it is to have another.
static int serve(struct station *station) {
    uint8_t octets[READ];
    for (int turn = 0; turn < TURNS; turn++) {
        if (station->stream < 0 || !send_rest(station)) return 0;
        ssize_t count = read(station->stream, octets, READ);
        if (count < 0 && errno == EINTR) continue;
        if (count < 0 && errno == EAGAIN) return 0;
        if (count <= 0) {
            end(station);
            return 0;
        }
        hear(station, octets, count);
    }
    return station->stream >= 0;
}

// Accepts what came at a door. Whether there may be more.
static int open_door(struct station *station, uint64_t number) {
    int one = 1;
    for (int turn = 0; turn < ENTRIES; turn++) {
        int stream = accept4(station->door, NULL, NULL, SOCK_NONBLOCK | SOCK_CLOEXEC);
        if (stream < 0 && errno == EMFILE) {
            close(spare);
            stream = accept4(station->door, NULL, NULL, SOCK_CLOEXEC);
            int failed = stream < 0;
            if (!failed) close(stream);
            spare = open("/dev/null", O_RDONLY | O_CLOEXEC);
            if (failed) return 0;
            continue;
        }
        if (stream < 0) return errno == EINTR || errno == ECONNABORTED;
        setsockopt(stream, IPPROTO_TCP, TCP_NODELAY, &one, sizeof one);
        if (station->stream >= 0) serve(station);
        end(station);
        station->stream = stream;
        watch(stream, EPOLLIN | EPOLLOUT, number);
        while (serve(station)) {}
    }
    return 1;
}

int main(int count, char **words) {
    if (count != 3) return 2;
    int first = atoi(words[1]), one = 1;
    uint64_t all = strtoull(words[2], NULL, 10);
    plain_start();
    stations = calloc(all, sizeof *stations);
    set = epoll_create1(EPOLL_CLOEXEC);
    spare = open("/dev/null", O_RDONLY | O_CLOEXEC);
    if (!stations || set < 0 || spare < 0) return 1;
    for (uint64_t number = 0; number < all; number++) {
        struct sockaddr_in place = {.sin_family = AF_INET, .sin_port = htons(first + number), .sin_addr.s_addr = htonl(INADDR_LOOPBACK)};
        int door = socket(AF_INET, SOCK_STREAM | SOCK_NONBLOCK | SOCK_CLOEXEC, 0);
        setsockopt(door, SOL_SOCKET, SO_REUSEADDR, &one, sizeof one);
        if (bind(door, (void *)&place, sizeof place) || listen(door, 1024)) {
            perror("bind");
            return 1;
        }
        stations[number] = (struct station){.door = door, .stream = -1};
        watch(door, EPOLLIN, number << 1);
    }
    puts("ready");
    fflush(stdout);
    struct epoll_event events[EVENTS];
    for (;;) {
        int came = epoll_wait(set, events, EVENTS, -1);
        for (int k = 0; k < came; k++) {
            uint64_t number = events[k].data.u64 >> 1;
            if (events[k].data.u64 & 1)
                while (serve(stations + number)) {}
            else
                while (open_door(stations + number, number << 1 | 1)) {}
        }
    }
}
