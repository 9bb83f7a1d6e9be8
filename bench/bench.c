// Times the proved library beside plain C and plain Rust, and prints tables of ratios. Each row does the
// same work on the same octets as often in each way, in turns, and keeps the best of the rounds. Each way
// gives a sum of what it made, and the sums must be one number.
#include "plain.h"

#include <stdbool.h>
#include <stdio.h>
#include <stdlib.h>
#include <string.h>
#include <time.h>

// The proved library: exports of crates/dnp_bench. A slice is a pointer and a length.
uint16_t dnp_bench_check_word(const uint8_t *octets, size_t count);
uint64_t dnp_bench_read_frames(const uint8_t *units, size_t octets, size_t stride, size_t size);
uint64_t dnp_bench_read_frames_apart(const uint8_t *units, size_t octets, size_t stride, size_t size);
uint64_t dnp_bench_write_frames(const uint8_t *user, size_t size, uint64_t count);
uint64_t dnp_bench_write_frames_apart(const uint8_t *user, size_t size, uint64_t count);
uint64_t dnp_bench_feed(const uint8_t *stream, size_t size, size_t piece);
uint64_t dnp_bench_walk(const uint8_t *fragment, size_t size);
uint64_t dnp_bench_build(uint64_t count, uint16_t most);
uint64_t dnp_bench_build_apart(uint64_t count, uint16_t most);
uint64_t dnp_bench_take(const uint8_t *response, size_t size, uint64_t count);
uint64_t dnp_bench_poll_events(uint64_t count, uint16_t events);
uint64_t dnp_bench_poll_values(uint64_t count);
uint64_t dnp_bench_change(uint64_t count, bool is_unsolicited);
uint64_t dnp_bench_read_lanes(uint8_t shape, bool is_read);
uint64_t dnp_bench_operate(uint64_t count);

// Over lanes that keep their rows in lists, where those above keep them in rings.
uint64_t dnp_bench_poll_events_of_lists(uint64_t count, uint16_t events);
uint64_t dnp_bench_change_of_lists(uint64_t count, bool is_unsolicited);
uint64_t dnp_bench_read_lanes_of_lists(uint8_t shape, bool is_read);

// The same in plain Rust: plain_rust/.
uint64_t plain_feed(const uint8_t *stream, size_t size, size_t piece);
uint64_t plain_walk(const uint8_t *fragment, size_t size);
uint64_t plain_build(uint64_t count, uint16_t most);
uint64_t plain_build_apart(uint64_t count, uint16_t most);
uint64_t plain_take(const uint8_t *response, size_t size, uint64_t count);
uint64_t plain_poll_events(uint64_t count, uint16_t events);
uint64_t plain_poll_values(uint64_t count);
uint64_t plain_change(uint64_t count, bool is_unsolicited);
uint64_t plain_read_lanes(uint8_t shape, bool is_read);
uint64_t plain_lane_fragments(uint8_t shape);
uint64_t plain_operate(uint64_t count);

enum { WAYS = 4, UNITS = 64, MOST_OCTETS = 4096 };

// The data of a row: UNITS runs of octets, each as long.
static struct {
    size_t size;
    uint8_t octets[UNITS][MOST_OCTETS];
} data;

#define WAY_OF(WAY)                                                                      \
    static uint64_t read_##WAY(const uint8_t *units, size_t runs, size_t stride, size_t size) { \
        struct frame frame;                                                              \
        uint64_t sum = 0;                                                                \
        for (size_t run = 0; run < runs; run++)                                          \
            sum += read_by_##WAY(units + run * stride, size, &frame) ? UINT64_MAX : frame_number(&frame, run); \
        return sum;                                                                      \
    }                                                                                    \
    static uint64_t write_##WAY(const uint8_t *user, size_t size, uint64_t count) {      \
        struct frame frame = {.dest = 10, .source = 1, .count = size};                   \
        uint8_t unit[MOST_UNIT];                                                         \
        uint64_t sum = 0;                                                                \
        memcpy(frame.user, user, size);                                                  \
        for (size_t turn = 0, pick = 0; turn < count; turn++) {                          \
            frame.control = turn & 0xFF;                                                 \
            size_t made = write_by_##WAY(&frame, unit);                                  \
            sum += pick < made ? unit[pick] : 0;                                         \
            pick = pick < made ? pick + 1 : 0;                                           \
        }                                                                                \
        return sum;                                                                      \
    }
IN_EACH_WAY(WAY_OF)

static check_word *const words[WAYS] = {dnp_bench_check_word, word_by_bits, word_by_table, word_by_tables};

static uint64_t read_proved(const uint8_t *units, size_t runs, size_t stride, size_t size) {
    return dnp_bench_read_frames_apart(units, runs * stride, stride, size);
}

static uint64_t (*const readers[WAYS])(const uint8_t *, size_t, size_t, size_t) = {read_proved, read_bits, read_table, read_tables};
static uint64_t (*const writers[WAYS])(const uint8_t *, size_t, uint64_t) = {dnp_bench_write_frames_apart, write_bits, write_table, write_tables};

static uint64_t read_run_proved(const uint8_t *units, size_t runs, size_t stride, size_t size) {
    return dnp_bench_read_frames(units, runs * stride, stride, size);
}

static uint64_t (*const read_runs[WAYS])(const uint8_t *, size_t, size_t, size_t) = {read_run_proved, read_run_by_bits, read_run_by_table, read_run_by_tables};
static uint64_t (*const write_runs[WAYS])(const uint8_t *, size_t, uint64_t) = {dnp_bench_write_frames, write_run_by_bits, write_run_by_table, write_run_by_tables};

static uint64_t words_of(int way, uint64_t count) {
    uint64_t sum = 0;
    for (uint64_t i = 0; i < count; i++)
        sum += words[way](data.octets[i % UNITS], data.size);
    return sum;
}

static uint64_t frames_read(int way, uint64_t count) {
    uint64_t sum = 0;
    for (uint64_t i = 0; i < count; i += UNITS)
        sum += readers[way](data.octets[0], UNITS, MOST_OCTETS, data.size);
    return sum;
}

static uint64_t frames_read_in_loop(int way, uint64_t count) {
    uint64_t sum = 0;
    for (uint64_t i = 0; i < count; i += UNITS)
        sum += read_runs[way](data.octets[0], UNITS, MOST_OCTETS, data.size);
    return sum;
}

static uint64_t frames_written(int way, uint64_t count) {
    uint64_t sum = 0;
    for (uint64_t i = 0; i < UNITS; i++)
        sum += writers[way](data.octets[i], data.size, count / UNITS);
    return sum;
}

static uint64_t frames_written_in_loop(int way, uint64_t count) {
    uint64_t sum = 0;
    for (uint64_t i = 0; i < UNITS; i++)
        sum += write_runs[way](data.octets[i], data.size, count / UNITS);
    return sum;
}

static double seconds(void) {
    struct timespec now;
    clock_gettime(CLOCK_MONOTONIC, &now);
    return now.tv_sec + now.tv_nsec / 1e9;
}

// A machine with guests changes its speed for seconds, and each way has to meet its best. So the table is gone through
// again and again, in short rounds, and printed at the last sweep.
static int sweeps = 8, rounds = 15, sweep;
static double bests[64][WAYS];
static int row_number;

#define TELL(...) (sweep + 1 < sweeps ? 0 : printf(__VA_ARGS__))

static void keep_best(double *best, double took) {
    if (*best == 0 || took < *best) *best = took;
}

static uint64_t all_sums;
static int failed;

// `per_time` is how many of the unit named one repetition counts for.
static void row(const char *what, const char *unit, double per_time, uint64_t (*work)(int, uint64_t), uint64_t count) {
    count = count / UNITS * UNITS;
    double *best = bests[row_number++];
    uint64_t sums[WAYS];
    for (int round = 0; round < rounds; round++)
        for (int way = 0; way < WAYS; way++) {
            double start = seconds();
            sums[way] = work(way, count);
            keep_best(&best[way], seconds() - start);
        }
    TELL("%-34s %9.1f M%s/s", what, per_time * count / best[0] / 1e6, unit);
    for (int way = 1; way < WAYS; way++) {
        TELL(" %10.2f", best[way] / best[0]);
        if (sums[way] != sums[0]) failed = 1;
    }
    TELL("%s\n", sums[1] == sums[0] && sums[2] == sums[0] && sums[3] == sums[0] ? "" : "  THE SUMS DIFFER");
    all_sums = all_sums * 31 + sums[0];
}

static uint8_t random_octet(void) {
    static uint64_t state = 0x9E3779B97F4A7C15;
    state ^= state << 13, state ^= state >> 7, state ^= state << 17;
    return state >> 32;
}

static void fill(size_t size) {
    data.size = size;
    for (int unit = 0; unit < UNITS; unit++)
        for (size_t i = 0; i < size; i++)
            data.octets[unit][i] = random_octet();
}

static void fill_frames(size_t user) {
    fill(user);
    for (int unit = 0; unit < UNITS; unit++) {
        struct frame frame = {.control = 0xC4, .dest = 10, .source = 1, .count = user};
        memcpy(frame.user, data.octets[unit], user);
        data.size = write_by_bits(&frame, data.octets[unit]);
    }
}

// A stream that is fed in pieces to a reader, by the proved library and by plain Rust in turns.
enum { STREAM = 1 << 20 };
static uint8_t stream[STREAM];

static void stream_row(const char *what, size_t size, size_t piece) {
    static uint64_t (*const feeders[2])(const uint8_t *, size_t, size_t) = {dnp_bench_feed, plain_feed};
    double *best = bests[row_number++];
    uint64_t sums[2];
    for (int round = 0; round < rounds; round++)
        for (int way = 0; way < 2; way++) {
            double start = seconds();
            sums[way] = feeders[way](stream, size, piece);
            keep_best(&best[way], seconds() - start);
        }
    TELL("%-27s %5zu %11.1f Moctet/s %10.2f%s\n", what, piece, size / best[0] / 1e6, best[1] / best[0],
           sums[0] == sums[1] ? "" : "  THE SUMS DIFFER");
    if (sums[0] != sums[1]) failed = 1;
    all_sums = all_sums * 31 + sums[0];
}

static void stream_rows(void) {
    static const size_t users[] = {15, 250}, pieces[] = {1, 64, 4096};
    char what[64];
    TELL("\n%-27s %5s %20s   beside plain Rust\n", "feed", "piece", "proved");
    for (int i = 0; i < 2; i++) {
        fill_frames(users[i]);
        size_t size = 0;
        for (int unit = 0; size + data.size <= STREAM; unit = (unit + 1) % UNITS, size += data.size)
            memcpy(stream + size, data.octets[unit], data.size);
        snprintf(what, sizeof what, "frames of %zu user octets", users[i]);
        for (int j = 0; j < 3; j++)
            stream_row(what, size, pieces[j]);
    }
    for (size_t i = 0; i < STREAM; i++)
        stream[i] = random_octet();
    for (int j = 0; j < 3; j++)
        stream_row("random octets", STREAM, pieces[j]);
    for (size_t i = 0; i < STREAM; i++)
        stream[i] = i % 2 ? 0x64 : 0x05;
    for (int j = 0; j < 3; j++)
        stream_row("05 64 05 64 ..", STREAM, pieces[j]);
}

// Fragments that are read and walked, and such that are built.
static uint8_t fragment[2048];
static size_t fragment_size;

static uint64_t walked(int way, uint64_t count) {
    uint64_t sum = 0;
    for (uint64_t turn = 0; turn < count; turn++)
        sum = sum * 31 + (way ? plain_walk : dnp_bench_walk)(fragment, fragment_size);
    return sum;
}

// As many events as fit, and none.
static uint64_t built(int way, uint64_t count) { return (way ? plain_build : dnp_bench_build)(count, 2048); }

static uint64_t built_apart(int way, uint64_t count) { return (way ? plain_build_apart : dnp_bench_build_apart)(count, 2048); }

static uint64_t built_empty(int way, uint64_t count) { return (way ? plain_build : dnp_bench_build)(count, 0); }

// A master asks, and takes the response.
static uint64_t taken(int way, uint64_t count) { return (way ? plain_take : dnp_bench_take)(fragment, fragment_size, count); }

// An outstation: the proved one over rings, the plain one, and the proved one over lists.
enum { OUTSTATIONS = 3 };

// Polls of an outstation: of events, and of values.
static uint64_t polled(int way, uint64_t count, uint16_t events) {
    static uint64_t (*const pollers[OUTSTATIONS])(uint64_t, uint16_t) = {dnp_bench_poll_events, plain_poll_events, dnp_bench_poll_events_of_lists};
    return pollers[way](count, events);
}

static uint64_t polled_none(int way, uint64_t count) { return polled(way, count, 0); }

static uint64_t polled_one(int way, uint64_t count) { return polled(way, count, 1); }

static uint64_t polled_156(int way, uint64_t count) { return polled(way, count, 156); }

static uint64_t polled_values(int way, uint64_t count) { return (way ? plain_poll_values : dnp_bench_poll_values)(count); }

// Changes, into a full lane or each reported and confirmed; and controls.
static uint64_t changed(int way, uint64_t count) {
    static uint64_t (*const changers[OUTSTATIONS])(uint64_t, bool) = {dnp_bench_change, plain_change, dnp_bench_change_of_lists};
    return changers[way](count, false);
}

static uint64_t reported(int way, uint64_t count) { return (way ? plain_change : dnp_bench_change)(count, true); }

static uint64_t operated(int way, uint64_t count) { return (way ? plain_operate : dnp_bench_operate)(count); }

// Prints a row, of which one way took so many seconds for `count`; and, where there is a third way, the row of that beside
// both others.
static void tell_works(const char *what, const char *unit, double count, int ways, const double *took, const uint64_t *sums) {
    for (int way = 0; way < ways; way += 2) {
        TELL("%-33s %11.1f K%s/s %7.2f", way ? "  over lists" : what, count / took[way] / 1e3, unit, took[1] / took[way]);
        if (way) TELL(" %7.2f", took[0] / took[way]);
        TELL("%s\n", sums[way] == sums[1] ? "" : "  THE SUMS DIFFER");
        if (sums[way] != sums[1]) failed = 1;
    }
    all_sums = all_sums * 31 + sums[0];
}

// Full lanes that are read to their end. To fill them takes as long as to read them and is no part of it: it is timed
// alone too, and what is left of the best of both is the reading.
static void lane_row(const char *what, uint8_t shape) {
    static uint64_t (*const readers_of_lanes[OUTSTATIONS])(uint8_t, bool) = {dnp_bench_read_lanes, plain_read_lanes, dnp_bench_read_lanes_of_lists};
    double *best = bests[row_number++], *filling = bests[row_number++], took[OUTSTATIONS];
    uint64_t sums[OUTSTATIONS];
    for (int round = 0; round < rounds; round++)
        for (int way = 0; way < OUTSTATIONS; way++) {
            double start = seconds();
            readers_of_lanes[way](shape, false);
            double filled = seconds();
            sums[way] = readers_of_lanes[way](shape, true);
            keep_best(&filling[way], filled - start);
            keep_best(&best[way], seconds() - filled);
            took[way] = best[way] - filling[way];
        }
    tell_works(what, "fragment", plain_lane_fragments(shape), OUTSTATIONS, took, sums);
}

// A row of `count` works of a kind, as fragments or polls, a round; proved and plain, or over lists too.
static void ways_row(int ways, const char *what, const char *unit, uint64_t (*work)(int, uint64_t), uint64_t count) {
    double *best = bests[row_number++];
    uint64_t sums[OUTSTATIONS];
    for (int round = 0; round < rounds; round++)
        for (int way = 0; way < ways; way++) {
            double start = seconds();
            sums[way] = work(way, count);
            keep_best(&best[way], seconds() - start);
        }
    tell_works(what, unit, count, ways, best, sums);
}

static void work_row(const char *what, const char *unit, uint64_t (*work)(int, uint64_t), uint64_t count) {
    ways_row(2, what, unit, work, count);
}

// A fragment that begins so, and then `count` times `size` random octets.
static void begin_fragment(const uint8_t *front, size_t front_size, size_t count, size_t size) {
    memcpy(fragment, front, front_size);
    fragment_size = front_size;
    for (size_t i = 0; i < count * size; i++)
        fragment[fragment_size++] = random_octet();
}

static void fragment_rows(void) {
    static const uint8_t events[] = {0xE0, 0x81, 0x00, 0x00, 0x20, 0x03, 0x28, 0x9C, 0x00};
    static const uint8_t values[] = {0xC0, 0x81, 0x00, 0x00, 0x1E, 0x01, 0x01, 0x00, 0x00, 0x8F, 0x01};
    TELL("\n%-33s %23s   beside plain Rust\n", "fragments", "proved");
    begin_fragment(events, sizeof events, 156, 13);
    work_row("read: 156 analog events", "fragment", walked, 2000);
    begin_fragment(values, sizeof values, 400, 5);
    work_row("read: 400 analog values", "fragment", walked, 2000);
    fragment_size = 0;
    fragment[fragment_size++] = 0xC0;
    fragment[fragment_size++] = 0x01;
    for (int i = 0; i < 682; i++) {
        fragment[fragment_size++] = 0x3C;
        fragment[fragment_size++] = 2 + i % 3;
        fragment[fragment_size++] = 0x06;
    }
    work_row("read: a READ of 682 headers", "fragment", walked, 2000);
    work_row("built: 156 analog events", "fragment", built, 2000);
    work_row("  each by a call", "fragment", built_apart, 2000);
    work_row("built: an empty response", "fragment", built_empty, 100000);
}

static void poll_rows(void) {
    TELL("\n%-33s %23s   beside plain Rust; lists also beside rings\n", "an outstation", "proved");
    work_row("no events", "poll", polled_none, 20000);
    work_row("1 event, made and confirmed", "poll", polled_one, 20000);
    ways_row(OUTSTATIONS, "156 events, made and confirmed", "poll", polled_156, 500);
    work_row("1,000 values, in two fragments", "poll", polled_values, 1000);
    ways_row(OUTSTATIONS, "a change, into a full lane", "change", changed, 20000);
    work_row("a change, reported and confirmed", "change", reported, 20000);
    work_row("a SELECT and its OPERATE", "pair", operated, 10000);
}

// Each lane of 4,096 rows is full: all nine, or the three of a kind.
static void lane_rows(void) {
    static const char *const shapes[] = {"rows of all kinds", "analogs", "binaries in groups", "binaries too far apart"};
    TELL("\n%-33s %23s   beside plain Rust; lists also beside rings\n", "a READ of full lanes", "proved");
    for (uint8_t shape = 0; shape < 4; shape++)
        lane_row(shapes[shape], shape);
}

static void master_rows(void) {
    static const uint8_t events[] = {0xE0, 0x81, 0x00, 0x00, 0x20, 0x03, 0x28, 0x9C, 0x00};
    static const uint8_t values[] = {0xC0, 0x81, 0x00, 0x00, 0x1E, 0x01, 0x01, 0x00, 0x00, 0x8F, 0x01};
    TELL("\n%-33s %23s   beside plain Rust\n", "a master", "proved");
    begin_fragment(events, sizeof events, 156, 13);
    // the points of the plan have the indices 0 to 399
    for (size_t i = 0; i < 156; i++) {
        fragment[sizeof events + 13 * i] = i & 0xFF;
        fragment[sizeof events + 13 * i + 1] = i >> 8;
    }
    work_row("taken: 156 analog events", "fragment", taken, 2000);
    begin_fragment(values, sizeof values, 400, 5);
    work_row("taken: 400 analog values", "fragment", taken, 2000);
}

static void all_rows(void) {
    row_number = 0;
    TELL("%-34s %12s   proved beside plain C (above 1: faster than it)\n", "", "proved");
    TELL("%-34s %12s   %10s %10s %10s\n", "", "", "bit by bit", "table", "16 tables");
    static const size_t runs[] = {8, 16, 4096}, users[] = {0, 15, 250};
    char what[64];
    for (int i = 0; i < 3; i++) {
        fill(runs[i]);
        snprintf(what, sizeof what, "check_word, %zu octets", runs[i]);
        row(what, "octet", runs[i], words_of, 64 + 320000 / runs[i]);
    }
    for (int i = 0; i < 3; i++) {
        fill_frames(users[i]);
        snprintf(what, sizeof what, "read_frame, %zu user octets", users[i]);
        row(what, "frame", 1, frames_read, 640000 / (users[i] + 10));
        row("  in a loop", "frame", 1, frames_read_in_loop, 640000 / (users[i] + 10));
    }
    for (int i = 0; i < 3; i++) {
        fill(users[i]);
        snprintf(what, sizeof what, "write_frame, %zu user octets", users[i]);
        row(what, "frame", 1, frames_written, 640000 / (users[i] + 10));
        row("  in a loop", "frame", 1, frames_written_in_loop, 640000 / (users[i] + 10));
    }
    stream_rows();
    fragment_rows();
    master_rows();
    poll_rows();
    lane_rows();
}

int main(int argc, char **argv) {
    if (argc > 1 && !strcmp(argv[1], "--quick")) sweeps = 1, rounds = 4;
    if (argc > 2 && !strcmp(argv[1], "--rounds")) rounds = (atoi(argv[2]) + sweeps - 1) / sweeps;
    plain_start();
    for (sweep = 0; sweep < sweeps; sweep++)
        all_rows();
    printf("\nsum of all that was made: %016llx, %s\n", (unsigned long long)all_sums, failed ? "AND NOT ONE FOR ALL" : "the same for all");
    return failed;
}
