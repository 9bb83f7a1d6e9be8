// Link frames (IEEE Std 1815-2012, data link layer) in plain C, written as a C programmer would: the
// measure that the proved library is held against.
#ifndef PLAIN_H
#define PLAIN_H

#include <stddef.h>
#include <stdint.h>

enum { MOST_USER = 250, MOST_UNIT = 292 };

struct frame {
    uint8_t control;
    uint16_t dest, source;
    size_t count;
    uint8_t user[MOST_USER];
};

enum fault { FRAME_READ, TOO_SHORT, WRONG_START, WRONG_HEADER_CHECK, WRONG_LENGTH, WRONG_SIZE, WRONG_BLOCK_CHECK };

// Fills the tables. Call it first.
void plain_start(void);

// The check word of some octets, in three ways: bit by bit, by one table of 256, and by sixteen tables
// (a table for each place in a block; octets before the last 16 go by the first table).
typedef uint16_t check_word(const uint8_t *octets, size_t count);
check_word word_by_bits, word_by_table, word_by_tables;

// The fields of a frame and its user octet at `pick`, in one number.
static inline uint64_t frame_number(const struct frame *frame, size_t pick) {
    uint64_t picked = pick < frame->count ? frame->user[pick] : 0;
    return frame->control | (uint64_t)frame->dest << 8 | (uint64_t)frame->source << 24 | (uint64_t)frame->count << 40 | picked << 48;
}

// A frame is read and written with each of the three: by a call for each frame, and in a loop that the
// compiler sees with what it calls (`runs` frames, one at the beginning of each `stride` octets; or
// `count` frames of the user octets with as many control octets in turn).
#define IN_EACH_WAY(DECLARE) DECLARE(bits) DECLARE(table) DECLARE(tables)
#define DECLARE_FRAMES(WAY)                                                              \
    enum fault read_by_##WAY(const uint8_t *unit, size_t size, struct frame *frame);     \
    size_t write_by_##WAY(const struct frame *frame, uint8_t *unit);                     \
    uint64_t read_run_by_##WAY(const uint8_t *units, size_t runs, size_t stride, size_t size); \
    uint64_t write_run_by_##WAY(const uint8_t *user, size_t size, uint64_t count);
IN_EACH_WAY(DECLARE_FRAMES)

#endif
