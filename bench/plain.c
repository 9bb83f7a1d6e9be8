#include "plain.h"

#include <string.h>

enum { POLYNOMIAL = 0xA6BC, BLOCK = 16, HEADER = 8 };

// tables[k][x]: what an octet x with k octets after it does to the register.
static uint16_t tables[BLOCK][256];

void plain_start(void) {
    for (unsigned octet = 0; octet < 256; octet++) {
        uint16_t word = octet;
        for (int bit = 0; bit < 8; bit++)
            word = word & 1 ? word >> 1 ^ POLYNOMIAL : word >> 1;
        tables[0][octet] = word;
    }
    for (int after = 1; after < BLOCK; after++)
        for (unsigned octet = 0; octet < 256; octet++) {
            uint16_t word = tables[after - 1][octet];
            tables[after][octet] = word >> 8 ^ tables[0][word & 0xFF];
        }
}

uint16_t word_by_bits(const uint8_t *octets, size_t count) {
    uint16_t word = 0;
    for (size_t i = 0; i < count; i++) {
        word ^= octets[i];
        for (int bit = 0; bit < 8; bit++)
            word = word & 1 ? word >> 1 ^ POLYNOMIAL : word >> 1;
    }
    return ~word;
}

static uint16_t through_table(uint16_t word, const uint8_t *octets, size_t count) {
    for (size_t i = 0; i < count; i++)
        word = word >> 8 ^ tables[0][(word ^ octets[i]) & 0xFF];
    return word;
}

uint16_t word_by_table(const uint8_t *octets, size_t count) {
    return ~through_table(0, octets, count);
}

uint16_t word_by_tables(const uint8_t *octets, size_t count) {
    uint16_t word = 0;
    for (; count >= BLOCK; octets += BLOCK, count -= BLOCK) {
        uint16_t next = tables[15][(octets[0] ^ word) & 0xFF] ^ tables[14][octets[1] ^ word >> 8];
        for (int i = 2; i < BLOCK; i++)
            next ^= tables[BLOCK - 1 - i][octets[i]];
        word = next;
    }
    return ~through_table(word, octets, count);
}

static uint16_t low_first(const uint8_t *at) { return at[0] | at[1] << 8; }

static uint8_t *put_low_first(uint8_t *at, uint16_t word) {
    at[0] = word & 0xFF;
    at[1] = word >> 8;
    return at + 2;
}

static inline enum fault read_by(check_word *word_of, const uint8_t *unit, size_t size, struct frame *frame) {
    if (size < HEADER + 2) return TOO_SHORT;
    if (unit[0] != 0x05 || unit[1] != 0x64) return WRONG_START;
    if (low_first(unit + HEADER) != word_of(unit, HEADER)) return WRONG_HEADER_CHECK;
    if (unit[2] < 5) return WRONG_LENGTH;
    size_t count = unit[2] - 5;
    if (size != HEADER + 2 + count + 2 * ((count + BLOCK - 1) / BLOCK)) return WRONG_SIZE;
    frame->control = unit[3];
    frame->dest = low_first(unit + 4);
    frame->source = low_first(unit + 6);
    frame->count = count;
    const uint8_t *from = unit + HEADER + 2;
    for (size_t done = 0; done < count;) {
        size_t block = count - done < BLOCK ? count - done : BLOCK;
        if (low_first(from + block) != word_of(from, block)) return WRONG_BLOCK_CHECK;
        memcpy(frame->user + done, from, block);
        done += block;
        from += block + 2;
    }
    return FRAME_READ;
}

static inline size_t write_by(check_word *word_of, const struct frame *frame, uint8_t *unit) {
    unit[0] = 0x05;
    unit[1] = 0x64;
    unit[2] = frame->count + 5;
    unit[3] = frame->control;
    put_low_first(unit + 4, frame->dest);
    put_low_first(unit + 6, frame->source);
    uint8_t *to = put_low_first(unit + HEADER, word_of(unit, HEADER));
    for (size_t done = 0; done < frame->count;) {
        size_t block = frame->count - done < BLOCK ? frame->count - done : BLOCK;
        memcpy(to, frame->user + done, block);
        to = put_low_first(to + block, word_of(to, block));
        done += block;
    }
    return to - unit;
}

static inline uint64_t read_run(check_word *word_of, const uint8_t *units, size_t runs, size_t stride, size_t size) {
    struct frame frame;
    uint64_t sum = 0;
    for (size_t run = 0; run < runs; run++)
        sum += read_by(word_of, units + run * stride, size, &frame) ? UINT64_MAX : frame_number(&frame, run);
    return sum;
}

static inline uint64_t write_run(check_word *word_of, const uint8_t *user, size_t size, uint64_t count) {
    struct frame frame = {.dest = 10, .source = 1, .count = size};
    uint8_t unit[MOST_UNIT];
    uint64_t sum = 0;
    memcpy(frame.user, user, size);
    for (size_t turn = 0, pick = 0; turn < count; turn++) {
        frame.control = turn & 0xFF;
        size_t made = write_by(word_of, &frame, unit);
        sum += pick < made ? unit[pick] : 0;
        pick = pick < made ? pick + 1 : 0;
    }
    return sum;
}

#define DEFINE_FRAMES(WAY)                                                               \
    enum fault read_by_##WAY(const uint8_t *unit, size_t size, struct frame *frame) {    \
        return read_by(word_by_##WAY, unit, size, frame);                                \
    }                                                                                    \
    size_t write_by_##WAY(const struct frame *frame, uint8_t *unit) {                    \
        return write_by(word_by_##WAY, frame, unit);                                     \
    }                                                                                    \
    uint64_t read_run_by_##WAY(const uint8_t *units, size_t runs, size_t stride, size_t size) { \
        return read_run(word_by_##WAY, units, runs, stride, size);                       \
    }                                                                                    \
    uint64_t write_run_by_##WAY(const uint8_t *user, size_t size, uint64_t count) {      \
        return write_run(word_by_##WAY, user, size, count);                              \
    }
IN_EACH_WAY(DEFINE_FRAMES)
