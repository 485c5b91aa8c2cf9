/* Tables made from an input's bytes. */
#ifndef MAKER_H
#define MAKER_H

#include <stddef.h>
#include <stdint.h>

enum { MOST_MADE = 2800 };

/* The bytes of an input that are still to be used. A large input, one of few, has arrays of 65,536 elements, one to three processors and
 * always the whole memory. */
struct cursor {
    const uint8_t *data;
    size_t left;
    uint64_t drawn, lot;
    int large;
};

/* An input from its first byte on. */
struct cursor cursor_of(const uint8_t *data, size_t size);

/* A number of 1, 2 or 4 bytes. Past the input's end the numbers follow from what was there, so that short inputs make whole tables. */
uint32_t take(struct cursor *bytes, int count);
uint64_t mixed(uint64_t number);

/* Holds once in so many times. It hangs on all bytes of the input, so that what is slow stays seldom among the changed copies that libFuzzer
 * makes of an input in which it held. */
int seldom(struct cursor *bytes, uint32_t times);

/* A number that is like `low` in its low bytes alone, or any of four bytes. */
uint32_t wide(struct cursor *bytes, uint32_t low);

/* A table that is mostly accepted. Answers its length, at most MOST_MADE. */
size_t make_table(struct cursor *bytes, uint8_t *out);

/* The same over arrays of these lengths, without flaws. */
size_t make_over(struct cursor *bytes, const int64_t *lengths, int arrays, uint8_t *out);

/* Mostly 0. Else so many that a length of which the low two bytes alone are taken is the table's without them. */
size_t bytes_behind(struct cursor *bytes);

/* The input's bytes as they are, or a made table, perhaps damaged. */
size_t any_table(struct cursor *bytes, uint8_t *out);

#endif
