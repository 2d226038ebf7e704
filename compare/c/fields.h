/* Payload fields: a code byte, counts, unit marks and value bytes. */
#ifndef FIELDS_H
#define FIELDS_H

#include "marks.h"

enum { LAST_CODE = 32, BOOLEAN_BLOCK = 1024 };

/* A field: where its value bytes begin, how many they are, its marks and its values. */
typedef struct {
    size_t first, size, marks, values;
} Field;

/* What a field code says: its counts, its marks (PER_COLUMN: one for each), its value's bytes as a power of two. */
typedef struct {
    uint8_t counts, marks, shift, boolean;
} Shape;

enum { PER_COLUMN = 2 };

static const Shape SHAPE[LAST_CODE + 1] = {
    {0, 0, 0, 0}, {0, 0, 1, 0}, {0, 0, 2, 0}, {0, 0, 3, 0}, {0, 0, 2, 0}, {0, 0, 3, 0}, {0, 0, 0, 1}, {0, 0, 0, 0},
    {0, 0, 1, 0}, {1, 0, 0, 0}, {1, 0, 1, 0}, {1, 0, 0, 0}, {1, 0, 1, 0}, {1, 0, 2, 0}, {1, 0, 3, 0}, {1, 0, 2, 0},
    {1, 0, 3, 0}, {1, 0, 0, 1}, {2, 0, 0, 0}, {2, 0, 1, 0}, {2, 0, 2, 0}, {2, 0, 3, 0}, {2, 0, 2, 0}, {2, 0, 3, 0},
    {2, 0, 0, 1}, {0, 1, 2, 0}, {0, 1, 3, 0}, {1, 1, 2, 0}, {1, 1, 3, 0}, {2, 1, 2, 0}, {2, 1, 3, 0},
    {2, PER_COLUMN, 2, 0}, {2, PER_COLUMN, 3, 0},
};

/* All bits that the bytes of a block have, one over the other, gathered in four quarters side by side. */
static inline uint8_t block_bits(const uint8_t *bytes) {
    enum { QUARTER = BOOLEAN_BLOCK / 4 };
    uint8_t one = 0, two = 0, three = 0, four = 0;
    for (size_t i = 0; i < QUARTER; i++) {
        one |= bytes[i];
        two |= bytes[QUARTER + i];
        three |= bytes[2 * QUARTER + i];
        four |= bytes[3 * QUARTER + i];
    }
    return one | two | three | four;
}

/* All bits that so many bytes have, one over the other. */
static inline uint8_t all_bits(const uint8_t *bytes, size_t size) {
    uint8_t bits = 0;
    for (size_t i = 0; i < size; i++) {
        bits |= bytes[i];
    }
    return bits;
}

/* The place of the first byte above 1, `end` where there is none. */
static size_t first_above_one(const uint8_t *bytes, size_t at, size_t end) {
    while (at < end && bytes[at] <= 1) {
        at++;
    }
    return at;
}

/* Judges Boolean bytes, a block at a time, and one by one only where one is wrong. */
static Verdict judge_booleans(const uint8_t *bytes, size_t at, size_t end) {
    while (end - at >= BOOLEAN_BLOCK && block_bits(bytes + at) <= 1) {
        at += BOOLEAN_BLOCK;
    }
    if (end - at < BOOLEAN_BLOCK && all_bits(bytes + at, end - at) <= 1) {
        return verdict(0, end);
    }
    return verdict(10, first_above_one(bytes, at, end));
}

/* Judges the count at a place. */
static inline Verdict judge_count(const uint8_t *bytes, size_t length, size_t at, size_t *count) {
    if (length - at < 4) {
        return verdict(1, length);
    }
    *count = four_bytes(bytes + at);
    return *count > INT32_MAX ? verdict(5, at) : verdict(0, at + 4);
}

/* Judges the counts of a field, and answers its values and its columns. */
static inline Verdict judge_counts(const uint8_t *bytes, size_t length, size_t at, const Shape *shape, Field *field,
                                   size_t *columns) {
    Verdict count = verdict(0, at);
    field->values = 1;
    if (shape->counts >= 1) {
        count = judge_count(bytes, length, at, &field->values);
    }
    if (shape->counts == 2 && count.number == 0) {
        count = judge_count(bytes, length, count.place, columns);
        field->values *= *columns;
    }
    return count;
}

/* Judges the field of any code at a place before the end, item by item. */
static __attribute__((noinline)) Verdict judge_field(const uint8_t *bytes, size_t length, size_t at, Field *field) {
    size_t columns = 0;
    if (bytes[at] > LAST_CODE) {
        return verdict(9, at);
    }
    const Shape shape = SHAPE[bytes[at]];
    Verdict head = judge_counts(bytes, length, at + 1, &shape, field, &columns);
    if (head.number != 0) {
        return head;
    }
    field->marks = shape.marks == PER_COLUMN ? columns : shape.marks;
    head = judge_marks(bytes, length, head.place, field->marks);
    if (head.number != 0) {
        return head;
    }
    if (field->values > (length - head.place) >> shape.shift) {
        return verdict(1, length);
    }
    field->first = head.place;
    field->size = field->values << shape.shift;
    const size_t end = field->first + field->size;
    return shape.boolean ? judge_booleans(bytes, field->first, end) : verdict(0, end);
}

#endif
