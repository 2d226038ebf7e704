/* What reader and writer share besides fields: frame 0, the ids, and which bits are a NaN. */
#ifndef IDS_H
#define IDS_H

#include "marks.h"

/* Frame 0. */
static const uint8_t MAGIC[10] = {9, 0, 0, 0, 5, 'S', 'I', 'M', '0', '1'};

/* Judges the id frame at a place, item by item. */
static inline Verdict judge_id(const uint8_t *bytes, size_t length, size_t at) {
    if (UNLIKELY(at >= length)) {
        return verdict(1, length);
    }
    const uint32_t type = bytes[at];
    if (type == 9 || type == 10) {
        if (UNLIKELY(length - at < 5)) {
            return verdict(1, length);
        }
        const size_t characters = four_bytes(bytes + at + 1), size = characters << (type - 9);
        if (UNLIKELY(characters > INT32_MAX)) {
            return verdict(5, at + 1);
        }
        return UNLIKELY(size > length - at - 5) ? verdict(1, length) : verdict(0, at + 5 + size);
    }
    if (UNLIKELY(type != 1 && type != 2)) {
        return verdict(4, at);
    }
    const size_t size = 1 + 2 * type;
    return UNLIKELY(length - at < size) ? verdict(1, length) : verdict(0, at + size);
}

/* Whether these bits of a kind of scalar are a NaN. */
static inline int is_nan(uint8_t kind, uint64_t bits) {
    if (kind == 4 || kind == 9) {
        return (bits & 0x7FFFFFFF) > 0x7F800000;
    }
    return (kind == 5 || kind == 10) && (bits & 0x7FFFFFFFFFFFFFFF) > 0x7FF0000000000000;
}

#endif
