/* Writing: open, add fields one by one, close. */
#include "fields.h"
#include "ids.h"
#include "reader.h"

enum { WRITE = 7, MOST_SCALAR = 13 };

/* Gives the numbers of a call that is granted. */
static inline uint32_t grant(uint64_t *answer, size_t written, uint64_t declared, uint64_t added, uint64_t closed) {
    answer[0] = 0;
    answer[1] = 0;
    answer[2] = written;
    answer[3] = written;
    answer[4] = declared;
    answer[5] = added;
    answer[6] = closed;
    return 0;
}

/* Gives the numbers of a refusal, with the state that is handed back. */
static uint32_t refuse(uint64_t *answer, Verdict judged, uint64_t written, uint64_t declared, uint64_t added,
                       uint8_t closed) {
    answer[0] = judged.number;
    answer[1] = judged.place;
    answer[2] = 0;
    answer[3] = written;
    answer[4] = declared;
    answer[5] = added;
    answer[6] = closed != 0;
    return judged.number;
}

/* Judges four id frames that fill all bytes. */
static inline Verdict judge_ids(const uint8_t *ids, size_t length) {
    Verdict id = verdict(0, 0);
    for (int frame = 1; frame < 5; frame++) {
        id = judge_id(ids, length, id.place);
        if (UNLIKELY(id.number != 0)) {
            return id;
        }
    }
    return id.place < length ? verdict(13, id.place) : id;
}

/* Judges an opening with its room, and answers the header's length. */
static inline Verdict judge_opening(const uint8_t *ids, size_t length, uint8_t status, uint64_t fields, uint8_t kind,
                                    size_t room) {
    const Verdict judged = judge_ids(ids, length);
    if (judged.number != 0) {
        return judged;
    }
    if (status - 1u > 2) {
        return verdict(6, 0);
    }
    if (kind > 2) {
        return verdict(4, 0);
    }
    if (fields > (kind == 0 ? INT8_MAX : MOST_FIELDS)) {
        return verdict(7, 0);
    }
    const size_t header = sizeof MAGIC + length + 12 + ((size_t)1 << kind);
    if (header > MOST_BYTES) {
        return verdict(8, 0);
    }
    return header > room ? verdict(14, 0) : verdict(0, header);
}

/* Puts a number as eight bytes. */
static inline void put_eight(uint8_t *out, uint64_t number) {
    for (int i = 0; i < 8; i++) {
        out[i] = (uint8_t)(number >> (56 - 8 * i));
    }
}

/* Copies 2 to 16 bytes as two pieces that may overlap. */
static inline void copy_few(uint8_t *restrict out, const uint8_t *restrict bytes, size_t size) {
    if (size >= 8) {
        memcpy(out, bytes, 8);
        memcpy(out + size - 8, bytes + size - 8, 8);
    } else if (size >= 4) {
        memcpy(out, bytes, 4);
        memcpy(out + size - 4, bytes + size - 4, 4);
    } else {
        memcpy(out, bytes, 2);
        out[size - 1] = bytes[size - 1];
    }
}

uint32_t reader_open(const uint8_t *restrict ids, size_t ids_len, int64_t number, uint8_t status, uint64_t fields,
                     uint8_t stated, uint8_t kind, uint8_t *restrict out, size_t out_len, uint64_t *restrict answer,
                     size_t answer_len) {
    if (answer_len < WRITE) {
        return TOO_SHORT;
    }
    const uint8_t type = stated ? kind : 2;
    const Verdict judged = judge_opening(ids, ids_len, status, fields, type, out_len);
    if (UNLIKELY(judged.number != 0)) {
        return refuse(answer, judged, 0, 0, 0, 1);
    }
    memcpy(out, MAGIC, sizeof MAGIC);
    memcpy(out + sizeof MAGIC, ids, ids_len);
    uint8_t *const tail = out + sizeof MAGIC + ids_len;
    tail[0] = 3;
    put_eight(tail + 1, (uint64_t)number);
    tail[9] = 0;
    tail[10] = status;
    tail[11] = type;
    if (type == 0) {
        tail[12] = (uint8_t)fields;
    } else {
        memset(tail + 12, 0, type);
        tail[type == 1 ? 12 : 14] = (uint8_t)(fields >> 8);
        tail[type == 1 ? 13 : 15] = (uint8_t)fields;
    }
    return grant(answer, judged.place, fields, 0, 0);
}

/* Whether nothing can be added in this state. */
static inline int misfits(uint64_t written, uint64_t declared, uint64_t added, uint8_t closed, size_t room) {
    return closed || added >= declared || written > MOST_BYTES || written > room;
}

/* The refusal of a field of this size for its length or for want of room, if it is refused. */
static inline Verdict judge_room(uint64_t written, size_t size, size_t room) {
    if (size > MOST_BYTES - written) {
        return verdict(8, 0);
    }
    return size > room - written ? verdict(14, 0) : verdict(0, written + size);
}

/* Judges one encoded field that fills all bytes. */
static inline Verdict judge_alone(const uint8_t *bytes, size_t length) {
    Field field;
    if (length == 0) {
        return verdict(1, 0);
    }
    if ((bytes[0] <= 5 || bytes[0] == 7 || bytes[0] == 8) && length == (size_t)1 + (1u << SHAPE[bytes[0]].shift)) {
        return verdict(0, length);
    }
    const Verdict judged = judge_field(bytes, length, 0, &field);
    return judged.number == 0 && judged.place < length ? verdict(13, judged.place) : judged;
}

uint32_t reader_add(uint64_t written, uint64_t declared, uint64_t added, uint8_t closed, const uint8_t *restrict field,
                    size_t field_len, uint8_t *restrict out, size_t out_len, uint64_t *restrict answer,
                    size_t answer_len) {
    if (answer_len < WRITE) {
        return TOO_SHORT;
    }
    if (UNLIKELY(misfits(written, declared, added, closed, out_len))) {
        return refuse(answer, verdict(15, 0), written, declared, added, closed);
    }
    Verdict judged = judge_alone(field, field_len);
    if (judged.number == 0) {
        judged = judge_room(written, field_len, out_len);
    }
    if (UNLIKELY(judged.number != 0)) {
        return refuse(answer, judged, written, declared, added, closed);
    }
    if (field_len <= 16) {
        copy_few(out + written, field, field_len);
    } else {
        memcpy(out + written, field, field_len);
    }
    return grant(answer, judged.place, declared, added + 1, 0);
}

/* Puts a mark and answers its length; 0 for a mark that reading would refuse or never gives. */
static inline size_t put_mark(uint8_t *out, uint8_t unit, uint16_t currency, uint8_t display) {
    if (!is_unit(unit) || display > LAST_DISPLAY[unit]) {
        return 0;
    }
    out[0] = unit;
    if (unit < MONEY) {
        out[1] = display;
        return currency == 0 ? 2 : 0;
    }
    out[1] = (uint8_t)(currency >> 8);
    out[2] = (uint8_t)currency;
    out[3] = display;
    return !is_currency(currency) ? 0 : unit == MONEY ? 3 : 4;
}

/* Encodes a scalar as a field and answers its length; 0 for one that adding does not take. */
static size_t encode(uint8_t *out, uint8_t kind, uint64_t bits, uint8_t unit, uint16_t currency, uint8_t display) {
    static const uint8_t WIDTH[11] = {1, 2, 4, 8, 4, 8, 1, 1, 2, 4, 8};
    size_t first = 1;
    if (kind > 10) {
        return 0;
    }
    const size_t width = WIDTH[kind];
    if (bits > (kind == 6 ? 1 : UINT64_MAX >> (64 - 8 * width)) || is_nan(kind, bits)) {
        return 0;
    }
    out[0] = kind < 9 ? kind : kind + 16;
    if (kind >= 9) {
        const size_t mark = put_mark(out + 1, unit, currency, display);
        if (mark == 0) {
            return 0;
        }
        first += mark;
    }
    put_eight(out + first, bits << (64 - 8 * width));
    return first + width;
}

uint32_t reader_add_scalar(uint64_t written, uint64_t declared, uint64_t added, uint8_t closed, uint8_t kind,
                           uint64_t bits, uint8_t unit, uint16_t currency, uint8_t display, uint8_t *restrict out,
                           size_t out_len, uint64_t *restrict answer, size_t answer_len) {
    uint8_t field[MOST_SCALAR];
    if (answer_len < WRITE) {
        return TOO_SHORT;
    }
    if (UNLIKELY(misfits(written, declared, added, closed, out_len))) {
        return refuse(answer, verdict(15, 0), written, declared, added, closed);
    }
    const size_t size = encode(field, kind, bits, unit, currency, display);
    const Verdict judged = size == 0 ? verdict(17, 0) : judge_room(written, size, out_len);
    if (UNLIKELY(judged.number != 0)) {
        return refuse(answer, judged, written, declared, added, closed);
    }
    copy_few(out + written, field, size);
    return grant(answer, judged.place, declared, added + 1, 0);
}

uint32_t reader_close(uint64_t written, uint64_t declared, uint64_t added, uint8_t closed, uint64_t *restrict answer,
                      size_t answer_len) {
    if (answer_len < WRITE) {
        return TOO_SHORT;
    }
    if (closed || written > MOST_BYTES || added != declared) {
        return refuse(answer, verdict(15, 0), written, declared, added, closed);
    }
    return grant(answer, (size_t)written, declared, added, 1);
}
