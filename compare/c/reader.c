/*
 * Reading, asking and blanking. Each has a way for what is common, which takes a header or a field only where all is
 * well, and leaves any doubt to a judge that goes item by item and knows which refusal it is.
 */
#include "reader.h"

#include "fields.h"
#include "ids.h"

#define INLINED inline __attribute__((always_inline))

enum { READ = 21, VALUE = 7, VIEW = 4, BLANK = 3, FRAMES = 8, ROW = 6, PIECE = 64 };

/* What a walk keeps of each field: its row of the table, where its value bytes are, or nothing. */
typedef struct {
    uint64_t pair[ROW / 2];
} Row;
typedef struct {
    uint32_t first, end;
} Span;

/* The refusal of a frame 0 that is not as it should be, found byte by byte. */
static Verdict refuse_magic(const uint8_t *bytes, size_t length) {
    for (size_t at = 0; at < 10; at++) {
        if (at >= length) {
            return verdict(1, length);
        }
        if (at < 8 ? bytes[at] != MAGIC[at] : bytes[at] < '0' || bytes[at] > '9') {
            return verdict(2, at);
        }
    }
    return verdict(3, 8);
}

/* Notes place and type of a frame, where frames are asked for. */
static INLINED void note(uint64_t *frames, size_t frame, size_t place, uint32_t type) {
    if (frames != NULL) {
        frames[2 * frame] = place;
        frames[2 * frame + 1] = type;
    }
}

/* Judges frames 5 to 7 item by item, and answers the number of fields. */
static Verdict exact_tail(const uint8_t *bytes, size_t length, size_t at, size_t *fields) {
    if (at >= length) {
        return verdict(1, length);
    }
    if (bytes[at] != 3) {
        return verdict(4, at);
    }
    if (length - at < 10) {
        return verdict(1, length);
    }
    if (bytes[at + 9] != 0) {
        return verdict(4, at + 9);
    }
    if (length - at < 11) {
        return verdict(1, length);
    }
    if (bytes[at + 10] - 1u > 2) {
        return verdict(6, at + 10);
    }
    if (length - at < 12) {
        return verdict(1, length);
    }
    if (bytes[at + 11] > 2) {
        return verdict(4, at + 11);
    }
    const size_t width = (size_t)1 << bytes[at + 11];
    if (length - at - 12 < width) {
        return verdict(1, length);
    }
    if (bytes[at + 12] > 127) {
        return verdict(5, at + 12);
    }
    *fields = width == 1 ? bytes[at + 12] : width == 2 ? two_bytes(bytes + at + 12) : four_bytes(bytes + at + 12);
    return *fields > MOST_FIELDS ? verdict(7, at + 12) : verdict(0, at + 12 + width);
}

/* Judges the header of a message and answers its end, its number of fields and, where asked for, its frames. */
static INLINED Verdict judge_header(const uint8_t *bytes, size_t length, size_t *fields, uint64_t *frames) {
    if (UNLIKELY(length > MOST_BYTES)) {
        return verdict(8, 0);
    }
    if (UNLIKELY(length < 10 || memcmp(bytes, MAGIC, 10) != 0)) {
        return refuse_magic(bytes, length);
    }
    size_t at = 10;
    note(frames, 0, 0, 9);
    for (size_t frame = 1; frame < 5; frame++) {
        const Verdict id = judge_id(bytes, length, at);
        if (UNLIKELY(id.number != 0)) {
            return id;
        }
        note(frames, frame, at, bytes[at]);
        at = id.place;
    }
    const Verdict tail = exact_tail(bytes, length, at, fields);
    if (tail.number == 0) {
        note(frames, 5, at, 3);
        note(frames, 6, at + 9, 0);
        note(frames, 7, at + 11, bytes[at + 11]);
    }
    return tail;
}

/* Two numbers of the table that lie side by side. */
static INLINED uint64_t pair(uint64_t one, uint64_t other) {
#if __BYTE_ORDER__ == __ORDER_LITTLE_ENDIAN__
    return one | other << 32;
#else
    return one << 32 | other;
#endif
}

/* Keeps a field of a message, as a row or as a span, whichever is asked for. */
static INLINED void keep(Row *row, Span *span, uint32_t code, size_t at, size_t first, size_t size, size_t marks,
                         size_t values) {
    if (row != NULL) {
        row->pair[0] = pair(code, at);
        row->pair[1] = pair(first, size);
        row->pair[2] = pair(marks, values);
    }
    if (span != NULL) {
        *span = (Span){(uint32_t)first, (uint32_t)(first + size)};
    }
}

/*
 * Takes fields of one value of so many bytes for as long as their code is the same: there are often more of a kind. One
 * that is not all there is left to the exact judge.
 */
#define ONE_VALUE(bytes_each)                                                                                          \
    do {                                                                                                               \
        if (UNLIKELY(length - at < 1 + (bytes_each))) {                                                                \
            goto exact;                                                                                                \
        }                                                                                                              \
        keep(rows ? rows + i : NULL, spans ? spans + i : NULL, code, at, at + 1, bytes_each, 0, 1);                    \
        at += 1 + (bytes_each);                                                                                        \
        i++;                                                                                                           \
    } while (i < fields && at < length && bytes[at] == code);                                                          \
    continue

/* Takes a field of counted values, of so many bytes as a power of two; one with a fault is left to the exact judge. */
#define COUNTED(shift)                                                                                                 \
    if (UNLIKELY(length - at < 5)) {                                                                                   \
        goto exact;                                                                                                    \
    }                                                                                                                  \
    values = four_bytes(bytes + at + 1);                                                                               \
    if (UNLIKELY(values > (length - at - 5) >> (shift) || values > INT32_MAX)) {                                       \
        goto exact;                                                                                                    \
    }                                                                                                                  \
    keep(rows ? rows + i : NULL, spans ? spans + i : NULL, code, at, at + 5, values << (shift), 0, values);            \
    at += 5 + (values << (shift));                                                                                     \
    i++;                                                                                                               \
    continue

/* Judges so many fields from a place on, keeps what is asked for, and answers the place after them and their marks. */
static INLINED Verdict walk(const uint8_t *bytes, size_t length, size_t at, size_t fields, size_t *marks, Row *rows,
                            Span *spans) {
    size_t i = 0, values;
    Field field;
    while (i < fields) {
        if (UNLIKELY(at >= length)) {
            return verdict(1, length);
        }
        const uint32_t code = bytes[at];
        switch (code) {
        case 0: case 7: ONE_VALUE(1);
        case 1: case 8: ONE_VALUE(2);
        case 2: case 4: ONE_VALUE(4);
        case 3: case 5: ONE_VALUE(8);
        case 9: case 11: COUNTED(0);
        case 10: case 12: COUNTED(1);
        case 13: case 15: COUNTED(2);
        case 14: case 16: COUNTED(3);
        default: break;
        }
    exact:;
        const Verdict judged = judge_field(bytes, length, at, &field);
        if (judged.number != 0) {
            return judged;
        }
        keep(rows ? rows + i : NULL, spans ? spans + i : NULL, code, at, field.first, field.size, field.marks,
             field.values);
        *marks += field.marks;
        at = judged.place;
        i++;
    }
    return verdict(0, at);
}

/* The verdict on a whole message of which the fields are judged: nothing may be left. */
static INLINED Verdict end(Verdict judged, size_t length) {
    return judged.number == 0 && judged.place < length ? verdict(13, judged.place) : judged;
}

/* Gives so many numbers of a refusal: number, place and zeros. */
static __attribute__((noinline, noclone)) uint32_t refuse(uint64_t *answer, size_t numbers, Verdict judged) {
    answer[0] = judged.number;
    answer[1] = judged.place;
    memset(answer + 2, 0, 8 * (numbers - 2));
    return judged.number;
}

/* Gives the numbers of a reading, whose frames are there already. */
static INLINED uint32_t give_reading(uint64_t *answer, Verdict judged, size_t length, size_t fields, size_t marks) {
    if (UNLIKELY(judged.number != 0)) {
        return refuse(answer, READ, judged);
    }
    answer[0] = 0;
    answer[1] = 0;
    answer[2] = length;
    answer[3] = fields;
    answer[4] = FRAMES + fields + marks;
    return 0;
}

uint32_t reader_read(const uint8_t *restrict message, size_t length, uint32_t *restrict table, size_t table_len,
                     uint64_t *restrict answer, size_t answer_len) {
    size_t fields = 0, marks = 0;
    Row rows[MOST_FIELDS];
    if (answer_len < READ) {
        return TOO_SHORT;
    }
    Verdict judged = judge_header(message, length, &fields, answer + 5);
    if (judged.number == 0 && table_len < ROW * fields) {
        judged = verdict(14, 0);
    }
    if (judged.number == 0) {
        judged = end(walk(message, length, judged.place, fields, &marks, rows, NULL), length);
    }
    if (judged.number == 0) {
        memcpy(table, rows, fields * sizeof *rows);
    }
    return give_reading(answer, judged, length, fields, marks);
}

uint32_t reader_judge(const uint8_t *restrict message, size_t length, uint64_t *restrict answer, size_t answer_len) {
    size_t fields = 0, marks = 0;
    if (answer_len < READ) {
        return TOO_SHORT;
    }
    Verdict judged = judge_header(message, length, &fields, answer + 5);
    if (judged.number == 0) {
        judged = end(walk(message, length, judged.place, fields, &marks, NULL, NULL), length);
    }
    return give_reading(answer, judged, length, fields, marks);
}

/* Reads a message and answers the place of its field k, and that field. */
static INLINED Verdict find(const uint8_t *message, size_t length, uint64_t k, Field *field) {
    size_t fields = 0, marks = 0;
    Verdict judged = judge_header(message, length, &fields, NULL);
    if (judged.number != 0) {
        return judged;
    }
    const size_t before = k < fields ? (size_t)k : fields;
    judged = walk(message, length, judged.place, before, &marks, NULL, NULL);
    if (judged.number != 0) {
        return judged;
    }
    const size_t place = judged.place;
    judged = end(walk(message, length, place, fields - before, &marks, NULL, NULL), length);
    if (judged.number != 0) {
        return judged;
    }
    if (k >= fields) {
        return verdict(16, 0);
    }
    judge_field(message, length, place, field);
    return verdict(0, place);
}

/* The bits of a value of so many bytes. */
static inline uint64_t bits_of(const uint8_t *bytes, size_t size) {
    switch (size) {
    case 1: return bytes[0];
    case 2: return two_bytes(bytes);
    case 4: return four_bytes(bytes);
    default: return eight_bytes(bytes);
    }
}

uint32_t reader_value(const uint8_t *restrict message, size_t length, uint64_t k, uint64_t *restrict answer,
                      size_t answer_len) {
    Field field;
    if (answer_len < VALUE) {
        return TOO_SHORT;
    }
    const Verdict found = find(message, length, k, &field);
    if (found.number != 0) {
        return refuse(answer, VALUE, found);
    }
    const uint8_t *const at = message + found.place;
    const uint8_t kind = at[0] <= 8 ? at[0] : at[0] == 25 || at[0] == 26 ? at[0] - 16 : 255;
    if (kind == 255) {
        return refuse(answer, VALUE, verdict(17, 0));
    }
    const uint64_t bits = bits_of(message + field.first, field.size);
    memset(answer, 0, 8 * VALUE);
    if (is_nan(kind, bits)) {
        answer[2] = 11;
        answer[3] = at[0];
        return 0;
    }
    answer[2] = kind;
    answer[3] = bits;
    if (kind >= 9) {
        answer[4] = at[1];
        answer[5] = at[1] >= MONEY ? two_bytes(at + 2) : 0;
        answer[6] = at[1] == MONEY ? 0 : message[field.first - 1];
    }
    return 0;
}

uint32_t reader_view(const uint8_t *restrict message, size_t length, uint64_t k, uint64_t *restrict answer,
                     size_t answer_len) {
    Field field;
    if (answer_len < VIEW) {
        return TOO_SHORT;
    }
    const Verdict found = find(message, length, k, &field);
    if (found.number != 0) {
        return refuse(answer, VIEW, found);
    }
    answer[0] = 0;
    answer[1] = 0;
    answer[2] = field.first;
    answer[3] = field.size;
    return 0;
}

/* Copies the beginning of a message, which has 35 bytes at the least, and answers how much of it. */
static INLINED size_t copy_begin(const uint8_t *restrict message, size_t length, uint8_t *restrict out) {
    const size_t size = length < 2 * PIECE ? length : 2 * PIECE;
    if (size >= PIECE) {
        memcpy(out, message, PIECE);
        memcpy(out + size - PIECE, message + size - PIECE, PIECE);
    } else {
        memcpy(out, message, PIECE / 2);
        memcpy(out + size - PIECE / 2, message + size - PIECE / 2, PIECE / 2);
    }
    return size;
}

/* Copies from a place on until another is reached or passed, by one piece where that is enough; answers how far. */
static INLINED size_t copy_on(const uint8_t *restrict message, size_t length, uint8_t *restrict out, size_t at,
                              size_t end) {
    if (end - at <= PIECE && length - at >= PIECE) {
        memcpy(out + at, message + at, PIECE);
        return at + PIECE;
    }
    memcpy(out + at, message + at, end - at);
    return end;
}

/* Clears the value bytes of a field. */
static INLINED void clear(uint8_t *values, size_t size) {
    if (size == 1) {
        values[0] = 0;
    } else if (size == 2) {
        memset(values, 0, 2);
    } else if (size == 4) {
        memset(values, 0, 4);
    } else if (size == 8) {
        memset(values, 0, 8);
    } else {
        memset(values, 0, size);
    }
}

/*
 * Copies a message with these value bytes cleared. Pieces are copied ahead of the fields in them, which are then
 * cleared; the values of a long field are not copied, but for those in a piece that begins before it.
 */
static INLINED void copy_blank(const uint8_t *restrict message, size_t length, uint8_t *restrict out,
                               const Span *spans, size_t fields) {
    size_t copied = copy_begin(message, length, out);
    for (size_t i = 0; i < fields; i++) {
        const size_t first = spans[i].first, end = spans[i].end;
        if (UNLIKELY(copied < end)) {
            if (end - first <= PIECE) {
                copied = copy_on(message, length, out, copied, end);
            } else {
                memcpy(out + copied, message + copied, copied < first ? first - copied : 0);
                copied = end;
            }
        }
        clear(out + first, end - first);
    }
    if (UNLIKELY(copied < length)) {
        memcpy(out + copied, message + copied, length - copied);
    }
}

uint32_t reader_blank(const uint8_t *restrict message, size_t length, uint8_t *restrict out, size_t out_len,
                      uint64_t *restrict answer, size_t answer_len) {
    size_t fields = 0, marks = 0;
    Span spans[MOST_FIELDS];
    if (answer_len < BLANK) {
        return TOO_SHORT;
    }
    Verdict judged = judge_header(message, length, &fields, NULL);
    if (judged.number == 0) {
        judged = end(walk(message, length, judged.place, fields, &marks, NULL, spans), length);
    }
    if (judged.number == 0 && out_len < length) {
        judged = verdict(14, 0);
    }
    if (UNLIKELY(judged.number != 0)) {
        return refuse(answer, BLANK, judged);
    }
    copy_blank(message, length, out, spans, fields);
    answer[0] = 0;
    answer[1] = 0;
    answer[2] = length;
    return 0;
}
