/*
 * A second independent reader, blanker and writer of typed big-endian messages, in C: written from the manual and the
 * rulings alone, for speed. Its calls take and answer what those of bindings/c/sim0mq.h do, number for number: each
 * returns 0 where it is granted, the refusal's number where it is refused, and 255, with nothing written, where
 * `answer` is too short. The buffers of one call do not overlap. Nothing is kept between calls.
 */
#ifndef READER_H
#define READER_H

#include <stddef.h>
#include <stdint.h>

/*
 * Reads a message: number, place, length, fields, steps, then place and type of the eight frames. The table gets six
 * numbers for each field.
 */
uint32_t reader_read(const uint8_t *message, size_t message_len, uint32_t *table, size_t table_len, uint64_t *answer,
                     size_t answer_len);

/* Reads a message without a table. */
uint32_t reader_judge(const uint8_t *message, size_t message_len, uint64_t *answer, size_t answer_len);

/* The value of scalar field k: number, place, kind, bits, unit, currency, display. */
uint32_t reader_value(const uint8_t *message, size_t message_len, uint64_t k, uint64_t *answer, size_t answer_len);

/* Where the value bytes of field k are: number, place, first, size. */
uint32_t reader_view(const uint8_t *message, size_t message_len, uint64_t k, uint64_t *answer, size_t answer_len);

/* Copies a message with all value bytes zero: number, place, length. */
uint32_t reader_blank(const uint8_t *message, size_t message_len, uint8_t *out, size_t out_len, uint64_t *answer,
                      size_t answer_len);

/*
 * Opens a message. It answers, as every call of the writer: number, place, length, and the state: written, declared,
 * added, closed.
 */
uint32_t reader_open(const uint8_t *ids, size_t ids_len, int64_t number, uint8_t status, uint64_t fields,
                     uint8_t stated, uint8_t kind, uint8_t *out, size_t out_len, uint64_t *answer, size_t answer_len);

/* Adds an encoded field. */
uint32_t reader_add(uint64_t written, uint64_t declared, uint64_t added, uint8_t closed, const uint8_t *field,
                    size_t field_len, uint8_t *out, size_t out_len, uint64_t *answer, size_t answer_len);

/* Adds a scalar. */
uint32_t reader_add_scalar(uint64_t written, uint64_t declared, uint64_t added, uint8_t closed, uint8_t kind,
                           uint64_t bits, uint8_t unit, uint16_t currency, uint8_t display, uint8_t *out,
                           size_t out_len, uint64_t *answer, size_t answer_len);

/* Closes a message. */
uint32_t reader_close(uint64_t written, uint64_t declared, uint64_t added, uint8_t closed, uint64_t *answer,
                      size_t answer_len);

#endif
