/*
 * Reads the example message of the Sim0MQ manual (section 2.3.6), asks for its value, blanks it, and writes it anew:
 * the ids are taken from the message, its one field is added as the scalar that was asked for, and the two messages are
 * compared. Compiles as C11 and as C++17.
 */
#include "sim0mq.h"

#include <inttypes.h>
#include <stdio.h>
#include <string.h>

/* The message: run IDVV.14.2, sender MC.1, receiver MM1.4, type DSOL.3, number 124, status 2, one field, the double
   0.2. */
static const uint8_t MESSAGE[77] = {
    0x09, 0x00, 0x00, 0x00, 0x05, 0x53, 0x49, 0x4D, 0x30, 0x31, 0x09, 0x00, 0x00, 0x00, 0x09, 0x49,
    0x44, 0x56, 0x56, 0x2E, 0x31, 0x34, 0x2E, 0x32, 0x09, 0x00, 0x00, 0x00, 0x04, 0x4D, 0x43, 0x2E,
    0x31, 0x09, 0x00, 0x00, 0x00, 0x05, 0x4D, 0x4D, 0x31, 0x2E, 0x34, 0x09, 0x00, 0x00, 0x00, 0x06,
    0x44, 0x53, 0x4F, 0x4C, 0x2E, 0x33, 0x03, 0x00, 0x00, 0x00, 0x00, 0x00, 0x00, 0x00, 0x7C, 0x00,
    0x02, 0x01, 0x00, 0x01, 0x05, 0x3F, 0xC9, 0x99, 0x99, 0x99, 0x99, 0x99, 0x9A,
};

/* A message that is refused: its status, at 64, is 4. */
static void refusal(void)
{
    uint8_t damaged[77];
    uint64_t answer[SIM0MQ_READ_NUMBERS];
    memcpy(damaged, MESSAGE, sizeof damaged);
    damaged[64] = 4;
    uint32_t said = sim0mq_judge(damaged, sizeof damaged, answer, SIM0MQ_READ_NUMBERS);
    printf("with status 4: refused %" PRIu32 " at %" PRIu64 "\n", said, answer[1]);
}

/* Blanks the message: how many bytes of the copy differ from it. */
static void blanked(void)
{
    uint8_t copy[SIM0MQ_MOST_BYTES];
    uint64_t answer[SIM0MQ_BLANK_NUMBERS];
    uint32_t said = sim0mq_blank(MESSAGE, sizeof MESSAGE, copy, sizeof copy, answer, SIM0MQ_BLANK_NUMBERS);
    if (said != 0) {
        printf("blanking: refused %" PRIu32 " at %" PRIu64 "\n", said, answer[1]);
        return;
    }
    size_t differ = 0;
    for (size_t i = 0; i < answer[2]; i++) {
        differ += copy[i] != MESSAGE[i];
    }
    printf("blanked: %" PRIu64 " bytes, %zu of them differ\n", answer[2], differ);
}

/* Writes a message with the ids, the count type and the one field of a message that was read; whether all was
   granted. */
static int rewritten(const uint64_t *read, uint8_t *out, size_t room, uint64_t *length)
{
    uint64_t value[SIM0MQ_VALUE_NUMBERS];
    uint64_t w[SIM0MQ_WRITER_NUMBERS];
    size_t ids = (size_t)read[7];
    size_t ids_end = (size_t)read[15];
    if (sim0mq_value(MESSAGE, sizeof MESSAGE, 0, value, SIM0MQ_VALUE_NUMBERS) != 0) {
        return 0;
    }
    if (sim0mq_open(MESSAGE + ids, ids_end - ids, 124, 2, 1, 1, (uint8_t)read[20], out, room, w, SIM0MQ_WRITER_NUMBERS) != 0) {
        return 0;
    }
    printf("opened: %" PRIu64 " bytes of header\n", w[2]);
    if (sim0mq_add_scalar(w[3], w[4], w[5], (uint8_t)w[6], (uint8_t)value[2], value[3], (uint8_t)value[4], (uint16_t)value[5],
                          (uint8_t)value[6], out, room, w, SIM0MQ_WRITER_NUMBERS) != 0) {
        return 0;
    }
    printf("added: %" PRIu64 " bytes\n", w[2]);
    if (sim0mq_close(w[3], w[4], w[5], (uint8_t)w[6], w, SIM0MQ_WRITER_NUMBERS) != 0) {
        return 0;
    }
    *length = w[2];
    return 1;
}

int main(void)
{
    uint32_t table[SIM0MQ_ROW_NUMBERS];
    uint64_t answer[SIM0MQ_READ_NUMBERS];
    uint8_t out[SIM0MQ_MOST_BYTES];
    uint64_t length = 0;

    uint32_t said = sim0mq_read(MESSAGE, sizeof MESSAGE, table, SIM0MQ_ROW_NUMBERS, answer, SIM0MQ_READ_NUMBERS);
    if (said != 0) {
        printf("refused %" PRIu32 " at %" PRIu64 "\n", said, answer[1]);
        return 1;
    }
    printf("read: length %" PRIu64 ", fields %" PRIu64 ", steps %" PRIu64 "\n", answer[2], answer[3], answer[4]);
    printf("field 0: code %" PRIu32 " at %" PRIu32 ", %" PRIu32 " value bytes from %" PRIu32 "\n", table[0], table[1], table[3], table[2]);

    refusal();
    blanked();

    if (!rewritten(answer, out, sizeof out, &length)) {
        printf("rewriting was refused\n");
        return 1;
    }
    int same = length == sizeof MESSAGE && memcmp(out, MESSAGE, sizeof MESSAGE) == 0;
    printf("rewritten: %" PRIu64 " bytes, %s\n", length, same ? "the same" : "not the same");
    return same ? 0 : 1;
}
