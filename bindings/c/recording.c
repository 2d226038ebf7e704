/*
 * Records the example message of the Sim0MQ manual (section 2.3.6) and two musters, opens the recording, brings back
 * what is left of a copy that was cut, and counts the heads of deck 7 from a short muster. Compiles as C11 and as
 * C++17.
 */
#include "sim0mq.h"

#include <inttypes.h>
#include <stdio.h>

/* The deck that is asked for. */
#define DECK 7

/* Run IDVV.14.2, sender MC.1, receiver MM1.4, type DSOL.3, number 124, status 2, one field, the double 0.2. */
static const uint8_t MESSAGE[77] = {
    0x09, 0x00, 0x00, 0x00, 0x05, 0x53, 0x49, 0x4D, 0x30, 0x31, 0x09, 0x00, 0x00, 0x00, 0x09, 0x49,
    0x44, 0x56, 0x56, 0x2E, 0x31, 0x34, 0x2E, 0x32, 0x09, 0x00, 0x00, 0x00, 0x04, 0x4D, 0x43, 0x2E,
    0x31, 0x09, 0x00, 0x00, 0x00, 0x05, 0x4D, 0x4D, 0x31, 0x2E, 0x34, 0x09, 0x00, 0x00, 0x00, 0x06,
    0x44, 0x53, 0x4F, 0x4C, 0x2E, 0x33, 0x03, 0x00, 0x00, 0x00, 0x00, 0x00, 0x00, 0x00, 0x7C, 0x00,
    0x02, 0x01, 0x00, 0x01, 0x05, 0x3F, 0xC9, 0x99, 0x99, 0x99, 0x99, 0x99, 0x9A,
};

/* The ids of a muster: run 1, sender GATE, receiver 2, type MUS.1. */
static const uint8_t IDS[25] = {
    0x01, 0x00, 0x01, 0x09, 0x00, 0x00, 0x00, 0x04, 0x47, 0x41, 0x54, 0x45, 0x01, 0x00, 0x02, 0x09,
    0x00, 0x00, 0x00, 0x05, 0x4D, 0x55, 0x53, 0x2E, 0x31,
};

/* What a muster says: its number, its status (1 new, 2 change, 3 delete) and its decks, the deck joined first. */
struct muster {
    int64_t number;
    uint8_t status;
    uint8_t decks[2];
    size_t count;
};

/* Two come aboard on deck 7 and one on deck 3, which the feed says twice; she moves to deck 7, and one leaves the
   ship. */
static const struct muster MUSTERS[6] = {
    {1, 1, {7, 0}, 1}, {2, 1, {7, 0}, 1}, {3, 1, {3, 0}, 1}, {3, 1, {3, 0}, 1}, {4, 2, {7, 3}, 2}, {5, 3, {7, 0}, 1},
};

/* Writes the muster's message to the front of `out`, with a field of a byte for each deck; its length, 0 where it is
   refused. */
static size_t written(const struct muster *m, uint8_t *out, size_t room)
{
    uint64_t w[SIM0MQ_WRITER_NUMBERS];
    uint32_t said = sim0mq_open(IDS, sizeof IDS, m->number, m->status, m->count, 1, 0, out, room, w,
                                SIM0MQ_WRITER_NUMBERS);
    for (size_t i = 0; i < m->count && said == 0; i++) {
        said = sim0mq_add_scalar(w[3], w[4], w[5], (uint8_t)w[6], SIM0MQ_BYTE, m->decks[i], 0, 0, 0, out, room, w,
                                 SIM0MQ_WRITER_NUMBERS);
    }
    if (said == 0) {
        said = sim0mq_close(w[3], w[4], w[5], (uint8_t)w[6], w, SIM0MQ_WRITER_NUMBERS);
    }
    return said == 0 ? (size_t)w[2] : 0;
}

/* Says by which refusal something failed. */
static void failed(const char *what, uint32_t said, uint64_t place)
{
    printf("%s: refused %" PRIu32 " at %" PRIu64 "\n", what, said, place);
}

/* Adds a message to the recording in `out` after those of the state in `r`, which is then the next one. */
static uint32_t add(uint64_t *r, const uint8_t *message, size_t length, uint8_t *out, size_t room)
{
    return sim0mq_recording_add(r[3], r[4], (uint8_t)r[5], message, length, out, room, r, SIM0MQ_RECORDER_NUMBERS);
}

/* Records the message and the first two musters; the recording's length, 0 where that is refused. */
static size_t recorded(uint8_t *out, size_t room)
{
    uint64_t r[SIM0MQ_RECORDER_NUMBERS] = {0, 0, 0, 0, 0, 0};
    uint8_t message[100];
    uint32_t said = add(r, MESSAGE, sizeof MESSAGE, out, room);
    for (size_t i = 0; i < 2 && said == 0; i++) {
        said = add(r, message, written(&MUSTERS[i], message, sizeof message), out, room);
    }
    if (said == 0) {
        said = sim0mq_recording_close(r[3], r[4], (uint8_t)r[5], out, room, r, SIM0MQ_RECORDER_NUMBERS);
    }
    if (said != 0) {
        failed("recording", said, r[1]);
        return 0;
    }
    printf("recorded: %" PRIu64 " messages, %" PRIu64 " bytes\n", r[4], r[2]);
    return (size_t)r[2];
}

/* Says where each message of the recording stands; whether it opens. */
static int opened(const uint8_t *recording, size_t length)
{
    uint32_t table[3 * SIM0MQ_PLACE_NUMBERS];
    uint64_t answer[SIM0MQ_RECORDING_NUMBERS];
    uint32_t said = sim0mq_recording_open_into(recording, length, table, 3 * SIM0MQ_PLACE_NUMBERS, answer,
                                               SIM0MQ_RECORDING_NUMBERS);
    if (said != 0) {
        failed("opening", said, answer[1]);
        return 0;
    }
    printf("opened: %" PRIu64 " messages\n", answer[2]);
    for (size_t k = 0; k < answer[2]; k++) {
        printf("message %zu: %" PRIu32 " bytes from %" PRIu32 "\n", k, table[2 * k + 1], table[2 * k]);
    }
    return 1;
}

/* Brings back what is left of the recording where it is cut; whether that opens. */
static int salvaged(const uint8_t *recording, size_t cut)
{
    uint8_t out[1000];
    uint64_t s[SIM0MQ_SALVAGE_NUMBERS];
    uint64_t answer[SIM0MQ_RECORDING_NUMBERS];
    uint32_t said = sim0mq_salvage(recording, cut, out, sizeof out, s, SIM0MQ_SALVAGE_NUMBERS);
    if (said != 0) {
        failed("salvage", said, s[1]);
        return 0;
    }
    printf("cut at %zu: kept %" PRIu64 ", dropped %" PRIu64, cut, s[3], s[4]);
    if (s[5] == SIM0MQ_STOPPED_AT_FAULT) {
        printf(", refused %" PRIu64 " at %" PRIu64, s[6], s[7]);
    }
    said = sim0mq_recording_open(out, (size_t)s[2], answer, SIM0MQ_RECORDING_NUMBERS);
    if (said != 0) {
        failed("; opening", said, answer[1]);
        return 0;
    }
    printf("; opened: %" PRIu64 " messages\n", answer[2]);
    return 1;
}

/* Counts the heads of the deck: from the musters one by one, and from the recording. */
static int counted(const uint8_t *recording, size_t length)
{
    uint16_t decks[SIM0MQ_DECKS] = {0};
    uint64_t book[SIM0MQ_BOOK_NUMBERS] = {0};
    uint64_t answer[SIM0MQ_RECKON_NUMBERS];
    uint8_t message[100];
    for (size_t i = 0; i < 6; i++) {
        size_t size = written(&MUSTERS[i], message, sizeof message);
        uint32_t said = sim0mq_muster(decks, SIM0MQ_DECKS, book, SIM0MQ_BOOK_NUMBERS, message, size, answer,
                                      SIM0MQ_MUSTER_NUMBERS);
        if (said != 0) {
            printf("muster %" PRId64 ": refused %" PRIu32 " at %" PRIu64 "\n", MUSTERS[i].number, said, answer[1]);
        }
    }
    printf("deck %d: %" PRIu16 " heads\n", DECK, decks[DECK]);
    uint32_t said = sim0mq_reckon(recording, length, answer, SIM0MQ_RECKON_NUMBERS);
    if (said != 0) {
        failed("reckoning", said, answer[1]);
        return 0;
    }
    printf("of the recording: applied %" PRIu64 ", refused %" PRIu64 ", deck %d: %" PRIu64 " heads\n", answer[2],
           answer[3], DECK, answer[4 + DECK]);
    return 1;
}

int main(void)
{
    uint8_t recording[1000];
    size_t length = recorded(recording, sizeof recording);
    return length != 0 && opened(recording, length) && salvaged(recording, 150) && counted(recording, length) ? 0 : 1;
}
