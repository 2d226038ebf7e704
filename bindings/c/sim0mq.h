/*
 * Sim0MQ typed messages (big-endian, manual version 1.5): reading, asking, blanking and writing them, and what is done
 * with them.
 *
 * Every call is proved to end, to be safe, and to answer exactly as stated here, whatever bytes and numbers it is
 * handed. None has a precondition but C's own: a pointer is aligned as its type asks, stands with the number of
 * elements behind it, and the buffers of one call do not overlap. An empty buffer has length 0, and its pointer, which
 * is not followed, is still not null, since what is proved speaks of buffers that have a place. Nothing is kept between
 * calls, so calls may run side by side.
 *
 * Answers are numbers in `answer`, which the caller lends. A call returns
 *
 *     0          granted
 *     1 to 31    refused; the number is one of the table below
 *     255        `answer` is too short for the call's numbers (SIM0MQ_..._NUMBERS); nothing at all is written
 *
 * answer[0] is the returned number, and answer[1] the place of the fault, 0 where the call is granted. On a refusal the
 * call's other numbers are 0 (but the state of the writer and of the recorder, see there), and every other buffer is as
 * it was. Numbers of `answer` past the call's own stay as they were.
 *
 *     No.  When                                                        Place
 *     1    the bytes end before the item being read                    their length
 *     2    frame 0: a wrong byte, or no digit                          that byte
 *     3    frame 0: digits other than 01                               8
 *     4    type code not allowed in this frame                         that byte; 0 for the writer's count type
 *     5    a count is negative                                         its first byte
 *     6    status not 1 to 3                                           that byte; 0 in the writer
 *     7    more than 256 fields, or more than the count's type holds   first byte of the count; 0 in the writer
 *     8    more than 65,536 bytes in the message; in a recording of    0; in a recording the
 *          edition 1, more than 32,768                                 message's start
 *     9    field code above 32                                         that byte
 *     10   Boolean byte above 1                                        that byte
 *     11   unit type unknown                                           that byte
 *     12   display code outside its range                              that byte
 *     13   bytes after the last item                                   the first of them
 *     14   lent output, or a lent book or ledger, too short            0
 *     15   call that does not fit the writer's or recorder's state     0
 *     16   no field k; in a recording, no message k                    0
 *     17   value not of the kind asked or allowed                      0
 *     18   recording: trailer or index wrong, or over 4,096 entries    0
 *     19   currency code that Appendix A of the manual does not list   its first byte
 *     20   command or muster: type unknown, or no 8-bit string         the type frame
 *     21   command: wrong status; it or a muster: number of fields     the type frame
 *     22   command or muster: a field's code, or its unit type, wrong  the field's code byte
 *     23   command: an empty string, or a word that is not of its set  the field's code byte
 *     24   sums: two quantities that cannot be combined                0
 *     25   sums: an operand or a result infinite or a NaN              0
 *     26   book of senders: an id of more than 32 value bytes          the sender frame
 *     27   book of senders: a number not greater than the one held     the number frame
 *     28   book of senders: a new sender, and no place free            the sender frame
 *     29   deck ledger: no such deck                                   the field's code byte
 *     30   deck ledger: no head on the deck left                       the field's code byte
 *     31   deck ledger: the deck joined is full                        the field's code byte
 */
#ifndef SIM0MQ_H
#define SIM0MQ_H

#include <stddef.h>
#include <stdint.h>

#ifdef __cplusplus
extern "C" {
#endif

/* The returned number where `answer` is too short. */
#define SIM0MQ_ANSWER_TOO_SHORT 255u

/* How many numbers each call stores in `answer`. */
#define SIM0MQ_READ_NUMBERS 21
#define SIM0MQ_VALUE_NUMBERS 7
#define SIM0MQ_VIEW_NUMBERS 4
#define SIM0MQ_BLANK_NUMBERS 3
#define SIM0MQ_WRITER_NUMBERS 7
#define SIM0MQ_RECORDING_NUMBERS 3
#define SIM0MQ_RECORDING_ASK_NUMBERS 4
#define SIM0MQ_SALVAGE_NUMBERS 8
#define SIM0MQ_COMMAND_NUMBERS 3
#define SIM0MQ_RECORDER_NUMBERS 6
#define SIM0MQ_TAKE_NUMBERS 3
#define SIM0MQ_MUSTER_NUMBERS 3
#define SIM0MQ_RECKON_NUMBERS 20

/* The most bytes of a message, the most fields, and the table's numbers for each field. */
#define SIM0MQ_MOST_BYTES 65536
#define SIM0MQ_MOST_FIELDS 256
#define SIM0MQ_ROW_NUMBERS 6

/* The kinds of a scalar value. */
#define SIM0MQ_BYTE 0
#define SIM0MQ_SHORT 1
#define SIM0MQ_INT 2
#define SIM0MQ_LONG 3
#define SIM0MQ_FLOAT 4
#define SIM0MQ_DOUBLE 5
#define SIM0MQ_BOOLEAN 6
#define SIM0MQ_CHAR8 7
#define SIM0MQ_CHAR16 8
#define SIM0MQ_FLOAT_UNIT 9
#define SIM0MQ_DOUBLE_UNIT 10
#define SIM0MQ_NOT_NUMBER 11

/*
 * Reads a message.
 *
 *     answer[2]              its length
 *     answer[3]              its number of fields
 *     answer[4]              the steps: one for each frame, each field and each mark
 *     answer[5 + 2 * i]      the place of header frame i, 0 to 7
 *     answer[6 + 2 * i]      the type code of header frame i
 *
 * The table gets six numbers for each field: code, place of the code byte, place of the first value byte, number of
 * value bytes, number of marks, number of values as its counts say it (characters, elements, rows times columns, 1 for
 * a scalar); its later numbers stay.
 * Refusals, in the order of reading: 8; the frames' (1 to 7); 14 where the table has fewer than six numbers for each
 * declared field; the fields' (1, 5, 9 to 12, 19); 13. Refused, the table is as it was. A table of SIM0MQ_MOST_FIELDS *
 * SIM0MQ_ROW_NUMBERS numbers is enough for every message.
 */
uint32_t sim0mq_read(const uint8_t *message, size_t message_len, uint32_t *table, size_t table_len, uint64_t *answer,
                     size_t answer_len);

/*
 * Judges a message as reading does, with no table: the same numbers, and no refusal 14.
 */
uint32_t sim0mq_judge(const uint8_t *message, size_t message_len, uint64_t *answer, size_t answer_len);

/*
 * The value of field k, counted from 0, where it is a scalar (codes 0 to 8, 25 and 26).
 *
 *     answer[2]    the kind, SIM0MQ_BYTE to SIM0MQ_NOT_NUMBER
 *     answer[3]    the bits: two's complement of the value's own width (8, 16, 32 or 64), IEEE 754's bits, 1 for true,
 *                  the character; where the bits are a NaN (SIM0MQ_NOT_NUMBER), the field's code
 *     answer[4]    the mark's unit type; 0 where the value has no mark
 *     answer[5]    the mark's currency code; 0 where it has none
 *     answer[6]    the mark's display code; 0 where it has none
 *
 * Refusals: 1 to 13, then 16, then 17 where the field is no scalar. Each question reads the whole message afresh.
 */
uint32_t sim0mq_value(const uint8_t *message, size_t message_len, uint64_t k, uint64_t *answer, size_t answer_len);

/*
 * Where the value bytes of field k stand in the message, for a field of any code. Each question reads the whole message
 * afresh; the table of sim0mq_read has these numbers of every field.
 *
 *     answer[2]    the place of the first value byte
 *     answer[3]    the number of value bytes
 *
 * Refusals: 1 to 13, then 16.
 */
uint32_t sim0mq_view(const uint8_t *message, size_t message_len, uint64_t k, uint64_t *answer, size_t answer_len);

/*
 * Copies the message to `out` with zero in every payload value byte. `out` past the copy stays.
 *
 *     answer[2]    the length of the copy, which is the message's
 *
 * Refusals: 1 to 13, then 14 where `out` is shorter than the message. Refused, `out` is as it was.
 */
uint32_t sim0mq_blank(const uint8_t *message, size_t message_len, uint8_t *out, size_t out_len, uint64_t *answer,
                      size_t answer_len);

/*
 * The writer. Its state is four numbers, which each call takes and hands back:
 *
 *     answer[2]    the number of bytes written so far; after closing, the length of the message; 0 on a refusal
 *     answer[3]    the state: written
 *     answer[4]               declared
 *     answer[5]               added
 *     answer[6]               closed, 0 or 1
 *
 * A refused adding or closing hands back the state that it took, and a refused opening a closed one with every number
 * 0; `out` is then as it was. The finished message is the first answer[2] bytes of `out`, where each call takes the
 * state last handed back and one same buffer that nothing else writes. `out` past the message stays. In `closed` 0 is
 * open and any other number closed.
 *
 * Opening writes the header. `ids` is four encoded frames in one piece: run, sender, receiver, message type. Where
 * `stated` is 0 the type code of the declared count is 2, a 32-bit int, and else `kind`; the short form of the manual's
 * example states 1. Refusals, in this order: 1, 4, 5 and 13 in the ids (places within them), 6 status, 4 count type, 7
 * count, 8, 14. A 4 at place 0 is the first id's or the count type's.
 */
uint32_t sim0mq_open(const uint8_t *ids, size_t ids_len, int64_t number, uint8_t status, uint64_t fields, uint8_t stated, uint8_t kind,
                     uint8_t *out, size_t out_len, uint64_t *answer, size_t answer_len);

/*
 * Adds one encoded field.
 * Refusals: 15 where the declared number is reached, the state is closed, or its written length is above 65,536 or
 * above out_len; those of a payload of one field (places within it); 8; 14.
 */
uint32_t sim0mq_add(uint64_t written, uint64_t declared, uint64_t added, uint8_t closed, const uint8_t *field, size_t field_len,
                    uint8_t *out, size_t out_len, uint64_t *answer, size_t answer_len);

/*
 * Adds a scalar: kind, bits and mark as sim0mq_value answers them. A value with no mark takes no heed of unit, currency
 * and display. Refusals: 15 as in adding; 17 where the kind is 11 or above, the bits are more than the kind's width,
 * they are a NaN's, or the mark is one that reading would refuse or never gives; 8; 14.
 */
uint32_t sim0mq_add_scalar(uint64_t written, uint64_t declared, uint64_t added, uint8_t closed, uint8_t kind, uint64_t bits, uint8_t unit,
                           uint16_t currency, uint8_t display, uint8_t *out, size_t out_len, uint64_t *answer, size_t answer_len);

/*
 * Closes the message.
 * Refusals: 15 where the state is closed, its written length is above 65,536, or not exactly the declared number of
 * fields was added.
 */
uint32_t sim0mq_close(uint64_t written, uint64_t declared, uint64_t added, uint8_t closed, uint64_t *answer,
                      size_t answer_len);

/* The most messages of a recording, and the numbers for each in the table of sim0mq_recording_open_into. */
#define SIM0MQ_MOST_MESSAGES 4096
#define SIM0MQ_PLACE_NUMBERS 2

/* Why salvage kept no more messages. */
#define SIM0MQ_STOPPED_AT_END 0
#define SIM0MQ_STOPPED_AT_MOST 1
#define SIM0MQ_STOPPED_AT_FAULT 2

/*
 * Opens a recording, messages end to end with an index after them, and judges each message of it.
 *
 *     answer[2]    its number of messages
 *
 * Refusals: 18; then that of the first message which is not accepted, its place counted from the recording's first
 * byte.
 */
uint32_t sim0mq_recording_open(const uint8_t *recording, size_t recording_len, uint64_t *answer, size_t answer_len);

/*
 * Opens a recording as sim0mq_recording_open does. The table gets two numbers for each message, the place of its first
 * byte and its length; its later numbers stay.
 * Refusals: 18; 14 where the table has fewer than two numbers for each message of the index; then the messages'.
 * Refused, the table is as it was. A table of SIM0MQ_MOST_MESSAGES * SIM0MQ_PLACE_NUMBERS numbers is enough for every
 * recording.
 */
uint32_t sim0mq_recording_open_into(const uint8_t *recording, size_t recording_len, uint32_t *table, size_t table_len,
                                    uint64_t *answer, size_t answer_len);

/*
 * Where message k, counted from 0, stands in a recording. Of the messages it judges that one only.
 *
 *     answer[2]    the place of its first byte
 *     answer[3]    its length
 *
 * Refusals: 18; 16; then the message's own, its place counted from the recording's first byte.
 */
uint32_t sim0mq_recording_ask(const uint8_t *recording, size_t recording_len, uint64_t k, uint64_t *answer,
                              size_t answer_len);

/*
 * Brings back a recording that was cut: keeps the longest run of accepted messages from the front of the file, up to
 * SIM0MQ_MOST_MESSAGES, and writes them to the front of `out` with a new index. `out` past the recording stays.
 *
 *     answer[2]    the new recording's length
 *     answer[3]    the number of messages kept
 *     answer[4]    the number of bytes of the file that were dropped
 *     answer[5]    why no more were kept: SIM0MQ_STOPPED_AT_END, _AT_MOST, with bytes left, or _AT_FAULT
 *     answer[6]    at a fault, the refusal of what follows the messages kept; else 0
 *     answer[7]    at a fault, its place in the file; else 0
 *
 * Refusals: 14 where `out` is shorter than the new recording, and no other. Refused, `out` is as it was.
 */
uint32_t sim0mq_salvage(const uint8_t *file, size_t file_len, uint8_t *out, size_t out_len, uint64_t *answer,
                        size_t answer_len);

/* The commands of the manual's chapter 4, by their type ids, in its order. */
#define SIM0MQ_FM_1 0
#define SIM0MQ_FS_1 1
#define SIM0MQ_MC_1 2
#define SIM0MQ_FS_2 3
#define SIM0MQ_FM_2 4
#define SIM0MQ_MC_2 5
#define SIM0MQ_FM_3 6
#define SIM0MQ_FM_4 7
#define SIM0MQ_FM_5 8
#define SIM0MQ_FM_6 9
#define SIM0MQ_MC_3 10
#define SIM0MQ_MC_4 11
#define SIM0MQ_FM_7 12
#define SIM0MQ_FM_8 13
#define SIM0MQ_FM_9 14
#define SIM0MQ_FS_3 15
#define SIM0MQ_FS_4 16
#define SIM0MQ_FS_5 17

/*
 * Which command of the manual's chapter 4 a message is: type id, status, number of fields, their codes and their words
 * are judged.
 *
 *     answer[2]    the command, SIM0MQ_FM_1 to SIM0MQ_FS_5
 *
 * Refusals: 1 to 13 and 19, as in judging; then 20; 21; 22; 23.
 */
uint32_t sim0mq_command(const uint8_t *message, size_t message_len, uint64_t *answer, size_t answer_len);

/*
 * The recorder writes a recording, message by message, into one buffer. Its state is three numbers, which each call
 * takes and hands back; a new one has 0 in each:
 *
 *     answer[2]    the number of bytes written so far; after closing, the length of the recording; 0 on a refusal
 *     answer[3]    the state: written, the bytes of the messages so far; after closing, those of the recording
 *     answer[4]               messages
 *     answer[5]               closed, 0 or 1
 *
 * A refused call hands back the state that it took, in which `closed` is then 0 or 1; `out` is as it was. The finished
 * recording is the first answer[2] bytes of `out`, where each call takes the state last handed back and one same buffer
 * that nothing else writes. `out` past it stays. In `closed` 0 is open and any other number closed.
 *
 * Adds a message after those before it.
 * Refusals: 15 where the state is closed, its written length is above out_len, or it has SIM0MQ_MOST_MESSAGES messages
 * or more; the message's own (places within it); 14.
 */
uint32_t sim0mq_recording_add(uint64_t written, uint64_t messages, uint8_t closed, const uint8_t *message,
                              size_t message_len, uint8_t *out, size_t out_len, uint64_t *answer, size_t answer_len);

/*
 * Closes the recording: finds the messages again in what was written, and puts their index after them.
 * Refusals: 15 where the state is closed, its written length is above out_len, or the bytes written are not so many
 * messages end to end; 14.
 */
uint32_t sim0mq_recording_close(uint64_t written, uint64_t messages, uint8_t closed, uint8_t *out, size_t out_len,
                                uint64_t *answer, size_t answer_len);

/*
 * The sum of two scalars, each handed over by kind, bits and mark as sim0mq_value answers them, and answered in the
 * same SIM0MQ_VALUE_NUMBERS numbers. Only doubles with a unit (SIM0MQ_DOUBLE_UNIT) have one, of the pairs Length and
 * Position, Duration and Time, Angle and Direction, Temperature and AbsoluteTemperature: two relatives, or an absolute
 * and a relative in either order; two absolutes are never added. The manual says which unit type and display code the
 * sum has.
 * Refusals: 17 where one of the two is no double with a mark that reading gives, or its bits are a NaN's, which are
 * "not a number" here as in sim0mq_add_scalar; 24; 25.
 */
uint32_t sim0mq_sum(uint8_t kind, uint64_t bits, uint8_t unit, uint16_t currency, uint8_t display, uint8_t kind2,
                    uint64_t bits2, uint8_t unit2, uint16_t currency2, uint8_t display2, uint64_t *answer,
                    size_t answer_len);

/*
 * The difference of two scalars, the second taken from the first, in the same way: of two relatives, two absolutes of
 * one pair, or a relative taken from an absolute.
 */
uint32_t sim0mq_difference(uint8_t kind, uint64_t bits, uint8_t unit, uint16_t currency, uint8_t display, uint8_t kind2,
                           uint64_t bits2, uint8_t unit2, uint16_t currency2, uint8_t display2, uint64_t *answer,
                           size_t answer_len);

/*
 * The book of senders: up to 32 of them, with the last message number taken from each, so that a message which comes
 * again is refused. It is SIM0MQ_BOOK_NUMBERS numbers that the caller keeps, and each call takes and leaves; the empty
 * book has 0 in each. Eight for each place, one place after the other:
 *
 *     book[8 * i]                    1 where a sender is held there, else 0
 *     book[8 * i + 1]                the last number taken from it, two's complement of 64 bits
 *     book[8 * i + 2]                the type code of its id
 *     book[8 * i + 3]                the number of value bytes of its id
 *     book[8 * i + 4] to [8 * i + 7] these bytes, eight in each number, the first weighing most, with 0 after the last
 *
 * Any numbers are a book: in the first any number but 0 is a sender held, and one that is said to have more than 32
 * bytes is nobody. Of a longer slice the first SIM0MQ_BOOK_NUMBERS are the book, and the others stay; a shorter one is
 * refused by 14 before all else. Granted, the book is written anew, its places that are as they were too; refused, no
 * number of it changes.
 */
#define SIM0MQ_BOOK_NUMBERS 256

/*
 * Takes a message into the book, where its number, signed, is greater than the one held of its sender, or the sender is
 * new and a place is free.
 *
 *     answer[2]    the sender's place in the book, 0 to 31
 *
 * Refusals: 14; 1 to 13 and 19, as in judging; then 26; 27; 28.
 */
uint32_t sim0mq_take(uint64_t *book, size_t book_len, const uint8_t *message, size_t message_len, uint64_t *answer,
                     size_t answer_len);

/*
 * Closes the sender of this type code and these value bytes, as frame 2 of a message has them: its place is free, and
 * its numbers start afresh.
 *
 *     answer[2]    1 where it was held; 0 where it was not, and then no number of the book changes
 *
 * Refusals: 14.
 */
uint32_t sim0mq_close_sender(uint64_t *book, size_t book_len, uint64_t code, const uint8_t *id, size_t id_len,
                             uint64_t *answer, size_t answer_len);

/*
 * The deck ledger: how many heads are on each of 16 decks, numbered from 0. It is SIM0MQ_DECKS numbers of 16 bits that
 * the caller keeps, and each call takes and leaves; the empty ledger has 0 in each, and any numbers are a ledger. Of a
 * longer slice the first SIM0MQ_DECKS are the ledger, and the others stay.
 */
#define SIM0MQ_DECKS 16

/*
 * Musters a message of the type MUS.1: it is judged by the ledger, taken by the book of senders (see there), and
 * applied. A new has one head join a deck, a change has one join a deck and leave another, a delete has one leave.
 *
 *     answer[2]    the sender's place in the book, 0 to 31
 *
 * Refusals: 14 where `decks` or `book` is too short; 1 to 13 and 19, as in judging; 20; 21; 22; 29; 30; 31; then the
 * book's, 26; 27; 28. Refused, no number of ledger and book changes.
 */
uint32_t sim0mq_muster(uint16_t *decks, size_t decks_len, uint64_t *book, size_t book_len, const uint8_t *message,
                       size_t message_len, uint64_t *answer, size_t answer_len);

/*
 * How many heads are on each deck after a recording: its messages are mustered in order, from the empty ledger and the
 * empty book, and one that is refused is passed over.
 *
 *     answer[2]        the number of messages applied
 *     answer[3]        the number of messages passed over
 *     answer[4 + d]    the heads on deck d, 0 to 15
 *
 * Refusals: those of opening the recording.
 */
uint32_t sim0mq_reckon(const uint8_t *recording, size_t recording_len, uint64_t *answer, size_t answer_len);

#ifdef __cplusplus
}
#endif

#endif
