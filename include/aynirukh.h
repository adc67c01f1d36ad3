/* The calls of Aynirukh for C99: the control data packet of ARIB STD-B39, its record, the sender's desk and the receiver's follower.
 *
 * Each call is proved to give the answer that its contract in crates/capi/src/lib.rt names, for every input that follows three rules,
 * which are the caller's to keep and which no call can test:
 *   - a pointer and the length behind it, counted in elements, are one run of memory that may be read, and written where it is not
 *     const; the pointer is aligned and is not null, even where the length is 0;
 *   - a buffer that is written overlaps no other buffer of the same call;
 *   - a bool is true or false, also those in an AyFollower.
 * No call keeps a pointer, allocates, or waits. A desk and a follower are plain values, handed in and handed back: keep the one that
 * comes back.
 *
 * number is 0 where the call is done, else the refusal's number, and place says where (the first byte of the item for 11 to 14, the data byte
 * whose word it is for 7, the reserved byte for 15, else 0). Beside 7 stand the wrong bits of that word. A refused call leaves its buffers as they
 * were. The desk that it hands back is the one that was handed in, or for a refused opening the one that is opened with correction on; the follower
 * has one more refusal counted and is otherwise the one that was handed in; what else stands beside number, place and bits is 0.
 *
 *    No.  given when
 *     1   not 262 words
 *     2   a word over 1,023
 *     3   the packet does not begin 0x000, 0x3FF, 0x3FF
 *     4   DID is not 0x25F, or SDID is not 0x1FE
 *     5   the count word is not 0x2FF
 *     6   the header is not sound, or its b6 to b4 are not zero
 *     7   correction off: a data word is not sound; the place is that of the first one, 1 to 248
 *     8   correction off: one of the last six words is not 0x200
 *     9   correction on: no codeword, by the words that are not sound or within three bytes; see ay_repair
 *    10   the checksum word is not that of the words as they are read
 *    11   item 1, station code        breaks its rule
 *    12   item 2, time                breaks its rule
 *    13   item 3 or 4, picture mode   breaks its rule
 *    14   item 6 or 7, sound mode     breaks its rule
 *    15   a byte of the reserved area, 44 to 107, is not zero; the place is that of the first one; tested after 10 and before 11
 *    20   no such item: 0, or 14 and more
 *    21   another number of bytes or words than the call takes
 *    22   no step left to undo
 *    23   the room lent for the answer has not the exact size
 *    24   is given no more, and stays unused
 *    25   a field of other than 328 bytes
 *    26   a field's first six bits are not zero, its line is not 1 to 1,125, or its offset is over 2,199
 *    27   an index CI over 15
 *    41   a desk that would send with correction off is asked for
 */
#ifndef AYNIRUKH_H
#define AYNIRUKH_H

#include <stdbool.h>
#include <stddef.h>
#include <stdint.h>

#ifdef __cplusplus
extern "C" {
#endif

#define AY_PACKET_WORDS 262
#define AY_PROTECTED_WORDS 254
#define AY_RECORD_BYTES 248
#define AY_FIELD_BYTES 328
#define AY_HISTORY 32
#define AY_STEP_BYTES 141
#define AY_PRIVATE_ITEM 13
#define AY_PRIVATE_BYTES 141

/* The numbers. */
enum {
    AY_DONE = 0,
    AY_LENGTH = 1,
    AY_WIDE = 2,
    AY_FLAG = 3,
    AY_KIND = 4,
    AY_COUNT = 5,
    AY_HEADER = 6,
    AY_PARITY = 7,
    AY_FILL = 8,
    AY_BEYOND_REPAIR = 9,
    AY_CHECKSUM = 10,
    AY_STATION = 11,
    AY_TIME = 12,
    AY_PICTURE = 13,
    AY_SOUND = 14,
    AY_RESERVED_AREA = 15,
    AY_ITEM = 20,
    AY_SIZE = 21,
    AY_NOTHING_TO_UNDO = 22,
    AY_ROOM = 23,
    AY_FIELD_LENGTH = 25,
    AY_FIELD_HEAD = 26,
    AY_INDEX = 27,
    AY_OFF_RETIRED = 41
};

/* The bits of a word that are not what its b0 to b7 call for: their even parity in b8, and the inverse of that parity in b9. */
enum { AY_NO_BIT = 0, AY_B8 = 1, AY_B9 = 2, AY_BOTH_BITS = 3 };

/* The kinds of an accepted packet; AY_NONE where it is refused. */
enum { AY_NONE = 0, AY_FIRST = 1, AY_NEXT = 2, AY_REPEAT = 3, AY_CONFLICT = 4 };

/* Done or refused. */
typedef struct {
    uint8_t number;
    uint8_t place;
} AyAnswer;

/* Which bits of a word are wrong; AY_NO_BIT where it is sound, or refused. */
typedef struct {
    uint8_t number;
    uint8_t place;
    uint8_t bits;
} AyWord;

/* Are the bytes a codeword? false where they are none, or refused. */
typedef struct {
    uint8_t number;
    uint8_t place;
    bool codeword;
} AyVerdict;

/* The accepted packet: is correction on, its index CI, and how many protected words' ten bits changed. With 7, which bits of the word at the
 * place are wrong, else AY_NO_BIT. */
typedef struct {
    uint8_t number;
    uint8_t place;
    uint8_t bits;
    bool correction;
    uint8_t ci;
    uint8_t fixed;
} AyPacket;

/* How many words' ten bits changed. */
typedef struct {
    uint8_t number;
    uint8_t place;
    uint8_t fixed;
} AyRepaired;

/* What stands in a field before its words. */
typedef struct {
    uint8_t number;
    uint8_t place;
    bool yc;
    uint16_t line;
    uint16_t offset;
} AyField;

/* One step of a desk's history: the item, and the bytes that it had before, with zeros behind them; 142 bytes. */
typedef struct {
    uint8_t item;
    uint8_t old[AY_STEP_BYTES];
} AyStep;

/* The record's bytes, the next packet's CI, and the first count of the steps, the oldest first; 4,794 bytes, which each call of a desk takes and hands
 * back by value. */
typedef struct {
    uint8_t bytes[AY_RECORD_BYTES];
    uint8_t ci;
    AyStep steps[AY_HISTORY];
    uint8_t count;
} AyDesk;

/* The desk handed back, and the answer. */
typedef struct {
    AyDesk desk;
    uint8_t number;
    uint8_t place;
} AyTurn;

/* The record at the last position and its CI, the record before it, and whether the two were successive: the one at the position came as AY_NEXT with
 * nothing missed. 498 bytes. */
typedef struct {
    uint8_t at[AY_RECORD_BYTES];
    uint8_t ci;
    uint8_t before[AY_RECORD_BYTES];
    bool successive;
} AyHeld;

/* Has a packet been accepted; the two records; back: is the one before shown, and not the one at the position? And the counts, which stop at
 * 4,294,967,295. 520 bytes. ay_follower_shown gives the record shown. */
typedef struct {
    bool started;
    AyHeld held;
    bool back;
    uint32_t accepted;
    uint32_t repeated;
    uint32_t conflicting;
    uint32_t missed;
    uint32_t refused;
} AyFollower;

/* The follower handed back, the answer, and what the packet brought: its kind, CI, fixed words, the packets missed before it, and the
 * triggers that it sets, Q1 in bit 0 to Q32 in bit 31. With 7, which bits of the word at the place are wrong, else AY_NO_BIT. */
typedef struct {
    AyFollower follower;
    uint8_t number;
    uint8_t place;
    uint8_t bits;
    uint8_t kind;
    uint8_t ci;
    uint8_t fixed;
    uint8_t missed;
    uint32_t onsets;
} AyFollowed;

/* ---- words */

/* The ten-bit word that carries a byte. Refuses nothing. */
uint16_t ay_word_of(uint8_t byte);

/* The word check: which of b8 and b9 are not what b0 to b7 call for; AY_NO_BIT for a sound word. Refuses 2, for a value over 1,023. */
AyWord ay_check_word(uint16_t word);

/* The checksum word of any number of words. Refuses nothing. */
uint16_t ay_checksum(const uint16_t *words, size_t words_len);

/* ---- packet and record */

/* Writes the 262 words of the bytes' record, with CI 0 to 15 and with or without correction. Refuses 21, 27, 15, 11 to 14, 23. */
AyAnswer ay_write_packet(bool correction, uint8_t ci, const uint8_t *bytes, size_t bytes_len, uint16_t *out, size_t out_len);

/* Reads 262 words: correction bit, CI and fixed words. Refuses 1 to 10, 15, 11 to 14. */
AyPacket ay_read_packet(const uint16_t *words, size_t words_len);

/* Reads 262 words, and leaves their record of 248 bytes in out. Refuses 1 to 10, 15, 11 to 14, 23. */
AyPacket ay_read_packet_into(const uint16_t *words, size_t words_len, uint8_t *out, size_t out_len);

/* Leaves in out the 254 sound words of the codeword that the protected words are read as. Say that f of them are not sound, and that of the others e carry
 * another byte than the codeword: it is the codeword with 2e + f at most 6, and where there is none the one that differs from the low bytes of all
 * 254 in at most three. Refuses 21, 2, 9, 23. */
AyRepaired ay_repair(const uint16_t *words, size_t words_len, uint16_t *out, size_t out_len);

/* The check of a receiver that never repairs: says whether 254 bytes, which the protected words carry as their low bytes, are a codeword. With one
 * to six bytes changed in any way a codeword is none; with seven it may be another. Refuses 21. */
AyVerdict ay_check_codeword(const uint8_t *block, size_t block_len);

/* Says what 248 bytes are refused for as a record. Refuses 21, 15, 11 to 14. */
AyAnswer ay_record_refusal(const uint8_t *bytes, size_t bytes_len);

/* ---- field */

/* Packs 262 words, with Y/C, line and offset, into the 328 bytes of a B40 field; the four pad bits are 1. Refuses 1, 2, 3, 26, 23. */
AyAnswer ay_pack(bool yc, uint16_t line, uint16_t offset, const uint16_t *words, size_t words_len, uint8_t *out, size_t out_len);

/* Unpacks 328 bytes into the 262 words of their packet; the pad bits may be anything. Refuses 25, 26, 23. */
AyField ay_unpack(const uint8_t *field, size_t field_len, uint16_t *out, size_t out_len);

/* ---- desk */

/* A desk with the opening record, CI 0 and no history. It sends with correction on: the same desk stands beside the refusal of off. Refuses 41. */
AyTurn ay_desk_open(bool correction);

/* Stores the bytes of an item, 1 to 13, one step more; of more than 32 steps the oldest goes. Item 13 is the private area, bytes 108 to 248, and may hold
 * anything. Refuses 20, 21, 11 to 14. */
AyTurn ay_desk_edit(AyDesk desk, uint8_t item, const uint8_t *bytes, size_t bytes_len);

/* Puts back the bytes before the latest step, and takes the step away; CI stays. Refuses 22. */
AyTurn ay_desk_undo(AyDesk desk);

/* Writes the 262 words of the desk's bytes as they stand, with correction on and its CI modulo 16, and counts CI on from that, 15 to 0. The bytes of a
 * desk that ay_desk_open leads to are its record, with nothing in them that a call refuses; bytes put into an AyDesk by hand are neither checked nor
 * cleaned. Refuses 23. */
AyTurn ay_desk_send(AyDesk desk, uint16_t *out, size_t out_len);

/* ---- follower */

/* A follower at which nothing has arrived. Refuses nothing. */
AyFollower ay_follower_open(void);

/* Takes 262 words in: FIRST, NEXT, REPEAT or CONFLICT, and what was missed and set. Say that its CI is d above that of the position, modulo 16: with
 * d 0 and the record at the position it is REPEAT, with another record CONFLICT, which replaces that record alone; with d 15 and the record before,
 * where the two were successive, it is REPEAT; else it is NEXT, and d - 1 are missed. Refuses 1 to 10, 15, 11 to 14, which the follower counts. */
AyFollowed ay_follower_follow(AyFollower follower, const uint16_t *words, size_t words_len);

/* Leaves in out the record shown, 248 bytes: that of the packet accepted last, or zeros where none was. Refuses 23. */
AyAnswer ay_follower_shown(AyFollower follower, uint8_t *out, size_t out_len);

#ifdef __cplusplus
}
#endif

#endif
