/* A desk sends a packet, three of its words are damaged, and a follower reads it.
 *
 *   rt staticlib capi
 *   cc -std=c99 samples/desk_and_follower.c target/staticlib/libcapi.a -o DIR/desk_and_follower
 *
 * Prints what the follower heard, and exits with 0; or says what is not as it should be, and exits with 1. */
#include <stdio.h>
#include <string.h>

#include "../include/aynirukh.h"

/* The layouts are those of the Rattle structs, which have them by C's rules. */
typedef char word_is_3_bytes[sizeof(AyWord) == 3 ? 1 : -1];
typedef char verdict_is_3_bytes[sizeof(AyVerdict) == 3 ? 1 : -1];
typedef char packet_is_6_bytes[sizeof(AyPacket) == 6 ? 1 : -1];
typedef char step_is_142_bytes[sizeof(AyStep) == 142 ? 1 : -1];
typedef char desk_is_4794_bytes[sizeof(AyDesk) == 4794 ? 1 : -1];
typedef char turn_is_4796_bytes[sizeof(AyTurn) == 4796 ? 1 : -1];
typedef char held_is_498_bytes[sizeof(AyHeld) == 498 ? 1 : -1];
typedef char follower_is_520_bytes[sizeof(AyFollower) == 520 ? 1 : -1];
typedef char followed_is_532_bytes[sizeof(AyFollowed) == 532 ? 1 : -1];

static int differences = 0;

static void expect(const char *what, unsigned long is, unsigned long should)
{
    if (is != should) {
        printf("differs: %s is %lu, not %lu\n", what, is, should);
        differences++;
    }
}

static void expect_bytes(const char *what, const void *is, const void *should, size_t length)
{
    if (memcmp(is, should, length) != 0) {
        printf("differs: %s\n", what);
        differences++;
    }
}

/* The record that a follower shows. */
static void expect_shown(const char *what, AyFollower follower, const uint8_t *should)
{
    uint8_t shown[AY_RECORD_BYTES];
    expect("number of looking", ay_follower_shown(follower, shown, AY_RECORD_BYTES).number, AY_DONE);
    expect_bytes(what, shown, should, AY_RECORD_BYTES);
}

/* Byte n of a record, counted from 1. */
static unsigned at(const uint8_t *bytes, int n)
{
    return bytes[n - 1];
}

/* The small calls: what crosses in a register. */
static void words(void)
{
    const uint16_t three[3] = { 0x3FF, 0x001, 0x002 };
    expect("the word of 0x85", ay_word_of(0x85), 0x185);
    expect("bits of 0x20F, which is sound", ay_check_word(0x20F).bits, AY_NO_BIT);
    expect("bits of 0x30F", ay_check_word(0x30F).bits, AY_B8);
    expect("bits of 0x00F", ay_check_word(0x00F).bits, AY_B9);
    expect("bits of 0x10F", ay_check_word(0x10F).bits, AY_BOTH_BITS);
    expect("number of 0x20F", ay_check_word(0x20F).number, AY_DONE);
    expect("number of 0x60F", ay_check_word(0x60F).number, AY_WIDE);
    expect("checksum of three words", ay_checksum(three, 3), 0x202);
}

/* A desk is opened with correction on; asked for off, the answer is a refusal beside the same desk. */
static AyDesk opens(void)
{
    AyTurn turn = ay_desk_open(true), off = ay_desk_open(false);
    expect("number of opening", turn.number, AY_DONE);
    expect("place of opening", turn.place, 0);
    expect("number of opening, off", off.number, AY_OFF_RETIRED);
    expect("place of opening, off", off.place, 0);
    expect_bytes("the desk beside that refusal", &off.desk, &turn.desk, sizeof(AyDesk));
    return turn.desk;
}

/* An edit, a second one that is undone, and two that are refused. */
static AyDesk edits(AyDesk desk)
{
    const uint8_t sound = 0x92, other = 0x05, wrong = 0x1B;
    AyTurn turn = ay_desk_edit(desk, 6, &sound, 1);
    expect("number of the edit", turn.number, AY_DONE);
    expect("sound mode after the edit", at(turn.desk.bytes, 27), 0x92);
    AyDesk edited = turn.desk;

    turn = ay_desk_edit(edited, 6, &other, 1);
    expect("number of the second edit", turn.number, AY_DONE);
    expect("steps after two edits", turn.desk.count, 2);
    expect("item of the second step", turn.desk.steps[1].item, 6);
    expect("byte before the second step", turn.desk.steps[1].old[0], 0x92);
    turn = ay_desk_undo(turn.desk);
    expect("number of the undo", turn.number, AY_DONE);
    expect("steps after the undo", turn.desk.count, 1);
    expect_bytes("the record after the undo", turn.desk.bytes, edited.bytes, AY_RECORD_BYTES);

    AyTurn refused = ay_desk_edit(turn.desk, 6, &wrong, 1);
    expect("number of sound mode 0x1B", refused.number, AY_SOUND);
    expect("place of sound mode 0x1B", refused.place, 27);
    expect_bytes("the desk after a refusal", &refused.desk, &turn.desk, sizeof(AyDesk));
    expect("number of an undo at a fresh desk", ay_desk_undo(desk).number, AY_NOTHING_TO_UNDO);
    return turn.desk;
}

/* The private bytes, which a network keeps for its own data: edited, sent and followed, undone; one byte too few; an item too many. */
static void private_bytes(AyDesk desk)
{
    uint8_t data[AY_PRIVATE_BYTES];
    uint16_t sent[AY_PACKET_WORDS];
    for (int i = 0; i < AY_PRIVATE_BYTES; i++)
        data[i] = (uint8_t) (7 * i + 1);
    AyTurn turn = ay_desk_edit(desk, AY_PRIVATE_ITEM, data, AY_PRIVATE_BYTES);
    expect("number of the private bytes", turn.number, AY_DONE);
    expect_bytes("the private bytes", turn.desk.bytes + 107, data, AY_PRIVATE_BYTES);
    expect_bytes("the bytes before them", turn.desk.bytes, desk.bytes, 107);
    expect("item of their step", turn.desk.steps[desk.count].item, AY_PRIVATE_ITEM);
    expect_bytes("their step", turn.desk.steps[desk.count].old, desk.bytes + 107, AY_PRIVATE_BYTES);
    expect("number of sending them", ay_desk_send(turn.desk, sent, AY_PACKET_WORDS).number, AY_DONE);
    AyFollowed followed = ay_follower_follow(ay_follower_open(), sent, AY_PACKET_WORDS);
    expect_shown("the private bytes as followed", followed.follower, turn.desk.bytes);
    turn = ay_desk_undo(turn.desk);
    expect("number of their undo", turn.number, AY_DONE);
    expect_bytes("the record after their undo", turn.desk.bytes, desk.bytes, AY_RECORD_BYTES);
    expect("number of 140 of them", ay_desk_edit(desk, AY_PRIVATE_ITEM, data, AY_PRIVATE_BYTES - 1).number, AY_SIZE);
    expect("number of item 14", ay_desk_edit(desk, AY_PRIVATE_ITEM + 1, data, AY_PRIVATE_BYTES).number, AY_ITEM);
}

/* What the other calls on packets say of the words, and repair of the protected ones alone. */
static void readings(const AyDesk *desk, const uint16_t *sent, const uint16_t *damaged)
{
    uint8_t record[AY_RECORD_BYTES];
    uint16_t again[AY_PACKET_WORDS];
    AyPacket packet = ay_read_packet_into(damaged, AY_PACKET_WORDS, record, AY_RECORD_BYTES);
    expect("number of reading", packet.number, AY_DONE);
    expect("correction as read", packet.correction, true);
    expect("CI as read", packet.ci, 0);
    expect("fixed as read", packet.fixed, 3);
    expect_bytes("the record as read", record, desk->bytes, AY_RECORD_BYTES);

    AyRepaired repaired = ay_repair(damaged + 7, AY_PROTECTED_WORDS, again + 7, AY_PROTECTED_WORDS);
    expect("number of repair", repaired.number, AY_DONE);
    expect("fixed by repair", repaired.fixed, 3);
    expect_bytes("the repaired words", again + 7, sent + 7, AY_PROTECTED_WORDS * sizeof(uint16_t));

    AyAnswer answer = ay_write_packet(true, 0, record, AY_RECORD_BYTES, again, AY_PACKET_WORDS);
    expect("number of writing", answer.number, AY_DONE);
    expect_bytes("the words written again", again, sent, sizeof(again));
    expect("number of writing CI 16", ay_write_packet(true, 16, record, AY_RECORD_BYTES, again, AY_PACKET_WORDS).number, AY_INDEX);
    record[8] = 0x9A;
    answer = ay_record_refusal(record, AY_RECORD_BYTES);
    expect("number of year 0x9A", answer.number, AY_TIME);
    expect("place of year 0x9A", answer.place, 9);
    packet = ay_read_packet(sent, AY_PACKET_WORDS - 1);
    expect("number of 261 words", packet.number, AY_LENGTH);
    expect("correction of 261 words", packet.correction, false);
}

/* A receiver that checks and never repairs: the bytes of the protected words as they were sent, six of them changed, and seven changed so that
 * they make another codeword. */
static void checks(const uint16_t *sent)
{
    const uint8_t divisor[7] = { 0x01, 0x3F, 0x01, 0xDA, 0x20, 0xE3, 0x26 };
    uint8_t block[AY_PROTECTED_WORDS], changed[AY_PROTECTED_WORDS];
    for (int i = 0; i < AY_PROTECTED_WORDS; i++)
        block[i] = (uint8_t) (sent[7 + i] & 0xFF);
    AyVerdict verdict = ay_check_codeword(block, AY_PROTECTED_WORDS);
    expect("number of the check", verdict.number, AY_DONE);
    expect("what was sent is a codeword", verdict.codeword, true);

    memcpy(changed, block, sizeof(block));
    for (int i = 0; i < 6; i++)
        changed[50 * i + 3] ^= (uint8_t) (i + 1);
    verdict = ay_check_codeword(changed, AY_PROTECTED_WORDS);
    printf("six bytes changed: codeword %d\n", verdict.codeword);
    expect("number of the check, six bytes changed", verdict.number, AY_DONE);
    expect("a codeword, six bytes changed", verdict.codeword, false);

    memcpy(changed, block, sizeof(block));
    for (int i = 0; i < 7; i++)
        changed[247 + i] ^= divisor[i];
    expect("a codeword, the divisor added", ay_check_codeword(changed, AY_PROTECTED_WORDS).codeword, true);
    verdict = ay_check_codeword(block, AY_PROTECTED_WORDS - 1);
    expect("number of the check of 253 bytes", verdict.number, AY_SIZE);
    expect("a codeword of 253 bytes", verdict.codeword, false);
}

/* The damaged packet, the same again, one that is refused, and a later one with a trigger set. */
static void follows(AyDesk desk, const uint16_t *damaged)
{
    const uint8_t triggers[4] = { 0x01, 0x00, 0x00, 0x80 };
    uint16_t later[AY_PACKET_WORDS];
    AyFollowed heard = ay_follower_follow(ay_follower_open(), damaged, AY_PACKET_WORDS);
    printf("kind %d CI %d fixed %d missed %d\n", heard.kind, heard.ci, heard.fixed, heard.missed);
    expect("number", heard.number, AY_DONE);
    expect("kind", heard.kind, AY_FIRST);
    expect("CI", heard.ci, 0);
    expect("fixed", heard.fixed, 3);
    expect("missed", heard.missed, 0);
    expect("onsets", heard.onsets, 0);
    expect("started", heard.follower.started, true);
    expect("accepted", heard.follower.accepted, 1);
    expect_shown("the record that the follower shows", heard.follower, desk.bytes);

    heard = ay_follower_follow(heard.follower, damaged, AY_PACKET_WORDS);
    expect("kind of the same again", heard.kind, AY_REPEAT);
    expect("repeated", heard.follower.repeated, 1);
    heard = ay_follower_follow(heard.follower, damaged, AY_PACKET_WORDS - 1);
    expect("number of a short packet", heard.number, AY_LENGTH);
    expect("kind of a short packet", heard.kind, AY_NONE);
    expect("refused", heard.follower.refused, 1);

    AyTurn turn = ay_desk_edit(desk, 9, triggers, 4);
    turn = ay_desk_send(turn.desk, later, AY_PACKET_WORDS);
    turn = ay_desk_send(turn.desk, later, AY_PACKET_WORDS);
    expect("number of the third send", turn.number, AY_DONE);
    heard = ay_follower_follow(heard.follower, later, AY_PACKET_WORDS);
    printf("kind %d CI %d fixed %d missed %d onsets %08lX\n", heard.kind, heard.ci, heard.fixed, heard.missed, (unsigned long) heard.onsets);
    expect("kind after one dropped packet", heard.kind, AY_NEXT);
    expect("CI after one dropped packet", heard.ci, 2);
    expect("missed after one dropped packet", heard.missed, 1);
    expect("onsets of Q1 and Q32", heard.onsets, 0x80000001);
    expect("missed, counted", heard.follower.missed, 1);
    expect_shown("the later record that the follower shows", heard.follower, turn.desk.bytes);
}

/* In interlaced operation each field carries a packet, so a frame that is repeated brings both again: what is shown goes to and fro with them, and nothing
 * is missed. */
static void frame_again(AyDesk desk)
{
    const uint8_t triggers[4] = { 0x02, 0x00, 0x00, 0x00 };
    uint16_t sent[2][AY_PACKET_WORDS];
    AyDesk before = ay_desk_send(desk, sent[0], AY_PACKET_WORDS).desk;
    AyDesk after = ay_desk_edit(before, 9, triggers, 4).desk;
    expect("number of the second send of a frame", ay_desk_send(after, sent[1], AY_PACKET_WORDS).number, AY_DONE);
    AyFollowed heard = ay_follower_follow(ay_follower_open(), sent[0], AY_PACKET_WORDS);
    heard = ay_follower_follow(heard.follower, sent[1], AY_PACKET_WORDS);
    expect("kind of the second packet of a frame", heard.kind, AY_NEXT);
    expect("onsets of Q2", heard.onsets, 0x00000002);
    for (int i = 0; i < 4; i++) {
        heard = ay_follower_follow(heard.follower, sent[i % 2], AY_PACKET_WORDS);
        expect("kind in a frame again", heard.kind, AY_REPEAT);
        expect("missed in a frame again", heard.missed, 0);
        expect("onsets in a frame again", heard.onsets, 0);
        expect_shown("the record in a frame again", heard.follower, i % 2 ? after.bytes : before.bytes);
    }
    printf("repeated %lu missed %lu\n", (unsigned long) heard.follower.repeated, (unsigned long) heard.follower.missed);
    expect("repeated in two frames", heard.follower.repeated, 4);
    expect("missed in two frames", heard.follower.missed, 0);
    uint8_t kept[AY_RECORD_BYTES] = { 0 }, short_room[AY_RECORD_BYTES] = { 0 };
    expect("number of looking into 247 bytes", ay_follower_shown(heard.follower, short_room, AY_RECORD_BYTES - 1).number, AY_ROOM);
    expect_bytes("what stood in them", short_room, kept, AY_RECORD_BYTES);
}

/* A card inverts b9 of two words of a packet with correction off: the first of them is named, and what is wrong with it. */
static void upper_bits(const AyDesk *desk)
{
    uint16_t off[AY_PACKET_WORDS];
    expect("number of writing, off", ay_write_packet(false, 0, desk->bytes, AY_RECORD_BYTES, off, AY_PACKET_WORDS).number, AY_DONE);
    expect("bits of a packet that is accepted", ay_read_packet(off, AY_PACKET_WORDS).bits, AY_NO_BIT);
    off[6 + 30] ^= 0x200;
    off[6 + 248] ^= 0x200;
    AyPacket packet = ay_read_packet(off, AY_PACKET_WORDS);
    expect("number of an unsound word", packet.number, AY_PARITY);
    expect("place of an unsound word", packet.place, 30);
    expect("bits of an unsound word", packet.bits, AY_B9);
    AyFollowed heard = ay_follower_follow(ay_follower_open(), off, AY_PACKET_WORDS);
    printf("refused %d %d bits %d\n", heard.number, heard.place, heard.bits);
    expect("number of an unsound word, followed", heard.number, AY_PARITY);
    expect("place of an unsound word, followed", heard.place, 30);
    expect("bits of an unsound word, followed", heard.bits, AY_B9);
}

/* A foreign encoder keeps counters of its own in the reserved area: the packet and the bytes that hold them are refused, and the first of the
 * counters is named. A desk made by hand that holds one sends it as it stands, with its CI modulo 16. */
static void counters(const AyDesk *desk)
{
    uint16_t words[AY_PACKET_WORDS], kept[AY_PACKET_WORDS];
    uint8_t record[AY_RECORD_BYTES];
    AyDesk made = *desk;
    expect("number of writing, before the counters", ay_write_packet(false, 0, desk->bytes, AY_RECORD_BYTES, words, AY_PACKET_WORDS).number, AY_DONE);
    words[6 + 60] = ay_word_of(7);
    words[6 + 63] = ay_word_of(9);
    expect("number of counters with another checksum", ay_read_packet(words, AY_PACKET_WORDS).number, AY_CHECKSUM);
    words[261] = ay_checksum(words + 3, 258);
    AyPacket packet = ay_read_packet(words, AY_PACKET_WORDS);
    printf("refused %d %d\n", packet.number, packet.place);
    expect("number of counters", packet.number, AY_RESERVED_AREA);
    expect("place of counters", packet.place, 60);

    memcpy(record, desk->bytes, sizeof(record));
    record[60 - 1] = 7;
    AyAnswer answer = ay_record_refusal(record, AY_RECORD_BYTES);
    expect("number of counters in bytes", answer.number, AY_RESERVED_AREA);
    expect("place of counters in bytes", answer.place, 60);
    memcpy(kept, words, sizeof(kept));
    answer = ay_write_packet(true, 0, record, AY_RECORD_BYTES, words, AY_PACKET_WORDS);
    expect("number of writing counters", answer.number, AY_RESERVED_AREA);
    expect("place of writing counters", answer.place, 60);
    expect_bytes("the words after that refusal", words, kept, sizeof(words));
    made.bytes[60 - 1] = 7;
    made.ci = 200;
    AyTurn turn = ay_desk_send(made, words, AY_PACKET_WORDS);
    expect("number of sending a counter", turn.number, AY_DONE);
    expect("CI behind 200", turn.desk.ci, 9);
    expect("the header with CI 200", words[6], ay_word_of(0x80 + 8));
    expect("the word of the counter", words[6 + 60], ay_word_of(7));
    expect("number of reading it", ay_read_packet(words, AY_PACKET_WORDS).number, AY_RESERVED_AREA);
}

/* The packet in a field, and out of it again. */
static void fields(const uint16_t *sent)
{
    uint8_t field[AY_FIELD_BYTES];
    uint16_t back[AY_PACKET_WORDS];
    expect("number of packing", ay_pack(true, 9, 2199, sent, AY_PACKET_WORDS, field, AY_FIELD_BYTES).number, AY_DONE);
    expect("number of packing line 1,126", ay_pack(true, 1126, 0, sent, AY_PACKET_WORDS, field, AY_FIELD_BYTES).number, AY_FIELD_HEAD);
    AyField head = ay_unpack(field, AY_FIELD_BYTES, back, AY_PACKET_WORDS);
    expect("number of unpacking", head.number, AY_DONE);
    expect("Y/C", head.yc, true);
    expect("line", head.line, 9);
    expect("offset", head.offset, 2199);
    for (int i = 0; i < AY_PACKET_WORDS; i++)
        expect("a word from the field", back[i], sent[i]);
    expect("number of a short field", ay_unpack(field, AY_FIELD_BYTES - 1, back, AY_PACKET_WORDS).number, AY_FIELD_LENGTH);
}

int main(void)
{
    uint16_t sent[AY_PACKET_WORDS], damaged[AY_PACKET_WORDS];
    words();
    AyDesk desk = edits(opens());
    AyTurn turn = ay_desk_send(desk, sent, AY_PACKET_WORDS);
    expect("number of the send", turn.number, AY_DONE);
    expect("CI of the next packet", turn.desk.ci, 1);
    expect("number of a send into 261 words", ay_desk_send(desk, sent, AY_PACKET_WORDS - 1).number, AY_ROOM);

    /* The first protected word, one of item 2, and the last. */
    memcpy(damaged, sent, sizeof(sent));
    damaged[7] ^= 0x3FF;
    damaged[17] ^= 0x004;
    damaged[260] = 0;
    readings(&turn.desk, sent, damaged);
    checks(sent);
    upper_bits(&turn.desk);
    counters(&turn.desk);
    private_bytes(turn.desk);
    fields(sent);
    follows(turn.desk, damaged);
    frame_again(turn.desk);
    return differences == 0 ? 0 : 1;
}
