/* Makes samples/fresh.field: the packet of the opening record with correction off and CI 0, in a field with Y/C 0, line 9 and offset 0. No desk sends
 * such a packet any more; it is written from the bytes of one, as recordings hold it.
 *
 *   rt staticlib capi
 *   cc -std=c99 samples/fresh_field.c target/staticlib/libcapi.a -o DIR/fresh_field
 *   DIR/fresh_field > samples/fresh.field
 *
 * Exits with 1 where a call refuses, or the field cannot be written out. */
#include <stdio.h>

#include "../include/aynirukh.h"

int main(void)
{
    uint16_t words[AY_PACKET_WORDS];
    uint8_t field[AY_FIELD_BYTES];
    AyTurn turn = ay_desk_open(true);
    if (turn.number != AY_DONE)
        return 1;
    if (ay_write_packet(false, 0, turn.desk.bytes, AY_RECORD_BYTES, words, AY_PACKET_WORDS).number != AY_DONE)
        return 1;
    if (ay_pack(false, 9, 0, words, AY_PACKET_WORDS, field, AY_FIELD_BYTES).number != AY_DONE)
        return 1;
    return fwrite(field, 1, sizeof(field), stdout) == sizeof(field) && fflush(stdout) == 0 ? 0 : 1;
}
