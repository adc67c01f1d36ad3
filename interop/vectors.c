/* Writes the outside vectors that the program `vectors` reads: 200 times 248 data bytes and libfec's six parity bytes; then 400 deliveries, each
 * a byte that says whether there is a codeword within three (1 or 0), the 254 bytes delivered, and the 254 bytes that they are repaired to, or
 * the delivered ones where there is none; then 25 more. The errors are zero to six, at the front, at the end, and in the middle of the codeword;
 * in the last 25 they are four to eight, over the whole of it. Where libfec claims a repair that is no codeword within three bytes, the vector
 * says none. */
#include <fec.h>
#include <stdint.h>
#include <stdio.h>
#include <string.h>

enum { DATA = 248, BLOCK = 254, PARITIES = 200, DELIVERIES = 400, HEAVY = 25 };
enum { FRONT, END, MIDDLE, OVER_ALL };

static uint32_t state = 20261115;
static uint32_t next(void)
{
    state = state * 1664525 + 1013904223;
    return state >> 8;
}

static void fill(void *rs, uint8_t *block, int n)
{
    for (int i = 0; i < DATA; i++)
        block[i] = n == 0 ? i == DATA - 1 : (uint8_t)next();
    encode_rs_char(rs, block, block + DATA);
}

static int place_of(int where, int i, int start)
{
    return where == FRONT ? i : where == END ? BLOCK - 1 - i : where == MIDDLE ? 100 + (int)(next() % 50) : (start + 31 * i) % BLOCK;
}

static void deliver(void *rs, int errors, int where, int start)
{
    uint8_t block[BLOCK], fixed[BLOCK], again[BLOCK];
    fill(rs, block, 1);
    for (int i = 0; i < errors; i++) {
        int place = place_of(where, i, start);
        block[place] ^= (uint8_t)(1 + next() % 255);
    }
    memcpy(fixed, block, BLOCK);
    int good = decode_rs_char(rs, fixed, NULL, 0) >= 0;
    memcpy(again, fixed, BLOCK);
    encode_rs_char(rs, again, again + DATA);
    int apart = 0;
    for (int i = 0; i < BLOCK; i++)
        apart += fixed[i] != block[i];
    good = good && apart <= 3 && !memcmp(again, fixed, BLOCK);
    fputc(good, stdout);
    fwrite(block, 1, BLOCK, stdout);
    fwrite(good ? fixed : block, 1, BLOCK, stdout);
}

int main(void)
{
    void *rs = init_rs_char(8, 0x11d, 0, 1, 6, 1);
    uint8_t block[BLOCK];
    if (!rs)
        return 1;
    for (int n = 0; n < PARITIES; n++) {
        fill(rs, block, n);
        fwrite(block, 1, BLOCK, stdout);
    }
    for (int n = 0; n < DELIVERIES; n++)
        deliver(rs, n % 7, n / 7 % 3, 0);
    for (int n = 0; n < HEAVY; n++)
        deliver(rs, 4 + n % 5, OVER_ALL, (int)(next() % BLOCK));
    free_rs_char(rs);
    return 0;
}
