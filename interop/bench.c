/* Times the archive against libfec in one run, on the same bytes and erasures: best of several rounds over many blocks. Prints a table of
 * microseconds and ratios, the stack that calls take, what n packets cost for n from 10^3 to 10^6, and in the last line whether each figure that was
 * asked for is reached. */
#define _XOPEN_SOURCE 600
#include <fec.h>
#include <stdio.h>
#include <stdlib.h>
#include <string.h>
#include <time.h>
#include <ucontext.h>

#include "../include/aynirukh.h"

enum { BLOCKS = 512, ROUNDS = 200, DATA = 248, BLOCK = 254, KINDS = 5, MARKED = 7 };

static uint8_t record[BLOCKS][DATA];
static uint8_t sent[BLOCKS][BLOCK];
static uint8_t damaged[KINDS][BLOCKS][BLOCK];
static uint16_t damaged_words[KINDS][BLOCKS][BLOCK];
static uint16_t packet[BLOCKS][AY_PACKET_WORDS];
static uint16_t packet_off[BLOCKS][AY_PACKET_WORDS];
static uint8_t field[BLOCKS][AY_FIELD_BYTES];
static const int changes_of[KINDS] = {0, 1, 2, 3, 5};

/* what is delivered with marks, that is with unsound words: how many, how many of them over another byte, and how many sound words of another byte.
 * Of the first three, which the marks settle, libfec is told as erasures. The next three are settled by the bytes alone, and the last by nothing. */
enum { SIX_ERASED, TWO_ERASED, FOUR_ERASED, ONE_MARK, MARKS_ALONE, MARKS_OVER_WRONG, HOPELESS };
static const struct { const char *name; int marks, wrong, silent; } marked_of[MARKED] = {
    [SIX_ERASED] = {"six erasures", 6, 6, 0},
    [TWO_ERASED] = {"two erasures and two errors", 2, 2, 2},
    [FOUR_ERASED] = {"four erasures and one error", 4, 4, 1},
    [ONE_MARK] = {"one mark and three errors", 1, 0, 3},
    [MARKS_ALONE] = {"eight marks over right bytes", 8, 0, 0},
    [MARKS_OVER_WRONG] = {"eight marks, three over wrong bytes", 8, 3, 0},
    [HOPELESS] = {"four marks, three errors, hopeless", 4, 4, 3},
};
static uint8_t marked[MARKED][BLOCKS][BLOCK];
static uint16_t marked_words[MARKED][BLOCKS][BLOCK];
static int places[MARKED][BLOCKS][8];
static volatile unsigned sink;

/* desks with no history and with as much as one holds */
enum { NO_STEPS, ALL_STEPS, DESKS };
static AyDesk desk[DESKS];

static uint64_t state = 88172645463325252u;
static uint32_t next(void)
{
    state ^= state << 13;
    state ^= state >> 7;
    state ^= state << 17;
    return (uint32_t)(state >> 32);
}

static double now(void)
{
    struct timespec t;
    clock_gettime(CLOCK_MONOTONIC, &t);
    return t.tv_sec + t.tv_nsec * 1e-9;
}

/* a record that keeps every rule: the opening one with random bytes in its private area */
static void fill(uint8_t *r)
{
    AyDesk desk = ay_desk_open(true).desk;
    memcpy(r, desk.bytes, DATA);
    for (int i = 107; i < DATA; i++)
        r[i] = (uint8_t)next();
}

/* other values in that many different places, which are left in place */
static void damage(uint8_t *block, int changes, int place[8])
{
    for (int i = 0; i < changes; i++) {
        int fresh;
        do {
            place[i] = (int)(next() % BLOCK);
            fresh = 1;
            for (int j = 0; j < i; j++)
                fresh &= place[j] != place[i];
        } while (!fresh);
        block[place[i]] ^= (uint8_t)(1 + next() % 255);
    }
}

static void to_words(const uint8_t *block, uint16_t *words)
{
    for (int i = 0; i < BLOCK; i++)
        words[i] = ay_word_of(block[i]);
}

/* the marks stand in the first of the places; those that are over no other byte get theirs back */
static void mark(int kind, int b)
{
    int f = marked_of[kind].marks, *place = places[kind][b];
    memcpy(marked[kind][b], sent[b], BLOCK);
    damage(marked[kind][b], f + marked_of[kind].silent, place);
    for (int i = marked_of[kind].wrong; i < f; i++)
        marked[kind][b][place[i]] = sent[b][place[i]];
    to_words(marked[kind][b], marked_words[kind][b]);
    for (int i = 0; i < f; i++)
        marked_words[kind][b][place[i]] ^= (uint16_t)((1 + next() % 3) << 8);
}

typedef void (*job)(int kind, int block);
static void *rs;

static void our_write(int kind, int b)
{
    uint16_t out[AY_PACKET_WORDS];
    (void)kind;
    sink += ay_write_packet(true, (uint8_t)(b % 16), record[b], DATA, out, AY_PACKET_WORDS).number + out[261];
}

static void our_edit(int kind, int b)
{
    uint8_t mode = (uint8_t)(b % 27);
    sink += ay_desk_edit(desk[kind], 6, &mode, 1).desk.bytes[26];
}

static void our_edit_private(int kind, int b)
{
    sink += ay_desk_edit(desk[kind], AY_PRIVATE_ITEM, record[b] + 107, AY_PRIVATE_BYTES).desk.bytes[107];
}

static void our_undo(int kind, int b)
{
    (void)b;
    sink += ay_desk_undo(desk[kind]).desk.bytes[26];
}

static void our_send(int kind, int b)
{
    uint16_t out[AY_PACKET_WORDS];
    (void)b;
    sink += ay_desk_send(desk[kind], out, AY_PACKET_WORDS).desk.ci + out[261];
}

static void fec_encode(int kind, int b)
{
    uint8_t parity[6];
    (void)kind;
    encode_rs_char(rs, record[b], parity);
    sink += parity[5];
}

static void our_read(int kind, int b)
{
    (void)kind;
    sink += ay_read_packet(packet[b], AY_PACKET_WORDS).fixed;
}

/* the next packet, and a frame of two packets again and again */
enum { NEXT, FRAME, FOLLOWERS };
static AyFollower follower[FOLLOWERS];

static void our_follow(int kind, int b)
{
    AyFollowed f = ay_follower_follow(follower[kind], packet[kind == NEXT ? b : b % 2], AY_PACKET_WORDS);
    follower[kind] = f.follower;
    sink += f.kind;
}

static void our_read_off(int kind, int b)
{
    (void)kind;
    sink += ay_read_packet(packet_off[b], AY_PACKET_WORDS).ci;
}

static void our_pack(int kind, int b)
{
    uint8_t out[AY_FIELD_BYTES];
    (void)kind;
    sink += ay_pack(b % 2, (uint16_t)(9 + b), (uint16_t)(3 * b), packet[b], AY_PACKET_WORDS, out, AY_FIELD_BYTES).number + out[327];
}

static void our_unpack(int kind, int b)
{
    uint16_t out[AY_PACKET_WORDS];
    (void)kind;
    sink += ay_unpack(field[b], AY_FIELD_BYTES, out, AY_PACKET_WORDS).line + out[261];
}

static void our_repair(int kind, int b)
{
    uint16_t out[BLOCK];
    AyRepaired r = ay_repair(damaged_words[kind][b], BLOCK, out, BLOCK);
    sink += r.fixed + out[0];
}

static void our_repair_marked(int kind, int b)
{
    uint16_t out[BLOCK];
    AyRepaired r = ay_repair(marked_words[kind][b], BLOCK, out, BLOCK);
    sink += r.fixed + out[0];
}

static int refused(int kind, int b)
{
    uint16_t out[BLOCK];
    return ay_repair(marked_words[kind][b], BLOCK, out, BLOCK).number == AY_BEYOND_REPAIR;
}

static void our_check(int kind, int b)
{
    sink += ay_check_codeword(damaged[kind][b], BLOCK).codeword;
}

static void fec_decode(int kind, int b)
{
    uint8_t block[BLOCK];
    memcpy(block, damaged[kind][b], BLOCK);
    sink += (unsigned)decode_rs_char(rs, block, NULL, 0) + block[0];
}

/* a place counts from 0 in the 254 bytes for libfec too; it writes over the places that it is told */
static void fec_erase(int kind, int b)
{
    uint8_t block[BLOCK];
    int erased[8];
    memcpy(erased, places[kind][b], sizeof erased);
    memcpy(block, marked[kind][b], BLOCK);
    sink += (unsigned)decode_rs_char(rs, block, erased, marked_of[kind].marks) + block[0];
}

/* microseconds for one block, best of the rounds */
static double time_of(job f, int kind)
{
    double best = 1e9;
    for (int round = 0; round < ROUNDS; round++) {
        double start = now();
        for (int b = 0; b < BLOCKS; b++)
            f(kind, b);
        double each = (now() - start) * 1e6 / BLOCKS;
        if (each < best)
            best = each;
    }
    return best;
}

static int figures, missed;

/* so many times as quick as libfec, and as many were asked for */
static void row(const char *name, double ours, double theirs, double wanted)
{
    double ratio = theirs / ours;
    int reached = ratio >= wanted;
    figures++;
    missed += !reached;
    printf("%-36s %8.3f %8.3f %8.2f   at least %.2f%s\n", name, ours, theirs, ratio, wanted, reached ? "" : "   missed");
}

/* so much of what another call takes, and no more was asked for */
static void part(const char *name, double ours, double whole, const char *of, double wanted)
{
    double ratio = ours / whole;
    int reached = ratio <= wanted;
    figures++;
    missed += !reached;
    printf("%-36s %8.3f, that is %.2f of a %s   at most %.2f%s\n", name, ours, ratio, of, wanted, reached ? "" : "   missed");
}

/* bytes of stack that a call takes, with what is handed in and back by value: what it has touched of a stack of its own */
static uint8_t stack[1 << 17];
static ucontext_t here, there;
static job called;
static int called_with;

static void call(void)
{
    called(called_with, 0);
}

static void stack_of(const char *name, job f, int kind)
{
    memset(stack, 0xA5, sizeof stack);
    called = f;
    called_with = kind;
    getcontext(&there);
    there.uc_stack.ss_sp = stack;
    there.uc_stack.ss_size = sizeof stack;
    there.uc_link = &here;
    makecontext(&there, call, 0);
    swapcontext(&here, &there);
    size_t left = 0;
    while (left < sizeof stack && stack[left] == 0xA5)
        left++;
    size_t taken = sizeof stack - left;
    int reached = taken < 65536;
    figures++;
    missed += !reached;
    printf("%-36s %8zu bytes of stack   under 65536%s\n", name, taken, reached ? "" : "   missed");
}

int main(void)
{
    rs = init_rs_char(8, 0x11d, 0, 1, 6, 1);
    if (!rs) {
        puts("bench: libfec gives no code");
        return 1;
    }
    for (int b = 0; b < BLOCKS; b++) {
        int place[8];
        fill(record[b]);
        memcpy(sent[b], record[b], DATA);
        encode_rs_char(rs, sent[b], sent[b] + DATA);
        if (ay_write_packet(true, (uint8_t)(b % 16), record[b], DATA, packet[b], AY_PACKET_WORDS).number != AY_DONE) {
            puts("bench: a packet is refused");
            return 1;
        }
        if (ay_write_packet(false, (uint8_t)(b % 16), record[b], DATA, packet_off[b], AY_PACKET_WORDS).number != AY_DONE) {
            puts("bench: a packet with correction off is refused");
            return 1;
        }
        if (ay_pack(b % 2, (uint16_t)(9 + b), (uint16_t)(3 * b), packet[b], AY_PACKET_WORDS, field[b], AY_FIELD_BYTES).number != AY_DONE) {
            puts("bench: a field is refused");
            return 1;
        }
        for (int k = 0; k < KINDS; k++) {
            memcpy(damaged[k][b], sent[b], BLOCK);
            damage(damaged[k][b], changes_of[k], place);
            to_words(damaged[k][b], damaged_words[k][b]);
        }
    }
    desk[NO_STEPS] = ay_desk_open(true).desk;
    desk[ALL_STEPS] = desk[NO_STEPS];
    for (int n = 0; n < AY_HISTORY; n++) {
        AyTurn turn = n % 2 ? ay_desk_edit(desk[ALL_STEPS], AY_PRIVATE_ITEM, record[n] + 107, AY_PRIVATE_BYTES)
                            : ay_desk_edit(desk[ALL_STEPS], 1, record[n], 8);
        if (turn.number != AY_DONE) {
            puts("bench: an edit is refused");
            return 1;
        }
        desk[ALL_STEPS] = turn.desk;
    }
    /* with four marks almost any bytes are near some codeword, and repair gives that one: hopeless is what it refuses */
    for (int k = 0; k < MARKED; k++)
        for (int b = 0; b < BLOCKS; b++) {
            do
                mark(k, b);
            while (k == HOPELESS && !refused(k, b));
            if (k != HOPELESS && refused(k, b)) {
                puts("bench: a block with marks is refused");
                return 1;
            }
        }
    printf("%-36s %8s %8s %8s\n", "microseconds a block", "ours", "libfec", "ratio");
    row("write a packet / encode", time_of(our_write, 0), time_of(fec_encode, 0), 4);
    row("pack a field / encode", time_of(our_pack, 0), time_of(fec_encode, 0), 10);
    row("unpack a field / encode", time_of(our_unpack, 0), time_of(fec_encode, 0), 10);
    row("read, correction off / encode", time_of(our_read_off, 0), time_of(fec_encode, 0), 15);
    double clean = time_of(our_repair, 0);
    row("repair, clean / decode", clean, time_of(fec_decode, 0), 2);
    row("repair, one word / decode", time_of(our_repair, 1), time_of(fec_decode, 1), 2);
    row("repair, two words / decode", time_of(our_repair, 2), time_of(fec_decode, 2), 2);
    double three = time_of(our_repair, 3);
    row("repair, three words / decode", three, time_of(fec_decode, 3), 2);
    row("repair, hopeless / decode", time_of(our_repair, 4), time_of(fec_decode, 4), 1);
    double with_marks[MARKED];
    for (int k = 0; k < MARKED; k++)
        with_marks[k] = time_of(our_repair_marked, k);
    row("six erasures / decode", with_marks[SIX_ERASED], time_of(fec_erase, SIX_ERASED), 2);
    row("two erasures and two errors / decode", with_marks[TWO_ERASED], time_of(fec_erase, TWO_ERASED), 2);
    row("four erasures and one error / decode", with_marks[FOUR_ERASED], time_of(fec_erase, FOUR_ERASED), 2);
    double check = time_of(our_check, 0);
    row("check, a codeword / decode", check, time_of(fec_decode, 0), 2);
    row("check, none / decode", time_of(our_check, 4), time_of(fec_decode, 4), 2);
    part("check a codeword", check, clean, "clean repair", 1);
    double read = time_of(our_read, 0);
    part("read a clean packet", read, clean, "clean repair", 1.5);
    /* with one record to keep in place of two it was 1.10, and 1.3 times that was allowed */
    follower[NEXT] = follower[FRAME] = ay_follower_open();
    part("follow, the next packet", time_of(our_follow, NEXT), read, "read of a clean packet", 1.4);
    part("follow, a frame again", time_of(our_follow, FRAME), read, "read of a clean packet", 1.4);
    double send = time_of(our_send, ALL_STEPS);
    row("send / encode", send, time_of(fec_encode, 0), 4);
    part("edit one byte, no history", time_of(our_edit, NO_STEPS), send, "send", 1);
    part("edit one byte, 32 steps", time_of(our_edit, ALL_STEPS), send, "send", 1);
    part("edit the private bytes, 32 steps", time_of(our_edit_private, ALL_STEPS), send, "send", 1);
    part("undo, 32 steps", time_of(our_undo, ALL_STEPS), send, "send", 1);
    for (int k = 0; k < MARKED; k++)
        part(marked_of[k].name, with_marks[k], three, "repair of three words", 2);
    stack_of("edit one byte, 32 steps", our_edit, ALL_STEPS);
    stack_of("edit the private bytes, 32 steps", our_edit_private, ALL_STEPS);
    stack_of("undo, 32 steps", our_undo, ALL_STEPS);
    stack_of("send", our_send, ALL_STEPS);
    stack_of("write a packet", our_write, 0);
    stack_of("read a clean packet", our_read, 0);
    stack_of("follow, the next packet", our_follow, NEXT);
    stack_of("repair, three words", our_repair, 3);
    stack_of("six erasures", our_repair_marked, SIX_ERASED);
    for (long n = 1000; n <= 1000000; n *= 10) {
        double start = now();
        for (long i = 0; i < n; i++) {
            our_write(0, (int)(i % BLOCKS));
            our_read(0, (int)(i % BLOCKS));
        }
        printf("%8ld packets written and read: %9.3f ms\n", n, (now() - start) * 1e3);
    }
    free_rs_char(rs);
    if (missed)
        printf("bench: %d of %d figures missed\n", missed, figures);
    else
        printf("bench: all %d figures reached\n", figures);
    return missed != 0;
}
