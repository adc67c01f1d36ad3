/* Compares the archive with libfec, with a check of our own, and with GStreamer's encoder of ancillary data:
 *   - deliveries of 254 words: clean, with one to eight changed bytes, with wrong upper bits, and junk; repair must give exactly what the check
 *     finds; under either rule libfec, which is told of the places that unsound words mark, must find the same codeword, or none that the rule
 *     takes; and the check of a codeword must say yes exactly where our six sums are 0 and libfec finds nothing to change;
 *   - marked deliveries, held in the same way: every number of marks from none to eight with every number of silent changes from none to four; marks
 *     over bytes that are mostly right; and words between two codewords that are seven bytes apart, where one rule ends and the other begins;
 *   - packets: the 262 words of random records must be those of GStreamer's encoder, and must read back; and what that encoder makes of bytes with
 *     counters in the reserved area must be refused, at the first of them, and be what a desk made by hand with those bytes sends;
 *   - turns at a desk, which opens with correction on only: edits of the items that may hold anything, the private bytes among them, undos and sends,
 *     beside a history of whole records kept here: the desk's bytes must be the record that it gives, and the words sent those that GStreamer's
 *     encoder makes of it;
 *   - packets of GStreamer's encoder, damaged, at a follower, in every order: the next one, the same again or another with its index, the one before
 *     again or another with that index, any index, and packets that are refused; beside a follower kept here: kind, missed, onsets, counts and the record
 *     shown must be its own;
 *   - every number of 16 bits through the word check, and packets with correction off in which upper bits are wrong: what is wrong, and of which
 *     word, must be as counted here.
 * A line for each sort of marked delivery says which rule repaired how many. The last line says how many of each were equal; the exit status is 0
 * only if all were. */
#include <fec.h>
#include <gst/video/video-anc.h>
#include <stdio.h>
#include <stdlib.h>
#include <string.h>

#include "../include/aynirukh.h"

enum { DATA = 248, BLOCK = 254 };

static uint64_t state = 0x9E3779B97F4A7C15u;
static uint32_t next(void)
{
    state ^= state << 13;
    state ^= state >> 7;
    state ^= state << 17;
    return (uint32_t)(state >> 32);
}

static void fail(const char *what, long n)
{
    printf("compare: %s differs at %ld\n", what, n);
    exit(1);
}

/* ---- a check of our own: Peterson's equations, which the search goes by too, but solved by elimination, and every place tried; then the values at
 * all places, marked and found, by elimination too, and the rule itself on what comes out */

static uint8_t mul(uint8_t a, uint8_t b)
{
    unsigned r = 0, x = a;
    for (; b; b >>= 1) {
        if (b & 1)
            r ^= x;
        x <<= 1;
        if (x & 0x100)
            x ^= 0x11D;
    }
    return (uint8_t)r;
}

static uint8_t power[255], inverse[256];

static void make_tables(void)
{
    uint8_t x = 1;
    for (int i = 0; i < 255; i++) {
        power[i] = x;
        x = mul(x, 2);
    }
    for (int i = 0; i < 255; i++)
        inverse[power[i]] = power[(255 - i) % 255];
}

/* solves m x = rhs over the field, n by n; 0 where m is singular */
static int solve(int n, uint8_t m[6][7])
{
    for (int c = 0; c < n; c++) {
        int p = c;
        while (p < n && !m[p][c])
            p++;
        if (p == n)
            return 0;
        for (int k = 0; k <= n; k++) {
            uint8_t t = m[c][k];
            m[c][k] = m[p][k];
            m[p][k] = t;
        }
        uint8_t d = inverse[m[c][c]];
        for (int k = 0; k <= n; k++)
            m[c][k] = mul(m[c][k], d);
        for (int r = 0; r < n; r++)
            if (r != c && m[r][c]) {
                uint8_t f = m[r][c];
                for (int k = 0; k <= n; k++)
                    m[r][k] ^= mul(f, m[c][k]);
            }
    }
    return 1;
}

/* the six sums of a block: its values at the powers 0 to 5 of 2 */
static int sums(const uint8_t *block, uint8_t s[6])
{
    int any = 0;
    for (int j = 0; j < 6; j++) {
        uint8_t v = 0;
        for (int i = 0; i < BLOCK; i++)
            v = mul(v, power[j]) ^ block[i];
        s[j] = v;
        any |= v;
    }
    return any;
}

/* is the block a codeword that differs from the delivered one in e places that are not marked, with 2e + f at most six for the f that are? With
 * none marked this is document 01's rule: at most three bytes differ. */
static int within(const uint8_t *block, const uint8_t *delivered, const int *mark, int f)
{
    uint8_t s[6];
    int e = 0;
    for (int i = 0; i < BLOCK; i++)
        e += block[i] != delivered[i];
    for (int i = 0; i < f; i++)
        e -= block[mark[i]] != delivered[mark[i]];
    return 2 * e + f <= 6 && !sums(block, s);
}

/* repairs the block if a codeword is within the rule, for at most six marked places: 1, else 0 */
static int check(uint8_t *block, const int *mark, int f)
{
    uint8_t s[6], t[6];
    int place[6];
    sums(block, s);
    memcpy(t, s, 6);
    /* a sum less the one before it times the mark's power holds nothing of what stands at the mark: each mark leaves one sum fewer */
    for (int i = 0; i < f; i++) {
        place[i] = BLOCK - 1 - mark[i];
        for (int j = 0; j < 5 - i; j++)
            t[j] = t[j + 1] ^ mul(t[j], power[place[i]]);
    }
    for (int e = 0; 2 * e + f <= 6; e++) {
        uint8_t m[6][7];
        for (int r = 0; r < e; r++)
            for (int c = 0; c <= e; c++)
                m[r][c] = t[r + c];
        if (!solve(e, m))
            continue;
        int found = f, all = f + e;
        for (int k = 0; k < BLOCK && found <= all; k++) {
            uint8_t x = power[k], v = 1;
            for (int c = e - 1; c >= 0; c--)
                v = mul(v, x) ^ m[c][e];
            if (!v) {
                if (found < all)
                    place[found] = k;
                found++;
            }
        }
        if (found != all)
            continue;
        for (int r = 0; r < all; r++) {
            for (int c = 0; c < all; c++)
                m[r][c] = power[place[c] * r % 255];
            m[r][all] = s[r];
        }
        if (!solve(all, m))
            continue;
        uint8_t fixed[BLOCK];
        memcpy(fixed, block, BLOCK);
        for (int c = 0; c < all; c++)
            fixed[BLOCK - 1 - place[c]] ^= m[c][all];
        if (within(fixed, block, mark, f)) {
            memcpy(block, fixed, BLOCK);
            return 1;
        }
    }
    return 0;
}

/* what is wrong with a word, by counting its ones: 1 b8, 2 b9, 3 both */
static int wrong_bits(unsigned word)
{
    unsigned parity = 0;
    for (int i = 0; i < 8; i++)
        parity ^= word >> i & 1;
    return ((word >> 8 & 1) != parity) + 2 * ((word >> 9 & 1) == parity);
}

/* ---- deliveries */

static void *rs;

/* repairs the block as libfec does if what libfec gives is within the rule: 1, else 0. A place counts from 0 in the 254 bytes for libfec too; it
 * writes over the places that it is told. */
static int libfec(uint8_t *block, const int *mark, int f)
{
    uint8_t fixed[BLOCK];
    int erased[6];
    for (int i = 0; i < f; i++)
        erased[i] = mark[i];
    memcpy(fixed, block, BLOCK);
    if (decode_rs_char(rs, fixed, erased, f) < 0 || !within(fixed, block, mark, f))
        return 0;
    memcpy(block, fixed, BLOCK);
    return 1;
}

/* repairs the block by the check, which libfec must bear out: 1, or 0 where neither has a codeword within the rule */
static int agreed(uint8_t *block, const int *mark, int f, long n)
{
    uint8_t theirs[BLOCK];
    memcpy(theirs, block, BLOCK);
    int good = check(block, mark, f);
    if (libfec(theirs, mark, f) != good || (good && memcmp(theirs, block, BLOCK)))
        fail("libfec", n);
    return good;
}

enum { NEITHER, BY_MARKS, BY_BYTES };

/* holds the repair of the words against the two rules: that of the marks, where there are at most six, and then document 01's of the bytes alone.
 * Says which of them repaired. With no marks the two are one, which counts as the first. */
static int repair(const uint16_t *words, long n)
{
    uint8_t marked[BLOCK], bytes[BLOCK];
    uint16_t out[BLOCK];
    int mark[BLOCK], f = 0, fixed = 0;
    for (int i = 0; i < BLOCK; i++) {
        marked[i] = bytes[i] = (uint8_t)words[i];
        if (wrong_bits(words[i]))
            mark[f++] = i;
        out[i] = 0xABCD;
    }
    int first = f <= 6 && agreed(marked, mark, f, n);
    int second = f > 0 && agreed(bytes, NULL, 0, n);
    AyRepaired r = ay_repair(words, BLOCK, out, BLOCK);
    if (first || second) {
        for (int i = 0; i < BLOCK; i++) {
            uint16_t w = ay_word_of(first ? marked[i] : bytes[i]);
            fixed += w != words[i];
            if (out[i] != w)
                fail("a repaired word", n);
        }
        if (r.number != AY_DONE || r.place || r.fixed != fixed)
            fail("what repair answers", n);
    } else {
        if (r.number != AY_BEYOND_REPAIR || r.place || r.fixed)
            fail("a refusal", n);
        for (int i = 0; i < BLOCK; i++)
            if (out[i] != 0xABCD)
                fail("a buffer that was refused", n);
    }
    return first ? BY_MARKS : second ? BY_BYTES : NEITHER;
}

static void delivery(long n)
{
    uint8_t block[BLOCK], theirs[BLOCK], s[6];
    uint16_t words[BLOCK];
    for (int i = 0; i < BLOCK; i++)
        block[i] = (uint8_t)next();
    int kind = (int)(n % 11);
    if (kind != 10)
        encode_rs_char(rs, block, block + DATA);
    if (kind < 9)
        for (int i = 0; i < kind; i++)
            block[next() % BLOCK] ^= (uint8_t)next();
    for (int i = 0; i < BLOCK; i++)
        words[i] = ay_word_of(block[i]);
    if (kind >= 9 || n % 3 == 0)
        for (int i = 0; i < 5; i++)
            words[next() % BLOCK] ^= (uint16_t)(next() % 4 << 8);
    repair(words, n);
    memcpy(theirs, block, BLOCK);
    int count = decode_rs_char(rs, theirs, NULL, 0);
    AyVerdict v = ay_check_codeword(block, BLOCK);
    if (v.number != AY_DONE || v.place || v.codeword != !sums(block, s) || v.codeword != (count == 0))
        fail("the check of a codeword", n);
}

/* ---- marked deliveries */

/* a codeword of random data, and its words */
static void fresh(uint8_t *block, uint16_t *words)
{
    for (int i = 0; i < DATA; i++)
        block[i] = (uint8_t)next();
    encode_rs_char(rs, block, block + DATA);
    for (int i = 0; i < BLOCK; i++)
        words[i] = ay_word_of(block[i]);
}

/* that many places of the block, each another */
static void pick(int count, int *place)
{
    for (int i = 0; i < BLOCK; i++)
        place[i] = i;
    for (int i = 0; i < count; i++) {
        int j = i + (int)(next() % (uint32_t)(BLOCK - i)), p = place[j];
        place[j] = place[i];
        place[i] = p;
    }
}

/* an unsound word over the byte: b8, b9 or both are wrong */
static uint16_t unsound_word(uint8_t byte)
{
    return ay_word_of(byte) ^ (uint16_t)(1 + next() % 3) << 8;
}

/* f marks, w of them over any byte, which may be the right one, and the others over the right one; and e sound words of another byte */
static void damage(uint16_t *words, int f, int w, int e)
{
    uint8_t block[BLOCK];
    int place[BLOCK];
    fresh(block, words);
    pick(f + e, place);
    for (int i = 0; i < f + e; i++) {
        uint8_t was = block[place[i]];
        if (i < f)
            words[place[i]] = unsound_word(i < w ? (uint8_t)next() : was);
        else
            words[place[i]] = ay_word_of(was ^ (uint8_t)(1 + next() % 255));
    }
}

/* words between two codewords that are seven bytes apart: so many of the seven places are marked, over the byte of the one, of the other, or any; of
 * those left so many have the other's byte. Now and then an eighth mark stands where the two are equal. */
static void between(uint16_t *words, int f, int others)
{
    uint8_t block[BLOCK], m[6][7], away[7];
    int place[BLOCK];
    fresh(block, words);
    pick(8, place);
    /* any value in the seventh place, and in the six others those that bring the six sums back to 0 */
    away[6] = (uint8_t)(1 + next() % 255);
    for (int r = 0; r < 6; r++) {
        for (int c = 0; c < 7; c++)
            m[r][c] = power[(BLOCK - 1 - place[c]) * r % 255];
        m[r][6] = mul(m[r][6], away[6]);
    }
    if (!solve(6, m))
        fail("there is no second codeword; it", f);
    for (int i = 0; i < 6; i++)
        away[i] = m[i][6];
    for (int i = 0; i < 7; i++) {
        uint8_t one = block[place[i]], other = one ^ away[i], any = (uint8_t)next();
        uint32_t which = next() % 3;
        if (i < f)
            words[place[i]] = unsound_word(which == 0 ? one : which == 1 ? other : any);
        else
            words[place[i]] = ay_word_of(i < f + others ? other : one);
    }
    if (next() % 2)
        words[place[7]] = unsound_word(block[place[7]]);
}

enum { SORTS = 3 };
static const char *const sort_name[SORTS] = {
    "with up to eight marks and four silent changes", "with marks over mostly right bytes", "between two codewords"
};

/* one delivery of a sort. The first goes through all 45 pairs of numbers; the second has up to twelve marks, every eighth time up to 251; the third
 * takes its marks from none to seven in turn. */
static int marked(int sort, long turn, long n)
{
    uint16_t words[BLOCK];
    int f = (int)(turn % 9);
    if (sort == 0)
        damage(words, f, f, (int)(turn / 9 % 5));
    else if (sort == 1) {
        f = (int)(turn % 8 ? next() % 13 : next() % 252);
        damage(words, f, (int)(turn / 8 % 4), (int)(turn / 32 % 4));
    } else {
        f = (int)(turn % 8);
        between(words, f, (int)(next() % (uint32_t)(8 - f)));
    }
    return repair(words, n);
}

/* ---- packets */

/* sample i of a line in v210: three of ten bits in each little-endian 32 */
static uint16_t sample(const uint8_t *line, int i)
{
    const uint8_t *p = line + i / 3 * 4;
    uint32_t v = p[0] | (uint32_t)p[1] << 8 | (uint32_t)p[2] << 16 | (uint32_t)p[3] << 24;
    return (uint16_t)(v >> (i % 3 * 10) & 0x3FF);
}

/* where the flag begins, in samples that lie this far apart; -1 where there is none */
static int flag_at(const uint8_t *line, int step)
{
    for (int i = 0; i + 2 * step < 1920 * 2; i++)
        if (sample(line, i) == 0x000 && sample(line, i + step) == 0x3FF && sample(line, i + 2 * step) == 0x3FF)
            return i;
    return -1;
}

/* the packet that GStreamer's encoder makes of 248 bytes, with libfec's parity */
static void foreign(uint16_t words[AY_PACKET_WORDS], const uint8_t record[DATA], int on, int ci, long n)
{
    static guint8 line[1920 * 2 * 4];
    uint8_t user[255];
    GstVideoVBIEncoder *encoder = gst_video_vbi_encoder_new(GST_VIDEO_FORMAT_v210, 1920);
    if (!encoder)
        fail("GStreamer gives no encoder, which", n);
    user[0] = (uint8_t)(on * 0x80 + ci);
    memcpy(user + 1, record, DATA);
    if (on)
        encode_rs_char(rs, user + 1, user + 1 + DATA);
    else
        memset(user + 1 + DATA, 0, 6);
    if (!gst_video_vbi_encoder_add_ancillary(encoder, FALSE, 0x5F, 0xFE, user, 255))
        fail("GStreamer takes no packet", n);
    gst_video_vbi_encoder_write_line(encoder, line);
    /* the packet lies in every second sample, or in each */
    int step = 2, at = flag_at(line, step);
    if (at < 0)
        at = flag_at(line, step = 1);
    if (at < 0)
        fail("GStreamer's line has no packet; it", n);
    for (int i = 0; i < AY_PACKET_WORDS; i++)
        words[i] = (uint16_t)sample(line, at + step * i);
    gst_video_vbi_encoder_free(encoder);
}

static void packet(long n)
{
    uint8_t record[DATA], back[DATA];
    uint16_t words[AY_PACKET_WORDS], theirs[AY_PACKET_WORDS];
    AyDesk desk = ay_desk_open(true).desk;
    memcpy(record, desk.bytes, DATA);
    for (int i = 107; i < DATA; i++)
        record[i] = (uint8_t)next();
    for (int i = 29; i < 33; i++)
        record[i] = (uint8_t)next();
    int on = (int)(n % 2), ci = (int)(n % 16);
    if (ay_write_packet(on, (uint8_t)ci, record, DATA, words, AY_PACKET_WORDS).number != AY_DONE)
        fail("writing", n);
    foreign(theirs, record, on, ci, n);
    if (memcmp(words, theirs, sizeof(words)))
        fail("a word of GStreamer's", n);
    AyPacket p = ay_read_packet_into(words, AY_PACKET_WORDS, back, DATA);
    if (p.number != AY_DONE || p.correction != on || p.ci != ci || p.fixed || memcmp(back, record, DATA))
        fail("reading", n);
}

/* a foreign encoder's counters, up to three of them in the reserved area and the bytes around it: packet and bytes are refused where a byte of 44
 * to 107 is not zero, at the first of them, before a station code that is wrong too; a desk made by hand that holds them, with any CI, sends the very
 * words of the encoder with correction on */
static void counters(long n)
{
    uint16_t words[AY_PACKET_WORDS], ours[AY_PACKET_WORDS];
    AyDesk desk = ay_desk_open(true).desk;
    for (long i = 0; i <= n % 3; i++)
        desk.bytes[42 + next() % 66] = (uint8_t)next();
    int on = (int)(n % 2), station = n % 5 == 0, place = 0;
    if (station)
        desk.bytes[0] = 0;
    for (int i = 107; i >= 44; i--)
        if (desk.bytes[i - 1])
            place = i;
    int number = place ? AY_RESERVED_AREA : station ? AY_STATION : AY_DONE;
    if (!place && station)
        place = 1;
    desk.ci = (uint8_t)next();
    foreign(words, desk.bytes, 1, desk.ci % 16, n);
    AyTurn sent = ay_desk_send(desk, ours, AY_PACKET_WORDS);
    if (sent.number != AY_DONE || sent.desk.ci != (desk.ci + 1) % 16 || memcmp(ours, words, sizeof words))
        fail("sending counters", n);
    if (!on)
        foreign(words, desk.bytes, 0, desk.ci % 16, n);
    AyPacket p = ay_read_packet(words, AY_PACKET_WORDS);
    AyFollowed f = ay_follower_follow(ay_follower_open(), words, AY_PACKET_WORDS);
    if (p.number != number || p.place != place || f.number != number || f.place != place)
        fail("reading counters", n);
    AyAnswer a = ay_record_refusal(desk.bytes, DATA), w = ay_write_packet(on, 0, desk.bytes, DATA, words, AY_PACKET_WORDS);
    if (a.number != number || a.place != place || w.number != number || w.place != place)
        fail("bytes with counters", n);
}

/* a desk, and beside it the records of its history, the present one last */
static AyDesk desk_there;
static uint8_t records[AY_HISTORY + 1][DATA];
static int steps, sends;

static void open_desk(void)
{
    AyTurn turn = ay_desk_open(true), off = ay_desk_open(false);
    if (turn.number != AY_DONE || off.number != AY_OFF_RETIRED || off.place || memcmp(&turn.desk, &off.desk, sizeof turn.desk))
        fail("opening", 0);
    desk_there = turn.desk;
    memcpy(records[0], desk_there.bytes, DATA);
}

/* an edit of an item that may hold anything; of more than 32 steps the oldest goes */
static void edit(long n)
{
    static const struct { int item, first, length; } any[7] = {{5, 26, 1}, {8, 29, 1}, {9, 30, 4}, {10, 34, 4}, {11, 38, 4}, {12, 42, 2}, {13, 108, 141}};
    int i = (int)(next() % 7);
    uint8_t bytes[DATA];
    for (int k = 0; k < any[i].length; k++)
        bytes[k] = (uint8_t)next();
    AyTurn turn = ay_desk_edit(desk_there, (uint8_t)any[i].item, bytes, (size_t)any[i].length);
    if (turn.number != AY_DONE)
        fail("an edit", n);
    desk_there = turn.desk;
    if (steps == AY_HISTORY)
        memmove(records[0], records[1], AY_HISTORY * DATA);
    else
        steps++;
    memcpy(records[steps], records[steps - 1], DATA);
    memcpy(records[steps] + any[i].first - 1, bytes, (size_t)any[i].length);
}

/* 64 turns with more edits than undos, then 64 with more undos than edits, so that the history is full, and then empty, again and again */
static void desk_turn(long n)
{
    uint16_t words[AY_PACKET_WORDS], theirs[AY_PACKET_WORDS];
    if ((next() % 8 == 0) == (n / 64 % 2)) {
        edit(n);
    } else {
        AyTurn turn = ay_desk_undo(desk_there);
        if (turn.number != (steps ? AY_DONE : AY_NOTHING_TO_UNDO))
            fail("an undo", n);
        desk_there = turn.desk;
        steps -= steps > 0;
    }
    if (desk_there.count != steps || memcmp(desk_there.bytes, records[steps], DATA))
        fail("the desk's record", n);
    if (n % 4 == 0) {
        AyTurn turn = ay_desk_send(desk_there, words, AY_PACKET_WORDS);
        if (turn.number != AY_DONE)
            fail("a send", n);
        desk_there = turn.desk;
        foreign(theirs, records[steps], 1, sends++ % 16, n);
        if (memcmp(words, theirs, sizeof(words)))
            fail("a word that was sent", n);
    }
}

/* a follower, and beside it what is kept here */
static AyFollower follower_there;
static struct {
    int started, ci, successive;
    uint8_t at[DATA], before[DATA], shown[DATA];
    uint32_t accepted, repeated, conflicting, missed, refused;
} kept;
static long kinds[5], frames;

/* the triggers that are set in one record and not in the other, Q1 lowest */
static uint32_t set_since(const uint8_t *old, const uint8_t *new)
{
    uint32_t set = 0;
    for (int q = 0; q < 32; q++)
        if (new[29 + q / 8] >> q % 8 & 1 && !(old[29 + q / 8] >> q % 8 & 1))
            set |= (uint32_t)1 << q;
    return set;
}

/* what the packet of this index and record is to the one kept here, which then goes on */
static int stands(int ci, const uint8_t *record, int *missed, uint32_t *onsets)
{
    int d = (ci - kept.ci + 16) % 16, kind;
    *missed = 0;
    *onsets = 0;
    if (!kept.started) {
        kind = AY_FIRST;
    } else if (d == 0 && !memcmp(kept.at, record, DATA)) {
        kind = AY_REPEAT;
    } else if (d == 0) {
        kind = AY_CONFLICT;
    } else if (d == 15 && kept.successive && !memcmp(kept.before, record, DATA)) {
        kind = AY_REPEAT;
        frames++;
    } else {
        kind = AY_NEXT;
        *missed = d - 1;
    }
    if (kind == AY_NEXT || kind == AY_CONFLICT)
        *onsets = set_since(kept.at, record);
    if (kind == AY_NEXT) {
        memcpy(kept.before, kept.at, DATA);
        kept.successive = d == 1;
    }
    if (kind != AY_REPEAT) {
        memcpy(kept.at, record, DATA);
        kept.ci = ci;
    }
    memcpy(kept.shown, record, DATA);
    kept.started = 1;
    kept.accepted++;
    kept.repeated += kind == AY_REPEAT;
    kept.conflicting += kind == AY_CONFLICT;
    kept.missed += (uint32_t)*missed;
    return kind;
}

/* one packet more, of one of three records, so that equal ones are met often */
static void follow_turn(long n)
{
    static uint8_t of[3][DATA];
    static const int step[12] = {1, 1, 1, 1, 0, 0, 15, 15, 15, 14, 2, -1};
    uint16_t words[AY_PACKET_WORDS];
    uint8_t shown[DATA], record[DATA], as_it_was[DATA];
    for (int which = 0; which < 3; which++)
        if (n % 150 == 50 * which || n == 0) {
            memcpy(of[which], ay_desk_open(true).desk.bytes, DATA);
            for (int i = 29; i < 33; i++)
                of[which][i] = (uint8_t)next();
        }
    memcpy(record, of[next() % 3], DATA);
    int by = step[next() % 12], ci = by < 0 ? (int)(next() % 16) : (kept.ci + by) % 16, missed, refused = next() % 40 == 0;
    uint32_t onsets;
    if (by == 15 && kept.successive && next() % 2)
        memcpy(record, kept.before, DATA);
    foreign(words, record, 1, ci, n);
    for (int i = 0; i < 3; i++)
        words[7 + next() % BLOCK] = (uint16_t)(next() % 1024);
    if (refused)
        words[0] = 1;
    AyFollowed f = ay_follower_follow(follower_there, words, AY_PACKET_WORDS);
    if (refused) {
        kept.refused++;
        if (f.number != AY_FLAG || f.kind != AY_NONE)
            fail("a refused packet at a follower", n);
    } else {
        int kind = stands(ci, record, &missed, &onsets);
        kinds[kind]++;
        if (f.number != AY_DONE || f.kind != kind || f.ci != ci || f.missed != missed || f.onsets != onsets)
            fail("what a follower heard", n);
    }
    follower_there = f.follower;
    if (f.follower.accepted != kept.accepted || f.follower.repeated != kept.repeated || f.follower.conflicting != kept.conflicting ||
        f.follower.missed != kept.missed || f.follower.refused != kept.refused)
        fail("a follower's count", n);
    if (ay_follower_shown(follower_there, shown, DATA).number != AY_DONE || memcmp(shown, kept.shown, DATA))
        fail("the record shown", n);
    memset(shown, 0xA5, DATA);
    memset(as_it_was, 0xA5, DATA);
    if (ay_follower_shown(follower_there, shown, DATA - 1).number != AY_ROOM || memcmp(shown, as_it_was, DATA))
        fail("too little room for the record shown", n);
}

/* data words of a packet with correction off are changed: reading names the first that is not sound, and what is wrong with it */
static void unsound(long n)
{
    uint16_t words[AY_PACKET_WORDS];
    AyDesk desk = ay_desk_open(true).desk;
    if (ay_write_packet(false, (uint8_t)(n % 16), desk.bytes, DATA, words, AY_PACKET_WORDS).number != AY_DONE)
        fail("writing with correction off", n);
    for (long i = 0; i <= n % 4; i++)
        words[7 + next() % DATA] ^= (uint16_t)(1u << next() % 10 | 1u << next() % 10);
    int place = 0;
    for (int i = DATA; i >= 1; i--)
        if (wrong_bits(words[6 + i]))
            place = i;
    AyPacket p = ay_read_packet(words, AY_PACKET_WORDS);
    AyFollowed f = ay_follower_follow(ay_follower_open(), words, AY_PACKET_WORDS);
    if (place ? p.number != AY_PARITY || p.place != place || p.bits != wrong_bits(words[6 + place]) : p.number == AY_PARITY || p.bits)
        fail("the first unsound word", n);
    if (f.number != p.number || f.place != p.place || f.bits != p.bits)
        fail("following", n);
}

int main(int argc, char **argv)
{
    long deliveries = argc > 1 ? atol(argv[1]) : 1100000, packets = argc > 2 ? atol(argv[2]) : 20000;
    long marks = argc > 3 ? atol(argv[3]) : 675000, by[SORTS][3] = {{0}};
    make_tables();
    rs = init_rs_char(8, 0x11d, 0, 1, 6, 1);
    if (!rs)
        fail("libfec gives no code, which", 0);
    for (long n = 0; n < deliveries; n++)
        delivery(n);
    /* numbered on, so that a number that differs says which delivery it is */
    for (long n = 0; n < marks; n++) {
        int sort = (int)(n % SORTS);
        by[sort][marked(sort, n / SORTS, deliveries + n)]++;
    }
    for (int i = 0; i < SORTS; i++)
        printf("compare: %ld deliveries %s: %ld repaired by the marks, %ld by document 01's rule, %ld by neither\n",
               by[i][BY_MARKS] + by[i][BY_BYTES] + by[i][NEITHER], sort_name[i], by[i][BY_MARKS], by[i][BY_BYTES], by[i][NEITHER]);
    for (unsigned word = 0; word < 65536; word++) {
        AyWord w = ay_check_word((uint16_t)word);
        if (word < 1024 ? w.number != AY_DONE || w.bits != wrong_bits(word) : w.number != AY_WIDE || w.bits)
            fail("the word check", word);
        if (w.place)
            fail("the place of a word", word);
    }
    for (long n = 0; n < packets; n++)
        unsound(n);
    for (long n = 0; n < packets; n++) {
        packet(n);
        counters(n);
    }
    open_desk();
    for (long n = 0; n < packets; n++)
        desk_turn(n);
    follower_there = ay_follower_open();
    for (long n = 0; n < packets; n++)
        follow_turn(n);
    printf("compare: at a follower %ld FIRST, %ld NEXT, %ld REPEAT, %ld of them of the record before, %ld CONFLICT, %lu refused\n", kinds[AY_FIRST],
           kinds[AY_NEXT], kinds[AY_REPEAT], frames, kinds[AY_CONFLICT], (unsigned long)kept.refused);
    printf("compare: %ld deliveries and %ld marked ones equal to libfec and to our check, %ld packets equal to GStreamer's, 65536 words and %ld "
           "packets with unsound words and %ld with counters as counted, %ld turns at a desk as our history has them, %ld packets at a follower as at "
           "ours\n", deliveries, marks, packets, packets, packets, packets, packets);
    return 0;
}
