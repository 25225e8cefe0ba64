/* The proved calls against the plain C ones, on the same inputs, before anything is measured. */
#include "measure.h"

static usize agreed;
static u32 seed = 1;

/* The same numbers on every machine. */
u32 next(void)
{
    seed = seed * 1103515245u + 12345u;
    return seed >> 16 ^ seed << 16;
}

void fill(u8 *bytes, usize length)
{
    for (usize i = 0; i < length; i++)
        bytes[i] = (u8)next();
}

void same(int equal, const char *what, const struct calls *theirs, long at)
{
    if (!equal) {
        printf("DIFFERENT: %s, ours and %s, input %ld\n", what, theirs->name, at);
        exit(1);
    }
    agreed++;
}

/* The check sum bit by bit, with no table, so that a fault in both tables would show. */
static u32 by_bits(const u8 *bytes, usize length, int degree, u32 generator)
{
    u32 sum = 0;
    for (usize i = 0; i < length; i++)
        for (int bit = 7; bit >= 0; bit--) {
            u32 top = (sum >> (degree - 1) ^ bytes[i] >> bit) & 1;
            sum = sum << 1 & ((1u << degree) - 1);
            if (top)
                sum ^= generator;
        }
    return sum;
}

static void sums(const struct calls *ours, const struct calls *theirs)
{
    u8 bytes[2050];
    fill(bytes, sizeof bytes);
    for (usize n = 0; n <= sizeof bytes; n++) {
        u8 seven = ours->crc7(bytes, n);
        u16 sixteen = ours->crc16(bytes, n);
        same(seven == theirs->crc7(bytes, n), "CRC7", theirs, (long)n);
        same(sixteen == theirs->crc16(bytes, n), "CRC16", theirs, (long)n);
        same(seven == by_bits(bytes, n, 7, 0x09), "CRC7 by bits", theirs, (long)n);
        same(sixteen == by_bits(bytes, n, 16, 0x1021), "CRC16 by bits", theirs, (long)n);
    }
}

static void read_one(const struct calls *ours, const struct calls *theirs, const u8 *frame, usize length)
{
    u8 i = 0xA5, j = 0xA5;
    u32 a = 0x5A5A5A5A, b = 0x5A5A5A5A;
    u8 r = ours->read_frame(frame, length, &i, &a), s = theirs->read_frame(frame, length, &j, &b);
    same(r == s && i == j && a == b, "a frame read", theirs, (long)(frame[0] << 8 | length));
}

/* Every index with many arguments: whole, with each bit flipped, with each pair of neighbours flipped, and cut or lengthened. */
static void frames(const struct calls *ours, const struct calls *theirs)
{
    u8 frame[9];
    for (int index = 0; index < 64; index++)
        for (int k = 0; k < 64; k++) {
            u32 argument = k == 0 ? 0 : k == 1 ? 0xFFFFFFFF : next();
            fill(frame, sizeof frame);
            theirs->write_command((u8)index, argument, frame, 6);
            for (usize n = 0; n <= sizeof frame; n++)
                read_one(ours, theirs, frame, n);
            for (int bit = 0; bit < 48; bit++) {
                frame[bit / 8] ^= 0x80 >> bit % 8;
                read_one(ours, theirs, frame, 6);
                frame[(bit + 1) % 48 / 8] ^= 0x80 >> (bit + 1) % 8;
                read_one(ours, theirs, frame, 6);
                frame[bit / 8] ^= 0x80 >> bit % 8;
                frame[(bit + 1) % 48 / 8] ^= 0x80 >> (bit + 1) % 8;
            }
            fill(frame, 6);
            read_one(ours, theirs, frame, 6);
        }
    for (int index = 0; index < 256; index++)
        for (int k = 0; k < 64; k++)
            for (usize room = 0; room <= 9; room++) {
                u32 argument = k == 0 ? 0 : k == 1 ? 0xFFFFFFFF : next();
                u8 a[9], b[9];
                memset(a, 0xEE, sizeof a);
                memset(b, 0xEE, sizeof b);
                u8 r = ours->write_command((u8)index, argument, a, room), s = theirs->write_command((u8)index, argument, b, room);
                same(r == s && memcmp(a, b, sizeof a) == 0, "a frame written", theirs, index);
            }
}

static void check_one(const struct calls *ours, const struct calls *theirs, const u8 *block, usize length)
{
    same(ours->check_block(block, length) == theirs->check_block(block, length), "a block checked", theirs, (long)length);
}

/* Every payload length from none to too long, every output from too short to too long by a byte. */
static void blocks(const struct calls *ours, const struct calls *theirs)
{
    u8 payload[2060], a[2060], b[2060];
    fill(payload, sizeof payload);
    for (usize n = 0; n <= 2052; n++) {
        for (usize room = n; room <= n + 3; room++) {
            memset(a, 0xEE, sizeof a);
            memset(b, 0xEE, sizeof b);
            u8 r = ours->write_block(payload, n, a, room), s = theirs->write_block(payload, n, b, room);
            same(r == s && memcmp(a, b, sizeof a) == 0, "a block written", theirs, (long)n);
        }
        check_one(ours, theirs, b, n + 2);
        check_one(ours, theirs, b, n);
        b[next() % (n + 2)] ^= 1 << next() % 8;
        check_one(ours, theirs, b, n + 2);
    }
}

/* Lent memory of both, the same before each call, with bytes around it that no call may touch. */
enum { AROUND = 16, MOST = 41 * 512 };
static u8 start[MOST + 2 * AROUND], one[MOST + 2 * AROUND], two[MOST + 2 * AROUND];
#define COUNT(list) (sizeof(list) / sizeof(list)[0])

static void renew(usize length)
{
    memcpy(one, start, length + 2 * AROUND);
    memcpy(two, start, length + 2 * AROUND);
}

static int memories_equal(usize length)
{
    return memcmp(one, two, length + 2 * AROUND) == 0;
}

static void fills(const struct calls *ours, const struct calls *theirs)
{
    for (usize n = 0; n <= 8193; n++) {
        renew(n);
        ours->fill(one + AROUND, n);
        theirs->fill(two + AROUND, n);
        same(memories_equal(n), "memory filled", theirs, (long)n);
    }
}

/* Every place of a memory of five sectors and a byte, and places whose sum with the length passes the widest number. */
static void reads(const struct calls *ours, const struct calls *theirs)
{
    static const usize SIZES[] = {0, 1, 512, 513, 2561};
    static const usize ROOMS[] = {0, 1, 2, 3, 4, 5, 31, 32, 33, 511, 512, 513, 1023, 1024, 1025, 2047, 2048, 2049, 2560, 2561, 2562};
    for (usize s = 0; s < COUNT(SIZES); s++)
        for (usize r = 0; r < COUNT(ROOMS); r++)
            for (usize k = 0; k <= SIZES[s] + ROOMS[r] + 4; k++) {
                usize room = ROOMS[r], at = k <= SIZES[s] + 2 ? k : SIZES[s] + 2 - k;
                renew(room);
                _Bool a = ours->read(start, SIZES[s], at, one + AROUND, room);
                _Bool b = theirs->read(start, SIZES[s], at, two + AROUND, room);
                same(a == b && memories_equal(room), "memory read", theirs, (long)at);
            }
}

/* Every length to beyond three sectors; the sectors there, the next ones, and numbers whose place, cut to 32 bits, would lie there. */
static void writes(const struct calls *ours, const struct calls *theirs)
{
    static const u32 SECTORS[] = {0, 1, 2, 3, 4, 0x7FFFFF, 0x800000, 0x800001, 0x80000000, 0xFFFFFFFF};
    u8 bytes[512];
    for (usize n = 0; n <= 1540; n++)
        for (usize s = 0; s < COUNT(SECTORS); s++) {
            fill(bytes, sizeof bytes);
            renew(n);
            ours->write(one + AROUND, n, SECTORS[s], bytes);
            theirs->write(two + AROUND, n, SECTORS[s], bytes);
            same(memories_equal(n), "a sector written", theirs, (long)n);
        }
}

static void erase_one(const struct calls *ours, const struct calls *theirs, usize length, usize groups, const u8 *map, u32 first, u32 last)
{
    renew(length);
    _Bool a = ours->erase(one + AROUND, length, map, groups, first, last);
    _Bool b = theirs->erase(two + AROUND, length, map, groups, first, last);
    same(a == b && memories_equal(length), "sectors erased", theirs, (long)length);
}

/* Maps of no to three groups, each group open or protected (by a 1, and by a number that no map has); ranges of every first and last
   sector, reversed ones among them, in 40 sectors; and at the boundaries and past the end in memories of other lengths. */
static void erases(const struct calls *ours, const struct calls *theirs)
{
    static const usize LENGTHS[] = {0, 511, 512, 8191, 8192, 8193, 16384, 20479, 20991};
    static const u32 AT[] = {0, 1, 7, 8, 15, 16, 17, 31, 32, 33, 38, 39, 40, 41, 0x7FFFFF, 0x800000, 0x80000000, 0xFFFFFFFF};
    for (usize groups = 0; groups <= 3; groups++)
        for (u32 set = 0; set < 1u << groups; set++) {
            u8 map[3];
            for (int g = 0; g < 3; g++)
                map[g] = (set >> g & 1) * (g == 2 ? 0x80 : 1);
            for (u32 first = 0; first <= 41; first++)
                for (u32 last = 0; last <= 41; last++)
                    erase_one(ours, theirs, 20480, groups, map, first, last);
            for (usize n = 0; n < COUNT(LENGTHS); n++)
                for (usize i = 0; i < COUNT(AT); i++)
                    for (usize j = 0; j < COUNT(AT); j++)
                        erase_one(ours, theirs, LENGTHS[n], groups, map, AT[i], AT[j]);
        }
}

usize compare(const struct calls *ours, const struct calls *theirs)
{
    agreed = 0;
    sums(ours, theirs);
    frames(ours, theirs);
    blocks(ours, theirs);
    fill(start, sizeof start);
    fills(ours, theirs);
    reads(ours, theirs);
    writes(ours, theirs);
    erases(ours, theirs);
    compare_card(ours, theirs);
    compare_bus(ours, theirs);
    return agreed;
}
