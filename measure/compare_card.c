/* One card's calls, proved and in plain C, on the same records and inputs, in MMC mode and in SPI. */
#include "measure.h"

enum { SIZE = 16384, GROUPS = 2, ROOM = 2064, STATES = 16, LARGEST = 33554432, GROUP = 8192 };
#define COUNT(list) (sizeof(list) / sizeof(list)[0])
#define ANY(list) (list)[next() % COUNT(list)]

/* All that a call may change and all that it answers: `bytes` is how many it sends or writes. Behind the map stand two entries that are not
   lent, and behind the answer three bytes. */
struct side {
    usize bytes;
    struct mmc_card card;
    u8 memory[SIZE + 16], map[GROUPS + 2], out[ROOM], answer[MMC_ANSWER + 3], refusal;
};
static struct side start, one, two;
static u8 input[ROOM];
#define PARTS(side) &(side).card.numbers, (side).card.cid, (side).card.csd, (side).card.password

/* The numbers that mean nothing in a record, made 0: a place where the state carries none, ends of tags that are not there. Ours writes them so,
   plain C leaves them as they were. */
static void settle(struct mmc_numbers *card)
{
    if (card->state < 5 || card->state > 9)
        card->at = 0;
    if (card->tags < 3)
        card->last = 0;
    if (card->tags == 0)
        card->first = 0;
}

static void begin(u32 state)
{
    static const u32 AT[] = {0, 1, 2, 511, 512, 513, 1536, 2047, 2048, 8191, 8192, 14336, 15872, 16383, 16384, 0x80000000, 0xFFFFFE00, 0xFFFFFFFF};
    static const u32 LENGTHS[] = {512, 512, 512, 2048, 1, 2, 3, 40, 1024, 2047, 0, 2049, 65535};
    static const u32 ERRORS[] = {0, 0, 0x00C00000, 0x00008000, 0xFFFFFFFF, 0x82400000};
    static const u8 PROTECTION[] = {0, 0, 0, 0x10, 0x20, 0xCF, 0xFF};
    static const u32 MODES[] = {0, 0, 0, MMC_CHECKS, MMC_SPI, MMC_SPI, MMC_SPI | MMC_CHECKS, MMC_SPI | MMC_CHECKS};
    static const u32 HELD[] = {0, 0, 1, 4, 15, 16, 17, 200};
    struct mmc_numbers card = {
        .state = state,
        .at = ANY(AT),
        .address = next() % 4 ? 1 : next() & 0xFFFF,
        .length = ANY(LENGTHS),
        .errors = ANY(ERRORS),
        .tags = next() % 5,
        .first = next() % 36,
        .last = next() % 36,
        .mode = ANY(MODES),
        .locked = next() % 4 == 0,
        .password_length = ANY(HELD),
        .groups = next() % 32 ? GROUPS : next() % 4,
        .ocr = next() % 2 ? 0x00FF8000 : 0x80000001,
    };
    settle(&card);
    start.card.numbers = card;
    fill(start.card.cid, 16);
    fill(start.card.csd, 16);
    fill(start.card.password, 16);
    start.card.csd[14] = ANY(PROTECTION);
    for (int i = 0; i < GROUPS; i++)
        start.map[i] = next() % 64 ? next() % 2 : (u8)next();
    one = two = start;
}

static void end(const char *what, const struct calls *theirs, u32 state)
{
    settle(&two.card.numbers);
    same(memcmp(&one, &two, sizeof one) == 0, what, theirs, (long)state);
}

/* Every state, every index, arguments at every bound, with the rest of the record by chance; some frames damaged, cut or lengthened. */
static void frames(const struct calls *ours, const struct calls *theirs)
{
    static const u32 ARGUMENTS[] = {0,     1,     511,   512,        513,        1024,       2047,       2048,       2049,       4096,
                                    8191,  8192,  12288, 15872,      15873,      16383,      16384,      0x00010000, 0x0001FFFF, 0x00020000,
                                    65535, 20480, 14337, 0x00FF8000, 0xFF000000, 0x80000000, 0xFFFFFFFF};
    static const u32 WON[] = {1, 1, 0, 2, 256, 0x80000000}, SELECTED[] = {0, 1, 1, 2, 256, 0x80000000};
    for (u32 state = 0; state < STATES; state++)
        for (u32 index = 0; index < 64; index++)
            for (usize a = 0; a < COUNT(ARGUMENTS); a++)
                for (int turn = 0; turn < 24; turn++) {
                    usize length = next() % 32 ? 6 : next() % 9;
                    usize size = next() % 64 ? SIZE : SIZE - next() % 8194, groups = next() % 64 ? GROUPS : next() % 3;
                    u32 won = ANY(WON), selected = ANY(SELECTED);
                    begin(state);
                    theirs->write_command((u8)index, ARGUMENTS[a], input, 6);
                    if (next() % 16 == 0)
                        input[next() % 6] ^= 1 << next() % 8;
                    one.refusal = ours->frame(PARTS(one), won, selected, input, length, one.memory, size, one.map, groups, one.answer, &one.bytes);
                    two.refusal = theirs->frame(PARTS(two), won, selected, input, length, two.memory, size, two.map, groups, two.answer, &two.bytes);
                    end("a frame at a card", theirs, state << 8 | index);
                }
}

/* A payload that is most often a lock request near to one that is granted. */
static void request(void)
{
    u32 length = start.card.numbers.password_length, held = length > 16 ? 16 : length;
    u32 told[] = {held, held, held + 1, held + 4, held + 16, held + 17, next() & 0xFF};
    fill(input, sizeof input);
    input[0] = next() % 10;
    input[1] = (u8)ANY(told);
    memcpy(input + 2, start.card.password, 16);
    if (next() % 8 == 0)
        input[2 + next() % 16] ^= 1;
}

/* In SPI a start byte stands before the block, most often the right one. */
static void blocks_in(const struct calls *ours, const struct calls *theirs)
{
    static u8 block[ROOM];
    for (u32 state = 0; state < STATES; state++)
        for (int turn = 0; turn < (state >= 8 && state <= 10 ? 40000 : 500); turn++) {
            begin(state);
            u32 held = start.card.numbers.length, n = state != 10 ? 512 : held < 1 || held > 2048 ? 2048 : held;
            u32 before = start.card.numbers.mode & 1;
            if (next() % 16 == 0)
                n = 1 + next() % 2048;
            request();
            theirs->write_block(input, n, block + before, n + 2);
            if (before != 0)
                block[0] = next() % 16 ? 0xFE : (u8)next();
            if (next() % 16 == 0)
                block[before + next() % (n + 2)] ^= 1 << next() % 8;
            usize length = next() % 16 ? before + n + 2 : next() % (n + 5), size = next() % 64 ? SIZE : SIZE - next() % 8194;
            one.refusal = ours->block_in(PARTS(one), block, length, one.memory, size, one.map, GROUPS, one.answer, &one.bytes);
            two.refusal = theirs->block_in(PARTS(two), block, length, two.memory, size, two.map, GROUPS, two.answer, &two.bytes);
            end("a block into a card", theirs, state);
        }
}

static void blocks_out(const struct calls *ours, const struct calls *theirs)
{
    for (u32 state = 0; state < STATES; state++)
        for (int turn = 0; turn < ((state >= 5 && state <= 7) || state >= 14 ? 30000 : 500); turn++) {
            begin(state);
            u32 n = start.card.numbers.length;
            usize rooms[] = {2050, 2051, 2052, 514, 513, 5, 6, 7, 17, 18, 19, n + 1, n + 2, n + 3, next() % 2060};
            usize room = ANY(rooms), size = next() % 64 ? SIZE : SIZE - next() % 8194;
            if (room > ROOM)
                room = ROOM;
            one.refusal = ours->block_out(PARTS(one), one.memory, size, one.map, GROUPS, one.out, room, &one.bytes);
            two.refusal = theirs->block_out(PARTS(two), two.memory, size, two.map, GROUPS, two.out, room, &two.bytes);
            end("a block out of a card", theirs, state);
        }
}

/* A register that most often ends as it is to. */
static void choose(u8 *bytes, const struct calls *theirs)
{
    fill(bytes, 16);
    if (next() % 8 != 0)
        bytes[15] = (u8)(theirs->crc7(bytes, 15) << 1 | 1);
}

/* Memories of every allowed and refused kind of length, passwords of 0 to 18 bytes; some maps, registers and OCRs wrong. */
static void makes(const struct calls *ours, const struct calls *theirs)
{
    static const usize SIZES[] = {0, 1, 8191, 8192, 8193, 16384, LARGEST - GROUP, LARGEST, LARGEST + 1, LARGEST + GROUP};
    static const u32 OCRS[] = {0x00FF8000, 1, 0x00800000, 0xFFFFFFFF, 0xFF000000, 0};
    static u8 memory[LARGEST + GROUP], map[LARGEST / GROUP + 2];
    for (usize s = 0; s < COUNT(SIZES); s++)
        for (usize length = 0; length <= 18; length++)
            for (int turn = 0; turn < 60; turn++) {
                u8 cid[16], csd[16];
                usize size = SIZES[s], groups = next() % 8 ? size / GROUP : size / GROUP + next() % 2;
                usize entry = next() % (size / GROUP + 2);
                u32 ocr = ANY(OCRS);
                begin(next() % STATES);
                choose(cid, theirs);
                choose(csd, theirs);
                fill(input, 18);
                map[entry] = next() % 4 ? next() % 2 : (u8)next();
                one.refusal = ours->make(PARTS(one), cid, csd, ocr, input, length, memory, size, map, groups);
                two.refusal = theirs->make(PARTS(two), cid, csd, ocr, input, length, memory, size, map, groups);
                end("a card made", theirs, (u32)size);
                map[entry] = 0;
            }
}

static void moves(const struct calls *ours, const struct calls *theirs)
{
    for (u32 state = 0; state < STATES; state++)
        for (int turn = 0; turn < 500; turn++) {
            begin(state);
            ours->power_on(PARTS(one));
            theirs->power_on(PARTS(two));
            end("power-on", theirs, state);
            begin(state);
            ours->work_done(PARTS(one));
            theirs->work_done(PARTS(two));
            end("work done", theirs, state);
        }
}

void compare_card(const struct calls *ours, const struct calls *theirs)
{
    fill(start.memory, sizeof start.memory);
    fill(start.out, sizeof start.out);
    fill(start.answer, sizeof start.answer);
    start.bytes = next();
    start.map[GROUPS] = start.map[GROUPS + 1] = 1;
    frames(ours, theirs);
    blocks_in(ours, theirs);
    blocks_out(ours, theirs);
    makes(ours, theirs);
    moves(ours, theirs);
}
