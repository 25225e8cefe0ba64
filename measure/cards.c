/* What is measured at one card: for each work its record, and what goes in. Where a record is in SPI the select line is low. */
#include "measure.h"
#include "plain_card.h"

enum { SMALL = 16384, LARGE = 33554432 };

/* A call at a card: a make, power-on, work done, a frame of an index and an argument, a block in, a block out. */
enum call { MAKE_CALL, POWER_ON_CALL, WORK_DONE_CALL, FRAME, BLOCK_IN, BLOCK_OUT };
struct at_card {
    const char *name;
    enum call call;
    struct mmc_numbers card;
    u32 argument;
    u32 index;
    /* What is to follow: the state, how many bytes are sent, the refusal. */
    u32 next;
    usize bytes;
    u8 refusal;
};
/* A card of address 1 and no password, in a state, with a block length, of so many protection groups. */
#define CARD(s, n, g, ...) {.state = s, .address = 1, .length = n, .groups = g, .ocr = 0x00FF8000, __VA_ARGS__}
#define OWN 0x00010000

static const struct at_card WORK[WORKS - CARD_FIRST] = {
    {"make", MAKE_CALL, CARD(INA, 512, 2, .at = 0), 0, 0, IDLE, 0, 0},
    {"power-on", POWER_ON_CALL, CARD(TRAN, 512, 2, .at = 0), 0, 0, IDLE, 0, 0},
    {"work done", WORK_DONE_CALL, CARD(PRG, 512, 2, .at = 0), 0, 0, TRAN, 0, 0},
    {"CMD1 in idle", FRAME, CARD(IDLE, 512, 2, .at = 0), 0x00FF8000, 1, READY, 6, 0},
    {"CMD2 in ready", FRAME, CARD(READY, 512, 2, .at = 0), 0, 2, IDENT, 17, 0},
    {"CMD13 in stby", FRAME, CARD(STBY, 512, 2, .at = 0), OWN, 13, STBY, 6, 0},
    {"CMD13, 4,096 groups", FRAME, CARD(STBY, 512, 4096, .at = 0), OWN, 13, STBY, 6, 0},
    {"CMD7 in stby", FRAME, CARD(STBY, 512, 2, .at = 0), OWN, 7, TRAN, 6, 0},
    {"CMD9 in stby", FRAME, CARD(STBY, 512, 2, .at = 0), OWN, 9, STBY, 17, 0},
    {"CMD16", FRAME, CARD(TRAN, 512, 2, .at = 0), 2048, 16, TRAN, 6, 0},
    {"CMD16, locked", FRAME, CARD(TRAN, 2048, 2, .locked = 1), 18, 16, TRAN, 6, 0},
    {"CMD17", FRAME, CARD(TRAN, 512, 2, .at = 0), 512, 17, DATA_ONE, 6, 0},
    {"CMD24", FRAME, CARD(TRAN, 512, 2, .at = 0), 512, 24, RCV_ONE, 6, 0},
    {"CMD28", FRAME, CARD(TRAN, 512, 2, .at = 0), 8192, 28, PRG, 6, 0},
    {"CMD32", FRAME, CARD(TRAN, 512, 2, .at = 0), 512, 32, TRAN, 6, 0},
    {"CMD38, an erase group", FRAME, CARD(TRAN, 512, 2, .tags = 4, .first = 1, .last = 1), 0, 38, PRG, 6, 0},
    {"CMD42", FRAME, CARD(TRAN, 512, 2, .at = 0), 0, 42, RCV_LOCK, 6, 0},
    {"illegal, CMD17 in rcv", FRAME, CARD(RCV_ONE, 512, 2, .at = 512), 512, 17, RCV_ONE, 0, 0},
    {"CMD13, CRC7 wrong", FRAME, CARD(STBY, 512, 2, .at = 0), OWN, 13, STBY, 0, FRAME_CRC},
    {"CMD0", FRAME, CARD(TRAN, 512, 2, .at = 0), 0, 0, IDLE, 0, 0},
    {"refused 12", FRAME, CARD(STBY, 512, 3, .at = 0), OWN, 13, STBY, 0, LENT},
    {"512 bytes written", BLOCK_IN, CARD(RCV_ONE, 512, 2, .at = 512), 0, 0, PRG, 0, 0},
    {"2,048 bytes read", BLOCK_OUT, CARD(DATA_ONE, 2048, 2, .at = 2048), 0, 0, TRAN, 2050, 0},
    {"password set", BLOCK_IN, CARD(RCV_LOCK, 16, 2, .at = 0), 0, 0, PRG, 0, 0},
    {"SPI, CMD0", FRAME, CARD(TRAN, 512, 2, .mode = SPI), 0, 0, IDLE, 1, 0},
    {"SPI, CMD13", FRAME, CARD(TRAN, 512, 2, .mode = SPI), 0, 13, TRAN, 2, 0},
    {"SPI, CMD17", FRAME, CARD(TRAN, 512, 2, .mode = SPI), 512, 17, DATA_ONE, 1, 0},
    {"SPI, CMD9", FRAME, CARD(TRAN, 512, 2, .mode = SPI), 0, 9, DATA_CSD, 1, 0},
    {"SPI, illegal, CMD18", FRAME, CARD(TRAN, 512, 2, .mode = SPI), 512, 18, TRAN, 1, 0},
    {"SPI, CRC7 wrong", FRAME, CARD(TRAN, 512, 2, .mode = SPI | CHECKS), 0, 13, TRAN, 1, FRAME_CRC},
    {"SPI, 512 written", BLOCK_IN, CARD(RCV_ONE, 512, 2, .at = 512, .mode = SPI), 0, 0, PRG, 1, 0},
    {"SPI, 512 with CRC", BLOCK_IN, CARD(RCV_ONE, 512, 2, .at = 512, .mode = SPI | CHECKS), 0, 0, PRG, 1, 0},
    {"SPI, 2,048 read", BLOCK_OUT, CARD(DATA_ONE, 2048, 2, .at = 2048, .mode = SPI), 0, 0, TRAN, 2051, 0},
};

static _Alignas(64) u8 memory[LARGE], map[LARGE / GROUP], out[2051], frames[WORKS - CARD_FIRST][6], block[514], started[515], request[18];
static u8 cid[REGISTER], csd[REGISTER], answer[MMC_ANSWER];
static struct mmc_card card;
/* What the call performed last answered, and how many bytes it sent or wrote. */
static u8 refusal;
static usize bytes_out;

const char *card_work(enum work work)
{
    return WORK[work - CARD_FIRST].name;
}

void prepare_card(const struct calls *calls)
{
    static const u8 SET[16] = {1, 6, 't', 'r', 'u', 'c', 'k', '7'};
    u8 bytes[512];
    fill(bytes, sizeof bytes);
    for (int w = 0; w < WORKS - CARD_FIRST; w++)
        calls->write_command((u8)WORK[w].index, WORK[w].argument, frames[w], 6);
    frames[CMD13_CRC - CARD_FIRST][5] ^= 2;
    frames[SPI_CMD13_CRC - CARD_FIRST][5] ^= 2;
    calls->write_block(bytes, sizeof bytes, block, sizeof block);
    started[0] = START_BYTE;
    memcpy(started + 1, block, sizeof block);
    calls->write_block(SET, sizeof SET, request, sizeof request);
    memcpy(cid, bytes, REGISTER - 1);
    cid[REGISTER - 1] = (u8)(calls->crc7(cid, REGISTER - 1) << 1 | 1);
    csd[REGISTER - 1] = 1;
    memcpy(card.cid, cid, REGISTER);
    memcpy(card.csd, csd, REGISTER);
}

/* Every row begins with the same CID and CSD and no password. */
void perform_card(const struct calls *calls, enum work work)
{
    const struct at_card *at = &WORK[work - CARD_FIRST];
    usize size = at->card.groups > 3 ? LARGE : SMALL;
    u32 selected = at->card.mode & SPI;
    struct mmc_numbers *numbers = &card.numbers;
    *numbers = at->card;
    refusal = 0;
    bytes_out = 0;
    switch (at->call) {
    case MAKE_CALL:
        refusal = calls->make(numbers, card.cid, card.csd, card.password, cid, csd, at->card.ocr, out, 0, memory, size, map, size / GROUP);
        break;
    case POWER_ON_CALL:
        calls->power_on(numbers, card.cid, card.csd, card.password);
        break;
    case WORK_DONE_CALL:
        calls->work_done(numbers, card.cid, card.csd, card.password);
        break;
    case FRAME:
        refusal = calls->frame(numbers, card.cid, card.csd, card.password, 1, selected, frames[work - CARD_FIRST], 6, memory, size, map,
                               size / GROUP, answer, &bytes_out);
        break;
    case BLOCK_IN:
        if (work == LOCK_REQUEST)
            refusal = calls->block_in(numbers, card.cid, card.csd, card.password, request, sizeof request, memory, size, map, size / GROUP,
                                      answer, &bytes_out);
        else
            refusal = calls->block_in(numbers, card.cid, card.csd, card.password, selected ? started : block, sizeof block + selected, memory,
                                      size, map, size / GROUP, answer, &bytes_out);
        break;
    case BLOCK_OUT:
        refusal = calls->block_out(numbers, card.cid, card.csd, card.password, memory, size, map, size / GROUP, out, sizeof out, &bytes_out);
        break;
    }
}

/* That the work did what its name says. */
int performed(enum work work)
{
    const struct at_card *at = &WORK[work - CARD_FIRST];
    return refusal == at->refusal && card.numbers.state == at->next && bytes_out == at->bytes;
}

void *card_code(const struct calls *calls, enum work work)
{
    void *const code[] = {(void *)calls->make,  (void *)calls->power_on, (void *)calls->work_done,
                          (void *)calls->frame, (void *)calls->block_in, (void *)calls->block_out};
    return code[WORK[work - CARD_FIRST].call];
}
