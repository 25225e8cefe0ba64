/* The stack that a card's calls take. The stack below the caller is filled with one byte before a call: from the caller's stack pointer down to
   the lowest byte that changed is what the call took, its arguments and its return address among them, and those of the 128 bytes under the
   last stack pointer that were used. */
#include "mmc.h"

int printf(const char *format, ...);

enum { GROUP = 8192, GROUPS = 4096, SIZE = GROUPS * GROUP, STACK = 32768, PAINT = 0xA5 };
enum { OCR = 0x00FF8000, ADDRESS = 0x00010000 };

static unsigned char memory[SIZE], map[GROUPS];
static struct mmc_card card;
static unsigned char frame[6], block[2050], answer[MMC_ANSWER], cid[16], csd[16];
static unsigned long length, sent, refusal;

enum call { MAKE, POWER_ON, WORK_DONE, FRAME, BLOCK_IN, BLOCK_OUT };

/* What is called: the call, the record's state and tags, a command's index and argument or a block's first bytes, and the expected answer. */
struct situation {
    const char *name;
    enum call call;
    unsigned int state, tags, index, argument;
    unsigned char block[4];
    unsigned long refusal;
};
static const struct situation SITUATIONS[] = {
    {"make", MAKE, 0, 0, 0, 0, {0}, 0},
    {"power-on", POWER_ON, MMC_TRAN, 0, 0, 0, {0}, 0},
    {"work done", WORK_DONE, MMC_PRG, 0, 0, 0, {0}, 0},
    {"frame, CMD2", FRAME, MMC_READY, 0, 2, 0, {0}, 0},
    {"frame, CMD13", FRAME, MMC_STBY, 0, 13, ADDRESS, {0}, 0},
    {"frame, CMD17", FRAME, MMC_TRAN, 0, 17, 512, {0}, 0},
    {"frame, CMD28", FRAME, MMC_TRAN, 0, 28, GROUP, {0}, 0},
    {"frame, CMD33", FRAME, MMC_TRAN, MMC_TAGS_SECTOR_START, 33, 512, {0}, 0},
    {"frame, CMD38", FRAME, MMC_TRAN, MMC_TAGS_GROUPS, 38, 0, {0}, 0},
    {"frame, refused 3", FRAME, MMC_TRAN, 0, 13, ADDRESS, {0}, 3},
    {"block in, stored", BLOCK_IN, MMC_RCV_ONE, 0, 0, 0, {0}, 0},
    {"block in, password set", BLOCK_IN, MMC_RCV_LOCK, 0, 0, 0, {1, 2, 'a', 'b'}, 0},
    {"block in, refused 20", BLOCK_IN, MMC_RCV_LOCK, 0, 0, 0, {2, 2, 'a', 'b'}, 20},
    {"block out", BLOCK_OUT, MMC_DATA_ONE, 0, 0, 0, {0}, 0},
    {"block out, CMD30", BLOCK_OUT, MMC_DATA_PROTECTION, 0, 0, 0, {0}, 0},
};

static unsigned long perform(const struct situation *s)
{
    volatile unsigned char *here;
    __asm__ volatile("movq %%rsp, %0" : "=r"(here));
    for (long i = 1; i <= STACK; i++)
        here[-i] = PAINT;
    switch (s->call) {
    case MAKE:
        refusal = mmc_card_make(&card, cid, csd, OCR, (const unsigned char *)"password", 8, memory, SIZE, map, GROUPS);
        break;
    case POWER_ON:
        mmc_card_power_on(&card);
        break;
    case WORK_DONE:
        mmc_card_work_done(&card);
        break;
    case FRAME:
        refusal = mmc_card_frame(&card, frame, sizeof frame, memory, SIZE, map, GROUPS, answer, &sent);
        break;
    case BLOCK_IN:
        refusal = mmc_card_block_in(&card, block, length, memory, SIZE, map, GROUPS);
        break;
    case BLOCK_OUT:
        refusal = mmc_card_block_out(&card, memory, SIZE, map, GROUPS, block, sizeof block, &sent);
        break;
    }
    long lowest = STACK;
    while (lowest > 0 && here[-lowest] == PAINT)
        lowest--;
    return (unsigned long)lowest;
}

static int prepare(const struct situation *s)
{
    unsigned char payload[512] = {0};
    refusal = 0;
    length = sizeof payload + 2;
    for (int i = 0; i < 4; i++)
        payload[i] = s->block[i];
    int bad = mmc_card_make(&card, cid, csd, OCR, (const unsigned char *)"", 0, memory, SIZE, map, GROUPS) != 0;
    bad |= mmc_write_command((unsigned char)s->index, s->argument, frame, sizeof frame) != 0;
    bad |= mmc_write_block(payload, sizeof payload, block, length) != 0;
    /* As CMD16 sets it: a made card has blocks of 2,048 bytes. */
    card.numbers.length = sizeof payload;
    card.numbers.state = s->state;
    card.numbers.tags = s->tags;
    card.numbers.last = 1;
    if (s->call == FRAME && s->refusal == 3)
        frame[3] ^= 1;
    return !bad;
}

/* The bytes of stack that a situation takes, or 0 where it did not do what its name says. */
static unsigned long taken(const struct situation *s)
{
    if (!prepare(s))
        return 0;
    unsigned long n = perform(s);
    return refusal == s->refusal && n < STACK ? n : 0;
}

int main(void)
{
    unsigned long most = 0;
    cid[15] = csd[15] = 1;
    printf("Bytes of stack, a call each, below the stack pointer of the function that makes the call\n");
    for (unsigned i = 0; i < sizeof SITUATIONS / sizeof SITUATIONS[0]; i++) {
        unsigned long n = taken(&SITUATIONS[i]);
        if (n == 0) {
            printf("%s: not as expected\n", SITUATIONS[i].name);
            return 1;
        }
        printf("    %-24s %6lu\n", SITUATIONS[i].name, n);
        most = n > most ? n : most;
    }
    printf("    %-24s %6lu\n", "at most", most);
    return 0;
}
