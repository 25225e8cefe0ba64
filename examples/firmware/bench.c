/* A bench tester that has only SPI pins, as its C firmware would have it: it brings a card into SPI, reads its CSD, sets the block length, writes
   a block and reads it back, asks how the write went, and switches the checking of CRCs on; it locks the card, and a handheld opens it with a
   short block. Each exchange is told in plain words and checked; the program ends with 1 if one is not as expected. */
#include "mmc.h"

/* The kit has no headers: what is taken from the C library is declared here. */
int printf(const char *format, ...);
int memcmp(const void *a, const void *b, unsigned long length);
void *memset(void *to, int byte, unsigned long length);

enum { GROUP = 8192, GROUPS = 8, SIZE = GROUPS * GROUP, SECTOR = 512, BLOCK = 1 + SECTOR + 2 };
enum { OCR = 0x00FF8000, TEST_AT = 0x2200, HIGH = 0, LOW = 1 };

/* R1's bits, and no data response. */
enum { READY = 0x00, IDLE = 0x01, ILLEGAL = 0x04, CRC_WRONG = 0x08, LENGTH_WRONG = 0x40, NONE = 0x100 };

/* The card under test, with the memory and the map that it is lent. */
static unsigned char memory[SIZE], map[GROUPS];
static struct mmc_card card;

static const unsigned char NOTHING[1];

static int wrong;

/* A check that is told only where it fails, and one that is told either way. */
static void check(int holds, const char *what)
{
    if (!holds) {
        printf("    NOT AS EXPECTED: %s\n", what);
        wrong = 1;
    }
}

static void expect(int holds, const char *what)
{
    if (holds)
        printf("    %s\n", what);
    check(holds, what);
}

/* A register of 16 bytes from its first 15: CID and CSD end in the CRC7 of these, then a 1. */
static void close_register(unsigned char *bytes)
{
    bytes[15] = (unsigned char)(mmc_crc7(bytes, 15) << 1 | 1);
}

static void show(const unsigned char *bytes, unsigned long length)
{
    printf("    on the pins:");
    for (unsigned long i = 0; i < length; i++)
        printf(" %02X", (unsigned)bytes[i]);
    printf("%s\n", length == 0 ? " nothing" : "");
}

/* Six bytes to the card, with its select line high or low. The card is to answer this number, and to send `length` bytes, the same as `expected`. */
static void send_frame(const unsigned char *frame, unsigned int selected, unsigned char number, const unsigned char *expected, unsigned long length)
{
    unsigned char answer[MMC_ANSWER];
    unsigned long sent;
    check(mmc_card_frame_on_pins(&card, selected, frame, 6, memory, SIZE, map, GROUPS, answer, &sent) == number, "the frame's number");
    show(answer, sent);
    check(sent == length && memcmp(answer, expected, length) == 0, "that is the answer of document 02");
}

static void ask(const char *says, unsigned char index, unsigned int argument, const unsigned char *expected, unsigned long length)
{
    unsigned char frame[6];
    printf("%s: CMD%u\n", says, (unsigned)index);
    check(mmc_write_command(index, argument, frame, sizeof frame) == 0, "the tester's frame is written");
    send_frame(frame, LOW, 0, expected, length);
}

/* The same where R1 is expected. */
static void ask_r1(const char *says, unsigned char index, unsigned int argument, unsigned char r1)
{
    ask(says, index, argument, &r1, 1);
}

/* A command with one bit of its CRC7 flipped, which is to get this number and this R1. */
static void ask_damaged(const char *says, unsigned char index, unsigned int argument, unsigned char number, unsigned char r1)
{
    unsigned char frame[6];
    printf("%s: CMD%u\n", says, (unsigned)index);
    check(mmc_write_command(index, argument, frame, sizeof frame) == 0, "the tester's frame is written");
    frame[5] ^= 0x10;
    send_frame(frame, LOW, number, &r1, 1);
}

static void make_card(const unsigned char *cid, const unsigned char *csd)
{
    printf("A card over %u bytes of memory, with no password, is put on the bench\n", (unsigned)SIZE);
    memset(memory, 0xFF, sizeof memory);
    expect(mmc_card_make(&card, cid, csd, OCR, NOTHING, 0, memory, SIZE, map, GROUPS) == 0, "the card is made");
    expect(card.numbers.mode == 0, "it is in MMC mode");
}

static void enter_spi(void)
{
    static const unsigned char R3[5] = {READY, 0x80, 0xFF, 0x80, 0x00};
    ask_r1("The tester pulls the select line low and resets the card", 0, 0, IDLE);
    expect(card.numbers.mode == MMC_SPI && card.numbers.state == MMC_IDLE, "the card is in SPI and in Idle, and checks no CRCs");
    ask_r1("It would read a block, too early", 17, TEST_AT, ILLEGAL | IDLE);
    ask_r1("It starts the card", 1, 0, READY);
    expect(card.numbers.state == MMC_TRAN, "the card waits for commands");
    ask("It asks for the voltages", 58, 0, R3, sizeof R3);
}

static void speak_to_another(void)
{
    struct mmc_card before = card;
    unsigned char frame[6];
    printf("It lets the line go high, and resets another card on the same pins: CMD0\n");
    check(mmc_write_command(0, 0, frame, sizeof frame) == 0, "the tester's frame is written");
    send_frame(frame, HIGH, 0, NOTHING, 0);
    expect(memcmp(&card, &before, sizeof card) == 0, "this card is as it was");
}

/* A block out of the card is to be the start byte, these bytes, and their CRC16. */
static void receive(const unsigned char *payload, unsigned long length)
{
    unsigned char block[BLOCK];
    unsigned long written;
    expect(mmc_card_block_out(&card, memory, SIZE, map, GROUPS, block, sizeof block, &written) == 0, "the card sends a block");
    check(written == 1 + length + 2 && block[0] == MMC_START, "it begins with FE, and has the length that was asked for");
    expect(mmc_check_block(block + 1, written - 1) == 0, "its CRC16 is right");
    check(memcmp(block + 1, payload, length) == 0, "it holds what it is to hold");
    expect(card.numbers.state == MMC_TRAN, "the card waits for the next command");
}

static void read_csd(const unsigned char *csd)
{
    ask_r1("It asks for the CSD", 9, 0, READY);
    expect(card.numbers.state == MMC_DATA_CSD, "the card is to send it");
    receive(csd, 16);
    printf("    the CSD says a memory of %u groups of 8,192 bytes\n", 1 + (unsigned)(csd[6] << 10 & 0xC00) + (csd[7] << 2) + (csd[8] >> 6));
}

/* A block into the card, its CRC16 as it is to be or with a bit flipped. The card is to answer this number and this data response, or NONE. */
static void give(const unsigned char *payload, unsigned long length, unsigned char start, unsigned char flip, unsigned char number, unsigned int response)
{
    unsigned char block[BLOCK], byte;
    unsigned long sent;
    block[0] = start;
    check(mmc_write_block(payload, length, block + 1, BLOCK - 1) == 0, "the tester's block is written");
    block[length + 2] ^= flip;
    check(mmc_card_block_in_on_pins(&card, block, length + 3, memory, SIZE, map, GROUPS, &byte, &sent) == number, "the block's number");
    show(&byte, sent);
    check(sent == (response != NONE) && (sent == 0 || byte == response), "that is the data response of document 02");
}

/* R2 is expected: R1's byte, and a second one. */
static void ask_status(const char *says, unsigned char first, unsigned char second)
{
    unsigned char r2[2] = {first, second};
    ask(says, 13, 0, r2, sizeof r2);
}

/* Blocks have 2,048 bytes after a reset, and a written one has 512: the tester has to say so first. */
static void set_length(void)
{
    expect(card.numbers.length == 2048, "the card's blocks have 2,048 bytes");
    ask_r1("It would write a block straight away: the length is wrong", 24, TEST_AT, LENGTH_WRONG);
    ask_r1("It sets blocks of 512 bytes", 16, SECTOR, READY);
}

static void write_block(const unsigned char *pattern)
{
    ask_r1("It is about to write a block", 24, TEST_AT, READY);
    printf("It sends FE, 512 bytes and their CRC16\n");
    give(pattern, SECTOR, MMC_START, 0, 0, MMC_ACCEPTED);
    expect(memcmp(memory + TEST_AT, pattern, SECTOR) == 0, "the card accepts the block, and its memory holds it, byte for byte");
    expect(card.numbers.state == MMC_PRG, "the card is busy");
    ask_status("It asks how the write went", 0x00, 0x00);
    mmc_card_work_done(&card);
    expect(card.numbers.state == MMC_TRAN, "the card's work is done");
}

static void read_block(const unsigned char *pattern)
{
    ask_r1("It reads the block back", 17, TEST_AT, READY);
    receive(pattern, SECTOR);
}

static void check_crcs(const unsigned char *pattern)
{
    ask_damaged("It sends a command with a wrong CRC7, which the card does not look at", 16, SECTOR, 0, READY);
    ask_r1("It switches the checking of CRCs on", 59, 1, READY);
    expect(card.numbers.mode == (MMC_SPI | MMC_CHECKS), "the card checks CRCs");
    ask_damaged("It sends the same command again: refused 3, and R1 says so", 16, SECTOR, 3, CRC_WRONG);
    ask_r1("It is about to write a block", 24, TEST_AT, READY);
    printf("It sends the block with a wrong CRC16: refused 17\n");
    give(pattern, SECTOR, MMC_START, 1, 17, MMC_CRC_WRONG);
    ask_r1("It tries again", 24, TEST_AT, READY);
    printf("It sends the block with another start byte: refused 16, with no data response\n");
    give(pattern, SECTOR, 0xFC, 0, 16, NONE);
    ask_status("It asks how the write went: the length was wrong", LENGTH_WRONG, 0x00);
    ask_status("It asks again: it was told", 0x00, 0x00);
}

static void protect_block(const unsigned char *pattern)
{
    unsigned char zeros[SECTOR] = {0};
    ask_r1("It protects the block's group", 28, TEST_AT, READY);
    mmc_card_work_done(&card);
    ask_r1("It is about to write over the block", 24, TEST_AT, READY);
    printf("It sends zeros: refused 19, with no data response\n");
    give(zeros, SECTOR, MMC_START, 0, 19, NONE);
    expect(memcmp(memory + TEST_AT, pattern, SECTOR) == 0, "the block is as it was");
    ask_status("It asks how the write went: it broke the protection", 0x00, 0x20);
    ask_r1("It would read block after block, which SPI does not have", 18, TEST_AT, ILLEGAL);
}

/* A lock request with the password GOANNA7: its first byte says which. */
static void request(const char *says, unsigned char first)
{
    const unsigned char payload[9] = {first, 7, 'G', 'O', 'A', 'N', 'N', 'A', '7'};
    ask_r1("It sets blocks of 9 bytes, as its lock request has", 16, sizeof payload, READY);
    ask_r1(says, 42, 0, READY);
    printf("It sends FE, 9 bytes and their CRC16\n");
    give(payload, sizeof payload, MMC_START, 0, 0, MMC_ACCEPTED);
    mmc_card_work_done(&card);
}

/* A locked card takes CMD16, so that its lock request need not have the 2,048 bytes of a reset. */
static void lock_and_open(void)
{
    request("It sets a password and locks the card", 5);
    expect(card.numbers.locked == 1, "the card is locked");
    ask_r1("A handheld resets it", 0, 0, IDLE);
    ask_r1("It starts the card", 1, 0, READY);
    expect(card.numbers.locked == 1 && card.numbers.length == 2048, "it is locked still, and its blocks have 2,048 bytes");
    ask_r1("The handheld would read a block: R1 has no place for what the lock says", 17, 0, READY);
    ask_status("It asks how that went: the card is locked, and the command failed for it", 0x00, 0x03);
    ask_r1("It sets blocks of 0 bytes: the length is wrong, and the lock says nothing", 16, 0, LENGTH_WRONG);
    request("It unlocks the card", 0);
    expect(card.numbers.locked == 0 && card.numbers.length == 9, "the card is open, and its blocks have 9 bytes still");
}

static void leave_spi(void)
{
    unsigned char frame[6];
    printf("The card loses its power and has it again\n");
    mmc_card_power_on(&card);
    expect(card.numbers.mode == 0 && card.numbers.state == MMC_IDLE, "it is in MMC mode and in Idle");
    printf("A dock resets it, with the select line high: CMD0\n");
    check(mmc_write_command(0, 0, frame, sizeof frame) == 0, "the dock's frame is written");
    send_frame(frame, HIGH, 0, NOTHING, 0);
    expect(card.numbers.mode == 0, "it is in MMC mode still");
}

int main(void)
{
    unsigned char cid[16] = {0x0C, 'P', 'O', 'B', 'E', 'N', 'C', 'H', '1', 0x10, 0x00, 0x00, 0x00, 0x01, 0xB1}, pattern[SECTOR];
    unsigned char csd[16] = {0x48, 0x0E, 0x01, 0x2A, 0x0F, 0x5B, 0x80, 0x01, 0xEC, 0xB0, 0x00, 0xE1, 0x8A, 0x40, 0x00};
    close_register(cid);
    close_register(csd);
    for (unsigned i = 0; i < SECTOR; i++)
        pattern[i] = (unsigned char)(i * 7);
    make_card(cid, csd);
    enter_spi();
    speak_to_another();
    read_csd(csd);
    set_length();
    write_block(pattern);
    read_block(pattern);
    check_crcs(pattern);
    protect_block(pattern);
    lock_and_open();
    leave_spi();
    printf("%s\n", wrong ? "Something was NOT as expected" : "Everything was as expected");
    return wrong;
}
