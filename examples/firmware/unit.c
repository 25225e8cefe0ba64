/* One night of one unit, as its C firmware would have it: the unit makes its card over 32 MiB, the dock finds it, sets the block length, writes
   a block of a shift log and reads it back; then what a host may stumble on (docs/HOSTS.md). Each step is told in plain words and checked; the
   program ends with 1 if one is not as expected. */
#include "mmc.h"

/* The kit has no headers: what is taken from the C library is declared here. */
int printf(const char *format, ...);
int memcmp(const void *a, const void *b, unsigned long length);
void *memcpy(void *to, const void *from, unsigned long length);
void *memset(void *to, int byte, unsigned long length);

enum { GROUP = 8192, GROUPS = 4096, SIZE = GROUPS * GROUP, SECTOR = 512, BLOCK = SECTOR + 2, LONGEST = 2048 };
enum { OCR = 0x00FF8000, ADDRESS = 1, LOG_AT = 0x1000 };

/* The unit owns all of it and lends it to each call. There is one group more than a card may have, for the make that is refused. */
static unsigned char memory[SIZE + GROUP], map[GROUPS + 1];
static struct mmc_card card;

/* No bytes: where nothing is expected on the line, and for no password. */
static const unsigned char NOTHING[1];

static int wrong;

/* A check that is told only where it fails, and one that is told either way. */
static void check(int holds, const char *what)
{
    if (!holds) {
        printf("    NOT AS EXPECTED: %s\n", what);
        wrong = 1;
    }
}

static void expect(int holds, const char *what)
{
    if (holds)
        printf("    %s\n", what);
    check(holds, what);
}

/* A register of 16 bytes from its first 15: CID and CSD end in the CRC7 of these, then a 1. */
static void close_register(unsigned char *bytes)
{
    bytes[15] = (unsigned char)(mmc_crc7(bytes, 15) << 1 | 1);
}

/* The CSD of a card over so many bytes, a multiple of 8,192 up to 33,554,432: docs/HOSTS.md has it field by field. */
static void make_csd(unsigned char *csd, unsigned int size)
{
    static const unsigned char FIELDS[16] = {0x48, 0x0E, 0x01, 0x2A, 0x0F, 0x5B, 0x80, 0x00, 0x2C, 0xB0, 0x00, 0xE1, 0x8A, 0x40, 0x00, 0x00};
    unsigned int c_size = size / GROUP - 1;
    memcpy(csd, FIELDS, sizeof FIELDS);
    csd[6] |= (unsigned char)(c_size >> 10);
    csd[7] = (unsigned char)(c_size >> 2);
    csd[8] |= (unsigned char)(c_size << 6);
    close_register(csd);
}

/* The dock sends a command. What the card sends back is to be `length` bytes, the same as `expected`. */
static void ask(const char *says, unsigned char index, unsigned int argument, const unsigned char *expected, unsigned long length)
{
    unsigned char frame[6], answer[MMC_ANSWER], heard;
    unsigned int of;
    unsigned long sent;
    printf("%s: CMD%u\n", says, (unsigned)index);
    check(mmc_write_command(index, argument, frame, sizeof frame) == 0, "the dock's frame is written");
    check(mmc_read_frame(frame, sizeof frame, &heard, &of) == 0 && heard == index && of == argument, "the unit reads the same command");
    check(mmc_card_frame(&card, frame, sizeof frame, memory, SIZE, map, GROUPS, answer, &sent) == 0, "the card takes the frame");
    printf("    on the line:");
    for (unsigned long i = 0; i < sent; i++)
        printf(" %02X", (unsigned)answer[i]);
    printf("%s\n", sent == 0 ? " nothing" : "");
    check(sent == length && memcmp(answer, expected, length) == 0, "that is the answer of document 01");
}

/* The same where R1 with this status is expected. */
static void ask_status(const char *says, unsigned char index, unsigned int argument, unsigned int status)
{
    unsigned char r1[6] = {index, (unsigned char)(status >> 24), (unsigned char)(status >> 16), (unsigned char)(status >> 8), (unsigned char)status, 0};
    r1[5] = (unsigned char)(mmc_crc7(r1, 5) << 1 | 1);
    ask(says, index, argument, r1, sizeof r1);
}

static void make_card(const unsigned char *cid, const unsigned char *csd)
{
    printf("The unit makes its card over %u bytes of memory, with no password\n", (unsigned)SIZE);
    memset(memory, 0xFF, sizeof memory);
    expect(mmc_card_make(&card, cid, csd, OCR, NOTHING, 0, memory, SIZE, map, GROUPS) == 0, "the card is made");
    expect(card.numbers.state == MMC_IDLE && card.numbers.groups == GROUPS && card.numbers.locked == 0, "it is in Idle, has 4,096 groups, and is not locked");
    expect(card.numbers.length == LONGEST, "its blocks have 2,048 bytes");
}

static void find_card(const unsigned char *cid, const unsigned char *csd)
{
    static const unsigned char R3[6] = {0x3F, 0x80, 0xFF, 0x80, 0x00, 0xFF};
    unsigned char r2[17] = {0x3F}, specifics[17] = {0x3F};
    memcpy(r2 + 1, cid, 16);
    memcpy(specifics + 1, csd, 16);
    ask("The dock sends every card to Idle", 0, 0, NOTHING, 0);
    ask("It asks for the voltages, and offers none", 1, 0, R3, sizeof R3);
    expect(card.numbers.state == MMC_IDLE, "that was a question: the card is still in Idle");
    ask("It asks who is there, too early", 2, 0, NOTHING, 0);
    ask("It asks who works at its voltage", 1, OCR, R3, sizeof R3);
    ask("It asks again", 1, OCR, NOTHING, 0);
    ask("It asks who is there", 2, 0, r2, sizeof r2);
    ask_status("It gives the card address 1", 3, ADDRESS << 16, 0x00000500);
    ask("It asks for the card's CSD", 9, ADDRESS << 16, specifics, sizeof specifics);
    ask_status("It selects the card", 7, ADDRESS << 16, 0x00000700);
}

/* After a reset, CMD0 here, blocks have 2,048 bytes: a dock reads such a block straight away, and before it writes it has to set 512. */
static void set_length(void)
{
    static unsigned char block[LONGEST + 2];
    unsigned long written;
    ask_status("The dock reads a block", 17, 0, 0x00000900);
    expect(mmc_card_block_out(&card, memory, SIZE, map, GROUPS, block, sizeof block, &written) == 0 && written == sizeof block, "the card sends 2,048 bytes and their CRC16");
    ask_status("It would read one from 512 on, over the border at 2,048: bit 30", 17, SECTOR, 0x40000900);
    ask_status("It would write one straight away: bit 29", 24, LOG_AT, 0x20000900);
    ask_status("Or many: bit 29", 25, LOG_AT, 0x20000900);
    ask_status("It sets blocks of 512 bytes", 16, SECTOR, 0x00000900);
}

/* The dock sends 512 bytes and their CRC16; the card answers its number. */
static unsigned char send_block(const unsigned char *payload)
{
    unsigned char block[BLOCK];
    check(mmc_write_block(payload, SECTOR, block, sizeof block) == 0, "the dock's block is written");
    return mmc_card_block_in(&card, block, sizeof block, memory, SIZE, map, GROUPS);
}

static void finish_work(void)
{
    expect(card.numbers.state == MMC_PRG, "the card is busy");
    printf("The unit says that the work is done\n");
    mmc_card_work_done(&card);
    expect(card.numbers.state == MMC_TRAN, "the card waits for the next command");
}

static void write_log(const unsigned char *log)
{
    ask_status("The dock is about to write a block", 24, LOG_AT, 0x00000900);
    expect(card.numbers.state == MMC_RCV_ONE && card.numbers.at == LOG_AT, "the card awaits one block at that address");
    printf("It sends 512 bytes of the shift log and their CRC16\n");
    expect(send_block(log) == 0, "the card stores it");
    expect(memcmp(memory + LOG_AT, log, SECTOR) == 0, "the unit's memory holds it, byte for byte");
    finish_work();
}

static void read_log(const unsigned char *log)
{
    unsigned char block[BLOCK];
    unsigned long written;
    ask_status("The dock reads the block back", 17, LOG_AT, 0x00000900);
    expect(mmc_card_block_out(&card, memory, SIZE, map, GROUPS, block, sizeof block, &written) == 0, "the card sends it");
    expect(written == BLOCK, "it has 514 bytes");
    expect(mmc_check_block(block, written) == 0, "its CRC16 is right");
    expect(mmc_crc16(log, SECTOR) == (block[SECTOR] << 8 | block[SECTOR + 1]), "and that of the log, high byte first");
    expect(memcmp(block, log, SECTOR) == 0, "it is the shift log, byte for byte");
}

static void damage_a_frame(void)
{
    unsigned char frame[6], answer[MMC_ANSWER];
    unsigned long sent;
    printf("A frame is damaged on the line: one bit of CMD13 is flipped\n");
    check(mmc_write_command(13, ADDRESS << 16, frame, sizeof frame) == 0, "the dock's frame is written");
    frame[3] ^= 0x10;
    expect(mmc_card_frame(&card, frame, sizeof frame, memory, SIZE, map, GROUPS, answer, &sent) == 3 && sent == 0, "the card refuses it, 3, and is silent");
    ask_status("The dock asks again, and is told of the damage by bit 23", 13, ADDRESS << 16, 0x00800900);
    ask_status("And once more: it was told", 13, ADDRESS << 16, 0x00000900);
}

/* A protected group: a write to it shows as bit 26, an erase that spared it as bit 15, each in one R1 and in no other. */
static void protect_log(const unsigned char *log)
{
    unsigned char zeros[SECTOR] = {0};
    ask_status("The dock protects the log's group", 28, LOG_AT, 0x00000900);
    finish_work();
    ask_status("It writes over the log all the same", 24, LOG_AT, 0x00000900);
    expect(send_block(zeros) == 19 && memcmp(memory + LOG_AT, log, SECTOR) == 0, "the block is refused, 19, and the log is as it was");
    ask_status("The next R1 tells, by bit 26", 13, ADDRESS << 16, 0x04000900);
    ask_status("The one after does not", 13, ADDRESS << 16, 0x00000900);
    memset(memory + GROUP, 0, SECTOR);
    ask_status("It tags erase groups, from the first", 35, 0, 0x00000900);
    ask_status("to the third, which is in the next protection group", 36, GROUP, 0x00000900);
    ask_status("It erases them", 38, 0, 0x00000900);
    expect(memcmp(memory + LOG_AT, log, SECTOR) == 0 && memory[GROUP] == 0xFF, "the log is spared, the third group is erased");
    finish_work();
    ask_status("The R1 after the erase's tells, by bit 15", 13, ADDRESS << 16, 0x00008900);
}

static void stop_twice(const unsigned char *log)
{
    ask_status("The dock is about to write block after block", 25, 2 * GROUP, 0x00000900);
    expect(send_block(log) == 0 && card.numbers.at == 2 * GROUP + SECTOR, "the card stores one and awaits the next");
    ask_status("It stops", 12, 0, 0x00000D00);
    ask("It stops once more", 12, 0, NOTHING, 0);
    ask_status("That was illegal: the next R1 tells, by bit 22", 13, ADDRESS << 16, 0x00400E00);
    finish_work();
}

/* What a host asks that goes by a CSD of a later version, or by the read block of this one. */
static void misread_csd(void)
{
    ask("The dock tells how many blocks are to follow, as a card of version 3 could take it", 23, 1, NOTHING, 0);
    ask_status("This card has no such command: bit 22", 13, ADDRESS << 16, 0x00400900);
    ask_status("It sets blocks of 2,048 bytes, to read", 16, LONGEST, 0x00000900);
    ask_status("and would write such a block: bit 29", 24, 2 * GROUP, 0x20000900);
    ask_status("It sets 512 bytes again", 16, SECTOR, 0x00000900);
}

/* A record whose bytes were damaged: a state that carries no place has one, and the lock flag is no flag. */
static void damage_record(const unsigned char *payload)
{
    struct mmc_card damaged;
    printf("The unit's record of its card is damaged\n");
    card.numbers.at = 99;
    card.numbers.locked = 2;
    damaged = card;
    expect(send_block(payload) == 15 && memcmp(&card, &damaged, sizeof card) == 0, "a block is refused, 15, and leaves it byte for byte");
    ask_status("The card is locked, not open: bit 25", 13, ADDRESS << 16, 0x02000900);
    expect(card.numbers.at == 0 && card.numbers.locked == 2, "that was carried out: it wrote the link's numbers in their form, and the lock's stay as they are");
}

static void lose_power(const unsigned char *log)
{
    printf("The unit loses its power and has it again\n");
    mmc_card_power_on(&card);
    expect(card.numbers.state == MMC_IDLE && memcmp(memory + LOG_AT, log, SECTOR) == 0, "the card is in Idle, and the log is still in its memory");
    expect(card.numbers.length == LONGEST, "its blocks have 2,048 bytes again");
}

/* The CSDs of docs/HOSTS.md, each as `make_csd` has it, and good for a card over its memory; with another last byte it is refused, 9. */
static void make_each(const unsigned char *cid)
{
    static const struct {
        unsigned int size;
        unsigned char csd[16];
    } ROWS[] = {
        {8192, {0x48, 0x0E, 0x01, 0x2A, 0x0F, 0x5B, 0x80, 0x00, 0x2C, 0xB0, 0x00, 0xE1, 0x8A, 0x40, 0x00, 0xBB}},
        {65536, {0x48, 0x0E, 0x01, 0x2A, 0x0F, 0x5B, 0x80, 0x01, 0xEC, 0xB0, 0x00, 0xE1, 0x8A, 0x40, 0x00, 0x29}},
        {1048576, {0x48, 0x0E, 0x01, 0x2A, 0x0F, 0x5B, 0x80, 0x1F, 0xEC, 0xB0, 0x00, 0xE1, 0x8A, 0x40, 0x00, 0xA3}},
        {8388608, {0x48, 0x0E, 0x01, 0x2A, 0x0F, 0x5B, 0x80, 0xFF, 0xEC, 0xB0, 0x00, 0xE1, 0x8A, 0x40, 0x00, 0xE9}},
        {16777216, {0x48, 0x0E, 0x01, 0x2A, 0x0F, 0x5B, 0x81, 0xFF, 0xEC, 0xB0, 0x00, 0xE1, 0x8A, 0x40, 0x00, 0x93}},
        {33554432, {0x48, 0x0E, 0x01, 0x2A, 0x0F, 0x5B, 0x83, 0xFF, 0xEC, 0xB0, 0x00, 0xE1, 0x8A, 0x40, 0x00, 0x67}},
    };
    struct mmc_card other;
    unsigned char csd[16];
    int same = 1, made = 1, refused = 1;
    printf("The unit makes a card for each size of docs/HOSTS.md\n");
    for (unsigned i = 0; i < sizeof ROWS / sizeof ROWS[0]; i++) {
        unsigned int size = ROWS[i].size;
        make_csd(csd, size);
        same &= memcmp(csd, ROWS[i].csd, sizeof csd) == 0;
        made &= mmc_card_make(&other, cid, csd, OCR, NOTHING, 0, memory, size, map, size / GROUP) == 0;
        csd[15] ^= 2;
        refused &= mmc_card_make(&other, cid, csd, OCR, NOTHING, 0, memory, size, map, size / GROUP) == 9;
    }
    expect(same, "each CSD is that of the page");
    expect(made, "each card is made");
    expect(refused, "with another last byte each is refused, 9");
}

static void make_too_large(const unsigned char *cid, const unsigned char *csd)
{
    static const struct mmc_card REFUSED = {.numbers = {.state = MMC_INA}};
    struct mmc_card other = card;
    printf("The unit makes a card over %u bytes, a group too many\n", (unsigned)(SIZE + GROUP));
    expect(mmc_card_make(&other, cid, csd, OCR, NOTHING, 0, memory, SIZE + GROUP, map, GROUPS + 1) == 7, "the make is refused, 7");
    expect(memcmp(&other, &REFUSED, sizeof other) == 0, "the record is Inactive and all zeros");
}

int main(void)
{
    unsigned char cid[16] = {0x0C, 'P', 'O', 'U', 'N', 'I', 'T', '0', '7', 0x10, 0x00, 0x00, 0x12, 0x34, 0xB1}, csd[16], log[SECTOR];
    static const char NIGHT[] = "unit 07, night shift\n21:14 truck 31 at 38 m\n02:50 truck 12 at 44 m\n04:03 truck 31 at 29 m\n";
    close_register(cid);
    make_csd(csd, SIZE);
    memset(log, 0xFF, sizeof log);
    memcpy(log, NIGHT, sizeof NIGHT - 1);
    make_card(cid, csd);
    find_card(cid, csd);
    set_length();
    write_log(log);
    read_log(log);
    damage_a_frame();
    protect_log(log);
    stop_twice(log);
    misread_csd();
    damage_record(log);
    lose_power(log);
    make_each(cid);
    make_too_large(cid, csd);
    printf("%s\n", wrong ? "Something was NOT as expected" : "Everything was as expected");
    return wrong;
}
