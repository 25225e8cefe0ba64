/* What the files of the measurement share. The kit has no headers, so what is taken from the C library is declared by hand. */
#ifndef BENCH_H
#define BENCH_H
#include "measured.h"
#include "measured_bus.h"
#include "mmc.h"

typedef unsigned char u8;
typedef unsigned short u16;
typedef unsigned int u32;
typedef unsigned long usize;

/* Document 01's refusal numbers, as far as the plain C gives them, and its units of memory. */
enum {
    FRAME_LENGTH = 1,
    FRAME_BITS = 2,
    FRAME_CRC = 3,
    INDEX = 4,
    PAYLOAD_LENGTH = 5,
    OUTPUT_SHORT = 6,
    MEMORY_SIZE = 7,
    MAP_WRONG = 8,
    REGISTER_WRONG = 9,
    OCR_EMPTY = 10,
    PASSWORD_LONG = 11,
    LENT = 12,
    NO_BLOCK = 15,
    BLOCK_LENGTH = 16,
    BLOCK_CRC = 17,
    PAST_END = 18,
    PROTECTED = 19,
    LOCK_FAILED = 20,
    BLOCK_CROSSES = 21
};
enum { SECTOR = 512, GROUP_SECTORS = 16 };

/* The calls that are compared: one set for the proved library, and one for each build of the plain C. */
struct calls {
    const char *name;
    u8 (*crc7)(const u8 *bytes, usize length);
    u16 (*crc16)(const u8 *bytes, usize length);
    u8 (*read_frame)(const u8 *frame, usize length, u8 *index, u32 *argument);
    u8 (*write_command)(u8 index, u32 argument, u8 *out, usize room);
    u8 (*write_block)(const u8 *payload, usize length, u8 *out, usize room);
    u8 (*check_block)(const u8 *block, usize length);
    void (*fill)(u8 *memory, usize length);
    _Bool (*read)(const u8 *memory, usize length, usize at, u8 *out, usize room);
    void (*write)(u8 *memory, usize length, u32 sector, const u8 *bytes);
    _Bool (*erase)(u8 *memory, usize length, const u8 *map, usize groups, u32 first, u32 last);
    u8 (*make)(struct mmc_numbers *card, u8 *cid, u8 *csd, u8 *password, const u8 *identifier, const u8 *specifics, u32 ocr, const u8 *secret,
               usize secret_length, const u8 *memory, usize size, const u8 *map, usize groups);
    void (*power_on)(struct mmc_numbers *card, const u8 *cid, const u8 *csd, const u8 *password);
    void (*work_done)(struct mmc_numbers *card, const u8 *cid, const u8 *csd, const u8 *password);
    u8 (*frame)(struct mmc_numbers *card, const u8 *cid, const u8 *csd, const u8 *password, u32 won, u32 selected, const u8 *frame,
                usize length, u8 *memory, usize size, u8 *map, usize groups, u8 *answer, usize *sent);
    u8 (*block_in)(struct mmc_numbers *card, const u8 *cid, const u8 *csd, u8 *password, const u8 *block, usize length, u8 *memory, usize size,
                   u8 *map, usize groups, u8 *response, usize *sent);
    u8 (*block_out)(struct mmc_numbers *card, const u8 *cid, const u8 *csd, const u8 *password, const u8 *memory, usize size, const u8 *map,
                    usize groups, u8 *out, usize room, usize *written);
    usize (*rounds)(const u8 *cids, usize count, usize rounds, u16 *addresses);
};
enum { SETS = 4 };

/* Compares `ours` with `theirs` on every input; ends the program where they differ. Returns how many calls agreed. */
usize compare(const struct calls *ours, const struct calls *theirs);
void compare_card(const struct calls *ours, const struct calls *theirs);
void compare_bus(const struct calls *ours, const struct calls *theirs);
void same(int equal, const char *what, const struct calls *theirs, long at);

/* Numbers and bytes by chance, the same on every machine. */
u32 next(void);
void fill(u8 *bytes, usize length);

/* What is measured: one call each, over inputs that are made once. */
enum work {
    CRC16,
    CRC7,
    CRC7_15,
    CRC7_4,
    READ_FRAME,
    WRITE_COMMAND,
    WRITE_BLOCK,
    CHECK_BLOCK,
    FILL,
    READ_512,
    READ_2048,
    WRITE_SECTOR,
    ERASE,
    ERASE_HALF,
    CARD_FIRST,
    MAKE = CARD_FIRST,
    POWER_ON,
    WORK_DONE,
    CMD1,
    CMD2,
    CMD13,
    CMD13_LARGE,
    CMD7,
    CMD9,
    CMD16,
    CMD16_LOCKED,
    CMD17,
    CMD24,
    CMD28,
    CMD32,
    CMD38,
    CMD42,
    ILLEGAL,
    CMD13_CRC,
    CMD0,
    REFUSED_12,
    WRITE_CARD,
    READ_CARD,
    LOCK_REQUEST,
    SPI_CMD0,
    SPI_CMD13,
    SPI_CMD17,
    SPI_CMD9,
    SPI_ILLEGAL,
    SPI_CMD13_CRC,
    SPI_WRITE,
    SPI_WRITE_CHECKED,
    SPI_READ,
    WORKS,
    ROUNDS = WORKS
};
void prepare(const struct calls *calls);
void perform(const struct calls *calls, enum work work);
void *code_of(const struct calls *calls, enum work work);

/* The same for the works at a card, from CARD_FIRST on; and whether the work performed last did what its name says. */
const char *card_work(enum work work);
void prepare_card(const struct calls *calls);
void perform_card(const struct calls *calls, enum work work);
int performed(enum work work);
void *card_code(const struct calls *calls, enum work work);

/* Rounds on a bus, as `nights` docks its cards: a table of its own for each of their costs. */
void perform_rounds(const struct calls *calls);
void nights(const struct calls *sets, const char *where);

/* The head of a table; the end of a row, with what is wanted at most of plain C's instructions, or 0; and the nanoseconds of a call. */
void head(const char *what, const char *where);
void wanted(double most, long ours, long plain);
double timed(const struct calls *calls, enum work work);

/* The instructions that the work's call executes, from its first to its return, and the bytes of stack that it takes below its return
   address; or -1 where they cannot be counted. */
struct cost {
    long instructions, stack;
};
struct cost count(const struct calls *calls, enum work work);

int printf(const char *format, ...);
void exit(int status) __attribute__((noreturn));
void *memcpy(void *to, const void *from, usize length);
void *memset(void *to, int byte, usize length);
int memcmp(const void *a, const void *b, usize length);

#endif
