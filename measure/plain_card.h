/* What the files of the plain card share. */
#ifndef PLAIN_CARD_H
#define PLAIN_CARD_H

enum { IDLE, READY, IDENT, STBY, TRAN, DATA_ONE, DATA_MANY, DATA_BITS, RCV_ONE, RCV_MANY, RCV_LOCK, PRG, DIS, INA, DATA_CSD, DATA_CID };
enum { NO_TAGS, START_SECTORS, START_GROUPS, FULL_SECTORS, FULL_GROUPS };
/* The bits of `mode`. */
enum { SPI = 1, CHECKS = 256 };
/* What goes before a block in SPI, and the data responses to one. */
enum { START_BYTE = 0xFE, ACCEPTED = 0x05, BAD_CRC = 0x0B };
enum { REGISTER = 16, LONGEST_PASSWORD = 16, LONGEST = 2048, GROUP = 8192, MOST_GROUPS = 4096 };
/* The block length after a reset. */
enum { DEFAULT_LENGTH = 2048 };

#define OUT_OF_RANGE 0x80000000u
#define ADDRESS_ERROR 0x40000000u
#define BLOCK_LEN_ERROR 0x20000000u
#define ERASE_SEQ_ERROR 0x10000000u
#define ERASE_PARAM 0x08000000u
#define WP_VIOLATION 0x04000000u
#define LOCK_UNLOCK_FAILED 0x01000000u
#define COM_CRC_ERROR 0x00800000u
#define ILLEGAL_COMMAND 0x00400000u
#define WP_ERASE_SKIP 0x00008000u
#define ERASE_RESET 0x00002000u
#define ERROR_BITS 0xFDC0A000u

static inline u32 read_length(const struct mmc_numbers *card)
{
    return card->length < 1 || card->length > LONGEST ? LONGEST : card->length;
}

/* In SPI CRCs are checked only where that is switched on. */
static inline int unchecked(const struct mmc_numbers *card)
{
    return (card->mode & (SPI | CHECKS)) == SPI;
}

/* The CSD protects the whole card, for now or for good. */
static inline int whole_card(const u8 *csd)
{
    return (csd[14] & 0x30) != 0;
}

static inline int map_right(const u8 *map, usize groups, usize wanted)
{
    if (groups != wanted)
        return 0;
    for (usize i = 0; i < groups; i++)
        if (map[i] > 1)
            return 0;
    return 1;
}

static inline int lent_right(const struct mmc_numbers *card, usize size, const u8 *map, usize groups)
{
    return size % GROUP == 0 && size / GROUP == card->groups && map_right(map, groups, card->groups);
}

static inline u8 refuse(struct mmc_numbers *card, u8 refusal, u32 error)
{
    card->errors |= error;
    return refusal;
}

#endif
