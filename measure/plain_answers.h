/* What a card answers to a command in plain C: the bytes are written to `out`, and how many they are is returned. */
#ifndef PLAIN_ANSWERS_H
#define PLAIN_ANSWERS_H

/* The number that R1 shows for each state up to Inactive, and bit 8, ready for data. */
static const u16 SHOWN[14] = {0x0100, 0x0300, 0x0500, 0x0700, 0x0900, 0x0B00, 0x0B00, 0x0B00, 0x0D00, 0x0D00, 0x0D00, 0x0E00, 0x1000, 0x1300};

static void put_word(u8 first, u32 word, u8 *out)
{
    out[0] = first;
    out[1] = (u8)(word >> 24);
    out[2] = (u8)(word >> 16);
    out[3] = (u8)(word >> 8);
    out[4] = (u8)word;
}

static usize answer_r1(struct mmc_numbers *card, u8 index, u32 state, u8 *out)
{
    put_word(index, (card->errors & ERROR_BITS) | card->locked << 25 | SHOWN[state], out);
    out[5] = (u8)(PLAIN(crc7)(out, 5) << 1 | 1);
    card->errors = 0;
    return 6;
}

/* All but R1 clear the error bits of the command before and no other. */
static usize answer_nothing(struct mmc_numbers *card)
{
    card->errors &= ~(COM_CRC_ERROR | ILLEGAL_COMMAND);
    return 0;
}

static usize answer_r2(struct mmc_numbers *card, const u8 *bytes, u8 *out)
{
    answer_nothing(card);
    out[0] = 0x3F;
    for (int i = 0; i < REGISTER; i++)
        out[1 + i] = bytes[i];
    return 1 + REGISTER;
}

static usize answer_r3(struct mmc_numbers *card, u8 *out)
{
    answer_nothing(card);
    put_word(0x3F, card->ocr | 0x80000000, out);
    out[5] = 0xFF;
    return 6;
}

/* ---- in SPI: an answer clears the error bits that it shows. */
#define SPI_FIRST (OUT_OF_RANGE | ADDRESS_ERROR | BLOCK_LEN_ERROR | ERASE_SEQ_ERROR | COM_CRC_ERROR | ILLEGAL_COMMAND | ERASE_RESET)
#define SPI_SECOND (OUT_OF_RANGE | ERASE_PARAM | WP_VIOLATION | LOCK_UNLOCK_FAILED | WP_ERASE_SKIP)

/* R1's byte, by the state that the command led to. */
static u8 spi_first(const struct mmc_numbers *card)
{
    u32 errors = card->errors;
    u32 shown = (errors >> 25 & 0x20) | (errors >> 24 & 0x10) | (errors >> 20 & 0x0C) | (errors >> 12 & 0x02);
    if (errors & (OUT_OF_RANGE | BLOCK_LEN_ERROR))
        shown |= 0x40;
    return (u8)(shown | (card->state == IDLE));
}

static usize spi_r1(struct mmc_numbers *card, u8 *out)
{
    out[0] = spi_first(card);
    card->errors &= ~SPI_FIRST;
    return 1;
}

static usize spi_r2(struct mmc_numbers *card, u8 *out)
{
    u32 errors = card->errors, shown = (errors >> 24 & 0x80) | (errors >> 21 & 0x60) | card->locked;
    if (errors & (WP_ERASE_SKIP | LOCK_UNLOCK_FAILED))
        shown |= 0x02;
    out[0] = spi_first(card);
    out[1] = (u8)shown;
    card->errors &= ~(SPI_FIRST | SPI_SECOND);
    return 2;
}

static usize spi_r3(struct mmc_numbers *card, u8 *out)
{
    put_word(spi_first(card), card->ocr | 0x80000000, out);
    card->errors &= ~SPI_FIRST;
    return 5;
}

#endif
