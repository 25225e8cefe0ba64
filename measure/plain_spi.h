/* What a command does at one card in SPI, in plain C, and in which mode a card takes it. What the card sends is written to `out`: how many
   bytes. Like plain_command.h it is read by the plain card and the plain bus. */
#ifndef PLAIN_SPI_H
#define PLAIN_SPI_H
#include "plain_command.h"

/* A command that is taken, answered by R1. */
static usize spi_moved(struct mmc_numbers *card, u32 next, u8 *out)
{
    drop_tags(card);
    card->state = next;
    return spi_r1(card, out);
}

static usize spi_switch(struct mmc_numbers *card, u8 index, u32 argument, u8 *out)
{
    drop_tags(card);
    if (index == 58)
        return spi_r3(card, out);
    card->mode = argument & 1 ? SPI | CHECKS : SPI;
    return spi_r1(card, out);
}

/* An illegal command, or a damaged one: answered by R1 with the bit, and nothing else changes. */
static usize spi_faulted(struct mmc_numbers *card, u32 error, u8 *out)
{
    card->errors |= error;
    return spi_r1(card, out);
}

static usize spi_command(struct mmc_numbers *card, const u8 *csd, u8 index, u32 argument, u8 *memory, usize size, u8 *map, usize groups, u8 *out)
{
    u32 state = card->state;
    if (state == INA)
        return 0;
    switch (index) {
    case 0:
        reset(card);
        card->mode = SPI;
        return spi_r1(card, out);
    case 1:
        if (state != IDLE)
            break;
        return spi_moved(card, TRAN, out);
    case 9:
    case 10:
        if (state != TRAN)
            break;
        return spi_moved(card, index == 9 ? DATA_CSD : DATA_CID, out);
    case 13:
        if (state < STBY)
            break;
        return spi_r2(card, out);
    case 58:
    case 59:
        if ((state > IDLE && state < TRAN) || state == DIS)
            break;
        return spi_switch(card, index, argument, out);
    case 16: case 17: case 24: case 28: case 29: case 30: case 32: case 33: case 35: case 36: case 38: case 42:
        if (state != TRAN)
            break;
        return transfer(card, csd, index, argument, memory, size, map, groups, out);
    }
    return spi_faulted(card, ILLEGAL_COMMAND, out);
}

/* A command at a card with its select line low (`selected`) or high: CMD0 with the line low brings it into SPI, where it hears nothing while
   the line is high. */
static usize heard(struct mmc_numbers *card, const u8 *cid, const u8 *csd, u32 won, u32 selected, u8 index, u32 argument, u8 *memory,
                   usize size, u8 *map, usize groups, u8 *out)
{
    if (selected != 0 && (card->mode & SPI || index == 0))
        return spi_command(card, csd, index, argument, memory, size, map, groups, out);
    if (card->mode & SPI)
        return 0;
    return command(card, cid, csd, won, index, argument, memory, size, map, groups, out);
}

/* A frame whose CRC7 is wrong, where that counts. */
static usize damaged(struct mmc_numbers *card, u32 selected, u8 *out)
{
    if (card->state == INA)
        return 0;
    if (card->mode & SPI)
        return selected != 0 ? spi_faulted(card, COM_CRC_ERROR, out) : 0;
    card->errors |= COM_CRC_ERROR;
    return 0;
}

#endif
