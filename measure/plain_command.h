/* What a command does at one card in plain C: the record by pointer and altered in its place, a switch over the command's index, the same
   checks in the same order, the answer's bytes written out. The plain card and the plain bus each read this file: built apart, each has its own
   copy of the code, and what a card costs does not depend on the bus. */
#ifndef PLAIN_COMMAND_H
#define PLAIN_COMMAND_H
#include "plain_answers.h"

static void illegal(struct mmc_numbers *card, u32 state)
{
    if (state >= TRAN && state <= PRG)
        card->errors |= ILLEGAL_COMMAND;
}

/* Every taken command but 0, 13 and the erase commands drops tags. */
static void drop_tags(struct mmc_numbers *card)
{
    if (card->tags != NO_TAGS)
        card->errors |= ERASE_RESET;
    card->tags = NO_TAGS;
}

/* As after power-on, but for the lock. */
static void reset(struct mmc_numbers *card)
{
    card->state = IDLE;
    card->address = 1;
    card->length = DEFAULT_LENGTH;
    card->errors = 0;
    card->tags = NO_TAGS;
}

static u32 range_error(const struct mmc_numbers *card, u32 address)
{
    return address >= card->groups * GROUP ? OUT_OF_RANGE : 0;
}

static u32 read_error(const struct mmc_numbers *card, u32 address)
{
    u32 length = read_length(card);
    if ((usize)address + length > (usize)card->groups * GROUP)
        return OUT_OF_RANGE;
    return address % LONGEST + length > LONGEST ? ADDRESS_ERROR : 0;
}

static u32 write_error(const struct mmc_numbers *card, u32 address)
{
    if (read_length(card) != SECTOR)
        return BLOCK_LEN_ERROR;
    if ((usize)address + SECTOR > (usize)card->groups * GROUP)
        return OUT_OF_RANGE;
    return address % SECTOR != 0 ? ADDRESS_ERROR : 0;
}

static u32 tag_start(struct mmc_numbers *card, u32 kind, u32 address, u32 unit)
{
    card->tags = NO_TAGS;
    if (range_error(card, address))
        return OUT_OF_RANGE;
    card->tags = kind;
    card->first = address / unit;
    return 0;
}

/* A start of a kind and a range of it differ by 2. */
static u32 tag_end(struct mmc_numbers *card, u32 kind, u32 address, u32 unit)
{
    u32 tags = card->tags, last = address / unit;
    card->tags = NO_TAGS;
    if (range_error(card, address))
        return OUT_OF_RANGE;
    if (tags != kind - 2 && tags != kind)
        return ERASE_SEQ_ERROR;
    if (last < card->first || (kind == FULL_SECTORS && last / 8 != card->first / 8))
        return ERASE_PARAM;
    card->tags = kind;
    card->last = last;
    return 0;
}

/* Whether any sector was spared. */
static int erase_tagged(const struct mmc_numbers *card, const u8 *csd, u32 tags, u8 *memory, usize size, const u8 *map, usize groups)
{
    u32 first = card->first, last = card->last;
    if (tags == FULL_GROUPS) {
        first *= 8;
        last = last * 8 + 7;
    }
    if (whole_card(csd))
        return first <= last && first < size / SECTOR;
    return PLAIN(erase)(memory, size, map, groups, first, last);
}

/* The answer to a command of a card in tran, from which SPI's R1 never shows Idle. */
static usize answer_transfer(struct mmc_numbers *card, u8 index, u8 *out)
{
    return card->mode & SPI ? spi_r1(card, out) : answer_r1(card, index, TRAN, out);
}

/* The commands of a selected card, all with R1, in either mode. */
static usize transfer(struct mmc_numbers *card, const u8 *csd, u8 index, u32 argument, u8 *memory, usize size, u8 *map, usize groups, u8 *out)
{
    u32 error = 0, next = TRAN, at = argument, tags = card->tags, spared = 0;
    if (index < 32 || index > 38)
        drop_tags(card);
    if (card->locked && index != 16 && index != 42) {
        card->tags = NO_TAGS;
        card->errors |= LOCK_UNLOCK_FAILED;
        return answer_transfer(card, index, out);
    }
    switch (index) {
    case 16:
        if (argument < 1 || argument > LONGEST)
            error = BLOCK_LEN_ERROR;
        else
            card->length = argument;
        break;
    case 17:
    case 18:
        error = read_error(card, argument);
        next = index == 17 ? DATA_ONE : DATA_MANY;
        break;
    case 24:
    case 25:
        error = write_error(card, argument);
        next = index == 24 ? RCV_ONE : RCV_MANY;
        break;
    case 28:
    case 29:
        error = range_error(card, argument);
        if (!error)
            map[argument / GROUP] = index == 28;
        next = PRG;
        break;
    case 30:
        error = range_error(card, argument);
        at = argument / GROUP;
        next = DATA_BITS;
        break;
    case 32:
        error = tag_start(card, START_SECTORS, argument, SECTOR);
        break;
    case 33:
        error = tag_end(card, FULL_SECTORS, argument, SECTOR);
        break;
    case 35:
        error = tag_start(card, START_GROUPS, argument, 8 * SECTOR);
        break;
    case 36:
        error = tag_end(card, FULL_GROUPS, argument, 8 * SECTOR);
        break;
    case 38:
        card->tags = NO_TAGS;
        if (tags < FULL_SECTORS)
            error = ERASE_SEQ_ERROR;
        else
            spared = erase_tagged(card, csd, tags, memory, size, map, groups);
        next = PRG;
        break;
    case 42:
        next = RCV_LOCK;
        break;
    }
    card->errors |= error;
    usize sent = answer_transfer(card, index, out);
    if (error)
        return sent;
    if (spared)
        card->errors |= WP_ERASE_SKIP;
    card->state = next;
    card->at = at;
    return sent;
}

static usize select_own(struct mmc_numbers *card, u32 state, u8 *out)
{
    if (state != STBY && state != DIS) {
        illegal(card, state);
        return 0;
    }
    drop_tags(card);
    card->state = state == STBY ? TRAN : PRG;
    return answer_r1(card, 7, state, out);
}

static usize select_other(struct mmc_numbers *card, u32 state)
{
    if ((state < TRAN || state > DATA_BITS) && state != PRG)
        return 0;
    drop_tags(card);
    card->state = state == PRG ? DIS : STBY;
    return answer_nothing(card);
}

static usize set_address(struct mmc_numbers *card, u32 address, u8 *out)
{
    drop_tags(card);
    if (address == 0) {
        card->errors |= OUT_OF_RANGE;
    } else {
        card->address = address;
        card->state = STBY;
    }
    return answer_r1(card, 3, IDENT, out);
}

static usize voltages(struct mmc_numbers *card, u32 window, u8 *out)
{
    drop_tags(card);
    if (window == 0)
        return answer_r3(card, out);
    if ((window & card->ocr) == 0) {
        card->state = INA;
        return answer_nothing(card);
    }
    card->state = READY;
    return answer_r3(card, out);
}

/* A command in MMC mode. What the card sends is written to `out`: how many bytes. */
static usize command(struct mmc_numbers *card, const u8 *cid, const u8 *csd, u32 won, u8 index, u32 argument, u8 *memory, usize size, u8 *map,
                     usize groups, u8 *out)
{
    /* A card that is to send a register is in data, though its number stands elsewhere. */
    u32 state = card->state > INA ? DATA_BITS : card->state;
    int own = argument >> 16 == card->address;
    if (state == INA)
        return 0;
    switch (index) {
    case 0:
        reset(card);
        return 0;
    case 1:
        return state == IDLE ? voltages(card, argument & 0xFFFFFF, out) : 0;
    case 2:
        if (state != READY || won == 0)
            return 0;
        drop_tags(card);
        card->state = IDENT;
        return answer_r2(card, cid, out);
    case 3:
        return state == IDENT ? set_address(card, argument >> 16, out) : 0;
    case 4:
        return 0;
    case 7:
        return own ? select_own(card, state, out) : select_other(card, state);
    case 9:
    case 10:
        if (!own)
            return 0;
        if (state != STBY)
            break;
        drop_tags(card);
        return answer_r2(card, index == 9 ? csd : cid, out);
    case 12:
        if (state < DATA_ONE || state > RCV_LOCK)
            break;
        drop_tags(card);
        card->state = state <= DATA_BITS ? TRAN : PRG;
        return answer_r1(card, 12, state, out);
    case 13:
        return own && state >= STBY ? answer_r1(card, 13, state, out) : 0;
    case 15:
        if (!own || state < STBY)
            return 0;
        drop_tags(card);
        card->state = INA;
        return answer_nothing(card);
    case 16: case 17: case 18: case 24: case 25: case 28: case 29: case 30: case 32: case 33: case 35: case 36: case 38: case 42:
        if (state != TRAN)
            break;
        return transfer(card, csd, index, argument, memory, size, map, groups, out);
    }
    illegal(card, state);
    return 0;
}

#endif
