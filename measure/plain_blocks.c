/* Blocks into and out of one card in plain C: the record by pointer and altered in its place. In SPI a start byte goes before a block, and a
   data response follows one that goes in. */
#include "measure.h"
#include "plain.h"
#include "plain_card.h"

enum { UNLOCK = 0, SET = 1, CLEAR = 2, LOCK = 4, SET_AND_LOCK = 5, FORCED_ERASE = 8 };

static int password_equals(const u8 *payload, const u8 *password, u32 length)
{
    for (u32 i = 0; i < length; i++)
        if (payload[2 + i] != password[i])
            return 0;
    return 1;
}

static void keep_password(struct mmc_numbers *card, u8 *password, const u8 *bytes, u32 length)
{
    for (u32 i = 0; i < LONGEST_PASSWORD; i++)
        password[i] = i < length ? bytes[i] : 0;
    card->password_length = length;
}

static int lock_request(struct mmc_numbers *card, const u8 *csd, u8 *password, const u8 *payload, u32 n, u8 *memory, usize size, u8 *map,
                        usize groups)
{
    u32 held = card->password_length > LONGEST_PASSWORD ? LONGEST_PASSWORD : card->password_length, told;
    int for_locked = payload[0] == UNLOCK || payload[0] == FORCED_ERASE;
    if (for_locked != (int)card->locked)
        return 0;
    if (payload[0] == FORCED_ERASE) {
        if (whole_card(csd))
            return 0;
        PLAIN(fill)(memory, size);
        for (usize i = 0; i < groups; i++)
            map[i] = 0;
        keep_password(card, password, payload, 0);
        card->locked = 0;
        return 1;
    }
    if (n < 2 || 2 + (u32)payload[1] > n)
        return 0;
    told = payload[1];
    if (payload[0] == SET || payload[0] == SET_AND_LOCK) {
        if (told < held + 1 || told > held + LONGEST_PASSWORD || !password_equals(payload, password, held))
            return 0;
        keep_password(card, password, payload + 2 + held, told - held);
        if (payload[0] == SET_AND_LOCK)
            card->locked = 1;
        return 1;
    }
    if (held < 1 || told != held || !password_equals(payload, password, held))
        return 0;
    switch (payload[0]) {
    case UNLOCK:
        card->locked = 0;
        return 1;
    case CLEAR:
        keep_password(card, password, payload, 0);
        return 1;
    case LOCK:
        card->locked = 1;
        return 1;
    }
    return 0;
}

/* One block and a lock request go to tran, the block after many stays. */
static u8 refuse_block(struct mmc_numbers *card, u8 refusal, u32 error)
{
    if (card->state != RCV_MANY)
        card->state = TRAN;
    return refuse(card, refusal, error);
}

static u8 store_block(struct mmc_numbers *card, const u8 *csd, const u8 *block, u8 *memory, usize size, const u8 *map)
{
    u32 sector = card->at / SECTOR;
    if (sector >= card->groups * GROUP_SECTORS)
        return refuse_block(card, PAST_END, OUT_OF_RANGE);
    if (whole_card(csd) || map[sector / GROUP_SECTORS] != 0)
        return refuse_block(card, PROTECTED, WP_VIOLATION);
    PLAIN(write)(memory, size, sector, block);
    if (card->state == RCV_ONE)
        card->state = PRG;
    else
        card->at = sector * SECTOR + SECTOR;
    return 0;
}

static u8 take_block(struct mmc_numbers *card, const u8 *csd, u8 *password, const u8 *block, usize length, u8 *memory, usize size, u8 *map,
                     usize groups)
{
    u32 n = card->state == RCV_LOCK ? read_length(card) : SECTOR, start = card->mode & SPI;
    if (length != start + n + 2 || (start != 0 && block[0] != START_BYTE))
        return refuse_block(card, BLOCK_LENGTH, BLOCK_LEN_ERROR);
    block += start;
    if (!unchecked(card) && PLAIN(check_block)(block, n + 2) != 0)
        return refuse_block(card, BLOCK_CRC, 0);
    if (card->state != RCV_LOCK)
        return store_block(card, csd, block, memory, size, map);
    if (!lock_request(card, csd, password, block, n, memory, size, map, groups))
        return refuse_block(card, LOCK_FAILED, LOCK_UNLOCK_FAILED);
    card->state = PRG;
    return 0;
}

u8 PLAIN(block_in)(struct mmc_numbers *card, const u8 *cid, const u8 *csd, u8 *password, const u8 *block, usize length, u8 *memory, usize size,
                   u8 *map, usize groups, u8 *response, usize *sent)
{
    (void)cid;
    *sent = 0;
    if (!lent_right(card, size, map, groups))
        return LENT;
    if (card->state < RCV_ONE || card->state > RCV_LOCK)
        return NO_BLOCK;
    u8 refusal = take_block(card, csd, password, block, length, memory, size, map, groups);
    if (card->mode & SPI && (refusal == 0 || refusal == BLOCK_CRC)) {
        *response = refusal == 0 ? ACCEPTED : BAD_CRC;
        *sent = 1;
    }
    return refusal;
}

/* 32 bits from a group on, that group lowest; groups past the end read 0. */
static void send_bits(struct mmc_numbers *card, const u8 *map, usize groups, u8 *out, usize room)
{
    u32 bits = 0;
    for (usize i = 0; i < 32; i++)
        if (card->at + i < groups && map[card->at + i] != 0)
            bits |= 1u << i;
    u8 bytes[4] = {(u8)(bits >> 24), (u8)(bits >> 16), (u8)(bits >> 8), (u8)bits};
    PLAIN(write_block)(bytes, 4, out, room);
}

static int sends_part(const struct mmc_numbers *card)
{
    return card->state == DATA_ONE || card->state == DATA_MANY;
}

/* How many bytes are to be sent, without a start byte and the CRC16; 0 where none are. */
static u32 outgoing_length(const struct mmc_numbers *card)
{
    if (sends_part(card))
        return read_length(card);
    if (card->state == DATA_BITS)
        return 4;
    return card->state == DATA_CSD || card->state == DATA_CID ? REGISTER : 0;
}

u8 PLAIN(block_out)(struct mmc_numbers *card, const u8 *cid, const u8 *csd, const u8 *password, const u8 *memory, usize size, const u8 *map,
                    usize groups, u8 *out, usize room, usize *written)
{
    (void)password;
    *written = 0;
    if (!lent_right(card, size, map, groups))
        return LENT;
    u32 n = outgoing_length(card), start = card->mode & SPI;
    if (n == 0)
        return NO_BLOCK;
    if (room < start + n + 2)
        return OUTPUT_SHORT;
    if (sends_part(card) && (usize)card->at + n > size)
        return refuse(card, PAST_END, OUT_OF_RANGE);
    if (sends_part(card) && card->at % LONGEST + n > LONGEST)
        return refuse(card, BLOCK_CROSSES, ADDRESS_ERROR);
    if (start != 0)
        out[0] = START_BYTE;
    if (sends_part(card))
        PLAIN(write_block)(memory + card->at, n, out + start, room - start);
    else if (card->state == DATA_BITS)
        send_bits(card, map, groups, out + start, room - start);
    else
        PLAIN(write_block)(card->state == DATA_CSD ? csd : cid, n, out + start, room - start);
    if (card->state == DATA_MANY)
        card->at += n;
    else
        card->state = TRAN;
    *written = start + n + 2;
    return 0;
}
