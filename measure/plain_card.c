/* One card in plain C: made, powered on, its work done, and a frame: the lent memory and map checked, the frame read, and the command carried
   out, with the same refusal numbers. */
#include "measure.h"
#include "plain.h"
#include "plain_card.h"
#include "plain_spi.h"

static int register_right(const u8 *bytes)
{
    return bytes[REGISTER - 1] == (u8)(PLAIN(crc7)(bytes, REGISTER - 1) << 1 | 1);
}

static u8 make_refusal(const u8 *identifier, const u8 *specifics, u32 ocr, usize secret_length, usize size, const u8 *map, usize groups)
{
    if (size < GROUP || size > MOST_GROUPS * GROUP || size % GROUP != 0)
        return MEMORY_SIZE;
    if (!map_right(map, groups, size / GROUP))
        return MAP_WRONG;
    if (!register_right(identifier) || !register_right(specifics))
        return REGISTER_WRONG;
    if ((ocr & 0xFFFFFF) == 0)
        return OCR_EMPTY;
    return secret_length > LONGEST_PASSWORD ? PASSWORD_LONG : 0;
}

u8 PLAIN(make)(struct mmc_numbers *card, u8 *cid, u8 *csd, u8 *password, const u8 *identifier, const u8 *specifics, u32 ocr, const u8 *secret,
               usize secret_length, const u8 *memory, usize size, const u8 *map, usize groups)
{
    u8 refusal = make_refusal(identifier, specifics, ocr, secret_length, size, map, groups);
    (void)memory;
    *card = (struct mmc_numbers){.state = INA};
    if (refusal == 0) {
        card->groups = (u32)(size / GROUP);
        card->ocr = ocr;
        card->password_length = (u32)secret_length;
        card->locked = secret_length != 0;
        reset(card);
    }
    for (usize i = 0; i < REGISTER; i++) {
        cid[i] = refusal == 0 ? identifier[i] : 0;
        csd[i] = refusal == 0 ? specifics[i] : 0;
    }
    for (usize i = 0; i < LONGEST_PASSWORD; i++)
        password[i] = refusal == 0 && i < secret_length ? secret[i] : 0;
    return refusal;
}

void PLAIN(power_on)(struct mmc_numbers *card, const u8 *cid, const u8 *csd, const u8 *password)
{
    (void)cid, (void)csd, (void)password;
    card->locked = card->password_length != 0;
    card->mode = 0;
    reset(card);
}

void PLAIN(work_done)(struct mmc_numbers *card, const u8 *cid, const u8 *csd, const u8 *password)
{
    (void)cid, (void)csd, (void)password;
    if (card->state == PRG)
        card->state = TRAN;
    else if (card->state == DIS)
        card->state = STBY;
}

u8 PLAIN(frame)(struct mmc_numbers *card, const u8 *cid, const u8 *csd, const u8 *password, u32 won, u32 selected, const u8 *frame,
                usize length, u8 *memory, usize size, u8 *map, usize groups, u8 *answer, usize *sent)
{
    u8 index;
    u32 argument;
    (void)password;
    *sent = 0;
    if (!lent_right(card, size, map, groups))
        return LENT;
    u8 refusal = PLAIN(unframe)(frame, length, &index, &argument);
    if (refusal == FRAME_CRC && unchecked(card) && index != 0)
        refusal = 0;
    if (refusal == FRAME_CRC)
        *sent = damaged(card, selected, answer);
    if (refusal == 0)
        *sent = heard(card, cid, csd, won, selected, index, argument, memory, size, map, groups, answer);
    return refusal;
}
