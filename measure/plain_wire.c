/* Frames and blocks in plain C, to the same interface, with the same tests and refusal numbers. */
#include "measure.h"
#include "plain.h"

static u8 frame_refusal(const u8 *frame, usize length)
{
    if (length != 6)
        return FRAME_LENGTH;
    if ((frame[0] & 0x80) != 0)
        return FRAME_BITS;
    if ((frame[0] & 0x40) == 0)
        return FRAME_BITS;
    return (frame[5] & 1) == 0 ? FRAME_BITS : 0;
}

static u32 argument_of(const u8 *frame)
{
    return (u32)frame[1] << 24 | (u32)frame[2] << 16 | (u32)frame[3] << 8 | frame[4];
}

u8 PLAIN(read_frame)(const u8 *frame, usize length, u8 *index, u32 *argument)
{
    u8 refusal = frame_refusal(frame, length);
    if (refusal != 0)
        return refusal;
    if (frame[5] >> 1 != PLAIN(crc7)(frame, 5))
        return FRAME_CRC;
    *index = frame[0] & 0x3F;
    *argument = argument_of(frame);
    return 0;
}

/* The same for a card, which may take a frame whose CRC7 is wrong: its index and argument are read, too. */
u8 PLAIN(unframe)(const u8 *frame, usize length, u8 *index, u32 *argument)
{
    u8 refusal = frame_refusal(frame, length);
    if (refusal != 0)
        return refusal;
    *index = frame[0] & 0x3F;
    *argument = argument_of(frame);
    return frame[5] >> 1 != PLAIN(crc7)(frame, 5) ? FRAME_CRC : 0;
}

u8 PLAIN(write_command)(u8 index, u32 argument, u8 *out, usize room)
{
    if (index > 63)
        return INDEX;
    if (room < 6)
        return OUTPUT_SHORT;
    out[0] = 0x40 | index;
    out[1] = (u8)(argument >> 24);
    out[2] = (u8)(argument >> 16);
    out[3] = (u8)(argument >> 8);
    out[4] = (u8)argument;
    out[5] = (u8)(PLAIN(crc7)(out, 5) << 1 | 1);
    return 0;
}

u8 PLAIN(write_block)(const u8 *payload, usize length, u8 *out, usize room)
{
    if (length < 1 || length > 2048)
        return PAYLOAD_LENGTH;
    if (room < length + 2)
        return OUTPUT_SHORT;
    memcpy(out, payload, length);
    u16 sum = PLAIN(crc16)(payload, length);
    out[length] = (u8)(sum >> 8);
    out[length + 1] = (u8)sum;
    return 0;
}

u8 PLAIN(check_block)(const u8 *block, usize length)
{
    if (length < 3 || length > 2050)
        return PAYLOAD_LENGTH;
    u16 told = (u16)(block[length - 2] << 8 | block[length - 1]);
    if (told != PLAIN(crc16)(block, length - 2))
        return BLOCK_CRC;
    return 0;
}
