/* CRC7 and CRC16 in plain C, each by a table of 256 entries. Built under a prefix for each set of flags. */
#include "measure.h"
#include "plain.h"
#include "tables.h"

u8 PLAIN(crc7)(const u8 *bytes, usize length)
{
    u8 sum = 0;
    for (usize i = 0; i < length; i++)
        sum = TABLE7[(u8)(sum << 1) ^ bytes[i]];
    return sum;
}

u16 PLAIN(crc16)(const u8 *bytes, usize length)
{
    u16 sum = 0;
    for (usize i = 0; i < length; i++)
        sum = (u16)(sum << 8) ^ TABLE16[(sum >> 8) ^ bytes[i]];
    return sum;
}
