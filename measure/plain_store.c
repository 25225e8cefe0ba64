/* Memory filled, read, written and erased in plain C, to the same interface, with the same tests, byte by byte. */
#include "measure.h"
#include "plain.h"

void PLAIN(fill)(u8 *memory, usize length)
{
    for (usize i = 0; i < length; i++)
        memory[i] = 0xFF;
}

_Bool PLAIN(read)(const u8 *restrict memory, usize length, usize at, u8 *restrict out, usize room)
{
    if (length < room || length - room < at)
        return 0;
    for (usize i = 0; i < room; i++)
        out[i] = memory[at + i];
    return 1;
}

void PLAIN(write)(u8 *restrict memory, usize length, u32 sector, const u8 *restrict bytes)
{
    if (sector >= length / SECTOR)
        return;
    u8 *to = memory + (usize)sector * SECTOR;
    for (usize i = 0; i < SECTOR; i++)
        to[i] = bytes[i];
}

/* A group that the map does not have counts as protected. */
_Bool PLAIN(erase)(u8 *restrict memory, usize length, const u8 *restrict map, usize groups, u32 first, u32 last)
{
    usize end = (usize)last + 1;
    if (end > length / SECTOR)
        end = length / SECTOR;
    _Bool spared = 0;
    for (usize sector = first; sector < end; sector++) {
        usize group = sector / GROUP_SECTORS;
        if (group >= groups || map[group] != 0) {
            spared = 1;
            continue;
        }
        u8 *to = memory + sector * SECTOR;
        for (usize i = 0; i < SECTOR; i++)
            to[i] = 0xFF;
    }
    return spared;
}
