/* Rounds on a bus, proved and in plain C, on the same CIDs; and against what demand 3 says of them, counted from the CIDs alone. */
#include "measure.h"

enum { MOST = 30, CID = 16, KINDS = 10 };
#define COUNT(list) (sizeof(list) / sizeof(list)[0])
static u8 cids[MOST * CID];

static u8 *cid(usize place)
{
    return cids + place * CID;
}

/* CIDs of every kind: copies of 1, 2, 3, 10 or 29 originals; all the same but for a bit, a byte, or the last byte; 00 and FF; by chance. */
static void choose(u32 kind)
{
    static const u32 ORIGINALS[] = {1, 2, 3, 10, 29};
    fill(cids, sizeof cids);
    for (usize place = 1; place < MOST; place++) {
        if (kind < COUNT(ORIGINALS) && place >= ORIGINALS[kind])
            memcpy(cid(place), cid(next() % ORIGINALS[kind]), CID);
        if (kind >= 5 && kind <= 7)
            memcpy(cid(place), cid(0), CID);
        if (kind == 5)
            cid(place)[next() % CID] ^= 1 << next() % 8;
        if (kind == 6)
            cid(place)[next() % CID] = (u8)next();
        if (kind == 7)
            cid(place)[CID - 1] = (u8)(next() % 40);
        if (kind == 8)
            memset(cid(place), place % 2 ? 0xFF : 0, CID);
    }
}

/* How many distinct CIDs of so many cards are smaller than one. */
static usize smaller(usize count, usize place)
{
    usize n = 0;
    for (usize i = 0; i < count; i++) {
        usize first = 0;
        while (memcmp(cid(first), cid(i), CID) != 0)
            first++;
        n += first == i && memcmp(cid(i), cid(place), CID) < 0;
    }
    return n;
}

/* A card that no round reached has the address that it began with, 1. */
static int as_demanded(usize count, usize rounds, usize answered, const u16 *addresses)
{
    usize most = 0;
    int right = 1;
    count = count > MOST ? MOST : count;
    for (usize i = 0; i < count; i++) {
        usize turn = smaller(count, i) + 1;
        most = turn > most ? turn : most;
        right &= addresses[i] == (turn <= rounds ? turn : 1);
    }
    for (usize i = count; i < MOST; i++)
        right &= addresses[i] == 0;
    return right && answered == (most < rounds ? most : rounds);
}

void compare_bus(const struct calls *ours, const struct calls *theirs)
{
    for (u32 kind = 0; kind < KINDS; kind++)
        for (usize count = 0; count <= MOST + 3; count++)
            for (usize rounds = 0; rounds <= count + 2; rounds++) {
                u16 one[MOST + 2], two[MOST + 2];
                memset(one, 0xEE, sizeof one);
                memset(two, 0xEE, sizeof two);
                choose(kind);
                usize a = ours->rounds(cids, count, rounds, one + 1), b = theirs->rounds(cids, count, rounds, two + 1);
                same(a == b && memcmp(one, two, sizeof one) == 0, "rounds on a bus", theirs, (long)count);
                same(as_demanded(count, rounds, a, one + 1), "rounds as demanded", theirs, (long)count);
            }
}
