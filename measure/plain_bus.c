/* Up to 30 cards on one line in plain C: the records lie in an array and are altered in their place, a frame is read once for all cards,
   each takes the command by the plain card's own code, and what they send is ANDed. In CMD2 the CIDs are compared by byte, and the
   losers neither send nor change. Every select line is high, so that a card in SPI hears nothing. */
#include "measure.h"
#include "plain.h"
#include "plain_card.h"
#include "plain_spi.h"

enum { MOST = 30, LINE = 17, BUS_CARDS = 13, BUS_INDEX = 14 };
/* Bit i is set where the bus takes command i. */
#define ON_BUS 0xA69Fu

struct bus {
    struct mmc_card cards[MOST];
    usize count;
};

static u8 add(struct bus *bus, const u8 *cid)
{
    if (bus->count >= MOST)
        return BUS_CARDS;
    struct mmc_card *card = &bus->cards[bus->count++];
    card->numbers = (struct mmc_numbers){.state = READY, .address = 1, .length = DEFAULT_LENGTH, .groups = 1, .ocr = 0x00FF8000};
    for (int i = 0; i < REGISTER; i++) {
        card->cid[i] = cid[i];
        card->csd[i] = i == REGISTER - 1;
        card->password[i] = 0;
    }
    return 0;
}

/* Below 0, 0 or above 0, as the first byte says in which they differ. */
static int order(const u8 *a, const u8 *b)
{
    for (int i = 0; i < REGISTER; i++)
        if (a[i] != b[i])
            return a[i] - b[i];
    return 0;
}

static int ready(const struct mmc_card *card)
{
    return card->numbers.state == READY && (card->numbers.mode & SPI) == 0;
}

static const u8 *lowest(const struct bus *bus)
{
    const u8 *low = 0;
    for (usize i = 0; i < bus->count; i++)
        if (ready(&bus->cards[i]) && (low == 0 || order(bus->cards[i].cid, low) < 0))
            low = bus->cards[i].cid;
    return low;
}

/* A command for all cards in turn: the bytes that the line shows, and how many. */
static usize tell(struct bus *bus, u8 index, u32 argument, u8 *line)
{
    const u8 *low = index == 2 ? lowest(bus) : 0;
    usize length = 0;
    for (usize i = 0; i < LINE; i++)
        line[i] = 0xFF;
    for (usize i = 0; i < bus->count; i++) {
        struct mmc_card *card = &bus->cards[i];
        u8 sent[LINE];
        if (low != 0 && ready(card) && order(card->cid, low) != 0)
            continue;
        usize n = heard(&card->numbers, card->cid, card->csd, 1, 0, index, argument, 0, 0, 0, 0, sent);
        for (usize b = 0; b < n; b++)
            line[b] &= sent[b];
        if (n > length)
            length = n;
    }
    for (usize i = length; i < LINE; i++)
        line[i] = 0;
    return length;
}

/* A frame for all cards. A function of its own in every build, so that no build may leave out a line that the rounds do not look at. */
__attribute__((noinline)) u8 PLAIN(bus_frame)(struct bus *bus, const u8 *frame, usize length, u8 *line, usize *shown)
{
    u8 index;
    u32 argument;
    *shown = 0;
    if (bus->count == 0)
        return BUS_CARDS;
    u8 refusal = PLAIN(read_frame)(frame, length, &index, &argument);
    if (refusal == FRAME_CRC)
        for (usize i = 0; i < bus->count; i++)
            damaged(&bus->cards[i].numbers, 0, line);
    if (refusal != 0)
        return refusal;
    if (index > 15 || (ON_BUS >> index & 1) == 0)
        return BUS_INDEX;
    *shown = tell(bus, index, argument, line);
    return 0;
}

usize PLAIN(rounds)(const u8 *cids, usize count, usize rounds, u16 *addresses)
{
    struct bus bus = {.count = 0};
    u8 who[6], address[6], line[LINE];
    usize answered = 0, shown;
    for (usize i = 0; i < count; i++)
        add(&bus, cids + i % MOST * REGISTER);
    PLAIN(write_command)(2, 0, who, sizeof who);
    for (usize k = 1; k <= rounds; k++) {
        PLAIN(bus_frame)(&bus, who, sizeof who, line, &shown);
        answered += shown != 0;
        PLAIN(write_command)(3, (u32)(k % 65536) << 16, address, sizeof address);
        PLAIN(bus_frame)(&bus, address, sizeof address, line, &shown);
    }
    for (usize i = 0; i < MOST; i++)
        addresses[i] = i < bus.count ? (u16)bus.cards[i].numbers.address : 0;
    return answered;
}
