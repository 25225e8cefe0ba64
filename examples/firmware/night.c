/* A night on the wire: up to 30 units, each with a card of the library, on one line on which a 0 beats a 1. A script of `busline` is played
   from standard input, bit by bit, and standard output has the lines that `busline` prints of it; standard error tells each round of CMD2.
   It ends with 1 if a unit's card was not as the unit had it on the line. */
#include "mmc.h"

/* The kit has no headers: what is taken from the C library is declared here. */
int dprintf(int file, const char *format, ...);
int getchar(void);
int memcmp(const void *a, const void *b, unsigned long length);
void *memcpy(void *to, const void *from, unsigned long length);
void *memset(void *to, int byte, unsigned long length);
int printf(const char *format, ...);

enum { UNITS = 30, SIZE = 8192, GROUPS = 1, OCR = 0x00FF8000, FRAME = 6, IDENTIFIER = 15, STORY = 2 };

/* A unit: its card, what it lends the card, the frame that it hears, and what it sends, up to the bit where it falls silent. */
struct unit {
    struct mmc_card card;
    unsigned char memory[SIZE], map[GROUPS];
    unsigned char heard[FRAME], answer[MMC_ANSWER];
    unsigned long bits;
    int arbitrates;
};

static struct unit units[UNITS];
static unsigned docked, frames, asked, rounds; /* rounds: those of the asked ones that were answered */
static int wrong;

static void check(int holds, const char *what)
{
    if (!holds) {
        dprintf(STORY, "NOT AS EXPECTED: %s\n", what);
        wrong = 1;
    }
}

/* Bits are counted as they are sent, highest first. */
static int bit_of(const unsigned char *bytes, unsigned long at)
{
    return bytes[at / 8] >> (7 - at % 8) & 1;
}

static void put_bit(unsigned char *bytes, unsigned long at, int bit)
{
    unsigned char place = (unsigned char)(0x80 >> at % 8);
    bytes[at / 8] = (unsigned char)(bit ? bytes[at / 8] | place : bytes[at / 8] & ~place);
}

/* ---- a unit */

/* A whole frame was heard. Whether CMD2 is won only the line can tell, so in Ready the unit begins to send its identifier and the card is told
   of the frame when that is decided. Any other frame goes to the card at once, and what it answers is sent. */
static void begin_answer(struct unit *unit, unsigned char refusal)
{
    unsigned char index;
    unsigned int argument;
    unsigned long sent = MMC_ANSWER;
    unit->arbitrates = mmc_read_frame(unit->heard, FRAME, &index, &argument) == 0 && index == 2 && unit->card.numbers.state == MMC_READY;
    if (unit->arbitrates) {
        unit->answer[0] = 0x3F;
        memcpy(unit->answer + 1, unit->card.cid, sizeof unit->card.cid);
    } else {
        check(mmc_card_frame(&unit->card, unit->heard, FRAME, unit->memory, SIZE, unit->map, GROUPS, unit->answer, &sent) == refusal,
              "a card refuses a frame as the dock's own reading does");
    }
    unit->bits = 8 * sent;
}

static int won(const struct unit *unit)
{
    return unit->arbitrates && unit->bits == 8 * MMC_ANSWER;
}

/* The answer is over: a unit that arbitrated tells its card whether it won. */
static void end_answer(struct unit *unit)
{
    unsigned char answer[MMC_ANSWER];
    unsigned long sent;
    if (!unit->arbitrates)
        return;
    check(mmc_card_frame_on_line(&unit->card, won(unit), unit->heard, FRAME, unit->memory, SIZE, unit->map, GROUPS, answer, &sent) == 0,
          "a card takes CMD2");
    check(sent == (won(unit) ? MMC_ANSWER : 0) && memcmp(answer, unit->answer, sent) == 0, "a card sends what its unit had on the line");
    check(unit->card.numbers.state == (won(unit) ? MMC_IDENT : MMC_READY), "a winner is in Identification, a loser still in Ready");
}

/* ---- the line */

/* One bit of an answer: the line, which is 1 where nobody holds it low. A unit that arbitrates watches it, and stops where it sends 1 and sees 0. */
static int line_bit(unsigned long at)
{
    int line = 1;
    for (unsigned i = 0; i < docked; i++)
        if (at < units[i].bits)
            line &= bit_of(units[i].answer, at);
    for (unsigned i = 0; i < docked; i++)
        if (units[i].arbitrates && at < units[i].bits && bit_of(units[i].answer, at) && !line)
            units[i].bits = at;
    return line;
}

/* The dock sends a frame, which every unit hears, and listens for as long as the answer to its command is. An answer begins with a 0: the bytes
   that were on the line, or none. */
static unsigned long ask(const unsigned char *frame, unsigned char index, unsigned char refusal, unsigned char *shown)
{
    unsigned long length = index == 2 || index == 9 || index == 10 ? MMC_ANSWER : FRAME;
    for (unsigned long at = 0; at < 8 * FRAME; at++)
        for (unsigned i = 0; i < docked; i++)
            put_bit(units[i].heard, at, bit_of(frame, at));
    for (unsigned i = 0; i < docked; i++)
        begin_answer(&units[i], refusal);
    for (unsigned long at = 0; at < 8 * length; at++)
        put_bit(shown, at, line_bit(at));
    for (unsigned i = 0; i < docked; i++)
        end_answer(&units[i]);
    return bit_of(shown, 0) == 0 ? length : 0;
}

/* ---- the script */

static void tell_round(void)
{
    unsigned senders = 0, winners = 0;
    unsigned long last = 0;
    for (unsigned i = 0; i < docked; i++) {
        senders += (unsigned)units[i].arbitrates;
        winners += (unsigned)won(&units[i]);
        if (units[i].arbitrates && !won(&units[i]) && units[i].bits > last)
            last = units[i].bits;
    }
    asked++;
    rounds += winners > 0;
    dprintf(STORY, "round %u: %u sending", asked, senders);
    if (senders > winners)
        dprintf(STORY, ", %u silenced, the last at bit %lu of 136", senders - winners, last + 1);
    dprintf(STORY, winners == 0 ? ": nobody is left\n" : winners == 1 ? "; heard: unit" : "; heard, as one: units");
    for (unsigned i = 0; i < docked; i++)
        if (won(&units[i]))
            dprintf(STORY, " %u", i + 1);
    if (winners > 0)
        dprintf(STORY, "\n");
}

/* "It adds the last, CSD is 15 zero bytes and 01, OCR 00FF8000, one erased 8,192-byte memory, map entry 0, no password." */
static void dock(const unsigned char *identifier)
{
    static const unsigned char CSD[16] = {[15] = 1};
    unsigned char cid[16];
    if (docked == UNITS) {
        printf("refused 13\n");
        return;
    }
    struct unit *unit = &units[docked++];
    memcpy(cid, identifier, IDENTIFIER);
    cid[15] = (unsigned char)(mmc_crc7(cid, IDENTIFIER) << 1 | 1);
    memset(unit->memory, 0xFF, SIZE);
    check(mmc_card_make(&unit->card, cid, CSD, OCR, (const unsigned char *)"", 0, unit->memory, SIZE, unit->map, GROUPS) == 0, "a card is made");
    printf("card %u\n", docked);
}

/* What a bus refuses never reaches the line: 13, nobody is there; 14, the command is none for all. A damaged frame does. */
static void play(const unsigned char *frame)
{
    static const unsigned char FOR_ALL[] = {0, 1, 2, 3, 4, 7, 9, 10, 13, 15};
    unsigned char index = 0, shown[MMC_ANSWER];
    unsigned int argument;
    unsigned char refusal = mmc_read_frame(frame, FRAME, &index, &argument);
    int for_all = 0;
    frames++;
    for (unsigned i = 0; i < sizeof FOR_ALL; i++)
        for_all |= FOR_ALL[i] == index;
    if (docked == 0 || !for_all) {
        printf("refused %d\n", docked == 0 ? 13 : 14);
        return;
    }
    unsigned long length = ask(frame, index, refusal, shown);
    printf("%u %s", frames, length == 0 ? "silent" : "line ");
    for (unsigned long i = 0; i < length; i++)
        printf("%02X", (unsigned)shown[i]);
    printf("\n");
    if (refusal == 0 && index == 2)
        tell_round();
}

int main(void)
{
    unsigned char body[IDENTIFIER];
    int kind;
    while ((kind = getchar()) >= 0) {
        int byte = 0, length = kind == 1 ? IDENTIFIER : FRAME;
        if (kind != 1 && kind != 2) {
            printf("bad kind\n");
            break;
        }
        for (int i = 0; i < length && (byte = getchar()) >= 0; i++)
            body[i] = (unsigned char)byte;
        if (byte < 0) {
            printf("cut\n");
            break;
        }
        if (kind == 1)
            dock(body);
        else
            play(body);
    }
    dprintf(STORY, "%u rounds were answered, %u units are docked\n", rounds, docked);
    return wrong;
}
