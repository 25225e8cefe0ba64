/* What is measured on a bus: rounds of CMD2 and CMD3. The call makes its bus first, so what its rounds cost is what it costs less what the
   same call costs with fewer rounds or none; nothing of the crossing to C is in that. */
#include "measure.h"

enum { MOST = 30, CID = 16 };
/* So many cards with so many distinct CIDs; the CIDs by chance, or alike but for their last two bytes. */
struct night {
    const char *name;
    usize cards, distinct;
    int alike;
};
static const struct night NIGHTS[] = {
    {"30 cards, distinct", 30, 30, 0},    {"30 distinct, alike", 30, 30, 1},    {"30 clones", 30, 1, 0},
    {"1 card", 1, 1, 0},                  {"2 cards, distinct", 2, 2, 0},       {"5 cards, distinct", 5, 5, 0},
    {"10 cards, distinct", 10, 10, 0},    {"20 cards, distinct", 20, 20, 0},    {"30 cards, 2 distinct", 30, 2, 0},
    {"30 cards, 5 distinct", 30, 5, 0},   {"30 cards, 10 distinct", 30, 10, 0}, {"30 cards, 20 distinct", 30, 20, 0},
};
/* After the last identifier was found it does not matter what the cards' CIDs are. */
static const struct night FOUND[] = {
    {"1 card", 1, 1, 0}, {"2 cards", 2, 1, 0}, {"5 cards", 5, 1, 0}, {"10 cards", 10, 1, 0}, {"20 cards", 20, 1, 0}, {"30 cards", 30, 1, 0},
};
enum { ROWS = sizeof NIGHTS / sizeof NIGHTS[0], FOUND_ROWS = sizeof FOUND / sizeof FOUND[0], TIMED = 3 };

static u8 cids[MOST * CID];
static u16 addresses[MOST];
static usize cards, rounds, answered;

void perform_rounds(const struct calls *calls)
{
    answered = calls->rounds(cids, cards, rounds, addresses);
}

/* The same CIDs for a row whenever it is docked. */
static void dock(const struct night *night)
{
    u32 x = 1;
    cards = night->cards;
    for (usize i = 0; i < sizeof cids; i++) {
        x = x * 1103515245u + 12345u;
        cids[i] = (u8)(x >> 16);
    }
    for (usize place = 1; place < MOST; place++)
        if (night->alike)
            memcpy(cids + place * CID, cids, CID - 2);
        else if (place >= night->distinct)
            memcpy(cids + place * CID, cids + place % night->distinct * CID, CID);
}

static struct cost spent(const struct calls *calls, usize from, usize to)
{
    rounds = from;
    struct cost less = count(calls, ROUNDS);
    rounds = to;
    struct cost more = count(calls, ROUNDS);
    if (less.instructions < 0 || more.instructions < 0)
        return (struct cost){-1, -1};
    return (struct cost){more.instructions - less.instructions, more.stack};
}

static long stacks[SETS];

/* What is wanted at most of the instructions of plain C: of the first round of 30 distinct cards, and of every row. */
static const double FIRST_ROUND = 1.6, EVERY_ROW = 2;

static void row(const struct calls *sets, const struct night *night, usize from, usize to, double most)
{
    long ours = 0, plain = 0;
    dock(night);
    printf("%-22s", night->name);
    for (int s = 0; s < SETS; s++) {
        struct cost cost = spent(&sets[s], from, to);
        if (cost.instructions < 0) {
            printf(" not counted: here no instruction traps");
            break;
        }
        stacks[s] = cost.stack > stacks[s] ? cost.stack : stacks[s];
        if (s == 0)
            printf(" %8ld", ours = cost.instructions);
        else
            printf(" %8ld %6.3f", cost.instructions, (double)ours / (double)cost.instructions);
        if (s == 1)
            plain = cost.instructions;
    }
    wanted(plain > 0 ? most : 0, ours, plain);
}

/* The least of ten passes over all builds, with no round and with so many: what else the machine does comes and goes, and meets all alike. */
static void least(const struct calls *sets, usize n, double *none, double *all)
{
    for (int pass = 0; pass < 10; pass++)
        for (int s = 0; s < SETS; s++) {
            rounds = 0;
            double t = timed(&sets[s], ROUNDS);
            none[s] = pass == 0 || t < none[s] ? t : none[s];
            rounds = n;
            t = timed(&sets[s], ROUNDS);
            all[s] = pass == 0 || t < all[s] ? t : all[s];
        }
}

static void times(const struct calls *sets, const char *what, const char *where, int whole)
{
    head(what, where);
    for (int w = 0; w < TIMED; w++) {
        double none[SETS], all[SETS];
        dock(&NIGHTS[w]);
        least(sets, whole ? NIGHTS[w].distinct + 1 : 1, none, all);
        printf("%-22s %8.0f", NIGHTS[w].name, all[0] - none[0]);
        for (int s = 1; s < SETS; s++)
            printf(" %8.0f %6.3f", all[s] - none[s], (all[0] - none[0]) / (all[s] - none[s]));
        printf("\n");
    }
}

/* That each call finds as many cards as it is to find. */
static void found(const struct calls *sets)
{
    for (int w = 0; w < ROWS; w++)
        for (int s = 0; s < SETS; s++) {
            dock(&NIGHTS[w]);
            rounds = MOST + 1;
            perform_rounds(&sets[s]);
            same(answered == NIGHTS[w].distinct, NIGHTS[w].name, &sets[s], w);
        }
}

void nights(const struct calls *sets, const char *where)
{
    found(sets);
    head("Instructions of the first round on a bus", "");
    for (int w = 0; w < ROWS; w++)
        row(sets, &NIGHTS[w], 0, 1, w == 0 ? FIRST_ROUND : EVERY_ROW);
    head("Instructions of a silent round on a bus, all its cards found", "");
    for (int w = 0; w < FOUND_ROWS; w++)
        row(sets, &FOUND[w], 1, 2, EVERY_ROW);
    head("Instructions of a whole night on a bus: a round for each distinct CID, and a silent one", "");
    for (int w = 0; w < ROWS; w++)
        row(sets, &NIGHTS[w], 0, NIGHTS[w].distinct + 1, EVERY_ROW);
    printf("\nBytes of stack below the return address of the call that makes a bus and plays rounds\n%-22s", "");
    for (int s = 0; s < SETS; s++)
        printf(" %8ld", stacks[s]);
    printf("\n");
    times(sets, "Nanoseconds of the first round on a bus", where, 0);
    times(sets, "Nanoseconds of a whole night on a bus", where, 1);
}
