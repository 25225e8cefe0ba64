/* The table: instructions and times of the proved calls and of plain C, in one run. */
#include "measure.h"
#define PREFIX plain_
#include "plain.h"
#undef PREFIX
#define PREFIX free_
#include "plain.h"
#undef PREFIX
#define PREFIX one_
#include "plain.h"
#undef PREFIX
#define PREFIX one_bus_
#include "plain.h"

struct timespec {
    long seconds, nanoseconds;
};
int clock_gettime(int clock, struct timespec *time);

/* The prefixes of check sums, frames and blocks, of the memory, of a card and of a bus. */
#define CALLS(name, p, q, c, r) \
    {name,     p##crc7,  p##crc16, p##read_frame, p##write_command, p##write_block, p##check_block, q##fill,      q##read, \
     q##write, q##erase, c##make,  c##power_on,   c##work_done,     c##frame,       c##block_in,    c##block_out, r##rounds}
static const struct calls SET[SETS] = {
    CALLS("ours", mmc_, measured_, mmc_parts_, measured_),
    CALLS("plain C", plain_, plain_, plain_, plain_),
    CALLS("plain C -O2", free_, free_, free_, free_),
    CALLS("plain C -O2 in one file", one_, one_, one_, one_bus_),
};
static const char *const NAMES[CARD_FIRST] = {
    "CRC16, 2,048 bytes", "CRC7, 5 bytes",      "CRC7, 15 bytes",     "CRC7, 4 bytes",     "frame read",
    "frame written",      "block written, 512", "block checked, 512", "filled, 8,192",     "copied out, 512",
    "copied out, 2,048",  "sector written",     "16 sectors erased",  "8 of 16 protected",
};
/* What is wanted at most of the instructions of plain C; 0 where nothing is wanted. */
static const double WANTED[WORKS] = {
    [CRC16] = 1.1,        [CRC7] = 1.25, [READ_FRAME] = 0.9, [WRITE_COMMAND] = 0.9, [FILL] = 1.5,  [READ_512] = 1.5,   [READ_2048] = 1.5,
    [WRITE_SECTOR] = 1.5, [ERASE] = 1.5, [ERASE_HALF] = 1.5, [WORK_DONE] = 1.5,     [CMD13] = 1.7, [REFUSED_12] = 1.1, [LOCK_REQUEST] = 1.8,
};

/* Each begins a cache line: what the C library executes to copy and fill depends on that. */
static _Alignas(64) u8 bytes[2048], frame[6], block[514], out[2050], memory[16384];
/* The maps of a memory of two groups: the sectors 8 to 23 lie half in the one and half in the other. */
static const u8 OPEN[2] = {0, 0}, HALF[2] = {0, 1};
static volatile u32 sink;

void prepare(const struct calls *calls)
{
    u32 x = 1;
    for (usize i = 0; i < sizeof bytes; i++) {
        x = x * 1103515245u + 12345u;
        bytes[i] = (u8)(x >> 16);
    }
    if (calls->write_command(17, 0x00012345, frame, sizeof frame) != 0 || calls->write_block(bytes, 512, block, sizeof block) != 0) {
        printf("DIFFERENT: %s does not write its own inputs\n", calls->name);
        exit(1);
    }
}

static void perform_store(const struct calls *calls, enum work work)
{
    switch (work) {
    case FILL:
        calls->fill(memory, 8192);
        break;
    case READ_512:
        sink = calls->read(memory, sizeof memory, 512, out, 512);
        break;
    case READ_2048:
        sink = calls->read(memory, sizeof memory, 512, out, 2048);
        break;
    case WRITE_SECTOR:
        calls->write(memory, sizeof memory, 1, bytes);
        break;
    case ERASE:
        sink = calls->erase(memory, sizeof memory, OPEN, 2, 8, 23);
        break;
    default:
        sink = calls->erase(memory, sizeof memory, HALF, 2, 8, 23);
        break;
    }
}

void perform(const struct calls *calls, enum work work)
{
    u8 index = 0;
    u32 argument = 0;
    switch (work) {
    case CRC16:
        sink = calls->crc16(bytes, 2048);
        break;
    case CRC7:
        sink = calls->crc7(frame, 5);
        break;
    case CRC7_15:
        sink = calls->crc7(bytes, 15);
        break;
    case CRC7_4:
        sink = calls->crc7(bytes, 4);
        break;
    case READ_FRAME:
        sink = calls->read_frame(frame, 6, &index, &argument);
        sink = argument + index;
        break;
    case WRITE_COMMAND:
        sink = calls->write_command(17, 0x00012345, out, 6);
        break;
    case WRITE_BLOCK:
        sink = calls->write_block(bytes, 512, out, 514);
        break;
    case CHECK_BLOCK:
        sink = calls->check_block(block, 514);
        break;
    default:
        if (work < CARD_FIRST)
            perform_store(calls, work);
        else if (work < ROUNDS)
            perform_card(calls, work);
        else
            perform_rounds(calls);
        break;
    }
}

void *code_of(const struct calls *calls, enum work work)
{
    void *const code[CARD_FIRST] = {
        (void *)calls->crc16,      (void *)calls->crc7,          (void *)calls->crc7,        (void *)calls->crc7,
        (void *)calls->read_frame, (void *)calls->write_command, (void *)calls->write_block, (void *)calls->check_block,
        (void *)calls->fill,       (void *)calls->read,          (void *)calls->read,        (void *)calls->write,
        (void *)calls->erase,      (void *)calls->erase,
    };
    return work < CARD_FIRST ? code[work] : work == ROUNDS ? (void *)calls->rounds : card_code(calls, work);
}

static double now(void)
{
    struct timespec t;
    clock_gettime(1, &t);
    return (double)t.seconds * 1e9 + (double)t.nanoseconds;
}

/* Nanoseconds of a call: the least of ninety short rounds, since whatever else the machine does only adds. */
double timed(const struct calls *calls, enum work work)
{
    double least = 1e18;
    int turns = work == ROUNDS ? 20 : work == CRC16 ? 100 : work >= WRITE_BLOCK ? 500 : 10000;
    for (int round = 0; round < 90; round++) {
        double start = now();
        for (int i = 0; i < turns; i++)
            perform(calls, work);
        double each = (now() - start) / turns;
        if (each < least)
            least = each;
    }
    return least;
}

static const char *name_of(int work)
{
    return work < CARD_FIRST ? NAMES[work] : card_work((enum work)work);
}

void head(const char *what, const char *where)
{
    printf("\n%s%s\n%-22s %8s", what, where, "", "ours");
    printf(" %8s %6s %8s %6s %8s %6s\n", "plain C", "ratio", "C -O2", "ratio", "one file", "ratio");
}

void wanted(double most, long ours, long plain)
{
    if (most > 0)
        printf("  wanted %g of plain C: %s", most, (double)ours <= most * (double)plain ? "met" : "NOT MET");
    printf("\n");
}

static struct cost costs[WORKS][SETS];

static void counts(void)
{
    head("Instructions of one call, from its first to its return", "");
    for (int w = 0; w < WORKS; w++) {
        long n[SETS], least = 0;
        for (int s = 0; s < SETS; s++) {
            costs[w][s] = count(&SET[s], (enum work)w);
            n[s] = costs[w][s].instructions;
            if (n[s] < least)
                least = n[s];
        }
        if (least < 0) {
            printf("%-22s not counted: here no instruction traps\n", name_of(w));
            continue;
        }
        printf("%-22s %8ld", name_of(w), n[0]);
        for (int s = 1; s < SETS; s++)
            printf(" %8ld %6.3f", n[s], (double)n[0] / (double)n[s]);
        wanted(WANTED[w], n[0], n[1]);
    }
}

static void stacks(void)
{
    printf("\nBytes of stack below the return address of one call\n%-22s %8s %8s %8s %8s\n", "", "ours", "plain C", "C -O2", "one file");
    for (int w = CARD_FIRST; w < WORKS; w++) {
        printf("%-22s", name_of(w));
        for (int s = 0; s < SETS; s++)
            if (costs[w][s].stack < 0)
                printf(" %8s", "unseen");
            else
                printf(" %8ld", costs[w][s].stack);
        printf("\n");
    }
}

static void times(const char *where)
{
    head("Nanoseconds of one call", where);
    for (int w = 0; w < WORKS; w++) {
        double t[SETS];
        for (int s = 0; s < SETS; s++)
            t[s] = timed(&SET[s], (enum work)w);
        printf("%-22s %8.1f", name_of(w), t[0]);
        for (int s = 1; s < SETS; s++)
            printf(" %8.1f %6.3f", t[s], t[0] / t[s]);
        printf("\n");
    }
}

/* The one argument, if any, says where the times were taken. */
int main(int argc, char **argv)
{
    for (int s = 1; s < SETS; s++)
        printf("ours and %s agree on %lu inputs\n", SET[s].name, compare(&SET[0], &SET[s]));
    prepare(&SET[0]);
    prepare_card(&SET[0]);
    for (int w = CARD_FIRST; w < WORKS; w++)
        for (int s = 0; s < SETS; s++) {
            perform(&SET[s], (enum work)w);
            same(performed((enum work)w), name_of(w), &SET[s], w);
        }
    counts();
    stacks();
    times(argc > 1 ? argv[1] : "");
    nights(SET, argc > 1 ? argv[1] : "");
    return 0;
}
