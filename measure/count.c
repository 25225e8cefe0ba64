/* Instructions counted exactly: the processor is told to trap behind each instruction, and those between the call's first instruction
   and its return are counted, the callees' among them. Nothing has to be taken off for the way to the call. An emulator traps in the
   same way, so that the counts are to be had on any machine.

   An instruction with a `rep` prefix traps after each of its repetitions, before the last with the instruction pointer where it
   was. It is one instruction, as a processor's own counter has it: a trap that finds the pointer where it was is not counted.

   The stack is the lowest stack pointer seen, below the place of the return address. The 128 bytes under the pointer, which x86-64
   lets a function use that calls no other, are not seen by that. */
#include "measure.h"

/* As the C library of x86-64 lays them out: what is to be done at a signal, and what a handler is given of the registers. */
struct action {
    void (*handler)(int signal, void *cause, void *context);
    unsigned long masked[16];
    int flags;
    void (*restorer)(void);
};
struct context {
    unsigned long head[5];
    long registers[23];
};
int sigaction(int signal, const struct action *next, struct action *before);

enum { SIGTRAP_ = 5, WITH_CONTEXT = 4 };
enum { RSP = 15, RIP = 16, FLAGS = 17 };
enum { TRAP_FLAG = 0x100 };

/* The call that is counted: where it begins, where it returns to, and what was seen of it. */
static struct {
    enum { AWAITED, WITHIN, DONE } phase;
    long entry, back, stack, at, lowest, instructions;
} seen;

static void trapped(int signal, void *cause, void *context)
{
    (void)signal, (void)cause;
    long *registers = ((struct context *)context)->registers;
    long at = registers[RIP], top = registers[RSP];
    if (seen.phase == AWAITED && at == seen.entry) {
        seen.phase = WITHIN;
        seen.back = *(long *)top;
        seen.stack = seen.lowest = top;
    } else if (seen.phase == WITHIN) {
        seen.instructions += at != seen.at;
        if (top < seen.lowest)
            seen.lowest = top;
        if (at == seen.back && top > seen.stack) {
            seen.phase = DONE;
            registers[FLAGS] &= ~(long)TRAP_FLAG;
        }
    }
    seen.at = at;
}

struct cost count(const struct calls *calls, enum work work)
{
    const struct action action = {.handler = trapped, .flags = WITH_CONTEXT};
    if (sigaction(SIGTRAP_, &action, 0) != 0)
        return (struct cost){-1, -1};
    __builtin_memset(&seen, 0, sizeof seen);
    seen.entry = (long)code_of(calls, work);
    __builtin_ia32_writeeflags_u64(__builtin_ia32_readeflags_u64() | TRAP_FLAG);
    perform(calls, work);
    __builtin_ia32_writeeflags_u64(__builtin_ia32_readeflags_u64() & ~(unsigned long)TRAP_FLAG);
    return seen.phase == DONE ? (struct cost){seen.instructions, seen.stack - seen.lowest} : (struct cost){-1, -1};
}
