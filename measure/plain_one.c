/* The same plain C as one file, so that the compiler sees the check sums' code where they are called and may copy it there. */
#include "plain_crc.c"
#include "plain_wire.c"
#include "plain_store.c"
#include "plain_card.c"
#include "plain_blocks.c"
