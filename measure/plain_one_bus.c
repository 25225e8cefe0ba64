/* The plain bus and all that it calls as one file, apart from plain_one.c, so that what a card costs there does not depend on the bus. */
#include "plain_crc.c"
#include "plain_wire.c"
#include "plain_store.c"
#include "plain_bus.c"
