/* What libmeasured_bus.a offers C, on x86-64 Linux, for the measurements of measure/ alone. No pointer is null. */
#ifndef MEASURED_BUS_H
#define MEASURED_BUS_H

/* So many rounds on a bus of so many cards in Ready, as far as it takes them: in each round CMD2 and then CMD3 with the round's number, from 1
   on, as the address. Card i has the 16 bytes of `cids` from i % 30 * 16 on as its CID. How many CMD2 got an answer, and the address that the
   card in each of the 30 places then has, 0 where there is none. */
unsigned long measured_rounds(const unsigned char *cids, unsigned long count, unsigned long rounds, unsigned short *addresses);

#endif
