/* What libfirmware.a offers C: one MultiMediaCard, and the check sums, frames and blocks that it speaks in. For x86-64 Linux.

   Every call is proved to do what documents 01 and 02 say, for every value of every number and byte that it is given. What it can't check it
   asks of its caller:
     - no pointer is null, and each points to as many bytes as the length behind it says, or as the comment says where there is none;
     - what a call writes to overlaps nothing else that it is given;
     - while a call runs, nobody else writes what it reads, or reads or writes what it writes.
   No call keeps a pointer, allocates, waits, or calls anything of the C library but memcpy, memmove and memset. A call writes nothing but what its
   comment says.

   A call answers 0 where it was carried out, else the number that document 01 gives its refusal; a comment lists the numbers in the order
   in which they are looked for. A refused call leaves everything as it was but for what its comment says.

   Of a card's record a call writes the numbers that it may change, in the form that `struct mmc_numbers` gives them below: a frame and a block
   out the first nine, `state` to `mode`; a block in and power-on these, `locked` and `password_length`; work done `state`, where it is prg or
   dis; a make all thirteen. The others keep their form, also where they are wider than their fields. A frame or a block that is refused leaves
   the record byte for byte, but for a frame refused 3, which may change `errors` and nothing else, and a block refused 16 to 21. */
#ifndef MMC_H
#define MMC_H

/* ---- check sums, frames and blocks */

/* The check sums of any bytes. */
unsigned char mmc_crc7(const unsigned char *bytes, unsigned long length);
unsigned short mmc_crc16(const unsigned char *bytes, unsigned long length);

/* A command frame read, its index and argument written: 1, 2, 3. */
unsigned char mmc_read_frame(const unsigned char *frame, unsigned long length, unsigned char *index, unsigned int *argument);

/* A command frame, six bytes, written to the front of `out`: 4, 6. */
unsigned char mmc_write_command(unsigned char index, unsigned int argument, unsigned char *out, unsigned long room);

/* A payload and its CRC16, two bytes more, written to the front of `out`: 5, 6. In SPI the start byte MMC_START goes before it. */
unsigned char mmc_write_block(const unsigned char *payload, unsigned long length, unsigned char *out, unsigned long room);

/* A block with its CRC16 checked, without its start byte in SPI: 5, 17. */
unsigned char mmc_check_block(const unsigned char *block, unsigned long length);

/* ---- the record of a card

   It belongs to the caller, who lends it to each call. Its bytes may be copied, kept over a loss of power and put back: any bytes stand for
   some card, and every call answers them. A number that is wider than its field counts by its low bits. A record that was kept before there
   was a `mode`, of twelve numbers, stands for the same card once a 0 is put before its `locked`. */

/* `state`, with what a data state waits for. 13 and every number above 15 is Inactive, and is written as 13. The two of SPI came last and have the
   numbers above 13, so that all others keep theirs. */
enum mmc_state {
    MMC_IDLE = 0,
    MMC_READY = 1,
    MMC_IDENT = 2,
    MMC_STBY = 3,
    MMC_TRAN = 4,
    MMC_DATA_ONE = 5,        /* one block to send, from address `at` on */
    MMC_DATA_MANY = 6,       /* block after block, the next one from address `at` on */
    MMC_DATA_PROTECTION = 7, /* the protection bits, from group `at` on */
    MMC_RCV_ONE = 8,         /* one block to store at address `at` */
    MMC_RCV_MANY = 9,        /* block after block, the next one at address `at` */
    MMC_RCV_LOCK = 10,       /* a lock request */
    MMC_PRG = 11,
    MMC_DIS = 12,
    MMC_INA = 13,
    MMC_DATA_CSD = 14, /* in SPI: the CSD to send, as a block */
    MMC_DATA_CID = 15  /* in SPI: the CID to send, as a block */
};

/* `tags`. Every number above 4 is none, and is written as 0. */
enum mmc_tags {
    MMC_TAGS_NONE = 0,
    MMC_TAGS_SECTOR_START = 1, /* a start alone, sector `first` */
    MMC_TAGS_GROUP_START = 2,  /* a start alone, erase group `first` */
    MMC_TAGS_SECTORS = 3,      /* sectors `first` to `last`, both within */
    MMC_TAGS_GROUPS = 4        /* erase groups `first` to `last`, both within */
};

/* `mode`, by these two bits; the others are not read, and are written as 0. A card in MMC mode has neither. */
enum mmc_mode {
    MMC_SPI = 1,     /* the card is in SPI: since a CMD0 that came with its select line low, and until power-on */
    MMC_CHECKS = 256 /* and it checks CRCs there: CMD59 switches that, and CMD0 switches it off */
};

struct mmc_numbers {
    unsigned int state;           /* enum mmc_state */
    unsigned int at;              /* what `state` carries, else 0 */
    unsigned int address;         /* the card's address on the bus, 16 bits */
    unsigned int length;          /* the block length, 16 bits: 2,048 after a make, power-on and CMD0; CMD16 sets it, and a write wants 512 */
    unsigned int errors;          /* the error bits that wait for an answer that shows them, each in its place of the status */
    unsigned int tags;            /* enum mmc_tags */
    unsigned int first, last;     /* what `tags` carries, else 0 */
    unsigned int mode;            /* enum mmc_mode */
    unsigned int locked;          /* 0 where the card is not locked; any other number is locked, and is written as 1 */
    unsigned int password_length; /* 8 bits; 0 where there is no password */
    unsigned int groups;          /* the size of the memory in groups of 8,192 bytes, 16 bits */
    unsigned int ocr;
};
_Static_assert(sizeof(struct mmc_numbers) == 13 * sizeof(unsigned int), "the calls below take thirteen numbers");

struct mmc_card {
    struct mmc_numbers numbers;
    unsigned char cid[16], csd[16]; /* as the card was made with; no call changes them but a make */
    unsigned char password[16];     /* its first `password_length` bytes; no call changes them but a make and a block in */
};

/* The longest answer to a frame, MMC mode's R2; the others have 6 bytes there, and in SPI 1, 2 or 5. */
enum { MMC_ANSWER = 17 };

/* In SPI: the byte before a block, and the data responses to one, stored or carried out, and refused 17. */
enum { MMC_START = 0xFE, MMC_ACCEPTED = 0x05, MMC_CRC_WRONG = 0x0B };

/* The calls as the archive has them, each with the record in its parts. Take the ones below, which have it whole. */
unsigned char mmc_parts_make(struct mmc_numbers *numbers, unsigned char *cid, unsigned char *csd, unsigned char *password,
                             const unsigned char *identifier, const unsigned char *specifics, unsigned int ocr,
                             const unsigned char *secret, unsigned long secret_length, const unsigned char *memory,
                             unsigned long size, const unsigned char *map, unsigned long groups);
void mmc_parts_power_on(struct mmc_numbers *numbers, const unsigned char *cid, const unsigned char *csd, const unsigned char *password);
void mmc_parts_work_done(struct mmc_numbers *numbers, const unsigned char *cid, const unsigned char *csd, const unsigned char *password);
unsigned char mmc_parts_frame(struct mmc_numbers *numbers, const unsigned char *cid, const unsigned char *csd, const unsigned char *password,
                              unsigned int won, unsigned int selected, const unsigned char *frame, unsigned long length,
                              unsigned char *memory, unsigned long size, unsigned char *map, unsigned long groups, unsigned char *answer,
                              unsigned long *sent);
unsigned char mmc_parts_block_in(struct mmc_numbers *numbers, const unsigned char *cid, const unsigned char *csd, unsigned char *password,
                                 const unsigned char *block, unsigned long length, unsigned char *memory, unsigned long size,
                                 unsigned char *map, unsigned long groups, unsigned char *response, unsigned long *sent);
unsigned char mmc_parts_block_out(struct mmc_numbers *numbers, const unsigned char *cid, const unsigned char *csd,
                                  const unsigned char *password, const unsigned char *memory, unsigned long size,
                                  const unsigned char *map, unsigned long groups, unsigned char *out, unsigned long room,
                                  unsigned long *written);

/* ---- the calls of a card

   The memory, and the map with a byte for each 8,192 bytes of it, 0 or 1, belong to the caller. A card does not hold them: it is lent them at
   each call, and the caller lends the same ones every time. */

/* A card made, as after power-on: 7, 8, 9, 10, 11. `cid` and `csd` have 16 bytes and are not those of `card`; `password` may have 0 bytes.
   Memory and map are looked at and left alone: a unit that begins with an erased card fills the memory with 0xFF itself.
   A refused make leaves one fixed record, Inactive and all zeros, whatever `card` was. */
static inline unsigned char mmc_card_make(struct mmc_card *card, const unsigned char *cid, const unsigned char *csd, unsigned int ocr,
                                          const unsigned char *password, unsigned long password_length, const unsigned char *memory,
                                          unsigned long size, const unsigned char *map, unsigned long groups)
{
    return mmc_parts_make(&card->numbers, card->cid, card->csd, card->password, cid, csd, ocr, password, password_length, memory, size, map,
                          groups);
}

/* Power-on: Idle, in MMC mode, and locked exactly if there is a password. Never refused. */
static inline void mmc_card_power_on(struct mmc_card *card)
{
    mmc_parts_power_on(&card->numbers, card->cid, card->csd, card->password);
}

/* The work of prg or dis is done: the card goes to tran or stby, and in any other state stays as it is. Never refused. */
static inline void mmc_card_work_done(struct mmc_card *card)
{
    mmc_parts_work_done(&card->numbers, card->cid, card->csd, card->password);
}

/* A frame at a card in MMC mode, from a line on which it is alone, so that it wins CMD2: 12, 1, 2, 3. What the card sends, 0, 6 or 17 bytes, is
   written to the front of `answer`, which has MMC_ANSWER bytes, and how many to `sent`: 0 where it is silent or the frame is refused. CMD28 and
   CMD29 change the map, CMD38 the memory. Of the refused ones 3 sets error bit 23, unless the card is Inactive. The select line is high here, so
   that a card in SPI sends nothing and stays as it was. */
static inline unsigned char mmc_card_frame(struct mmc_card *card, const unsigned char *frame, unsigned long length, unsigned char *memory,
                                           unsigned long size, unsigned char *map, unsigned long groups, unsigned char *answer,
                                           unsigned long *sent)
{
    return mmc_parts_frame(&card->numbers, card->cid, card->csd, card->password, 1, 0, frame, length, memory, size, map, groups, answer, sent);
}

/* The same from a line that the unit shares with others. A card in Ready that hears CMD2 sends 3F and its CID, highest bit first, and falls silent
   where it sends 1 and the line shows 0: the unit does that, and then makes this call. `won` is 0 where it fell silent, and any other number where
   it sent the whole of it: it won, or shares its CID with whoever did. A card that lost is as it was and sends nothing. No other command looks
   at `won`. */
static inline unsigned char mmc_card_frame_on_line(struct mmc_card *card, int won, const unsigned char *frame, unsigned long length,
                                                   unsigned char *memory, unsigned long size, unsigned char *map, unsigned long groups,
                                                   unsigned char *answer, unsigned long *sent)
{
    return mmc_parts_frame(&card->numbers, card->cid, card->csd, card->password, won != 0, 0, frame, length, memory, size, map, groups, answer,
                           sent);
}

/* The same from pins of which one is the card's select line, and the card is alone on them: 12, 1, 2, 3. `selected` is 0 where the line is high,
   and any other number where it is low. In MMC mode CMD0 alone looks at it: with the line low it brings the card into SPI, unless the card is
   Inactive. In SPI a frame with the line high has its number and no more: nothing changes, and nothing is sent. With the line low every command is
   answered, an illegal one too: by R1, 1 byte, but CMD13 by R2, 2 bytes, and CMD58 by R3, 5 bytes, where they are legal. 3 is looked for at
   CMD0, and at the others where the card checks CRCs. With the line low it comes with R1, so that `sent` is 1, and error bit 23 is set, shown and
   cleared. */
static inline unsigned char mmc_card_frame_on_pins(struct mmc_card *card, unsigned int selected, const unsigned char *frame, unsigned long length,
                                                   unsigned char *memory, unsigned long size, unsigned char *map, unsigned long groups,
                                                   unsigned char *answer, unsigned long *sent)
{
    return mmc_parts_frame(&card->numbers, card->cid, card->csd, card->password, 1, selected, frame, length, memory, size, map, groups, answer,
                           sent);
}

/* A block from the line at a card in MMC mode, its CRC16 with it: 12, 15, 16, 17, 18, 19 or 20. A write's is stored; a lock request's changes the
   password or the lock, and a forced erase memory and map. Of the refused ones 16 sets error bit 29, 18 bit 31, 19 bit 26 and 20 bit 24, and 17
   sets none. After each of these five CMD24's card and that of a lock request wait no more and are in tran; CMD25's goes on to wait, at the same
   address. */
static inline unsigned char mmc_card_block_in(struct mmc_card *card, const unsigned char *block, unsigned long length, unsigned char *memory,
                                              unsigned long size, unsigned char *map, unsigned long groups)
{
    unsigned char response;
    unsigned long sent;
    return mmc_parts_block_in(&card->numbers, card->cid, card->csd, card->password, block, length, memory, size, map, groups, &response, &sent);
}

/* The same in either mode: 12, 15, 16, 17, 18, 19 or 20. In SPI the block has MMC_START before it, and another first byte there is refused 16; 17
   is looked for where the card checks CRCs. The data response, one byte, is written to `response`, and how many bytes that is to `sent`: 1 in SPI
   where the block was carried out, MMC_ACCEPTED, or is refused 17, MMC_CRC_WRONG; else 0, and `response` is left alone. */
static inline unsigned char mmc_card_block_in_on_pins(struct mmc_card *card, const unsigned char *block, unsigned long length,
                                                      unsigned char *memory, unsigned long size, unsigned char *map, unsigned long groups,
                                                      unsigned char *response, unsigned long *sent)
{
    return mmc_parts_block_in(&card->numbers, card->cid, card->csd, card->password, block, length, memory, size, map, groups, response, sent);
}

/* A block for the line, its CRC16 with it, written to the front of `out`: 12, 15, 6, 18, 21. In SPI MMC_START comes before it, and its CRC16 is
   right also where CRCs are not checked. How many bytes it has, at most 2,050 and in SPI 2,051, is written to `written`: 0 where it is refused.
   Of the refused ones 18 sets error bit 31 and 21 error bit 30, and the card is still to send that block. A register that CMD9 or CMD10 asks for
   in SPI is such a block, and is never refused 18 or 21. */
static inline unsigned char mmc_card_block_out(struct mmc_card *card, const unsigned char *memory, unsigned long size, const unsigned char *map,
                                               unsigned long groups, unsigned char *out, unsigned long room, unsigned long *written)
{
    return mmc_parts_block_out(&card->numbers, card->cid, card->csd, card->password, memory, size, map, groups, out, room, written);
}

#endif
