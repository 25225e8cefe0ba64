/* The plain C's calls, under the prefix of this build: PREFIX is given on the compiler's command line. */
#define JOIN_(a, b) a##b
#define JOIN(a, b) JOIN_(a, b)
#define PLAIN(name) JOIN(PREFIX, name)

u8 PLAIN(crc7)(const u8 *bytes, usize length);
u16 PLAIN(crc16)(const u8 *bytes, usize length);
u8 PLAIN(read_frame)(const u8 *frame, usize length, u8 *index, u32 *argument);
u8 PLAIN(unframe)(const u8 *frame, usize length, u8 *index, u32 *argument);
u8 PLAIN(write_command)(u8 index, u32 argument, u8 *out, usize room);
u8 PLAIN(write_block)(const u8 *payload, usize length, u8 *out, usize room);
u8 PLAIN(check_block)(const u8 *block, usize length);
void PLAIN(fill)(u8 *memory, usize length);
_Bool PLAIN(read)(const u8 *restrict memory, usize length, usize at, u8 *restrict out, usize room);
void PLAIN(write)(u8 *restrict memory, usize length, u32 sector, const u8 *restrict bytes);
_Bool PLAIN(erase)(u8 *restrict memory, usize length, const u8 *restrict map, usize groups, u32 first, u32 last);
u8 PLAIN(make)(struct mmc_numbers *card, u8 *cid, u8 *csd, u8 *password, const u8 *identifier, const u8 *specifics, u32 ocr, const u8 *secret,
               usize secret_length, const u8 *memory, usize size, const u8 *map, usize groups);
void PLAIN(power_on)(struct mmc_numbers *card, const u8 *cid, const u8 *csd, const u8 *password);
void PLAIN(work_done)(struct mmc_numbers *card, const u8 *cid, const u8 *csd, const u8 *password);
u8 PLAIN(frame)(struct mmc_numbers *card, const u8 *cid, const u8 *csd, const u8 *password, u32 won, u32 selected, const u8 *frame,
                usize length, u8 *memory, usize size, u8 *map, usize groups, u8 *answer, usize *sent);
u8 PLAIN(block_in)(struct mmc_numbers *card, const u8 *cid, const u8 *csd, u8 *password, const u8 *block, usize length, u8 *memory, usize size,
                   u8 *map, usize groups, u8 *response, usize *sent);
u8 PLAIN(block_out)(struct mmc_numbers *card, const u8 *cid, const u8 *csd, const u8 *password, const u8 *memory, usize size, const u8 *map,
                    usize groups, u8 *out, usize room, usize *written);
usize PLAIN(rounds)(const u8 *cids, usize count, usize rounds, u16 *addresses);
