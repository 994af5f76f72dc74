/* Ayinzhad, called from C and from whatever can call C.
 *
 * Link target/staticlib/libembed.a, which `tools/build embed` writes (x86-64 Linux).
 *
 * Nothing is asked of a caller but this: each pointer leads to as many elements as the length beside it says, and the buffers that are
 * written (room, place, totals, found) overlap nothing else that is passed. A length of 0 goes with any pointer, NULL too. The bytes of the
 * files may be anything. Nothing is kept between calls, nothing is allocated, no file is opened; calls from several threads at once do not
 * disturb each other.
 *
 * The numbers of a verdict are the rule paper's: 0 accepted; 1 to 4 the day file; 5 to 8 the clearing file; 11 to 17, 20 and 21 the rules;
 * 18 the room is shorter than the statement; 19, of the look-up alone, no such section. README.md has the table with the place of each. The
 * third number of a place is the field's in its row, from 0, for the numbers 3 and 7, and 0 for every other.
 *
 * A clearing file has a ratio of two bytes for each block, from 0 to 1,000 in thousandths. One with a byte a block is refused with 5 at
 * section 4.
 */
#ifndef AYINZHAD_H
#define AYINZHAD_H

#include <stddef.h>
#include <stdint.h>

#ifdef __cplusplus
extern "C" {
#endif

#define AYINZHAD_PLACE 3           /* elements of a place, and of what a look-up finds */
#define AYINZHAD_TOTALS 6          /* elements of the totals */
#define AYINZHAD_LONGEST 852       /* no statement is longer than this many bytes */
#define AYINZHAD_WRONG_LENGTH 255  /* not a verdict: the buffer for the answer has another length */

/* Judges a day file and a clearing file. Gives the number of the verdict and puts its place into `place`.
 *
 * Accepted (0): place is 0, 0, 0, and the statement stands at the front of the room; the bytes behind it are as they were. Little-endian: 6
 *   (u16); order value, buyer surplus, seller surplus, rent, traded volume, shortfall (i64 each); the number of net positions (u16); the net
 *   positions (i32 each), all periods of zone 0 first. It takes 52 bytes and 4 for each zone and period.
 * Refused (1 to 18, 20, 21): place is where, and the room is as it was. 18 comes last: everything else about the two files holds.
 * Wrong length (255): `places` is not 3. Neither the place nor the room has changed, and nothing was judged.
 */
uint8_t ayinzhad_check(const uint8_t *day, size_t day_length, const uint8_t *clearing, size_t clearing_length,
                       uint8_t *room, size_t room_length, size_t *place, size_t places);

/* The totals of a day file and a clearing file, with no room to lend. Gives the number of the verdict, which is never 18.
 *
 * Accepted (0): totals are order value, buyer surplus, seller surplus, rent, traded volume, shortfall, in this order: money in thousandths
 *   of a euro, volume in tenths of a MW.
 * Refused (1 to 17, 20, 21): the totals are all 0.
 * Wrong length (255): `totals_length` is not 6. The totals have not changed, and nothing was judged.
 */
uint8_t ayinzhad_totals(const uint8_t *day, size_t day_length, const uint8_t *clearing, size_t clearing_length,
                        int64_t *totals, size_t totals_length);

/* Where the rows of a section of a day file stand: 1 periods, 2 zones, 3 lines, 4 steps, 5 blocks.
 *
 * Found (0): found is the index of the first row's first byte in `day`, how many bytes the rows take, without the section's count, and 0.
 *   An empty section is found, with 0 bytes.
 * Refused (19 for another section, or 1 to 4 for a fault in any section of the day file): found is the place.
 * Wrong length (255): `found_length` is not 3. Nothing has changed, and nothing was read.
 */
uint8_t ayinzhad_look_up(const uint8_t *day, size_t day_length, size_t section, size_t *found, size_t found_length);

#ifdef __cplusplus
}
#endif

#endif
