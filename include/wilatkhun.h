/* Wilatkhun: the plan check, the yard and its calls, for C on x86-64.
 *
 * Every call takes any bytes. Every number that a call answers behind a pointer (`index`, `ticks`, `length`, `start`, `down`,
 * `device`) is always written. A call that refuses changes no byte of a lent buffer: not the yard, not the engaged bytes,
 * not the plan, not the file, not the text.
 *
 * What a caller owes: no pointer is NULL (not even for a length of 0), each points to as many bytes as its length says, and
 * what a call may write overlaps nothing else that it is handed. Nobody else changes lent bytes while a call goes on: not
 * another thread, not a signal handler, not a file that is mapped and being written. Each call is proved for every caller that
 * keeps to this; no call keeps anything between calls, and calls with bytes of their own may go on side by side.
 *
 * Most calls answer a refusal's number, 0 for none, and its `index`:
 *
 *    1 to 9   the plan: the table of the specification
 *   10        a bad record; index: its number in the roll, from 1
 *   11        the yard is not well formed, or its bytes are not a yard's (below)
 *   12        the roll's length is not a multiple of 4
 *   13        fewer engaged bytes were lent than ticks are to be done
 *   14 to 19  the plan file
 *   20        fewer bytes were lent for a plan file than the plan's takes
 *   27        a plan of other than 104 bytes was lent, or a yard of other than 40; tried before all others
 *
 * Numbers of more than one byte are little-endian.
 *
 * A plan, 104 bytes: N, W, B, Q, then for each of eight device slots F, E, R, X, G, S, two bytes each. Slots above N are zero.
 *
 * A yard, 40 bytes:
 *    0        where the base stands: 0 Fall-Back, 1 Lease, 2 Cancel, 3 Abort
 *    1        the device i of Lease i, Cancel i, Abort i; 0 in Fall-Back
 *    2, 3     the place clock
 *    4 to 7   the lease clock
 *    then for each of eight devices four bytes:
 *    0, 1     its clock
 *    2        its place: 0 Fall-Back, 1 Requesting, 2 Entering, 3 Running, 4 Exiting 1, 5 Exiting 2
 *    3        the letter that waits: 0 none, 1 Request, 2 Cancel, 3 Approve, 4 Deny, 5 Exit
 * Any other value of these bytes is malformed, and refused with 11 where a state that is not well formed is. Between ticks
 * only Approve and Deny ever wait; a yard with another letter is not well formed, and refused with 11 too.
 */
#ifndef WILATKHUN_H
#define WILATKHUN_H

#include <stddef.h>
#include <stdint.h>

#ifdef __cplusplus
extern "C" {
#endif

#define WILATKHUN_PLAN 104
#define WILATKHUN_YARD 40
/* The most bytes that wilatkhun_write writes: 18 + 12 x 8. */
#define WILATKHUN_FILE 114

/* The verdict on a plan: 0 at 0, 1 to 9, or 27 at 0. */
uint8_t wilatkhun_check(const uint8_t *plan, size_t plan_len, size_t *index);

/* A fresh yard for a plan: all in Fall-Back, clocks 0, no letters. Refused with 27, then 1 to 9. */
uint8_t wilatkhun_fresh(const uint8_t *plan, size_t plan_len, uint8_t *yard, size_t yard_len, size_t *index);

/* One tick of a yard, in place. The record's four bytes go by value. `down` is the letter that the base sent, lost or not:
 * 0 none, 1 LeaseReq, 2 Grant, 3 Cancel, 4 Abort, and `device` the one that it is for, 0 for none.
 * Refused with 27, 1 to 9, 11, then 10 at 1; the letter is then none. */
uint8_t wilatkhun_tick(const uint8_t *plan, size_t plan_len, uint8_t *yard, size_t yard_len, uint8_t command,
                       uint8_t flags, uint8_t willing, uint8_t lost, uint8_t *down, uint8_t *device, size_t *index);

/* A run of the smaller of `budget` and the roll's records, in place: `ticks` says how many. The engaged bytes get one byte a
 * tick, bit i-1 set when device i is engaged at that tick's end; later bytes keep their value.
 * Refused with 27, 1 to 9, 11, 12, 10 for any record of the whole roll, then 13; 0 ticks are then done. */
uint8_t wilatkhun_run(const uint8_t *plan, size_t plan_len, uint8_t *yard, size_t yard_len, const uint8_t *roll,
                      size_t roll_len, size_t budget, uint8_t *engaged, size_t engaged_len, size_t *ticks,
                      size_t *index);

/* Reads a plan file into a plan's 104 bytes. Refused with 27, 14 to 19, then 2 to 9. */
uint8_t wilatkhun_read(const uint8_t *file, size_t file_len, uint8_t *plan, size_t plan_len, size_t *index);

/* Writes a plan as a plan file without notes into the file's front, the body first and the trailer straight after it:
 * `length` bytes, 18 + 12 x N; later bytes keep their value. wilatkhun_read of these bytes gives the plan back, and the plan
 * of a file without notes is written as that very file.
 * Refused with 27, 1 to 9, then 20 with fewer bytes than that; the length is then 0. */
uint8_t wilatkhun_write(const uint8_t *plan, size_t plan_len, uint8_t *file, size_t file_len, size_t *length,
                        size_t *index);

/* Of a plan file and a roll, the refused piece of whichever is at fault: `length` bytes from `start`, of the file for an
 * answer of 0 and of the roll for 1. For 14 to 19 the file's last 10 bytes (all, if shorter), for 2 to 9 its body, for 12
 * the 1 to 3 leftover bytes, for 10 the four bytes; otherwise the empty piece at the roll's end. */
uint8_t wilatkhun_find(const uint8_t *file, size_t file_len, const uint8_t *roll, size_t roll_len, size_t *start,
                       size_t *length);

/* Writes a listing's first line, for n devices, from `at` on, and answers where it ends. For n above 8, or with fewer than
 * 64 bytes from `at` on, it writes nothing and answers `at`. */
size_t wilatkhun_header(uint16_t n, uint8_t *out, size_t out_len, size_t at);

/* Writes a listing's lines, one a tick, numbered from first + 1, and moves the yard in place: as many ticks of the roll as
 * have room, each begun only with 64 bytes left. `ticks` says how many, `length` how many bytes of text. A caller goes on
 * from the same yard with the rest of the roll and first + ticks.
 * With fewer than 64 bytes lent it does 0 ticks and answers 0, as it does for an empty roll: a loop that goes on while records
 * are left must end when `ticks` is 0. It looks at all of the roll that it is given, each time: of a long roll, lend the first
 * call all, so that it is refused as a whole, and each later call no more records than its text has room for.
 * Numbers in the text are exact, also above 4,294,967,295. Where first + ticks is above that, no further call can be given its
 * first number: end the listing there, or begin another with a first of its own.
 * Refused with 27, 1 to 9, 11, 12, then 10 for any record of the whole roll; 0 ticks are then done. */
uint8_t wilatkhun_list(const uint8_t *plan, size_t plan_len, uint8_t *yard, size_t yard_len, const uint8_t *roll,
                       size_t roll_len, uint32_t first, uint8_t *out, size_t out_len, size_t *ticks, size_t *length,
                       size_t *index);

#ifdef __cplusplus
}
#endif
#endif
