/* Celadonmaul: the verified drive of a two-motor plotting gantry. The C interface of libgantry.a.
 *
 * Every call answers a number. 0 means accepted: the lent buffer then holds the whole answer. Any other number is a
 * refusal: every byte of every buffer is as it was. The number follows from the input alone, for all inputs, by the
 * order of the checks. That each call does this, and nothing undefined on the way, is proved; docs/PROOFS.md says by
 * which theorems.
 *
 * What the caller owes: each pointer is valid for its length (for a length of 0 any pointer that is not null will do), a
 * buffer that is written overlaps no other buffer of the call, and no other thread writes to a buffer during the call, nor
 * reads one that is written. The library keeps nothing between two calls but what stands in a drive, a buffer of the
 * caller's; it uses no heap, and every call returns. The calls do not recurse: no routine of the library calls itself,
 * directly or through others, and none calls through a pointer. So the stack of a call has a bound for all inputs:
 * GANTRY_STACK_BYTES, below.
 */
#ifndef GANTRY_H
#define GANTRY_H

#include <stddef.h>
#include <stdint.h>

#ifdef __cplusplus
extern "C" {
#endif

/* The sizes of the buffers. nu motors, N steps, n = nu * N commands, nx state values, nr target values (0 for a drive that
 * follows no target). An image has a low and a high limit for each command, that is for each motor at each step. */
#define GANTRY_MAX_COMMANDS 16
#define GANTRY_MAX_STATES 12
#define GANTRY_MAX_TARGETS 4
/* The design numbers of a sheet: one for each line after line 01, one for each word of the image after the first eight. */
#define GANTRY_DESIGN_NUMBERS(n, nx, nr) ((n) * (n) + (n) * (nx) + 2 * (n) + 1 + (nx) + (n) * (nr) + (nr))
#define GANTRY_IMAGE_WORDS(n, nx, nr) (8 + GANTRY_DESIGN_NUMBERS(n, nx, nr))
#define GANTRY_IMAGE_BYTES(n, nx, nr) (4 * (size_t)GANTRY_IMAGE_WORDS(n, nx, nr))
#define GANTRY_PAGE_BYTES(n, nx, nr) (44 * (size_t)GANTRY_DESIGN_NUMBERS(n, nx, nr))
#define GANTRY_STATE_BYTES(nx) (4 * (size_t)(nx))
#define GANTRY_RANGES_BYTES(nx) (8 * (size_t)(nx))
#define GANTRY_TARGET_BYTES(nr) (4 * (size_t)(nr))
#define GANTRY_START_BYTES(n) (4 * (size_t)(n))
#define GANTRY_ANSWER_BYTES(n) (8 * (size_t)(n) + 8)
#define GANTRY_RANGE_ANSWER_BYTES(n) (8 * (size_t)(n))
/* What a commit writes: the commands of one step. */
#define GANTRY_COMMANDS_BYTES(nu) (4 * (size_t)(nu))
/* A drive, whatever its image and its number of heads, which is 1 to GANTRY_MAX_HEADS. */
#define GANTRY_DRIVE_BYTES 3120
#define GANTRY_MAX_HEADS 4
/* Large enough for every image and every page: n 16, nx 12, nr 4. */
#define GANTRY_MAX_IMAGE_BYTES GANTRY_IMAGE_BYTES(GANTRY_MAX_COMMANDS, GANTRY_MAX_STATES, GANTRY_MAX_TARGETS)
#define GANTRY_MAX_PAGE_BYTES GANTRY_PAGE_BYTES(GANTRY_MAX_COMMANDS, GANTRY_MAX_STATES, GANTRY_MAX_TARGETS)

/* Stack enough for any call: the compiled archive takes 11.3 KiB at most, read off its machine code (README has the
 * figures), and the rest is for the memcpy and memset that the firmware supplies. */
#define GANTRY_STACK_BYTES 12288

/* The numbers. */
enum gantry_number {
    GANTRY_ACCEPTED = 0,
    GANTRY_BAD_LINE = 1,       /* sheet: a line is not 22 digits 0-9 A-F and byte 10 */
    GANTRY_WRONG_LINE = 2,     /* sheet: not the kind, row and column due here, or a zero byte of line 01 is not 0 */
    GANTRY_BAD_SIZE = 3,       /* a size out of its range, nr and heads among them; image word 7 not 0; no such head */
    GANTRY_BAD_END = 4,        /* sheet: a line missing, or a byte after the last line due */
    GANTRY_BAD_VALUE = 5,      /* NaN, infinity, outside the word once rounded, or a negative limit of state or target */
    GANTRY_BAD_LENGTH = 6,     /* image: fewer than 32 bytes, or not the length that its sizes give */
    GANTRY_LIMITS_CROSSED = 7, /* a low limit above its high limit */
    GANTRY_NOT_SYMMETRIC = 8,  /* the cost table is not symmetric */
    GANTRY_NOT_DOMINANT = 9,   /* a row's diagonal less the other magnitudes is below 1 count */
    GANTRY_TOO_STEEP = 10,     /* a row's diagonal plus the other magnitudes is above 2^b */
    GANTRY_BAD_MOMENTUM = 11,  /* the step factor is out of its range, or too small for the table */
    GANTRY_NO_HEADROOM = 12,   /* an intermediate value could leave the word */
    GANTRY_BAD_STATE = 13,     /* not nx words, or a value beyond its limit; ranges: not 2nx, or a low above its high */
    GANTRY_BAD_START = 14,     /* not n words, or a command outside its limits */
    GANTRY_BAD_BUFFER = 15,    /* the buffer to be written, a drive among them, has another length than what is due */
    GANTRY_BAD_TARGET = 16,    /* not nr words, or a value beyond its limit; tested directly after 13 */
    GANTRY_NO_STOP = 17,       /* a command's low limit is above 0 or its high limit below 0; tested directly after 7 */
    GANTRY_NO_ANSWER = 18,     /* a commit without a waiting answer */
    GANTRY_NOT_IDLE = 19,      /* a new image, itself acceptable, while any head made has a waiting answer */
    GANTRY_NO_SWEEPS = 20      /* an ask, itself acceptable, for which own share and common part together fall short */
};

/* Reads a design sheet and writes its image. image_len must be the image's exact length (15), which is known from the
 * sheet's first line: GANTRY_IMAGE_BYTES. Numbers: 0, 1 to 5, 7 to 12, 15, 17.
 * An entry of a table becomes the nearest count, at a tie the even one; a low limit is rounded up, a high one down, the
 * step factor and the limits of state and target up. An image written here is accepted by the calls below.
 * What a sheet or a stored image of an earlier archive is today: docs/UPGRADING.md. */
uint32_t gantry_intake(const uint8_t *sheet, size_t sheet_len, uint8_t *image, size_t image_len);

/* Reads a design sheet and writes its design page, which shows what rounding did: a line of 43 characters and byte 10 for
 * each design number, in sheet order. page_len must be the page's exact length (15): GANTRY_PAGE_BYTES. Numbers: those of
 * gantry_intake, which accepts the same sheets. A line is kind, row and column, given double, kept double, K or M:
 *     05 0000 3FA0000000000000 0000000000000000 M
 * The kept double is exactly that of the image's word; K stands where its value is the given one, M where it moved. */
uint32_t gantry_page(const uint8_t *sheet, size_t sheet_len, uint8_t *page, size_t page_len);

/* Writes a start of all zeros, 4n bytes. Numbers: 0, 3, 5 to 12, 15, 17. Zero is within the limits of every command of an
 * accepted image, so what it writes is a start that gantry_solve accepts, and commands that stop the drive. */
uint32_t gantry_cold_start(const uint8_t *image, size_t image_len, uint8_t *start, size_t start_len);

/* Runs the image's sweeps from a start and writes 8n + 8 bytes, GANTRY_ANSWER_BYTES: n commands as signed big-endian 32-bit
 * words, then n error bounds as unsigned ones, then D as one unsigned big-endian 64-bit word, all in counts of 2^-b. State,
 * target and start are signed big-endian 32-bit words; with nr 0 the target is empty. Numbers: 0, 3, 5 to 17, tested 6, 3,
 * 6, 5, 7, 17, 8 to 13, 16, 14, 15.
 * With 0:
 * - each command lies within the limits of its own step;
 * - it differs from the command of the exact scheme, which rounds nothing, after the same sweeps, by at most its bound;
 * - it is within D counts of the optimum, the sequence that equals its own gradient step, held to the limits; D is below
 *   2^52, and 0 exactly where the commands are the optimum.
 * The bound tells what rounding did, and is the image's alone; D tells how far this answer is from the best one, whatever
 * the bound says, and so depends on state, target, start and sweeps too. A row's products are added in 64 bits, which they
 * do not leave, and divided once, so a row loses at most one count. The commands, the first 4n bytes, are again a start that
 * a solve on this image accepts. */
uint32_t gantry_solve(const uint8_t *image, size_t image_len, const uint8_t *state, size_t state_len,
                      const uint8_t *target, size_t target_len, const uint8_t *start, size_t start_len,
                      uint8_t *answer, size_t answer_len);

/* The solve of a state that is known only within ranges, as worn encoders give it: carries a lowest and a highest value
 * through the image's sweeps and writes 8n bytes, GANTRY_RANGE_ANSWER_BYTES: the n lowest commands, then the n highest, as
 * signed big-endian 32-bit words in counts of 2^-b; no bounds and no D. The ranges are nx low words, then nx high words,
 * GANTRY_RANGES_BYTES, signed big-endian as a state; both ends belong to a range. Target, start, numbers and the order of
 * the checks are those of gantry_solve: 13 is another length of the ranges, a low above its high, or an end beyond plus or
 * minus the state limit.
 * With 0:
 * - for every state within the ranges gantry_solve with this image, target and start, and a buffer of its own length, is
 *   accepted, and each of its commands lies between the lowest and the highest of that command, after each sweep;
 * - ranges of one value, each low its high, give that solve's commands twice;
 * - lowest and highest lie within the limits of the command's own step, so each n of them are again a start.
 * No command lies outside; but the two may be further apart than the commands of all states within the ranges are. */
uint32_t gantry_range_solve(const uint8_t *image, size_t image_len, const uint8_t *ranges, size_t ranges_len,
                            const uint8_t *target, size_t target_len, const uint8_t *start, size_t start_len,
                            uint8_t *answer, size_t answer_len);

/* ---- drives: ask first, then commit
 *
 * A drive is a buffer of GANTRY_DRIVE_BYTES that the caller keeps. It holds an image and 1 to 4 heads, a pen and a
 * knife, say: of each head a start, perhaps a waiting answer, and what it has left of its own share of a period's
 * sweeps; and what is left of their common part. Its bytes are the library's: make writes all of them, the other calls
 * go on from there, and nobody else should write them. It holds no pointer, so it may be copied, stored and moved; a
 * copy is a drive of its own, its sweeps counted apart. Every byte string is a drive with a defined outcome, proved
 * too: one that was damaged is refused by the checks of what it then holds, or answered from that.
 *
 * The heads are numbered from 0. A number not below that of the heads made is 3: before all else where it is 4 or more,
 * and otherwise directly behind the check of the drive's length. A table with one head makes a drive of one, head 0.
 *
 * The heads run on one chip, which affords S sweeps a period. Each head owns S divided by the number of heads, rounded
 * down, and the remainder is common. An ask costs the image's sweeps, from its head's own share first and then from the
 * common part; where both together fall short it is 20, and nothing is taken. Proved of every run of calls from a new
 * drive that only they write:
 * - the sweeps of a period's accepted asks never pass its S; with what is left of the own shares and of the common part
 *   they are S, unless the drive was made anew within the period, which leaves nothing of either;
 * - an ask that costs no more than its head then has left of its own share is not 20;
 * - the heads share the image, the period and the common part, and nothing else: as long as no ask of a head costs more
 *   than it then has left of its own share, what is asked, committed and done for the others, or refused, changes no
 *   number, answer, start or share of this head, but that an answer that waits keeps a new image away (19). */

/* Makes a drive of an image, tested as by a solve up to 12, and 1 to 4 heads (3, before all else): it holds the image
 * and of each head a start of zeros; no answer waits, and there are no sweeps until a period begins. All of its bytes
 * are written, whatever it was before. drive_len must be GANTRY_DRIVE_BYTES (15). Numbers: 0, 3, 5 to 12, 15, 17. The
 * image is copied: its own buffer is no longer needed. */
uint32_t gantry_make(const uint8_t *image, size_t image_len, uint32_t heads, uint8_t *drive, size_t drive_len);

/* Begins a period of S sweeps: what was left of the one before lapses, each head owns its share of S, also one that was
 * done, and the remainder is common. Starts and waiting answers stay. Where S is at least the number of heads times the
 * image's sweeps, each share is enough for an ask. Numbers of a drive that these calls alone have written: 0, 15; of a
 * damaged one also 3, where its number of heads is not 1 to 4; tested 15, 3. */
uint32_t gantry_period(uint8_t *drive, size_t drive_len, uint16_t sweeps);

/* Solves on the drive's image from the head's start: number, answer and what is promised of it are those of
 * gantry_solve with this image and start, behind the checks of head and drive_len (3, 15, 3), and before that of the
 * sweeps (20). With 0 the answer, GANTRY_ANSWER_BYTES, is written and kept as the head's waiting one, in place of an
 * earlier one, and the image's sweeps are taken; the start stays, so asks may be repeated while the sweeps last. A
 * refused ask takes no sweeps, and leaves the earlier answer waiting. Numbers of a drive that these calls alone have
 * written: 0, 3, 13, 15, 16, 20; of a damaged one also 5 to 12, 14, 17. */
uint32_t gantry_ask(uint8_t *drive, size_t drive_len, uint32_t head, const uint8_t *state, size_t state_len,
                    const uint8_t *target, size_t target_len, uint8_t *answer, size_t answer_len);

/* Writes the first nu commands of the head's waiting answer, GANTRY_COMMANDS_BYTES, for the motors. The rest moves one
 * step forward, the last step is repeated, and each is held to the limits of its new step: that is the head's next
 * start, and the answer no longer waits. It costs no sweeps. Numbers of a drive that these calls alone have written: 0,
 * 3, 15, 18; of a damaged one also 6. Tested: head and drive_len (3, 15, 3), the held image's length and sizes (6, 3,
 * 6), 15 for commands_len, 18. */
uint32_t gantry_commit(uint8_t *drive, size_t drive_len, uint32_t head, uint8_t *commands, size_t commands_len);

/* The head is done for this period: what it has left of its own share becomes common. It may still commit what waits,
 * and ask from the common part; done again it moves nothing, and from the next period on it owns its share again.
 * Numbers: 0, 3, 15, tested 3, 15, 3. */
uint32_t gantry_done(uint8_t *drive, size_t drive_len, uint32_t head);

/* Replaces the image of a drive, for every head made, while none of them has a waiting answer (19): the starts are
 * zeros again. The number of heads and the sweeps that are left stay, and later asks cost the new image's sweeps; all
 * other bytes are as gantry_make with this image leaves them. It may have other sizes than the one before. Numbers: 0,
 * 3, 5 to 12, 15, 17, 19. The image is tested first, as by gantry_make, then drive_len, then 19: an image that is
 * itself refused has its own number, whether an answer waits or not. */
uint32_t gantry_new_image(uint8_t *drive, size_t drive_len, const uint8_t *image, size_t image_len);

#ifdef __cplusplus
}
#endif

#endif
