/* slotplan as a library: narrows which slot each sensor of a board may still get, under the rules of a sheet.
 * docs/SHEET.md has the file format, docs/REFUSALS.md the refusals.
 *
 * No call keeps anything from one call to the next, allocates memory, or reads or writes anything but what it is
 * passed; so calls may run side by side. Any bytes may be passed as a file. A pointer is not null, also where its
 * length is 0, and what a call writes overlaps nothing else that it is passed. A call took 24 KiB of stack where that
 * was measured (x86-64).
 *
 * Build the library with bench/library, and link target/staticlib/libdriver.a. */
#ifndef SLOTPLAN_H
#define SLOTPLAN_H

#include <stddef.h>
#include <stdint.h>

#ifdef __cplusplus
extern "C" {
#endif

/* How many bytes the longest listing has. An output of this length is never too short. */
#define SLOTPLAN_LONGEST 24300

/* The same number, as the library has it. */
size_t slotplan_longest(void);

/* Loads the sheet, settles it, and writes at the front of `out` the listing, "dead end", or "refused N at P", each line
 * ended by a newline; no zero byte is added. Returns the length of this text. Where `out` is too short for it, and only
 * there, returns 0 and leaves `out` as it was. Bytes of `out` after the text are left as they were. */
size_t slotplan_print(const uint8_t *file, size_t file_length, uint8_t *out, size_t out_length);

/* For timing: loads and settles the sheet `times` times. Returns the slots left to sensor 0 (bit i is one where slot i
 * is left; 0 where the sheet is refused or a dead end) if `times` is odd, and 0 if it is even. */
uint64_t slotplan_runs(const uint8_t *file, size_t file_length, uint32_t times);

/* For timing: loads the sheet `times` times and does not settle it, so that the difference to slotplan_runs is the
 * settling. Returns how many of the loads were accepted: all of them or none. */
uint32_t slotplan_loads(const uint8_t *file, size_t file_length, uint32_t times);

/* One call of a plan, for a job that is built without a sheet. `op` says which, and what the other fields are:
 *   0 new: a sensors, b slots, c sets, the kind word in `kinds`
 *   1 limit sensor a to the mask    2 claim the mask for set a    3 bar the mask from set a
 *   4 post Range and 5 post Roots: the sensors of the mask, set a of sensors, set b of slots
 *   6 post Within a b    7 post Apart a b    8 post Count of a, from b to c    9 post Row of a
 * Any other number does nothing. */
struct slotplan_step {
    uint64_t mask;
    uint32_t kinds;
    uint8_t op, a, b, c;
};

/* Makes the calls on a new draft, settles it, and writes the listing at the front of `out`; returns its length, or 0 where
 * `out` is too short. The answer to each call goes into `answers`, as far as that reaches: 0, or the number of the refusal. */
size_t slotplan_listing(const struct slotplan_step *job, size_t steps, uint8_t *answers, size_t answers_length, uint8_t *out, size_t out_length);

/* For timing: makes the calls on a new draft and settles it, `times` times; the slots left to sensor 0 each time, joined
 * by exclusive or. */
uint64_t slotplan_jobs(const struct slotplan_step *job, size_t steps, uint32_t times);

/* For timing: makes the calls once and settles what they give `times` times; the same. */
uint64_t slotplan_settles(const struct slotplan_step *job, size_t steps, uint32_t times);

#ifdef __cplusplus
}
#endif

#endif
