/* boxplan's calls for C: reading one constraint, checking a plan, listing plans, and reading a
 * catalogue from text. Link with target/staticlib/libabi.a, which tools/build makes.
 *
 * SLICES. Every slice passes as a pointer and then its length, counted in elements, not bytes.
 * An empty slice may be a null pointer with length 0. No two slices that a call may write, and no
 * slice that it writes and one that it reads, may overlap. Only what is not const is written.
 *
 * RESULTS. Every function gives back 0 where nothing is refused, else the number of the refusal:
 *
 *    1  entry numbers not a multiple of five, none, or over 64 entries
 *    2  two entries of equal package and version
 *    3  slot numbers not a multiple of four, over 256 slots, an owner that is no entry or is below
 *       the one before, a start after its end, an end past the text
 *    4  a constraint outside the rules
 *    5  the root is not an entry
 *    6  mode, cycles or objectives outside the rules
 *    7  a slice of another length than its own: below it is said of each which that is
 *    8  a weight sum past 32 bits (this cannot be had: 64 weights of 16 bits never are)
 *    9  a stage above 2
 *   10  the given plan is not sound
 *   11  no sound plan, none after the given one, or the listing has ended
 *   12  text outside the layout, or over 65,535 bytes
 *
 * Which of them a function gives stands with the function. The lowest that applies is given; but
 * first of all 7 where a slice for what comes back is of another length than its own, and
 * boxplan_read has an order of its own. A refusal leaves tables, text and plan buffer as they were
 * and puts 0 into set, cost, condition, fit and counts, except where it is the 7 for one of these
 * slices: then nothing at all is written.
 *
 * THE CATALOGUE AND ITS SETTINGS, as five functions take them:
 *
 *   entries     five numbers per entry: package, major, minor, patch, weight; 1 to 64 entries
 *   slots       four numbers per slot: owner, wanted package, start and end of its constraint in
 *               the text; 0 to 256 slots, owners never decreasing
 *   text        the bytes that the slots' constraints stand in
 *   root        the root's entry
 *   mode        0 npm, 1 cargo, 2 pip
 *   cycles      0 forbidden, 1 allowed
 *   objectives  one to three different codes, the most important first: 0 weight, 1 dependencies,
 *               2 duplicates
 *
 * A PLAN is a set, bit e for entry e, and a table of one byte per slot: the chosen entry, or 255
 * for none. A COST is three numbers in the order of the objectives, 0 where there is none.
 */
#ifndef BOXPLAN_H
#define BOXPLAN_H

#include <stddef.h>
#include <stdint.h>

#ifdef __cplusplus
extern "C" {
#endif

/* Whether the version major.minor.patch fits the constraint.
 *   part  the constraint's bytes
 *   fit   1 element: becomes 1 where the version fits, else 0
 * Refusals: 7 (fit), 4. */
uint8_t boxplan_fits(const uint8_t *part, size_t part_len, uint16_t major, uint16_t minor,
                     uint16_t patch, uint8_t *fit, size_t fit_len);

/* Whether a plan is sound.
 *   set        the plan's set
 *   table      one element per slot: the plan's table
 *   condition  1 element: becomes the first of the six conditions that fails, 1 to 6, or 0
 *   cost       3 elements: become the cost of a sound plan, else 0 0 0
 * Sound is the result 0 with the condition 0. Refusals: 7 (condition, cost), 1 to 8. */
uint8_t boxplan_check(const uint16_t *entries, size_t entries_len, const uint16_t *slots,
                      size_t slots_len, const uint8_t *text, size_t text_len, uint16_t root,
                      uint8_t mode, uint8_t cycles, const uint8_t *objectives,
                      size_t objectives_len, uint64_t set, const uint8_t *table, size_t table_len,
                      uint8_t *condition, size_t condition_len, uint32_t *cost, size_t cost_len);

/* The least sound plan.
 *   plan  one element per slot: becomes the plan's table; what it held does not matter
 *   set   1 element: becomes the plan's set
 *   cost  3 elements: become its cost
 * Refusals: 7 (set, cost), 1 to 8, 11. */
uint8_t boxplan_first(const uint16_t *entries, size_t entries_len, const uint16_t *slots,
                      size_t slots_len, const uint8_t *text, size_t text_len, uint16_t root,
                      uint8_t mode, uint8_t cycles, const uint8_t *objectives,
                      size_t objectives_len, uint8_t *plan, size_t plan_len, uint64_t *set,
                      size_t set_len, uint32_t *cost, size_t cost_len);

/* The least sound plan after the given one.
 *   given  the set of the given plan
 *   plan   one element per slot: holds the given plan's table, becomes that of the plan found
 *   set    1 element: becomes the set of the plan found
 *   cost   3 elements: become its cost
 * Refusals: 7 (set, cost), 1 to 8, 10, 11. */
uint8_t boxplan_next(const uint16_t *entries, size_t entries_len, const uint16_t *slots,
                     size_t slots_len, const uint8_t *text, size_t text_len, uint16_t root,
                     uint8_t mode, uint8_t cycles, const uint8_t *objectives,
                     size_t objectives_len, uint64_t given, uint8_t *plan, size_t plan_len,
                     uint64_t *set, size_t set_len, uint32_t *cost, size_t cost_len);

/* The listing a turn further: with a fresh record, and plan, stage and last left alone between
 * turns, turn after turn gives every sound plan in order, then 11 each time.
 *   stage  1 element: 0 fresh, 1 running, 2 ended
 *   last   1 element: the last set; a fresh or ended record may hold any
 *   plan   one element per slot: the last table where the record is running
 *   set    1 element: becomes the plan's set
 *   cost   3 elements: become its cost
 * A plan makes the stage 1 and is stored in last; 11 makes the stage 2 and keeps last; any other
 * refusal keeps both. Refusals: 7 (stage, last, set, cost), 1 to 8, 9, 10 when running, 11. */
uint8_t boxplan_turn(const uint16_t *entries, size_t entries_len, const uint16_t *slots,
                     size_t slots_len, const uint8_t *text, size_t text_len, uint16_t root,
                     uint8_t mode, uint8_t cycles, const uint8_t *objectives,
                     size_t objectives_len, uint8_t *stage, size_t stage_len, uint64_t *last,
                     size_t last_len, uint8_t *plan, size_t plan_len, uint64_t *set,
                     size_t set_len, uint32_t *cost, size_t cost_len);

/* A catalogue's tables from text.
 *   entries  320 elements: the first five per entry are written
 *   slots    1024 elements: the first four per slot are written
 *   counts   2 elements: become the number of entries and the number of slots
 * A constraint's marks count from the start of the text, so the same text goes to the other calls,
 * with the first 5 * counts[0] and 4 * counts[1] numbers of the tables.
 * Refusals, the first of them that applies: 7 (counts, then the tables), 12, 1 (no entry, or over
 * 64), 3 (over 256 slots). */
uint8_t boxplan_read(const uint8_t *text, size_t text_len, uint16_t *entries, size_t entries_len,
                     uint16_t *slots, size_t slots_len, uint16_t *counts, size_t counts_len);

#ifdef __cplusplus
}
#endif

#endif
