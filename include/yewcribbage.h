/*
 * Yewcribbage, a journey office proved right: the functions for C.
 *
 * All memory is the caller's. A row of numbers is passed as a pointer and its length, the count of its numbers; the
 * pointer must point to that many numbers (it is never null), and no row that is written may overlap another. Nothing
 * is kept between calls, no heap is used, and 128 kB of stack are enough. What memory means is in docs/FORMAT.md, what
 * a request means in docs/RULES.md. Any numbers may be passed: what cannot be used is refused.
 *
 * Each function gives one number:
 *
 *     0                              it is done
 *     refusal * 2^40 + place         it was refused, and all memory that was lent is as it was
 *
 * where a place above 2^40 - 1 is told as 2^40 - 1. yew_refusal and yew_place read the two back. Of several refusals
 * that apply the first of this list is told (legs, walks and piers are counted from 0):
 *
 *     1  the plan has fewer than 3 numbers (at 3); more than 64 piers (0), 1,024 legs (1) or 256 walks (2); or it is
 *        shorter than its counts say (3)
 *     2  the first leg that is out of bounds or has the run and number of an earlier one (at the leg); else the first
 *        walk (1,024 + walk); else the first change (1,280 + pier)
 *     3  a question of fewer than 4 numbers (at how many there are); its first pier is not there (0), its time is 2^32
 *        or above (1), its second pier is not there (2), its most boats are above 8 (3)
 *     4  the row to be written is too short (at its length)
 *     5  the mark is not one of the answer's (at its boats)
 *     6  a delay by which a time would reach 2^32 (at the first such leg)
 *     7  an extra leg whose run and number are in the plan (at its number), or where there are 1,024 (at 1,024)
 *     8  a leg to cancel that is not in the plan (at its number)
 *     9  an itinerary of more than 1,024 legs, or cut short (at its count of legs, 0 where that is missing)
 */
#ifndef YEWCRIBBAGE_H
#define YEWCRIBBAGE_H

#include <stddef.h>
#include <stdint.h>

#ifdef __cplusplus
extern "C" {
#endif

/* A plan: the counts of piers, legs and walks; the change of each pier; run, number, from, to, leaves and comes of each
 * leg; from, to and takes of each walk. What stands behind is not the plan's. */
enum {
    YEW_MOST_PIERS = 64,
    YEW_MOST_LEGS = 1024,
    YEW_MOST_WALKS = 256,
    YEW_PLAN_ROOM = 3 + YEW_MOST_PIERS + 6 * YEW_MOST_LEGS + 3 * YEW_MOST_WALKS, /* for any plan, and every extra leg */
    YEW_ANSWER_ROOM = 19,                                                       /* for any answer */
    YEW_JOURNEY_ROOM = 1 + 2 * YEW_MOST_LEGS                                    /* for any itinerary */
};

/* The refusal in what a function gave, 0 where it was done; and its place. */
static inline uint64_t yew_refusal(uint64_t told) { return told >> 40; }
static inline uint64_t yew_place(uint64_t told) { return told & ((UINT64_C(1) << 40) - 1); }

/*
 * The answer to a question (from, time, to, most boats; what stands behind is not looked at). Writes the count of
 * marks, and the arrival and the boats of each, by rising boats; the rest of the row is as it was. The row has 19
 * numbers or more. Refusals: 1, 2, 3, 4.
 */
uint64_t yew_answer(const uint64_t *plan, size_t plan_len, const uint64_t *question, size_t question_len,
                    uint64_t *out, size_t out_len);

/*
 * The itinerary for a mark of the answer to the question. Writes the count of its legs, and the run and the number of
 * each, from the first to the last; no legs where it is on foot. The rest of the row is as it was. The row has 2,049
 * numbers or more. Refusals: 1, 2, 3, 4, 5.
 */
uint64_t yew_journey(const uint64_t *plan, size_t plan_len, const uint64_t *question, size_t question_len,
                     uint64_t arrival, uint64_t boats, uint64_t *out, size_t out_len);

/* Updates change the plan in its place. Behind its (new) end memory holds what it held. */

/* Each leg of the run whose number is not lower leaves and comes so many minutes later. Refusals: 1, 2, 6. */
uint64_t yew_delay(uint64_t *plan, size_t plan_len, uint64_t run, uint64_t number, uint64_t minutes);

/* The leg is gone, and those behind it move up. Refusals: 1, 2, 8. */
uint64_t yew_cancel(uint64_t *plan, size_t plan_len, uint64_t run, uint64_t number);

/*
 * A leg more, behind the others. Refusals: 1 and 2 for the plan; 2 where the leg is out of its bounds (at the count of
 * legs); 7; and 1 at 3 where the plan could take the leg but the memory has no room for it.
 */
uint64_t yew_extra(uint64_t *plan, size_t plan_len, uint64_t run, uint64_t number, uint64_t from, uint64_t to,
                   uint64_t leaves, uint64_t comes);

/*
 * Whether an itinerary still goes (pier, time, count of legs, and the run and the number of each; what stands behind is
 * not looked at). Writes one number to word: 1 if it still goes, 0 if it is gone. Refusals: 1, 2, 9.
 */
uint64_t yew_still(const uint64_t *plan, size_t plan_len, const uint64_t *given, size_t given_len, uint64_t *word);

#ifdef __cplusplus
}
#endif

#endif
