/*
 * Killaruna: a core planner over lent words.
 *
 * The planner keeps nothing of its own. A station lends it words at each call and reads the answer from a result area.
 * Between calls the station may keep the words anywhere, copy them, or write them to a disk.
 *
 * Units: time is counted in ticks, from 0 to 2 to the 40th. A tick has 1,000 grains, and tick t begins at grain 1,000 t.
 * Tasks are declared, released and advanced at whole ticks; cores change hands at whole grains. Periods, deadlines and the
 * clock are ticks; costs, shares and the ends of segments are grains.
 *
 * Areas. Each call takes a pointer and the number of words behind it.
 *     state     at least 325 words of 64 bits    the clock, the tasks and the boundaries (laid out below)
 *     shares    at least 4,096 words of 32 bits  row k, words 64 k to 64 k + 63: the grains each slot gets in slice k
 *     segments  at least 320 words of 64 bits    (advance only) who held which core, four words for each segment
 *     result    at least 3 words of 64 bits      the answer: number, value, count
 * More words may be lent. Those past 325, 4,096 and 3 are neither read nor written.
 *
 * What is promised:
 * - No call faults and every call ends, whatever the words hold. Each call checks its table before it uses it.
 * - A call is refused exactly for the reasons below, in the order given at the call. A refused call changes nothing but the
 *   result area, which then holds the refusal's number, 0 and 0.
 * - A result area under 3 words is refused with 1 and nothing at all is written.
 * - An accepted call leaves a sound table. What it leaves depends on the words lent and the numbers given, and on nothing else.
 *
 * The caller's part:
 * - No pointer is null, also where its length is 0, and each is aligned for its words.
 * - Each area is as long as its length says.
 * - No two areas overlap.
 * - Nobody else writes an area while a call runs, nor reads one that the call may write.
 */
#ifndef KILLARUNA_H
#define KILLARUNA_H

#include <stddef.h>
#include <stdint.h>

#ifdef __cplusplus
extern "C" {
#endif

/* How many words each area needs. */
#define KILLARUNA_STATE_WORDS 325
#define KILLARUNA_SHARE_WORDS 4096
#define KILLARUNA_SEGMENT_WORDS 320
#define KILLARUNA_RESULT_WORDS 3

/* The limits that the calls ask for. */
#define KILLARUNA_GRAINS_PER_TICK 1000
#define KILLARUNA_LAST_TICK (UINT64_C(1) << 40)
#define KILLARUNA_MOST_CORES 16
#define KILLARUNA_SLOTS 64
#define KILLARUNA_LONGEST_PERIOD 60000

/*
 * The state, word by word. Every word may be read at any time; a word written by anyone else is checked by the next call.
 * The boundaries are the distinct deadlines of pending jobs, rising, with zeros after the last.
 */
#define KILLARUNA_CORES 0          /* 1 to 16 */
#define KILLARUNA_CLOCK 1          /* the tick reached */
#define KILLARUNA_PLAN_START 2     /* the tick at which slice 0 begins */
#define KILLARUNA_SLOTS_IN_USE 3   /* bit i is set where slot i has a task */
#define KILLARUNA_BOUNDARY_COUNT 4 /* how many slices there are: 0 to 64 */
#define KILLARUNA_BOUNDARIES 5     /* words 5 to 68: the ticks at which the slices end */
#define KILLARUNA_TASKS 69         /* words 69 to 324: four for each slot, all zero where no task is */

/* The four words of a slot, from word KILLARUNA_TASK(slot) on. */
#define KILLARUNA_TASK(slot) (KILLARUNA_TASKS + 4 * (slot))
#define KILLARUNA_PERIOD 0   /* ticks, 1 to 60,000 */
#define KILLARUNA_COST 1     /* grains, 1 to 1,000 times the period */
#define KILLARUNA_RATE 2     /* cost divided by period, rounded up: grains per tick, 1 to 1,000 */
#define KILLARUNA_DEADLINE 3 /* the tick at which the pending job ends; 0: no job is pending */

/* The result area. */
#define KILLARUNA_NUMBER 0 /* 0: done; otherwise the refusal's number */
#define KILLARUNA_VALUE 1
#define KILLARUNA_COUNT 2

/* The result area after an accepted holder call. */
#define KILLARUNA_HELD_BY 1 /* the slot, or KILLARUNA_IDLE */
#define KILLARUNA_UNTIL 2   /* the grain at which that ends; 0: idle without a limit */
#define KILLARUNA_IDLE 64

/* The four words of a segment: `slot` holds `core` from grain `first` until just before grain `after`. */
#define KILLARUNA_WORDS_PER_SEGMENT 4
#define KILLARUNA_SEGMENT_CORE 0
#define KILLARUNA_SEGMENT_SLOT 1
#define KILLARUNA_SEGMENT_FIRST 2
#define KILLARUNA_SEGMENT_AFTER 3

/* What each call answers, and writes as the result's first word. */
enum killaruna_refusal {
    KILLARUNA_DONE = 0,
    KILLARUNA_NOT_SOUND = 1,        /* an area is too short, or the table is not sound (open: length only) */
    KILLARUNA_BAD_CORES = 2,        /* cores not 1 to 16 */
    KILLARUNA_BAD_PERIOD = 3,       /* period not 1 to 60,000 */
    KILLARUNA_BAD_COST = 4,         /* cost 0, or above 1,000 times the period */
    KILLARUNA_SLOTS_FULL = 5,       /* all 64 slots in use */
    KILLARUNA_RATES_FULL = 6,       /* rates would sum to more than 1,000 times the cores */
    KILLARUNA_BAD_SLOT = 7,         /* slot above 63 or not in use */
    KILLARUNA_JOB_PENDING = 8,      /* a job of this task is pending */
    KILLARUNA_ROWS_FULL = 9,        /* a new boundary is needed and 64 rows are in use */
    KILLARUNA_BEYOND_LAST_TICK = 10, /* deadline or tick beyond 2 to the 40th */
    KILLARUNA_BEFORE_CLOCK = 11,    /* tick before the clock */
    KILLARUNA_SEGMENTS_SHORT = 12,  /* segment buffer under 320 words */
    KILLARUNA_BAD_CORE = 13         /* core not below the count */
};

/*
 * Open: a fresh table at clock 0 with this many cores. What the areas held before does not matter.
 * Value: the cores. Refusals in this order: 1, 2.
 */
uint64_t killaruna_open(uint64_t *state, size_t state_words, uint32_t *shares, size_t share_words, uint64_t cores,
                        uint64_t *result, size_t result_words);

/*
 * Declare: a task of this period and cost gets the lowest free slot.
 * Value: the slot. Refusals in this order: 1, 3, 4, 5, 6.
 */
uint64_t killaruna_declare(uint64_t *state, size_t state_words, const uint32_t *shares, size_t share_words, uint64_t period,
                           uint64_t cost, uint64_t *result, size_t result_words);

/*
 * Withdraw: the slot is free again and may be used again at once.
 * Value: 0. Refusals in this order: 1, 7, 8.
 */
uint64_t killaruna_withdraw(uint64_t *state, size_t state_words, const uint32_t *shares, size_t share_words, uint64_t slot,
                            uint64_t *result, size_t result_words);

/*
 * Release: a job of this slot's task begins at the clock. By its deadline it will hold exactly rate times period grains.
 * Value: the deadline. Refusals in this order: 1, 7, 8, 10, 9.
 */
uint64_t killaruna_release(uint64_t *state, size_t state_words, uint32_t *shares, size_t share_words, uint64_t slot,
                           uint64_t *result, size_t result_words);

/*
 * Advance: the clock moves to this tick or to the first boundary, whichever is earlier. To go further, call again.
 * Value: the tick reached. Count: how many segments were written, at most 79, by core and then by first grain. Words after
 * them keep their contents. Refusals in this order: 1, 11, 10, 12.
 */
uint64_t killaruna_advance(uint64_t *state, size_t state_words, uint32_t *shares, size_t share_words, uint64_t tick,
                           uint64_t *segments, size_t segment_words, uint64_t *result, size_t result_words);

/*
 * Holder: who holds this core at the first grain of the clock's tick. Writes only the result area: number, slot and the grain
 * at which that segment ends; or number, KILLARUNA_IDLE and the grain at which slice 0 ends; or number, KILLARUNA_IDLE and
 * 0 when nothing is pending. Refusals in this order: 1, 13.
 */
uint64_t killaruna_holder(const uint64_t *state, size_t state_words, const uint32_t *shares, size_t share_words, uint64_t core,
                          uint64_t *result, size_t result_words);

#ifdef __cplusplus
}
#endif

#endif
