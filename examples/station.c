/* Three tasks of nearly two thirds of a core each share two cores: who holds which core, and until when. */
#include <inttypes.h>
#include <stdio.h>

#include "killaruna.h"

/* The words that are lent to the planner at each call. */
static uint64_t state[KILLARUNA_STATE_WORDS];
static uint32_t shares[KILLARUNA_SHARE_WORDS];
static uint64_t segments[KILLARUNA_SEGMENT_WORDS];
static uint64_t result[KILLARUNA_RESULT_WORDS];

/* An area with its length. */
#define STATE state, KILLARUNA_STATE_WORDS
#define SHARES shares, KILLARUNA_SHARE_WORDS
#define SEGMENTS segments, KILLARUNA_SEGMENT_WORDS
#define RESULT result, KILLARUNA_RESULT_WORDS

/* The reasons, by number. */
static const char *const reasons[] = {
    "done",
    "an area is too short, or the table is not sound",
    "cores not 1 to 16",
    "period not 1 to 60,000",
    "cost 0, or above 1,000 times the period",
    "all 64 slots in use",
    "rates would sum to more than 1,000 times the cores",
    "slot above 63 or not in use",
    "a job of this task is pending",
    "a new boundary is needed and 64 rows are in use",
    "deadline or tick beyond 2 to the 40th",
    "tick before the clock",
    "segment buffer under 320 words",
    "core not below the count",
};

static void print_refusal(void)
{
    uint64_t number = result[KILLARUNA_NUMBER];

    printf("refused %" PRIu64 ": %s\n", number, reasons[number]);
}

static void print_declare(uint64_t period, uint64_t cost)
{
    printf("declare period %" PRIu64 ", cost %" PRIu64 ": ", period, cost);
    if (killaruna_declare(STATE, SHARES, period, cost, RESULT) == KILLARUNA_DONE)
        printf("slot %" PRIu64 "\n", result[KILLARUNA_VALUE]);
    else
        print_refusal();
}

static void print_release(uint64_t slot)
{
    printf("release slot %" PRIu64 ": ", slot);
    if (killaruna_release(STATE, SHARES, slot, RESULT) == KILLARUNA_DONE)
        printf("deadline tick %" PRIu64 "\n", result[KILLARUNA_VALUE]);
    else
        print_refusal();
}

static void print_holder(uint64_t core)
{
    printf("at tick %" PRIu64 " core %" PRIu64 ": ", state[KILLARUNA_CLOCK], core);
    if (killaruna_holder(STATE, SHARES, core, RESULT) != KILLARUNA_DONE)
        print_refusal();
    else if (result[KILLARUNA_HELD_BY] != KILLARUNA_IDLE)
        printf("slot %" PRIu64 " until grain %" PRIu64 "\n", result[KILLARUNA_HELD_BY], result[KILLARUNA_UNTIL]);
    else if (result[KILLARUNA_UNTIL] != 0)
        printf("idle until grain %" PRIu64 "\n", result[KILLARUNA_UNTIL]);
    else
        printf("idle\n");
}

static void print_advance(uint64_t tick)
{
    const uint64_t *segment = segments;
    uint64_t left;

    printf("advance to tick %" PRIu64 ": ", tick);
    if (killaruna_advance(STATE, SHARES, tick, SEGMENTS, RESULT) != KILLARUNA_DONE) {
        print_refusal();
        return;
    }
    printf("tick %" PRIu64 " reached, %" PRIu64 " segments\n", result[KILLARUNA_VALUE], result[KILLARUNA_COUNT]);
    for (left = result[KILLARUNA_COUNT]; left > 0; left--) {
        printf("  core %" PRIu64 ", grains %4" PRIu64 " to %4" PRIu64 ": slot %" PRIu64 "\n",
               segment[KILLARUNA_SEGMENT_CORE], segment[KILLARUNA_SEGMENT_FIRST],
               segment[KILLARUNA_SEGMENT_AFTER], segment[KILLARUNA_SEGMENT_SLOT]);
        segment += KILLARUNA_WORDS_PER_SEGMENT;
    }
}

int main(void)
{
    uint64_t slot, core;

    if (killaruna_open(STATE, SHARES, 2, RESULT) != KILLARUNA_DONE)
        return 1;
    printf("open: %" PRIu64 " cores\n", result[KILLARUNA_VALUE]);
    for (slot = 0; slot < 3; slot++)
        print_declare(3, 1998);
    /* 3 times 666 grains a tick are taken; 5 more make 2,003, and two cores have 2,000. */
    print_declare(1, 5);
    for (slot = 0; slot < 3; slot++)
        print_release(slot);
    for (core = 0; core < 2; core++)
        print_holder(core);
    print_advance(3);
    print_holder(0);
    return 0;
}
