/* What the loop in the README at the top needs around it, so that it can be built and run as it stands
 * there: 01's speeds and bench plan with a pair, and a processor, a timer and jobs that are played.
 * Up to tick 20 the jobs end as in 01's example with the passes of 02's No. 4, where the processor
 * idles at tick 19. The last job never ends, so that its pass is refused. After that starting is
 * refused: with the pair turned round, then with the plan cut as well, then with the level block cut
 * as well. */

#include "kilmstra.h"

#include <stdio.h>
#include <stdlib.h>

static uint32_t run_job(unsigned task, unsigned level, uint32_t hold, bool *finished);
static void stay_idle(uint32_t hold);
static void fail_safe(unsigned refusal);

/* The lines of the README. */
#include "readme.inc"

enum { TASKS = 3, NUMBERS = 4, MOST_ORDERS = 20 };

/* A period, a worst case, fixed ticks and a floor for each task. */
static const uint32_t plan[NUMBERS * TASKS] = {10, 400, 0, 0, 10, 400, 0, 0, 30, 600, 0, 0};

/* The first task before the second, and turned round. */
static const uint8_t pairs[2] = {0, 1};
static const uint8_t turned[2] = {1, 0};

/* The ticks that each job takes, in the order in which they run; one with 0 never ends. */
static const uint32_t taken[MOST_ORDERS] = {1, 7, 2, 4, 5, 5};

static uint32_t now;

/* A loop that goes on for ever is stopped. */
static void count_order(void)
{
    static int orders;
    orders++;
    if (orders > MOST_ORDERS) {
        printf("more than %d orders\n", MOST_ORDERS);
        exit(1);
    }
}

static uint32_t run_job(unsigned task, unsigned level, uint32_t hold, bool *finished)
{
    static size_t jobs;
    count_order();
    printf("%lu run %u %u %lu\n", (unsigned long)now, task, level, (unsigned long)hold);
    uint32_t ticks = taken[jobs++];
    *finished = 0 < ticks && ticks <= hold;
    if (!*finished) {
        ticks = hold;
    }
    now += ticks;
    return ticks;
}

static void stay_idle(uint32_t hold)
{
    count_order();
    printf("%lu idle %lu\n", (unsigned long)now, (unsigned long)hold);
    now += hold;
}

static void fail_safe(unsigned refusal)
{
    printf("refused %u\n", refusal);
}

int main(void)
{
    const uint8_t *levels = kilmstra_base_levels;
    uint64_t size = sizeof kilmstra_base_levels;
    uint8_t block[KILMSTRA_BLOCK_BYTES];
    uint64_t written =
        kilmstra_plan_write(levels, size, TASKS, plan, NUMBERS * TASKS, block, sizeof block);
    if (kilmstra_is_refused(written)) {
        return 1;
    }
    uint64_t length = kilmstra_byte_count(written);
    dispatch(levels, size, block, length, pairs, sizeof pairs);
    dispatch(levels, size, block, length, turned, sizeof turned);
    dispatch(levels, size, block, length - 1, turned, sizeof turned);
    dispatch(levels, size - 1, block, length - 1, turned, sizeof turned);
    return 0;
}
