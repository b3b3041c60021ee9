/* Asks about lists of pairs, starts a plan with each, and prints what both calls say. The plan is 01's
 * bench plan, its tasks taken for the angle (0), the valve (1) and the gait (2). */

#include "kilmstra.h"

#include <stdio.h>
#include <stdlib.h>
#include <string.h>

enum { TASKS = 3, UNTOUCHED = 0xa5 };

/* A period, a worst case, fixed ticks and a floor for each task. */
enum { NUMBERS = 4 };
static const uint32_t plan[NUMBERS * TASKS] = {10, 400, 0, 0, 10, 400, 0, 0, 30, 600, 0, 0};

static uint8_t block[KILMSTRA_BLOCK_BYTES];
static uint64_t block_length;

/* Filled before each start, to see whether a refused one leaves it as it is. */
static uint8_t state[KILMSTRA_STATE_BYTES];

static void pack_plan(void)
{
    uint64_t reply = kilmstra_plan_write(kilmstra_base_levels, sizeof kilmstra_base_levels,
                                         TASKS, plan, NUMBERS * TASKS, block, sizeof block);
    if (kilmstra_is_refused(reply)) {
        exit(1);
    }
    block_length = kilmstra_byte_count(reply);
}

static uint64_t ask(const uint8_t *pairs, uint64_t length)
{
    return kilmstra_pairs(kilmstra_base_levels, sizeof kilmstra_base_levels, block, block_length,
                          pairs, length);
}

static uint64_t start(const uint8_t *pairs, uint64_t length, uint64_t room)
{
    memset(state, UNTOUCHED, sizeof state);
    return kilmstra_start(kilmstra_base_levels, sizeof kilmstra_base_levels, block, block_length,
                          pairs, length, state, room);
}

static bool is_state_untouched(void)
{
    for (size_t at = 0; at < sizeof state; at++) {
        if (state[at] != UNTOUCHED) {
            return false;
        }
    }
    return true;
}

static void print_started(uint64_t reply)
{
    if (kilmstra_is_refused(reply)) {
        printf("refused %u, state %s\n", kilmstra_refusal_number(reply),
               is_state_untouched() ? "untouched" : "changed");
    } else {
        printf("run %u %u %lu\n", kilmstra_order_task(reply), kilmstra_order_level(reply),
               (unsigned long)kilmstra_order_hold(reply));
    }
}

static void print_both(const char *what, const uint8_t *pairs, uint64_t length)
{
    uint64_t asked = ask(pairs, length);
    if (kilmstra_is_refused(asked)) {
        printf("%s: refused %u; ", what, kilmstra_refusal_number(asked));
    } else {
        printf("%s: %u good; ", what, kilmstra_pair_count(asked));
    }
    print_started(start(pairs, length, sizeof state));
}

static void print_pair(const char *what, uint8_t earlier, uint8_t later)
{
    const uint8_t pair[2] = {earlier, later};
    print_both(what, pair, sizeof pair);
}

/* Lists of several lengths, in which all pairs are good but for the one that is changed at the end. */
static void print_lengths(void)
{
    uint8_t pairs[KILMSTRA_PAIRS_BYTES + 2];
    for (size_t at = 0; at < sizeof pairs; at += 2) {
        pairs[at] = 0;
        pairs[at + 1] = 1;
    }
    print_both("an odd byte", pairs, 3);
    print_both("a byte alone", pairs, 1);
    print_both("sixteen pairs", pairs, KILMSTRA_PAIRS_BYTES);
    print_both("and an odd byte", pairs, KILMSTRA_PAIRS_BYTES + 1);
    print_both("seventeen pairs", pairs, KILMSTRA_PAIRS_BYTES + 2);
    pairs[KILMSTRA_PAIRS_BYTES - 1] = 0;
    print_both("sixteen, the last not good", pairs, KILMSTRA_PAIRS_BYTES);
}

/* Where several things are wrong, the list is asked about after the blocks and before the room. */
static void print_other_refusals(void)
{
    const uint8_t turned[2] = {1, 0};
    printf("no room, no pair: ");
    print_started(start(kilmstra_no_pairs, 0, sizeof state - 1));
    printf("no room, turned round: ");
    print_started(start(turned, sizeof turned, sizeof state - 1));
    block_length--;
    print_both("a cut plan, turned round", turned, sizeof turned);
}

int main(void)
{
    pack_plan();
    print_both("no pair", kilmstra_no_pairs, 0);
    print_pair("the angle before the valve", 0, 1);
    print_pair("turned round", 1, 0);
    print_pair("the valve before the gait", 1, 2);
    print_pair("turned round", 2, 1);
    print_pair("a task before itself", 2, 2);
    print_pair("an earlier task that there is not", 3, 2);
    print_pair("a later one", 0, 3);
    print_lengths();
    print_other_refusals();
    return 0;
}
