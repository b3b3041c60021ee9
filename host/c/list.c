/* Has lists of tasks judged without packing them, and prints what is said of each. Ahead of that it
 * prints the speeds that the library finds in the header's own level block. */

#include "kilmstra.h"

#include <stdio.h>

enum { MOST = 17 };

static struct kilmstra_task tasks[MOST];

/* With a period of 1 tick a level admits as much work as its speed, so the most that is admitted at a
 * level is its speed. */
static void print_base_speeds(void)
{
    const uint8_t *levels = kilmstra_base_levels;
    uint64_t length = sizeof kilmstra_base_levels;
    printf("%u levels:", kilmstra_level_count(kilmstra_levels_read(levels, length)));
    uint32_t task[4] = {1, 1, 0, 0};
    uint64_t reply = kilmstra_plan_judge(levels, length, 1, task, 4);
    while (!kilmstra_is_refused(reply)) {
        unsigned level = kilmstra_nominal_level(reply);
        uint32_t worst = task[1]++;
        reply = kilmstra_plan_judge(levels, length, 1, task, 4);
        if (kilmstra_is_refused(reply) || kilmstra_nominal_level(reply) != level) {
            printf(" %lu", (unsigned long)worst);
        }
    }
    printf(", then refused %u\n", kilmstra_refusal_number(reply));
}

static void print_judged(const char *what, uint64_t count)
{
    uint64_t reply =
        kilmstra_judge_list(kilmstra_base_levels, sizeof kilmstra_base_levels, tasks, count);
    if (kilmstra_is_refused(reply)) {
        printf("%s: refused %u\n", what, kilmstra_refusal_number(reply));
    } else {
        printf("%s: level %u, hyperperiod %lu\n", what, kilmstra_nominal_level(reply),
               (unsigned long)kilmstra_hyperperiod(reply));
    }
}

/* A task without a floor. */
static void set(size_t place, uint32_t period, uint32_t worst, uint32_t fixed)
{
    tasks[place].period = period;
    tasks[place].worst = worst;
    tasks[place].fixed = fixed;
    tasks[place].floor = 0;
}

/* 255 fixed ticks leave one tick of 256 for the work, at whichever level. */
static void print_fixed_ticks(void)
{
    set(0, 256, 10, 255);
    print_judged("the most fixed ticks", 1);
    set(0, 256, 100, 255);
    print_judged("with as much work as a tick can do", 1);
    set(0, 255, 10, 255);
    print_judged("with no tick for the work", 1);
    set(0, 65535, 10, 256);
    print_judged("one fixed tick too many", 1);
}

/* A floor is the number of a level, and the header's block has eight of them. It is nothing to the level
 * that is told: that is the lowest which admits the plan, and a floor may be above it. */
static void print_floors(void)
{
    set(0, 40, 300, 0);
    tasks[0].floor = KILMSTRA_LEVELS - 1;
    print_judged("the highest floor", 1);
    tasks[0].floor = KILMSTRA_LEVELS;
    print_judged("a floor that is no level", 1);
}

int main(void)
{
    print_base_speeds();
    print_judged("no task", 0);

    set(0, 10, 400, 0);
    set(1, 10, 400, 0);
    set(2, 30, 600, 0);
    print_judged("the bench plan", 3);
    set(2, 30, 601, 0);
    print_judged("with one unit more", 3);
    set(2, 30, 600, 1);
    print_judged("with one fixed tick", 3);
    set(2, 30, 0, 0);
    print_judged("with no work", 3);
    set(2, 30, 0, 6);
    print_judged("with fixed ticks alone", 3);

    set(0, 15625, 1, 0);
    set(1, 64, 1, 0);
    print_judged("the largest hyperperiod", 2);
    set(0, 1000, 1, 0);
    set(1, 1001, 1, 0);
    print_judged("a larger one", 2);

    for (size_t place = 0; place < MOST; place++) {
        set(place, 1000, 1200, 0);
    }
    print_judged("sixteen tasks", 16);
    print_judged("seventeen tasks", 17);
    print_fixed_ticks();
    print_floors();
    return 0;
}
