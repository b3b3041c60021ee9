/* A radio that asks before each burst. It draws on the same battery as the processor, so it is to send
 * only while few plain ticks are queued. The hardware is played, as in example.c: a timer, a processor
 * and jobs that mostly end before their worst case.
 *
 * The radio wants to send every so often. The firmware then tells the dispatcher what has gone by, so
 * that the total is that of this tick, and asks for it. If it is too much, the burst is put off and
 * the radio asks again a little later. It goes through two hyperperiods, with a line for each question:
 * the clock, the total, and what the radio does. At the end it prints the queue that the total is of,
 * and what is answered to bytes that are no sound state. Wherever the total is not the sum over the
 * queue that is shown, the program says so and ends badly. */

#include "kilmstra.h"

#include <stdio.h>
#include <stdlib.h>
#include <string.h>

enum { TASKS = 3, UNTIL = 80 };

/* The radio: how often it wants to send, after how many ticks it asks again, and the most plain ticks
 * that may be queued while it sends. */
enum { BURST_EVERY = 6, ASK_AGAIN = 2, MOST_QUEUED = 5 };

/* The plan: what each task has, number by number. At the fastest of 01's levels, which is the nominal
 * one, the jobs take 3, 5 and 9 ticks at most, 31 of the 40 of a hyperperiod. */
enum { PERIOD, WORST, FIXED, FLOOR, NUMBERS };

static const uint32_t plan[NUMBERS * TASKS] = {
    10, 300, 0, 0, /* the valve */
    20, 500, 0, 0, /* the angle */
    40, 900, 0, 0, /* the gait */
};

/* The units of work that a processor with 01's levels does in a tick. */
static const uint32_t speeds[KILMSTRA_LEVELS] = {10, 20, 30, 40, 50, 60, 80, 100};

static uint8_t state[KILMSTRA_STATE_BYTES];

/* The hardware. */

static uint32_t now;

/* The work that each job will really take, which nobody knows beforehand. */
static uint32_t work[TASKS];

/* The tick at which the radio asks next. */
static uint32_t asks_at = BURST_EVERY;

/* A small generator: the same numbers in every run. */
static uint32_t random_below(uint32_t limit)
{
    static uint32_t seed = 2001;
    seed = (seed * 1103515245u + 12345u) & 0x7fffffffu;
    return (seed >> 8) % limit;
}

static void let_jobs_arrive(void)
{
    for (int task = 0; task < TASKS; task++) {
        const uint32_t *numbers = &plan[NUMBERS * task];
        if (now % numbers[PERIOD] == 0) {
            work[task] = 1 + random_below(numbers[WORST]);
        }
    }
}

/* Runs the job until it ends or so many ticks are over. Says how many went by. */
static uint32_t run_job(unsigned task, unsigned level, uint32_t most, bool *finished)
{
    uint32_t speed = speeds[level];
    uint32_t needed = (work[task] + speed - 1) / speed;
    *finished = needed <= most;
    if (*finished) {
        return needed;
    }
    work[task] -= most * speed;
    return most;
}

/* The loop. */

/* A refusal here is a mistake in the firmware. */
static uint64_t accepted(uint64_t reply)
{
    if (kilmstra_is_refused(reply)) {
        printf("refused %u\n", kilmstra_refusal_number(reply));
        exit(1);
    }
    return reply;
}

static uint64_t start(void)
{
    const uint8_t *levels = kilmstra_base_levels;
    uint64_t size = sizeof kilmstra_base_levels;
    uint8_t block[KILMSTRA_BLOCK_BYTES];
    uint64_t length = kilmstra_byte_count(accepted(
        kilmstra_plan_write(levels, size, TASKS, plan, NUMBERS * TASKS, block, sizeof block)));
    return accepted(kilmstra_start(levels, size, block, length, kilmstra_no_pairs, 0,
                                   state, sizeof state));
}

/* Does what the order says, at most until the radio asks, and tells the dispatcher what came of it. */
static uint64_t follow(uint64_t order)
{
    uint32_t hold = kilmstra_order_hold(order);
    uint32_t ticks = hold < asks_at - now ? hold : asks_at - now;
    bool finished = false;
    if (kilmstra_is_run(order)) {
        ticks = run_job(kilmstra_order_task(order), kilmstra_order_level(order), ticks, &finished);
    }
    now += ticks;
    let_jobs_arrive();
    return accepted(kilmstra_pass(state, sizeof state, ticks, finished));
}

/* The queue takes three bytes an entry. Says how many it has. */
enum { SHOWN_BYTES = 3 };

static uint64_t show(uint8_t *queue)
{
    return kilmstra_byte_count(
        accepted(kilmstra_show(state, sizeof state, queue, KILMSTRA_QUEUE_BYTES)));
}

static uint32_t ticks_shown(const uint8_t *entry)
{
    return 256u * entry[1] + entry[2];
}

/* What the total is to be, found the long way. */
static uint32_t sum_shown(void)
{
    uint8_t queue[KILMSTRA_QUEUE_BYTES];
    uint64_t length = show(queue);
    uint32_t sum = 0;
    for (size_t at = 0; at < length; at += SHOWN_BYTES) {
        sum += ticks_shown(&queue[at]);
    }
    return sum;
}

static uint32_t checked_total(void)
{
    uint32_t queued = kilmstra_total(accepted(kilmstra_queued(state, sizeof state)));
    uint32_t sum = sum_shown();
    if (queued != sum) {
        printf("%lu queued, but %lu shown\n", (unsigned long)queued, (unsigned long)sum);
        exit(1);
    }
    return queued;
}

static void ask_for_a_burst(void)
{
    uint32_t queued = checked_total();
    bool sends = queued <= MOST_QUEUED;
    printf("%lu queued %lu %s\n", (unsigned long)now, (unsigned long)queued,
           sends ? "sends" : "waits");
    asks_at = sends ? (now / BURST_EVERY + 1) * BURST_EVERY : now + ASK_AGAIN;
}

/* The end. */

static void print_queue(void)
{
    uint8_t queue[KILMSTRA_QUEUE_BYTES];
    uint64_t length = show(queue);
    printf("queue");
    for (size_t at = 0; at < length; at += SHOWN_BYTES) {
        printf(" (%u, %lu)", queue[at], (unsigned long)ticks_shown(&queue[at]));
    }
    printf(", %lu in all\n", (unsigned long)checked_total());
}

static void print_answer(const char *what, uint64_t reply)
{
    if (kilmstra_is_refused(reply)) {
        printf("%s: refused %u\n", what, kilmstra_refusal_number(reply));
    } else {
        printf("%s: %lu\n", what, (unsigned long)kilmstra_total(reply));
    }
}

/* The length is all that is asked of a state here. What another call would refuse is answered from its
 * last four bytes. */
static void print_other_bytes(void)
{
    uint8_t bytes[KILMSTRA_STATE_BYTES + 1] = {0};
    uint8_t queue[KILMSTRA_QUEUE_BYTES];
    memcpy(bytes, state, sizeof state);
    print_answer("220 bytes", kilmstra_queued(bytes, sizeof state - 1));
    print_answer("222 bytes", kilmstra_queued(bytes, sizeof state + 1));
    bytes[sizeof state - 1]++;
    print_answer("one more than is queued", kilmstra_queued(bytes, sizeof state));
    print_answer("and shown", kilmstra_show(bytes, sizeof state, queue, sizeof queue));
    print_answer("and passed", kilmstra_pass(bytes, sizeof state, 1, false));
    memset(bytes, 0xff, sizeof bytes);
    print_answer("no state at all", kilmstra_queued(bytes, sizeof state));
}

int main(void)
{
    let_jobs_arrive();
    uint64_t order = start();
    while (now < UNTIL) {
        order = follow(order);
        if (now == asks_at) {
            ask_for_a_burst();
        }
    }
    print_queue();
    print_other_bytes();
    return 0;
}
