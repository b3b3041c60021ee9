/* A firmware's main loop over the dispatcher, with the hardware played by a few functions: a timer,
 * a processor with seven levels, jobs that mostly end before their worst case, a knee that swings, the
 * sensor of its angle, and its valve.
 *
 * It packs the speeds of its board and a plan of three tasks (the valve, the angle, the gait), asks
 * whether "the angle before the valve" is a good pair for it, and starts the plan with that pair. Then
 * it does what the orders say through two hyperperiods. A valve job reads the angle that was written
 * last, looks its damping up, and sets the valve; as the valve's coil hums at low levels, its task has a
 * floor. The listing is like the bench program's, with the
 * level block in front, what each valve job does in between, and at the end the queue and how many ticks
 * there were at most between the ends of two valve jobs. */

#include "kilmstra.h"

#include <stdio.h>
#include <stdlib.h>

enum { LEVELS = 7, UNTIL = 60 };

/* The tasks by their numbers. Task 0 is the valve job, whose refresh is promised. It reads the angle, so
 * its period is a multiple of the angle's: were the two equal, the angle would need the lower number. */
enum { VALVE = KILMSTRA_VALVE_TASK, ANGLE, GAIT, TASKS };

/* The units of work that the processor of this board does in a tick, level by level, as measured. */
static const uint32_t speeds[LEVELS] = {13, 27, 41, 55, 69, 83, 111};

/* The plan: what each task has, number by number. The angle's job begins with a conversion in the
 * sensor, which takes a tick however fast the processor is. Below level 4 the valve's coil hums, so that is
 * its floor: with time to spare its job runs there, where level 3 would do, and not lower. */
enum { PERIOD, WORST, FIXED, FLOOR, NUMBERS };

static const uint32_t plan[NUMBERS * TASKS] = {
    10, 150, 0, 4, /* the valve */
    5, 40, 1, 0,   /* the angle */
    30, 700, 0, 0, /* the gait */
};

/* The pairs, the earlier task first: the valve's job reads what the angle's wrote. */
static const uint8_t pairs[] = {ANGLE, VALVE};

/* What the dispatcher keeps lives here, with the firmware. */
static uint8_t state[KILMSTRA_STATE_BYTES];

/* The hardware. */

static uint32_t now;

/* The fixed ticks that each job has still to wait, and the work that it will really take after them,
 * which nobody knows beforehand. */
static uint32_t fixed[TASKS];
static uint32_t work[TASKS];

/* The tick at which each task's latest job arrived, the angle that was written last, in tenths of a
 * degree, and the tick at which the job that wrote it arrived. */
static uint32_t arrived[TASKS];
static int32_t angle;
static uint32_t angle_of = UINT32_MAX; /* none has written */

/* What the valve is set to, the tick at which the last valve job ended, and the most ticks that there were
 * between two such ends. */
static uint8_t damping;
static uint32_t valve_ended = UINT32_MAX; /* none has ended */
static uint32_t longest;

/* A small generator: the same numbers in every run. */
static uint32_t random_below(uint32_t limit)
{
    static uint32_t seed = 2001;
    seed = (seed * 1103515245u + 12345u) & 0x7fffffffu;
    return (seed >> 8) % limit;
}

/* One job in four takes its worst case, the others anything up to it. All take their fixed ticks. */
static void let_jobs_arrive(void)
{
    for (int task = 0; task < TASKS; task++) {
        const uint32_t *numbers = &plan[NUMBERS * task];
        if (now % numbers[PERIOD] == 0) {
            uint32_t worst = numbers[WORST];
            work[task] = random_below(4) == 0 ? worst : 1 + random_below(worst);
            fixed[task] = numbers[FIXED];
            arrived[task] = now;
        }
    }
}

/* The knee swings from a little overstretched to bent by some 60 degrees and back, in tenths of a degree.
 * At tick 30 the sensor has a loose contact, and says what no knee can do. */
static int32_t sensed(uint32_t tick)
{
    int32_t swing = (int32_t)(tick % 46);
    return tick == 30 ? 4095 : swing * (46 - swing) * 13 / 10 - 50;
}

static void write_angle(void)
{
    angle = sensed(arrived[ANGLE]);
    angle_of = arrived[ANGLE];
}

/* A valve that is set by an angle from before its job's arrival is what the pair is to rule out. */
static void check_angle(void)
{
    if (angle_of == UINT32_MAX || angle_of < arrived[VALVE]) {
        printf("the valve job of %lu reads the angle of an earlier tick\n",
               (unsigned long)arrived[VALVE]);
        exit(1);
    }
}

/* A coil that hums is what the floor is to rule out. */
static void check_level(unsigned task, unsigned level)
{
    if (level < plan[NUMBERS * task + FLOOR]) {
        printf("task %u is run at level %u, below its floor\n", task, level);
        exit(1);
    }
}

/* Where there is no damping for the angle, the last one stays. */
static void set_valve(void)
{
    uint64_t reply = kilmstra_damping(angle);
    printf("  the angle of %lu is %ld: ", (unsigned long)angle_of, (long)angle);
    if (kilmstra_is_refused(reply)) {
        printf("refused %u, damping stays %u\n", kilmstra_refusal_number(reply), damping);
    } else {
        damping = kilmstra_damping_value(reply);
        printf("damping %u\n", damping);
    }
}

/* A valve job ends at a tick. */
static void end_valve(uint32_t tick)
{
    set_valve();
    if (valve_ended != UINT32_MAX && tick - valve_ended > longest) {
        longest = tick - valve_ended;
    }
    valve_ended = tick;
}

/* Runs the job until it ends or the timer rings. Says how many ticks went by. */
static uint32_t run_job(unsigned task, unsigned level, uint32_t hold, bool *finished)
{
    if (task == VALVE) {
        check_angle();
    }
    check_level(task, level);
    uint32_t speed = speeds[level];
    uint32_t needed = fixed[task] + (work[task] + speed - 1) / speed;
    *finished = needed <= hold;
    if (*finished) {
        if (task == ANGLE) {
            write_angle();
        } else if (task == VALVE) {
            end_valve(now + needed);
        }
        return needed;
    }
    uint32_t waited = hold < fixed[task] ? hold : fixed[task];
    fixed[task] -= waited;
    work[task] -= (hold - waited) * speed;
    return hold;
}

/* The loop. */

/* A refusal here is a mistake in the firmware: the loop below tells no pass that can be refused. */
static uint64_t accepted(uint64_t reply)
{
    if (kilmstra_is_refused(reply)) {
        printf("refused %u\n", kilmstra_refusal_number(reply));
        exit(1);
    }
    return reply;
}

static void print_order(uint64_t order)
{
    unsigned long clock = now;
    unsigned long hold = kilmstra_order_hold(order);
    if (kilmstra_is_idle(order)) {
        printf("%lu idle %lu\n", clock, hold);
    } else {
        printf("%lu run %u %u %lu\n", clock, kilmstra_order_task(order),
               kilmstra_order_level(order), hold);
    }
}

/* Puts bits at the end of a block that was zero, the most significant first. */
static void put_bits(uint8_t *block, size_t *bits, uint32_t number, int width)
{
    for (int place = width - 1; place >= 0; place--) {
        if ((number >> place) & 1) {
            block[*bits / 8] |= (uint8_t)(0x80 >> (*bits % 8));
        }
        *bits += 1;
    }
}

/* Packs the level block: the count, then the speeds. The bits that fill up its last byte are zero
 * already. Says how many bytes it has. A firmware may as well hold the bytes that are printed. */
static uint64_t pack_levels(uint8_t *block)
{
    size_t bits = 0;
    put_bits(block, &bits, LEVELS, 4);
    for (int level = 0; level < LEVELS; level++) {
        put_bits(block, &bits, speeds[level], 10);
    }
    return (bits + 7) / 8;
}

static void print_levels(const uint8_t *block, uint64_t length)
{
    printf("levels %u:", kilmstra_level_count(accepted(kilmstra_levels_read(block, length))));
    for (size_t at = 0; at < length; at++) {
        printf(" %02x", block[at]);
    }
    printf("\n");
}

/* Asks as a fitter would, who has the plan and its pairs but does not start them. */
static void print_pairs(const uint8_t *levels, uint64_t size, const uint8_t *block, uint64_t length)
{
    uint64_t asked = accepted(kilmstra_pairs(levels, size, block, length, pairs, sizeof pairs));
    printf("pairs %u\n", kilmstra_pair_count(asked));
}

static uint64_t start(void)
{
    uint8_t levels[KILMSTRA_LEVEL_BLOCK_BYTES] = {0};
    uint64_t size = pack_levels(levels);
    print_levels(levels, size);
    uint8_t block[KILMSTRA_BLOCK_BYTES];
    uint64_t written = accepted(
        kilmstra_plan_write(levels, size, TASKS, plan, NUMBERS * TASKS, block, sizeof block));
    uint64_t length = kilmstra_byte_count(written);
    uint64_t judged = accepted(kilmstra_plan_read(levels, size, block, length));
    printf("plan %d %u %lu\n", TASKS, kilmstra_nominal_level(judged),
           (unsigned long)kilmstra_hyperperiod(judged));
    print_pairs(levels, size, block, length);
    return accepted(kilmstra_start(levels, size, block, length, pairs, sizeof pairs,
                                   state, sizeof state));
}

/* Does what the order says, and tells the dispatcher what came of it. */
static uint64_t follow(uint64_t order)
{
    uint32_t ticks = kilmstra_order_hold(order);
    bool finished = false;
    if (kilmstra_is_run(order)) {
        ticks = run_job(kilmstra_order_task(order), kilmstra_order_level(order), ticks, &finished);
    }
    now += ticks;
    let_jobs_arrive();
    return accepted(kilmstra_pass(state, sizeof state, ticks, finished));
}

static void print_queue(void)
{
    uint8_t queue[KILMSTRA_QUEUE_BYTES];
    uint64_t length = kilmstra_byte_count(
        accepted(kilmstra_show(state, sizeof state, queue, sizeof queue)));
    printf("queue");
    for (size_t at = 0; at < length; at += 3) {
        printf(" (%u, %u)", queue[at], 256u * queue[at + 1] + queue[at + 2]);
    }
    printf("\n");
}

/* What is promised: at most twice the valve's period less one tick. */
static void print_longest(void)
{
    uint32_t most = 2 * plan[NUMBERS * VALVE + PERIOD] - 1;
    printf("valve jobs end at most %lu ticks apart, %lu are promised\n", (unsigned long)longest,
           (unsigned long)most);
    if (longest > most) {
        exit(1);
    }
}

int main(void)
{
    let_jobs_arrive();
    uint64_t order = start();
    print_order(order);
    while (now < UNTIL) {
        order = follow(order);
        print_order(order);
    }
    print_queue();
    print_longest();
    return 0;
}
