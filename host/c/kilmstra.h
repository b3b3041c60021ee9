/* Kilmstra: a dispatcher for periodic jobs, proved to meet its contracts. For C99 and C++.
 *
 * The firmware has a block with the speeds of its board, packs a plan, starts it over these speeds,
 * and does what the order says: it runs the named task's job at the named level, or stays idle, for
 * the hold at most. When the job ends or the hold is over it tells the dispatcher by a pass, and gets
 * the next order.
 *
 * A level block says how fast each level is: 4 bits of count (1 to 8), then 10 bits for each speed,
 * level 0 first, then zero bits to a whole byte, the most significant bit of a byte first. A speed is
 * in units of work per tick, 1 to 1,000, and above the speed before it. Every call that takes a plan
 * takes a level block before it. The state keeps the speeds, so the calls on a state take none.
 *
 * A task may have fixed ticks: ticks that its job takes at every level alike, such as those of an
 * angle sensor's conversion. All else in a job is work, which is done faster at a higher level. A job
 * uses its fixed ticks first. The time that it needs at a level is its fixed ticks left, plus its work
 * left divided by the speed, rounded up, and every order, hold and question counts with that time. So
 * the worst case, which is in units of work, leaves the fixed ticks out.
 *
 * A task may have a floor: the lowest level that its jobs are ever run at, such as the one below which a
 * valve's coil hums. It is the number of a level that is loaded, 0 to their count less 1, and 0 is no
 * floor at all. It may be above the nominal level, and is obeyed there too. Such a floor changes nothing
 * but the levels of orders: whether a plan is accepted, its nominal level and the plain schedule are the
 * same with it and without it, and so is all that is promised of when jobs end.
 *
 * An order names the lowest level, from the task's floor on, at which the job ends within the ticks that
 * it is allowed: those that the plain schedule has left for it and for all more urgent jobs. A job that
 * is the only open one is allowed at least the ticks to the next arrival. So it may end after its plain
 * job, but no later than the first arrival after that, and every deadline is met all the same.
 *
 * A task may read what another wrote, as the valve does with the angle. A list of pairs says so when a
 * plan is started: up to 16 pairs, each of two bytes, the number of the earlier task (the angle) and
 * then that of the later one (the valve). A pair is good if the plan has both tasks, the later one's
 * period is a multiple of the earlier one's and, where the periods are equal, the earlier one has the
 * lower number. The list may be empty, and a pair may be in it twice. For each pair of a list that
 * starting accepted, in the whole run from there: before every accepted pass in which a job of the
 * later task runs, the earlier one's job that arrived at the same tick has finished. So what it wrote
 * is there to be read. No order depends on the list, and the state does not keep it.
 *
 * The queue has the ticks that the plain schedule has left for each job. How many these are in all, the
 * state keeps at its end, and kilmstra_queued says it at once, as a radio may ask before every burst.
 *
 * Task 0 of a plan is the valve job, if the plan has one. It looks up how far to close the valve at the
 * knee's angle: kilmstra_damping says that, from an angle in tenths of a degree. In a run that starting
 * accepted, and with P for the period of task 0, between the ends of two consecutive jobs of that task
 * lie at most 2 * P - 1 ticks, whatever passes are told, and until the next one ends, the last one's
 * end is at most 2 * P - 2 ticks ago. Once the clock has come to 2 * P ticks after a job's arrival, that
 * job and the next have ended.
 *
 * Coming from a header in which a task has no floor: kilmstra_plan_judge and kilmstra_plan_write now take
 * four numbers a task instead of three, and struct kilmstra_task has a fourth field. Hand a 0 over for each
 * task, and the count of numbers that goes with it; set the new field to 0, and build whatever uses the
 * struct anew, as it has 16 bytes instead of 12. Three numbers a task still mean the same for a plan of one
 * task, whose floor then is not there and so 0. For two tasks they are read as something else, which most
 * often is refused with 6 or 24 but may be another plan; for more they are refused with 6. Blocks and states
 * of plans without floors, and all other calls, stay as they were.
 *
 * What holds for every call:
 * - It answers with one number, a reply. The functions at the end of this file take it apart.
 * - A reply is a refusal, with a number of enum kilmstra_refusal, or else what the call says below.
 *   A refused call leaves every byte that it was lent as it was.
 * - It keeps nothing between calls, takes no memory but the stack, and always ends. Calls that are
 *   lent different memory may run at the same time.
 * - A pointer is not null, even where its length is 0, and what one pointer lends does not overlap
 *   what another lends to the same call. Nothing else is asked of the caller: every length and
 *   every content gets an answer.
 *
 * A length or a count has 64 bits on every processor, also where a pointer and size_t have 32. The
 * archive is for x86-64. All that it may want of a C library is memcpy, memmove, memset and memcmp. */

#ifndef KILMSTRA_H
#define KILMSTRA_H

#include <stdint.h>
#ifndef __cplusplus
#include <stdbool.h>
#endif

#ifdef __cplusplus
extern "C" {
#endif

enum {
    KILMSTRA_TASKS = 16,             /* a plan has at most so many */
    KILMSTRA_LEVELS = 8,             /* a level block has at most so many */
    KILMSTRA_PAIRS = 16,             /* a list of pairs has at most so many */
    KILMSTRA_STATE_BYTES = 221,      /* a state has exactly so many */
    KILMSTRA_LEVEL_BLOCK_BYTES = 11, /* enough for every level block */
    KILMSTRA_BLOCK_BYTES = 96,       /* enough for every plan block */
    KILMSTRA_PAIRS_BYTES = 32,       /* enough for every list of pairs */
    KILMSTRA_QUEUE_BYTES = 48,       /* enough for every queue */
    KILMSTRA_VALVE_TASK = 0,         /* the number of the valve job's task */
    KILMSTRA_LOWEST_ANGLE = -50,     /* in tenths of a degree */
    KILMSTRA_HIGHEST_ANGLE = 1300    /* in tenths of a degree */
};

/* The level block of document 01's speeds: 10, 20, 30, 40, 50, 60, 80, 100. */
static const uint8_t kilmstra_base_levels[KILMSTRA_LEVEL_BLOCK_BYTES] = {
    0x80, 0x28, 0x14, 0x07, 0x82, 0x80, 0xc8, 0x3c, 0x14, 0x06, 0x40
};

/* The list of a plan without pairs is this, which is not null, with the length 0. */
static const uint8_t kilmstra_no_pairs[1] = {0};

/* Why a call was refused. Where there are several reasons, the one that stands first here is told,
 * whatever its number; only 10 comes before 9. */
enum kilmstra_refusal {
    KILMSTRA_ACCEPTED = 0,            /* it was not */
    KILMSTRA_LONG_INPUT = 17,         /* the bench program alone: more than 65,536 bytes */
    KILMSTRA_WRONG_LEVEL_COUNT = 18,  /* the level block is empty, or there are not 1 to 8 levels */
    KILMSTRA_WRONG_LEVEL_LENGTH = 19, /* its length is not its count's, or its closing bits are set */
    KILMSTRA_WRONG_SPEED = 20,        /* a speed not 1 to 1,000, or not above the one before it */
    KILMSTRA_SHORT_BLOCK = 1,         /* the plan block has fewer than 2 bytes */
    KILMSTRA_WRONG_EDITION = 2,       /* the edition is not 1 or 2 */
    KILMSTRA_WRONG_COUNT = 3,         /* there are not 1 to 16 tasks */
    KILMSTRA_WRONG_LENGTH = 4,        /* the plan block's length is not its edition's and count's */
    KILMSTRA_CLOSING_BITS = 5,        /* bits after the last task are set */
    KILMSTRA_OUT_OF_RANGE = 6,        /* a period not 1 to 65,535, a worst case not 1 to 1,048,575,
                                         fixed ticks above 255 */
    KILMSTRA_NO_ADDITION = 21,        /* a plan block of edition 2 in which no task has fixed ticks or a
                                         floor */
    KILMSTRA_WRONG_FLOOR = 24,        /* a floor that is not the number of a loaded level */
    KILMSTRA_LONG_HYPERPERIOD = 7,    /* the least common multiple of all periods is over 1,000,000 */
    KILMSTRA_OVERLOAD = 8,            /* the plan is too much for the highest level */
    KILMSTRA_WRONG_PAIRS = 22,        /* more than 16 pairs, an odd byte, or a pair that is not good */
    KILMSTRA_SHORT_BUFFER = 9,        /* what is to be written does not fit the lent buffer */
    KILMSTRA_UNSOUND_STATE = 10,      /* not exactly 221 bytes, or they do not agree with each other */
    KILMSTRA_NO_TICK = 11,            /* d is 0 */
    KILMSTRA_PAST_ARRIVAL = 12,       /* d goes past the next arrival */
    KILMSTRA_NOTHING_RUNS = 13,       /* finished, though the order is to stay idle */
    KILMSTRA_PAST_WORST_CASE = 14,    /* the running job would have used up more than its fixed ticks
                                         and its worst case */
    KILMSTRA_PAST_LARGEST_CLOCK = 15, /* the clock would go past 4,000,000,000 */
    KILMSTRA_ODD_BYTE = 16,           /* the bench program alone: a byte is left at the end */
    KILMSTRA_WRONG_ANGLE = 23         /* the damping alone: the angle is not -50 to 1,300 */
};

/* A task in a list: its period in ticks, its worst case in units of work, its fixed ticks, 0 to 255, and
 * its floor, the number of a level. */
struct kilmstra_task {
    uint32_t period;
    uint32_t worst;
    uint32_t fixed;
    uint32_t floor;
};

/* Starts a plan, with its list of pairs, over the speeds of a level block at tick 0, where a job of
 * every task arrives, and answers with the first order.
 * Writes the first 221 bytes of state; bytes past them stay as they were.
 * Refuses with 18 to 20, then with 1 to 6, 21, 24, 7, 8, as reading the two blocks does, then with 22 if
 * the list is not good, then with 9 if state has fewer than 221 bytes. */
uint64_t kilmstra_start(const uint8_t *levels, uint64_t levels_len,
                        const uint8_t *block, uint64_t block_len,
                        const uint8_t *pairs, uint64_t pairs_len,
                        uint8_t *state, uint64_t state_len);

/* Says that d ticks went by, and whether the running job finished at their end (0 for no, anything
 * else for yes). Brings the state up to date and answers with the order that stands from then on: a
 * new one if a job finished or arrived, else the old one with what is left of its hold.
 * Writes within the 221 bytes of state.
 * Refuses with 10 if the state is not sound, then with 11 to 15. */
uint64_t kilmstra_pass(uint8_t *state, uint64_t state_len, uint32_t d, uint8_t finished);

/* Shows the queue and answers with the count of bytes. For each job with ticks left in the plain
 * schedule, the most urgent first, these are its task (1 byte) and those ticks (2 bytes, the higher
 * one first). A job that is open past its plain finish, as the only open one may be, is not in it.
 * Leaves the state, and the bytes of buffer past those written, as they were.
 * Refuses with 10 if the state is not sound, then with 9 if the queue does not fit. */
uint64_t kilmstra_show(const uint8_t *state, uint64_t state_len,
                       uint8_t *buffer, uint64_t buffer_len);

/* Answers with the total of the plain ticks queued, which stands in the reply from bit 8 on. After the
 * start and every accepted pass it is the sum over the queue that kilmstra_show shows; ticks that no
 * pass has told yet are still in it. It is read from the last four bytes of state and goes through no
 * entry: it costs as little with 16 tasks as with one, and can be asked before every radio burst.
 * Leaves the state as it was.
 * Refuses with 10 if state has not exactly 221 bytes, and asks nothing else. Of 221 bytes that passing
 * and showing refuse as not sound, the answer is what stands there, any number of 32 bits. */
uint64_t kilmstra_queued(const uint8_t *state, uint64_t state_len);

/* Looks the damping up at an angle, in tenths of a degree, and answers with it: 12 below 0, and from 0 on
 * what the straight lines through these points give, rounded down:
 *   degrees    0    5   10   20   40   60   90  130
 *   damping   12   14   17   25   49   73   97  112
 * An angle that is k tenths away has a damping that differs by at most 1 + 12 * k / 100, rounded down.
 * Refuses with 23 if the angle is below -50 or above 1,300, and asks nothing else. */
uint64_t kilmstra_damping(int32_t angle);

/* Reads a level block and answers with the count of its levels. Writes nothing.
 * Refuses with 18 to 20. */
uint64_t kilmstra_levels_read(const uint8_t *levels, uint64_t levels_len);

/* Judges a list of tasks over the speeds of a level block and answers with the nominal level and the
 * hyperperiod. Writes nothing.
 * Refuses with 18 to 20, then with 3, 6, 24, 7, 8. */
uint64_t kilmstra_judge_list(const uint8_t *levels, uint64_t levels_len,
                             const struct kilmstra_task *tasks, uint64_t count);

/* Judges a plan of so many tasks over the speeds of a level block and answers with the nominal level
 * and the hyperperiod. The numbers are four for each task in turn, its period, its worst case, its fixed
 * ticks and its floor; one that is not there is 0, and one past the count is not looked at. Writes
 * nothing.
 * Refuses with 18 to 20, then with 3, 6, 24, 7, 8. */
uint64_t kilmstra_plan_judge(const uint8_t *levels, uint64_t levels_len,
                             uint64_t count, const uint32_t *numbers, uint64_t numbers_len);

/* Reads a plan block over the speeds of a level block and answers with the nominal level and the
 * hyperperiod. Writes nothing.
 * Refuses with 18 to 20, then with 1 to 6, 21, 24, 7, 8. */
uint64_t kilmstra_plan_read(const uint8_t *levels, uint64_t levels_len,
                            const uint8_t *block, uint64_t block_len);

/* Says, before a plan is started, whether a list of pairs is good for it, and answers with the count
 * of the pairs. What is accepted here, starting accepts for every state of 221 bytes or more; what is
 * refused here, starting refuses with the same number. Writes nothing.
 * Refuses with 18 to 20, then with 1 to 6, 21, 24, 7, 8, as reading the two blocks does, then with 22 if
 * the list is not good. */
uint64_t kilmstra_pairs(const uint8_t *levels, uint64_t levels_len,
                        const uint8_t *block, uint64_t block_len,
                        const uint8_t *pairs, uint64_t pairs_len);

/* Writes the block of a plan, which is given as for judging, and answers with the count of bytes.
 * Where no task has fixed ticks or a floor, the block is of edition 1: 6 bytes for one task, 74 for
 * sixteen. Else it is of edition 2: 7 bytes for one task, 96 for sixteen; a library that has edition 1 alone
 * refuses to read it with 2, and one that has no floors refuses one with floors with 5. The speeds are not
 * in it: they only say whether the plan is accepted.
 * Leaves the bytes of buffer past those written as they were.
 * Refuses with 18 to 20, then with 3, 6, 24, 7, 8, then with 9 if the block does not fit. */
uint64_t kilmstra_plan_write(const uint8_t *levels, uint64_t levels_len,
                             uint64_t count, const uint32_t *numbers, uint64_t numbers_len,
                             uint8_t *buffer, uint64_t buffer_len);

/* Reads a plan block, as kilmstra_plan_read does, writes its plan again, which gives the same bytes,
 * and answers with their count.
 * Leaves the bytes of buffer past those written as they were.
 * Refuses with 18 to 20, then with 1 to 6, 21, 24, 7, 8, then with 9 if the block does not fit. */
uint64_t kilmstra_plan_copy(const uint8_t *levels, uint64_t levels_len,
                            const uint8_t *block, uint64_t block_len,
                            uint8_t *buffer, uint64_t buffer_len);

/* Any reply. */

static inline bool kilmstra_is_refused(uint64_t reply)
{
    return (reply & 0xff) != 0;
}

/* The refusal's number, as in enum kilmstra_refusal; 0 if there is none. */
static inline unsigned kilmstra_refusal_number(uint64_t reply)
{
    return (unsigned)(reply & 0xff);
}

/* An order: a reply of starting or passing that is no refusal. */

static inline bool kilmstra_is_run(uint64_t reply)
{
    return (reply & 0xffff) == 0x0100;
}

static inline bool kilmstra_is_idle(uint64_t reply)
{
    return (reply & 0xffff) == 0x0200;
}

/* The task to run; 0 if idle. */
static inline uint8_t kilmstra_order_task(uint64_t reply)
{
    return (uint8_t)(reply >> 16);
}

/* The level to run it at; 0 if idle. */
static inline uint8_t kilmstra_order_level(uint64_t reply)
{
    return (uint8_t)(reply >> 24);
}

/* The ticks after which a pass is due at the latest. */
static inline uint32_t kilmstra_order_hold(uint64_t reply)
{
    return (uint32_t)(reply >> 32);
}

/* A reply of showing, writing or copying that is no refusal. */

static inline uint64_t kilmstra_byte_count(uint64_t reply)
{
    return reply >> 8;
}

/* A reply of asking for the total that is no refusal. */

static inline uint32_t kilmstra_total(uint64_t reply)
{
    return (uint32_t)(reply >> 8);
}

/* A reply of looking a damping up that is no refusal. */

static inline uint8_t kilmstra_damping_value(uint64_t reply)
{
    return (uint8_t)(reply >> 8);
}

/* A reply of reading a level block that is no refusal. */

static inline uint8_t kilmstra_level_count(uint64_t reply)
{
    return (uint8_t)(reply >> 8);
}

/* A reply of asking about a list of pairs that is no refusal. */

static inline uint8_t kilmstra_pair_count(uint64_t reply)
{
    return (uint8_t)(reply >> 8);
}

/* A reply of judging or reading a plan that is no refusal. */

static inline uint8_t kilmstra_nominal_level(uint64_t reply)
{
    return (uint8_t)(reply >> 8);
}

static inline uint32_t kilmstra_hyperperiod(uint64_t reply)
{
    return (uint32_t)(reply >> 16);
}

#ifdef __cplusplus
}
#endif

#endif
