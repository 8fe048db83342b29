/* The static library `exports` for C and C++ callers: job files of editions 1 to 3 checked,
 * searched and loosened, order files read and compared, jobs made of PDDL texts.
 *
 * No function presumes anything of the bytes it is given. Each slice is a pointer and a length;
 * the pointer must be aligned and not null even where the length is 0. What a function writes
 * into must not overlap what it reads. Nothing is kept after the return, nothing is allocated; a
 * call takes less than JOBS_STACK bytes of its thread's stack, jobs_from_pddl less than
 * JOBS_TEXTS_STACK, whatever it is given.
 *
 * All functions return one number, which the functions below take apart:
 *
 *     answer * 2^32 + number * 2^16 + place
 *
 * The number is 0 if the input is accepted, and then the place is JOBS_NOWHERE, or the step that
 * jobs_pairs found. Otherwise the input is refused: the number says why, the place is the lowest
 * record concerned (or JOBS_NOWHERE where none is named), for 18 to 20 a line of a text, from 0 up
 * to 65,535; the answer is 0, and no lent byte or number has changed.
 *
 * A serial mark of 1 changes no answer. The numbers in checking order, with what the place names:
 *
 *     18  a text is longer than 65,535 bytes (0), or outside the grammar (the line of the first
 *         word, bracket or line end that cannot stand there, or of the text's end)
 *     19  (and ..) is nested deeper than 16 (the line of the seventeenth `and`)
 *     20  a plan line names no action, or has another duration than its action (line of the plan)
 *      1  the job file is shorter than 48 bytes; after 2, also than the 52 of edition 2 or the 60 of
 *         edition 3
 *      2  its edition is not 1, 2 or 3
 *      3  its serial mark exceeds 1, in edition 1 its tenth number is not 0, or in edition 3 the
 *         number after the count of needs is not 0
 *      4  a count exceeds its highest
 *      5  an offset or the file's length disagrees with the tables
 *      6  a record breaks its ranges, or names a step, fact or level not counted
 *         (the record in its table; tables in the order of the file)
 *      7  a step sets a fact both ways at one tick, uses one level twice at one tick, or opposes
 *         its own condition from its first tick to before its last (step)
 *     17  two timed facts set one fact both ways at one tick (timed fact)
 *      8  the list of starts does not have one entry a step
 *      9  a fixed step has another start (step)
 *     10  a step's effect shares a tick with an opposing one of another step, or with an opposing
 *         timed fact (effect)
 *     11  a condition fails (condition)
 *     12  a level passes a bound (level)
 *     21  a need is unmet: the level from earlier ticks, with all other steps' falls at its tick, does
 *         not reach its least (need)
 *     13  a goal fails or comes after its deadline (goal)
 *     15  the buffer is shorter than the order file, or than the job
 *     16  an order file breaks its layout or its ranges, or the record named is not there
 *         (0; of two files 0 or 1, the file)
 *
 * 14 is not given; it was once for steps of a serial job that overlap.
 */
#ifndef JOBS_H
#define JOBS_H

#include <stddef.h>
#include <stdint.h>

#ifdef __cplusplus
extern "C" {
#endif

/* A thread with this much stack can make any call but jobs_from_pddl. */
#define JOBS_STACK 98304u

/* A thread with this much stack can make any call; jobs_from_pddl keeps what it reads in texts. */
#define JOBS_TEXTS_STACK 1572864u

/* The place where no record is named, and the place of an acceptance, unless jobs_pairs found a
 * step. */
#define JOBS_NOWHERE 65535u

/* No order file is longer: a header, 64 windows, 4,032 orders, 544 links. */
#define JOBS_LONGEST_ORDER_FILE (24u + 64u * 12u + 4032u * 8u + 544u * 2u)

/* No job of edition 1 is longer: a header, 256 facts, 16 levels, 64 steps, 512 conditions, 512
 * effects, 256 uses, 32 goals. */
#define JOBS_LONGEST_JOB \
    (48u + 256u + 16u * 12u + 64u * 10u + 512u * 14u + 512u * 10u + 256u * 12u + 32u * 8u)

/* In an order file: the latest start that is none, the link to timed fact 0, which those to the
 * others follow up to 575, and the link to the initial state. */
#define JOBS_NO_LATEST 4294967295u
#define JOBS_FIRST_TIMED 512u
#define JOBS_INITIAL_STATE 65535u

/* The tables of an order file. */
#define JOBS_WINDOWS 0u
#define JOBS_ORDERS 1u
#define JOBS_LINKS 2u

/* The length from jobs_partialize and jobs_from_pddl; how many pairs jobs_pairs compared; 1 if
 * jobs_alike says yes; else 0. */
static inline uint32_t jobs_answer(uint64_t returned)
{
    return (uint32_t)(returned >> 32);
}

/* 0 if accepted, else the refusal's number. */
static inline uint32_t jobs_number(uint64_t returned)
{
    return (uint32_t)(returned >> 16) & 65535u;
}

/* The record or line that a refusal names, the step that jobs_pairs found, or JOBS_NOWHERE. */
static inline uint32_t jobs_place(uint64_t returned)
{
    return (uint32_t)returned & 65535u;
}

/* Whether a job is sound at its written starts. Refuses with 1 to 7, 17, 10 to 13 and 21. */
uint64_t jobs_check(const uint8_t *job, size_t len);

/* Whether a job is sound with these starts in place of the written ones. Refuses with 1 to 13,
 * 17 and 21. */
uint64_t jobs_check_schedule(const uint8_t *job, size_t len, const uint32_t *starts, size_t count);

/* Searches a job for two effects of one step that set one fact both ways at one tick, and ends with
 * the first such pair: step by step from 0 up, through all pairs of a step's effects, by the number
 * of the lower effect, then of the higher. Answers how many pairs were compared, up to and with
 * that one, or all if there is none; at most 130,816. The place is the step of that pair, or
 * JOBS_NOWHERE if there is none. Refuses with 1 to 6 only: a pair found is no refusal here. */
uint64_t jobs_pairs(const uint8_t *job, size_t len);

/* Loosens a job into an order file at the front of `out`, and answers the file's length; bytes past
 * it stay. Refuses with 1 to 7, 17, 10 to 13, 15 and 21. */
uint64_t jobs_partialize(const uint8_t *job, size_t len, uint8_t *out, size_t out_len);

/* Answers 1 if two order files have equal steps, limits, latest starts and orders, else 0.
 * Refuses with 16. */
uint64_t jobs_alike(const uint8_t *a, size_t a_len, const uint8_t *b, size_t b_len);

/* Puts the eight numbers of an order file's header into the list: edition, steps, orders, links,
 * rounds, offset of the windows, of the orders, of the links. A shorter list gets the first ones;
 * the rest of a longer one stays. Refuses with 16. */
uint64_t jobs_order_header(const uint8_t *file, size_t len, uint32_t *list, size_t count);

/* Puts the numbers of one record of an order file into the list, as above. A window has its
 * earliest limit, latest start (or JOBS_NO_LATEST) and earliest time; an order has its first step,
 * its second step and its gap, to be read as an int32_t; a link has an effect's number,
 * JOBS_FIRST_TIMED plus a timed fact's number, or JOBS_INITIAL_STATE. Refuses with 16. */
uint64_t jobs_order_record(const uint8_t *file, size_t len, uint32_t table, uint32_t number,
                           uint32_t *list, size_t count);

/* Makes two PDDL texts of at most 65,535 bytes each into a job of edition 1 at the front of `out`,
 * and answers the job's length; bytes past it stay. The first text holds the actions, the initial
 * state and the goals, the second the plan. Refuses with 18 or 19 at the first text's first fault,
 * else at the second's; then with 20, 4, 6, 7, 10 to 13 and 15. */
uint64_t jobs_from_pddl(const uint8_t *actions, size_t actions_len, const uint8_t *plan,
                        size_t plan_len, uint8_t *out, size_t out_len);

#ifdef __cplusplus
}
#endif

#endif
