#ifndef RELAY_H
#define RELAY_H

#include <stddef.h>
#include <stdint.h>

#ifdef __cplusplus
extern "C" {
#endif

/*
 * The version of this header. relay_version gives the library's, as the number that
 * RELAY_VERSION is: 1,000,000 for each major version, 1,000 for each minor one, 1 for
 * each patch. Header and library belong together where the two are the same.
 */
#define RELAY_VERSION_MAJOR 1
#define RELAY_VERSION_MINOR 7
#define RELAY_VERSION_PATCH 0
#define RELAY_VERSION_TEXT "1.7.0"
#define RELAY_VERSION                           \
    (UINT64_C(1000000) * RELAY_VERSION_MAJOR +  \
     UINT64_C(1000) * RELAY_VERSION_MINOR + RELAY_VERSION_PATCH)

/*
 * Sizes. n is the node count of a job, M its frame count, H its last slot: M plus
 * the greatest delay of a leaf. A node count is from RELAY_FEWEST_NODES to
 * RELAY_MOST_NODES, a frame count from RELAY_FEWEST_FRAMES to RELAY_MOST_FRAMES; a
 * delay is at most RELAY_LONGEST_DELAY slots, a memory RELAY_GREATEST_MEMORY bytes, a
 * rate RELAY_GREATEST_RATE bytes a slot, a frame RELAY_GREATEST_FRAME bytes.
 */
#define RELAY_FEWEST_NODES 2
#define RELAY_MOST_NODES 64
#define RELAY_FEWEST_FRAMES 1
#define RELAY_MOST_FRAMES 65536
#define RELAY_LONGEST_DELAY 4096
#define RELAY_GREATEST_MEMORY UINT64_C(17592186044415)
#define RELAY_GREATEST_RATE UINT64_C(17592186044415)
#define RELAY_GREATEST_FRAME 268435455

/*
 * How many numbers a running tree is: the slot number, and in place i after it
 * what the link into node i has carried by the end of that slot. Places 0 and n to
 * 63 have no link; steps keep what stands there. The first tree is all 0.
 */
#define RELAY_TREE_LENGTH 65

/*
 * How many rates relay_constant_rates takes at once, and how many numbers it gives
 * for each.
 */
#define RELAY_MOST_RATES 8
#define RELAY_LINE_LENGTH 3

/* How many children a byte store may have. */
#define RELAY_MOST_CHILDREN 63

/*
 * The stack, in bytes, with which a thread may make any call. It is measured, not
 * proved, and the calls that need much less say so.
 */
#define RELAY_STACK_SIZE 2097152

/* The bytes of a job with n nodes and m frames, and the numbers of its plan. */
#define RELAY_JOB_LENGTH(n, m) \
    (10 + 19 * ((size_t)(n) - 1) + 4 * (size_t)(m))
#define RELAY_PLAN_LENGTH(n, last_slot) \
    (((size_t)(n) - 1) * ((size_t)(last_slot) + 1))

/* The most that either can be. */
#define RELAY_MOST_JOB_LENGTH \
    RELAY_JOB_LENGTH(RELAY_MOST_NODES, RELAY_MOST_FRAMES)
#define RELAY_MOST_PLAN_LENGTH \
    RELAY_PLAN_LENGTH(RELAY_MOST_NODES, RELAY_MOST_FRAMES + RELAY_LONGEST_DELAY)

/*
 * The numbers that the functions below give, which relay_text says in words. 0 is an
 * answer, or a step or a call that was taken; 1 to 14 and 16 to 19 are refusals; 100
 * is no refusal: there is no further step. 15 is the program's alone. Where several
 * refusals apply the first is given: 1 to 10 of the job as it is, the lowest first,
 * and then those that the function lists, in the order of its list.
 */
#define RELAY_ANSWERED 0
#define RELAY_SHORT 1
#define RELAY_BAD_MARK 2
#define RELAY_BAD_VERSION 3
#define RELAY_BAD_NODES 4
#define RELAY_BAD_FRAMES 5
#define RELAY_BAD_LENGTH 6
#define RELAY_BAD_PARENT 7
#define RELAY_BAD_DELAY 8
#define RELAY_LARGE_MEMORY 9
#define RELAY_LARGE_FRAME 10
#define RELAY_BAD_LENT 11
#define RELAY_NO_PLAN 12
#define RELAY_NO_DELAY 13
#define RELAY_BROKEN_RULE 14
#define RELAY_TOO_LARGE 15
#define RELAY_BAD_RATES 16
#define RELAY_BAD_STORE 17
#define RELAY_NO_SPACE 18
#define RELAY_NOT_WAITING 19
#define RELAY_DONE 100

/*
 * Says a number in words, for messages: a sentence without capital and full stop,
 * never null; one that says so for a number that is none of the above. It is defined
 * here, and once more in the installed libraries for callers that read no header.
 */
#ifndef RELAY_TEXT_LINKAGE
#define RELAY_TEXT_LINKAGE static inline
#endif
RELAY_TEXT_LINKAGE const char *relay_text(uint64_t number)
{
    switch (number) {
    case RELAY_ANSWERED:
        return "answered, or taken";
    case RELAY_SHORT:
        return "there are fewer than 10 bytes";
    case RELAY_BAD_MARK:
        return "the mark is not RLY";
    case RELAY_BAD_VERSION:
        return "the version is not 1";
    case RELAY_BAD_NODES:
        return "the node count is below 2 or above 64";
    case RELAY_BAD_FRAMES:
        return "the frame count is 0 or above 65,536";
    case RELAY_BAD_LENGTH:
        return "the length does not fit the node count and the frame count";
    case RELAY_BAD_PARENT:
        return "some parent is not below its child's number";
    case RELAY_BAD_DELAY:
        return "an inner node's delay is not 0, or a leaf's is above 4,096";
    case RELAY_LARGE_MEMORY:
        return "a memory or a rate is above 17,592,186,044,415";
    case RELAY_LARGE_FRAME:
        return "a frame is above 268,435,455 bytes";
    case RELAY_BAD_LENT:
        return "something lent has the wrong length";
    case RELAY_NO_PLAN:
        return "no plan serves every leaf in time within the memories";
    case RELAY_NO_DELAY:
        return "no delay up to 4,096 serves within the rates";
    case RELAY_BROKEN_RULE:
        return "the plan's next column breaks a rule, on the link named";
    case RELAY_TOO_LARGE:
        return "the job has over 32,768 bytes, or its plan over 4,096 numbers: "
               "too large for the program, and not for the library";
    case RELAY_BAD_RATES:
        return "there is no rate, or there are more than 8";
    case RELAY_BAD_STORE:
        return "no calls could leave such a byte store, or the call does not fit it";
    case RELAY_NO_SPACE:
        return "more bytes are appended than are free";
    case RELAY_NOT_WAITING:
        return "the child takes more bytes than wait for it";
    case RELAY_DONE:
        return "done: the film has been sent, there is no further step";
    default:
        return "the library gives no such number";
    }
}

/* Gives the library's version, RELAY_VERSION where it is this header's. */
uint64_t relay_version(void);

/*
 * The sizes above as the library has them. Where one differs from this header's,
 * header and library do not belong together.
 */
struct relay_limits {
    size_t fewest_nodes;
    size_t most_nodes;
    size_t fewest_frames;
    size_t most_frames;
    size_t longest_delay;
    uint64_t greatest_memory;
    uint64_t greatest_rate;
    uint64_t greatest_frame;
    size_t tree_length;
    size_t most_rates;
    size_t line_length;
    size_t most_children;
};

/* Gives the library's sizes. It refuses nothing. */
struct relay_limits relay_library_limits(void);

/*
 * Reads `length` bytes at `job` and returns 0 where they are a job, else the
 * number of the first refusal of 1 to 10 that applies. `job` must point to at least
 * `length` readable bytes. Nothing is written and nothing is kept. The call needs
 * about 15 kB of stack.
 */
uint64_t relay_refusal(const uint8_t *job, size_t length);

/*
 * The sizes of a job, from which the lengths of all that is lent follow: 0, the node
 * count n, the frame count M, the last slot H and the plan's length (n-1)(H+1); or
 * the number of a refusal, and 0 four times.
 */
struct relay_sizes {
    uint64_t number;
    size_t nodes;
    size_t frames;
    size_t last_slot;
    size_t plan_length;
};

/*
 * Reads a job and gives its sizes; the number is 0, or the first refusal of 1 to 10
 * that applies. `job` must point to at least `length` readable bytes. Nothing is
 * written and nothing is kept. The call needs about 20 kB of stack.
 */
struct relay_sizes relay_job_sizes(const uint8_t *job, size_t length);

/*
 * The answer to the memory question: 0, the last slot H and the total T(M) of
 * all frames; or the number of a refusal, and 0 twice.
 */
struct relay_memory_answer {
    uint64_t number;
    uint64_t last_slot;
    uint64_t total;
};

/*
 * Asks which schedule the memories of the job allow. Where some plan exists, the
 * number is 0, `plan` holds for each of nodes 1 to n-1 in turn a row of H + 1
 * numbers, what its link has carried by the end of slots 0 to H, and `peaks`
 * holds each row's greatest rise in one slot. Each peak is the least in any plan,
 * and each number of the plan the least in any plan with those peaks.
 *
 * The number is else the first refusal that applies, of 1 to 10 above and these,
 * and `plan` and `peaks` are as they were:
 *
 *   11  `plan_length` is not (n-1)(H+1), or `peaks_length` is not n-1
 *   12  no plan serves every leaf in time within the memories
 *
 * `job` must point to at least `job_length` readable bytes, `plan` and `peaks` to
 * at least `plan_length` and `peaks_length` writable numbers, and none of the
 * three may overlap another. Nothing is kept. The call needs about 1.7 MB of
 * stack.
 */
struct relay_memory_answer relay_memory_question(
    const uint8_t *job, size_t job_length,
    uint64_t *plan, size_t plan_length,
    uint64_t *peaks, size_t peaks_length);

/*
 * Where the row of one link lies in a plan: its first place and how many numbers it
 * has, one for each of slots 0 to H; 0 twice where the row is empty.
 */
struct relay_row {
    size_t start;
    size_t length;
};

/*
 * Gives the row of the link into node `link` in a plan of `plan_length` numbers, laid
 * out as the memory question fills it: the numbers from plan[start] on, `length` of
 * them, lie within the plan. No plan is read.
 *
 * Nothing is refused by a number. The row is empty where one of 1 to 10 applies to the
 * job, where `link` is 0 or not below n, and where `plan_length` is not (n-1)(H+1).
 *
 * `job` must point to at least `job_length` readable bytes. Nothing is written and
 * nothing is kept. The call needs about 20 kB of stack.
 */
struct relay_row relay_row_of(
    const uint8_t *job, size_t job_length,
    size_t plan_length, size_t link);

/*
 * The answer to the rate question: 0, the delay of every leaf and the total of
 * the memories; or the number of a refusal, and 0 twice.
 */
struct relay_rate_answer {
    uint64_t number;
    uint64_t delay;
    uint64_t total;
};

/*
 * Asks how long the leaves wait, and how much memory each node needs, where no
 * link passes its rate; the job's own delays and memories are not used. Where some
 * delay up to 4,096 serves with some memories, the number is 0, `delay` is the
 * least that serves with any, `memories` holds those of nodes 1 to n-1 in turn,
 * with which it serves, and `total` is their sum. No memories with which that
 * delay serves have a lower total; of all that have this total, these have the least
 * at node 1, then at node 2, and so on, so that boxes near the root are small.
 *
 * The number is else the first refusal that applies, of 1 to 10 above and these,
 * and `memories` is as it was:
 *
 *   11  `memories_length` is not n-1
 *   13  no delay up to 4,096 serves within the rates, with any memories
 *
 * `job` must point to at least `job_length` readable bytes and `memories` to at
 * least `memories_length` writable numbers, and the two may not overlap. Nothing is
 * kept. The call needs about 1.1 MB of stack.
 */
struct relay_rate_answer relay_rate_question(
    const uint8_t *job, size_t job_length,
    uint64_t *memories, size_t memories_length);

/*
 * Asks, for a link that carries the job's film to one screen and sends a fixed
 * number of bytes in every slot until the film is through, how long the screen waits
 * and how much memory it needs, at each of up to RELAY_MOST_RATES rates, any numbers.
 * At rate R the link has carried the smaller of R * k and T(M) by the end of slot k.
 * The job's tree is checked and not used.
 *
 * Where the number is 0, `lines` holds for each of `rates` in turn three numbers,
 * RELAY_LINE_LENGTH: 0, the delay and the memory; or RELAY_NO_DELAY, 0 and 0, where
 * no delay up to 4,096 serves with any memory. The delay is the least that serves
 * with any memory, and the memory the least that serves with any delay: together
 * they serve.
 *
 * The number is else the first refusal that applies, of 1 to 10 above and these in
 * turn, and `lines` is as it was:
 *
 *   16  `rates_length` is 0 or above RELAY_MOST_RATES
 *   11  `lines_length` is not RELAY_LINE_LENGTH * `rates_length`
 *
 * `job` must point to at least `job_length` readable bytes, `rates` to at least
 * `rates_length` readable and `lines` to at least `lines_length` writable numbers,
 * and `lines` may overlap neither. Nothing is kept. The call needs about 0.6 MB of
 * stack.
 */
uint64_t relay_constant_rates(
    const uint8_t *job, size_t job_length,
    const uint64_t *rates, size_t rates_length,
    uint64_t *lines, size_t lines_length);

/*
 * Puts an answer back: writes `delay` into the job as the delay of every leaf and
 * `memories` as those of nodes 1 to n-1 in turn, and leaves every other byte as it
 * was. The number is 0, and the bytes are a job again. What the rate question gave
 * for the job, put back, is answered by the memory question with 0 and a plan in
 * which no link's peak passes its rate.
 *
 * The number is else the first refusal that applies, of 1 to 10 above and these in
 * turn, and the bytes are as they were:
 *
 *    8  `delay` is above 4,096
 *    9  one of `memories` is above RELAY_GREATEST_MEMORY, however many they are
 *   11  `memories_length` is not n-1
 *
 * `job` must point to at least `job_length` writable bytes and `memories` to at
 * least `memories_length` readable numbers, and the two may not overlap. Nothing is
 * kept. The call needs about 15 kB of stack.
 */
uint64_t relay_put_back(
    uint8_t *job, size_t job_length,
    uint64_t delay,
    const uint64_t *memories, size_t memories_length);

/*
 * What a step gives: its number, and the link that 14 names (0 with any other
 * number).
 */
struct relay_step_answer {
    uint64_t number;
    uint64_t link;
};

/*
 * Takes the next column of a plan, that of the slot one past the slot number of
 * `tree`. Column 0 is never read. `plan` is laid out as the memory question fills
 * it, but any numbers may stand there, and any in `tree`.
 *
 * The number is 0 where the column is taken. `tree` then has that slot and that
 * column, `sent` holds for each of nodes 1 to n-1 in turn what its link carries in
 * the slot, and `held` what the node holds at its end: at a leaf what it has been
 * sent and not played, at an inner node what it has been sent and not yet sent on
 * to the child that has the least.
 *
 * The number is else the first that applies, of 1 to 10 above and these, and `tree`,
 * `sent` and `held` are as they were:
 *
 *   11  `tree_length` is not RELAY_TREE_LENGTH, `plan_length` is not (n-1)(H+1), or
 *       `sent_length` or `held_length` is not n-1
 *  100  done: the slot number is H or later
 *   14  the column breaks a rule on the link into node `link`: it falls from
 *       what is carried or passes T(M), it is too little or too much for a leaf,
 *       or an inner node is behind a child of it or too far ahead of one, which
 *       counts on the links into both
 *
 * `job` must point to at least `job_length` readable bytes, `plan` to at least
 * `plan_length` readable numbers, `tree`, `sent` and `held` to at least
 * `tree_length`, `sent_length` and `held_length` writable numbers. None of the last
 * three may overlap another of the five. Nothing is kept. The call needs about
 * 0.6 MB of stack.
 */
struct relay_step_answer relay_step(
    uint64_t *tree, size_t tree_length,
    const uint8_t *job, size_t job_length,
    const uint64_t *plan, size_t plan_length,
    uint64_t *sent, size_t sent_length,
    uint64_t *held, size_t held_length);

/*
 * A byte store: what a box keeps of the stream that it hands on, in a slice of
 * memory that the caller lends. It has up to RELAY_MOST_CHILDREN children, numbered
 * from 0. Bytes are appended once, each child takes them in stream order at its own
 * pace, and a byte's space is free once the last child has taken it. The struct holds
 * numbers only: the slice's length, the child count, the place in the slice where the
 * next byte is written, and how many bytes wait for each child. It may be copied, kept
 * and moved like any struct; nobody but relay_store_append may write to the slice.
 */
struct relay_store {
    size_t length;
    size_t children;
    size_t place;
    size_t waiting[RELAY_MOST_CHILDREN];
};

/*
 * Starts a store for a slice of `length` bytes and so many children, with nothing
 * appended. The number is 0; or this one, and the struct is as it was:
 *
 *   17  `children` is above RELAY_MOST_CHILDREN
 *
 * `store` must point to a writable struct, which may hold anything. The call needs
 * about 1 kB of stack, as the next two do.
 */
uint64_t relay_store_start(
    struct relay_store *store,
    size_t length, size_t children);

/*
 * Appends bytes to the stream: copies them into the slice from the place of the next
 * byte on, round its end, and has them wait for every child. The number is 0, or the
 * first of these, and the struct and the slice are as they were:
 *
 *   17  `slice_length` is not the length given at the start, the store has no
 *       children, or no calls could leave such a store
 *   18  `bytes_length` is more than the space that is free: the length less the most
 *       that waits for some child
 *
 * `store` must point to a writable struct, `slice` to at least `slice_length` writable
 * and `bytes` to at least `bytes_length` readable bytes, and none of the three may
 * overlap another.
 */
uint64_t relay_store_append(
    struct relay_store *store,
    uint8_t *slice, size_t slice_length,
    const uint8_t *bytes, size_t bytes_length);

/*
 * Gives a child the next `out_length` bytes of the stream: copies them from the slice
 * to `out`, and they wait for it no longer. The number is 0, or the first of these,
 * and the struct and `out` are as they were:
 *
 *   17  `slice_length` is not the length given at the start, `child` is not below the
 *       child count, or no calls could leave such a store
 *   19  `out_length` is more than waits for the child
 *
 * `store` must point to a writable struct, `slice` to at least `slice_length` readable
 * and `out` to at least `out_length` writable bytes, and none of the three may overlap
 * another.
 */
uint64_t relay_store_take(
    struct relay_store *store,
    const uint8_t *slice, size_t slice_length,
    size_t child,
    uint8_t *out, size_t out_length);

#ifdef __cplusplus
}
#endif

#endif
