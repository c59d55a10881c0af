/*
 * Calls the library through its header, from C, and holds the header's constants
 * against the library: against the sizes and the version that it gives, and against
 * what it takes.
 */

#include <stdio.h>
#include <string.h>

#include "relay.h"

/* Tree Q: delays 0 and 1, memories 4, 0, 6, rates 5, 10, 4, frames 4, 10, 1. */
static const uint8_t tree_q[79] = {
    0x52, 0x4C, 0x59, 0, 1, 4, 0, 0, 0, 3,
    0, 0, 0, 0, 0, 0, 0, 0, 0, 0, 4, 0, 0, 0, 0, 0, 0, 0, 5,
    1, 0, 0, 0, 0, 0, 0, 0, 0, 0, 0, 0, 0, 0, 0, 0, 0, 0, 10,
    1, 0, 1, 0, 0, 0, 0, 0, 0, 0, 6, 0, 0, 0, 0, 0, 0, 0, 4,
    0, 0, 0, 4, 0, 0, 0, 10, 0, 0, 0, 1
};

/* Its plan and peaks. */
static const uint64_t tree_q_plan[15] = {
    0, 7, 14, 15, 15,
    0, 4, 14, 15, 15,
    0, 5, 10, 14, 15
};
static const uint64_t tree_q_peaks[3] = { 7, 10, 5 };

static int passed = 0;
static int failed = 0;

static void expect(const char *name, uint64_t expected, uint64_t got)
{
    if (expected == got) {
        passed++;
        return;
    }
    failed++;
    printf("header: %s: expected %lu, got %lu\n", name,
           (unsigned long)expected, (unsigned long)got);
}

static void expect_all(const char *name, const uint64_t *expected,
                       const uint64_t *got, size_t length)
{
    size_t i;

    for (i = 0; i < length; i++) {
        expect(name, expected[i], got[i]);
    }
}

/* ---- the header's constants against the library ---- */

static uint8_t built[RELAY_MOST_JOB_LENGTH + 1];

/* Places in a job's bytes: those of a node's record, and of a frame. */
enum { NODES = 5, FRAMES = 6, DELAY = 1, MEMORY = 3, RATE = 11 };

static size_t record_of(size_t node)
{
    return RELAY_JOB_LENGTH(node, 0);
}

/* Writes a number of `width` bytes, the high byte first. */
static void write_number(size_t place, size_t width, uint64_t number)
{
    while (width > 0) {
        width--;
        built[place + width] = (uint8_t)(number & 0xFF);
        number >>= 8;
    }
}

/* Builds a job of leaves below the root, all else 0, and gives its length. */
static size_t build(size_t nodes, size_t frames)
{
    memset(built, 0, sizeof built);
    memcpy(built, tree_q, NODES);
    write_number(NODES, 1, nodes);
    write_number(FRAMES, 4, frames);
    return RELAY_JOB_LENGTH(nodes, frames);
}

/* The refusal of such a job with one number in it set. */
static uint64_t refusal_with(size_t place, size_t width, uint64_t number)
{
    size_t length = build(RELAY_MOST_NODES, 2);

    write_number(place, width, number);
    return relay_refusal(built, length);
}

/* The greatest number that a field may have, and one more. */
static void expect_greatest(const char *name, size_t place, size_t width,
                            uint64_t greatest, uint64_t refusal)
{
    expect(name, RELAY_ANSWERED, refusal_with(place, width, greatest));
    expect(name, refusal, refusal_with(place, width, greatest + 1));
}

static void sizes(void)
{
    const struct relay_limits limits = relay_library_limits();

    expect("fewest nodes", RELAY_FEWEST_NODES, limits.fewest_nodes);
    expect("most nodes", RELAY_MOST_NODES, limits.most_nodes);
    expect("fewest frames", RELAY_FEWEST_FRAMES, limits.fewest_frames);
    expect("most frames", RELAY_MOST_FRAMES, limits.most_frames);
    expect("longest delay", RELAY_LONGEST_DELAY, limits.longest_delay);
    expect("greatest memory", RELAY_GREATEST_MEMORY, limits.greatest_memory);
    expect("greatest rate", RELAY_GREATEST_RATE, limits.greatest_rate);
    expect("greatest frame", RELAY_GREATEST_FRAME, limits.greatest_frame);
    expect("tree length", RELAY_TREE_LENGTH, limits.tree_length);
    expect("most rates", RELAY_MOST_RATES, limits.most_rates);
    expect("line length", RELAY_LINE_LENGTH, limits.line_length);
    expect("most children", RELAY_MOST_CHILDREN, limits.most_children);
}

/* The same by what the library takes and what it refuses. */
static void edges(void)
{
    const size_t last = record_of(RELAY_MOST_NODES - 1);
    const size_t first_frame = record_of(RELAY_MOST_NODES);

    expect("fewest nodes", RELAY_ANSWERED,
           relay_refusal(built, build(RELAY_FEWEST_NODES, 1)));
    expect("too few nodes", RELAY_BAD_NODES,
           relay_refusal(built, build(RELAY_FEWEST_NODES - 1, 1)));
    expect("most nodes", RELAY_ANSWERED,
           relay_refusal(built, build(RELAY_MOST_NODES, 1)));
    expect("too many nodes", RELAY_BAD_NODES,
           relay_refusal(built, build(RELAY_MOST_NODES + 1, 1)));
    expect("fewest frames", RELAY_ANSWERED,
           relay_refusal(built, build(3, RELAY_FEWEST_FRAMES)));
    expect("too few frames", RELAY_BAD_FRAMES,
           relay_refusal(built, build(3, RELAY_FEWEST_FRAMES - 1)));
    expect("most frames", RELAY_ANSWERED,
           relay_refusal(built, build(3, RELAY_MOST_FRAMES)));
    expect("too many frames", RELAY_BAD_FRAMES,
           relay_refusal(built, build(3, RELAY_MOST_FRAMES + 1)));
    expect_greatest("delay", last + DELAY, 2, RELAY_LONGEST_DELAY, RELAY_BAD_DELAY);
    expect_greatest("memory", last + MEMORY, 8, RELAY_GREATEST_MEMORY,
                    RELAY_LARGE_MEMORY);
    expect_greatest("rate", last + RATE, 8, RELAY_GREATEST_RATE, RELAY_LARGE_MEMORY);
    expect_greatest("frame", first_frame, 4, RELAY_GREATEST_FRAME,
                    RELAY_LARGE_FRAME);
}

/* The lengths of jobs and plans, up to the longest. */
static void lengths(void)
{
    const size_t slots = RELAY_MOST_FRAMES + RELAY_LONGEST_DELAY + 1;
    const size_t links = RELAY_MOST_NODES - 1;
    const size_t length = build(RELAY_MOST_NODES, RELAY_MOST_FRAMES);
    struct relay_row row;

    expect("longest job", 263351, RELAY_MOST_JOB_LENGTH);
    expect("longest job", RELAY_ANSWERED, relay_refusal(built, length));
    expect("one byte less", RELAY_BAD_LENGTH, relay_refusal(built, length - 1));
    expect("one byte more", RELAY_BAD_LENGTH, relay_refusal(built, length + 1));

    expect("longest plan", 4386879, RELAY_MOST_PLAN_LENGTH);
    write_number(record_of(links) + DELAY, 2, RELAY_LONGEST_DELAY);
    row = relay_row_of(built, length, RELAY_MOST_PLAN_LENGTH, links);
    expect("last row of the longest plan", slots * (links - 1), row.start);
    expect("last row of the longest plan", slots, row.length);
}

/* The refusals that no edge above has met, each by a job that gets it. */
static void numbers(void)
{
    uint8_t job[sizeof tree_q];
    uint64_t plan[15], peaks[3];

    expect("no bytes", RELAY_SHORT, relay_refusal(tree_q, 0));
    expect("nine bytes", RELAY_SHORT, relay_refusal(tree_q, 9));
    expect("Tree Q", RELAY_ANSWERED, relay_refusal(tree_q, sizeof tree_q));
    memcpy(job, tree_q, sizeof job);
    job[record_of(2)] = 2; /* The parent of node 2. */
    expect("own parent", RELAY_BAD_PARENT, relay_refusal(job, sizeof job));
    job[4] = 2;
    expect("version 2", RELAY_BAD_VERSION, relay_refusal(job, sizeof job));
    job[2] = 0x58;
    expect("wrong mark", RELAY_BAD_MARK, relay_refusal(job, sizeof job));

    memcpy(job, tree_q, sizeof job);
    job[record_of(1) + MEMORY + 7] = 0;
    job[record_of(3) + MEMORY + 7] = 0;
    expect("no memory", RELAY_NO_PLAN,
           relay_memory_question(job, sizeof job, plan, 15, peaks, 3).number);
}

/* The header's version: of its parts, in words, and the library's. */
static void version(void)
{
    char text[64];

    snprintf(text, sizeof text, "%d.%d.%d", RELAY_VERSION_MAJOR,
             RELAY_VERSION_MINOR, RELAY_VERSION_PATCH);
    expect("version in words", 0, (uint64_t)(strcmp(text, RELAY_VERSION_TEXT) != 0));
    expect("version of its parts",
           1000 * (UINT64_C(1000) * RELAY_VERSION_MAJOR + RELAY_VERSION_MINOR) +
           RELAY_VERSION_PATCH, RELAY_VERSION);
    expect("minor version of three digits", 1, RELAY_VERSION_MINOR < 1000);
    expect("patch of three digits", 1, RELAY_VERSION_PATCH < 1000);
    expect("library's version", RELAY_VERSION, relay_version());
}

/* The numbers by their names, in turn: 0 to 19, then 100. */
static const uint64_t named[] = {
    RELAY_ANSWERED, RELAY_SHORT, RELAY_BAD_MARK, RELAY_BAD_VERSION, RELAY_BAD_NODES,
    RELAY_BAD_FRAMES, RELAY_BAD_LENGTH, RELAY_BAD_PARENT, RELAY_BAD_DELAY,
    RELAY_LARGE_MEMORY, RELAY_LARGE_FRAME, RELAY_BAD_LENT, RELAY_NO_PLAN,
    RELAY_NO_DELAY, RELAY_BROKEN_RULE, RELAY_TOO_LARGE, RELAY_BAD_RATES,
    RELAY_BAD_STORE, RELAY_NO_SPACE, RELAY_NOT_WAITING, RELAY_DONE
};
enum { NAMED = sizeof named / sizeof named[0] };

/* A text is a sentence without capital and full stop. */
static void expect_sentence(const char *text)
{
    size_t length = strlen(text);

    expect("text of some length", 1, length > 0);
    if (length > 0) {
        expect(text, 0, text[0] >= 'A' && text[0] <= 'Z');
        expect(text, 0, text[length - 1] == '.');
    }
}

/* Each number has a text of its own, and all that are none share another. */
static void texts(void)
{
    static const uint64_t none[] = {
        20, 99, 101, UINT64_C(1) << 32, (UINT64_C(1) << 32) + 1, UINT64_MAX
    };
    const char *const no_number = relay_text(none[0]);
    size_t i, j;

    expect("numbers by their names", 21, NAMED);
    for (i = 0; i < NAMED; i++) {
        const char *text = relay_text(named[i]);

        expect("number by its name", i < NAMED - 1 ? i : 100, named[i]);
        expect_sentence(text);
        expect(text, 1, strcmp(text, no_number) != 0);
        for (j = 0; j < i; j++) {
            expect(text, 1, strcmp(text, relay_text(named[j])) != 0);
        }
    }
    expect_sentence(no_number);
    for (i = 0; i < sizeof none / sizeof none[0]; i++) {
        expect("text of no number", 1, strcmp(no_number, relay_text(none[i])) == 0);
    }
}

/* ---- each function ---- */

static void expect_sizes(const char *name, size_t nodes, size_t frames,
                         size_t last_slot, size_t plan_length,
                         struct relay_sizes sizes)
{
    expect(name, RELAY_ANSWERED, sizes.number);
    expect(name, nodes, sizes.nodes);
    expect(name, frames, sizes.frames);
    expect(name, last_slot, sizes.last_slot);
    expect(name, plan_length, sizes.plan_length);
}

/* The sizes of Tree Q, then of the smallest and the largest job, first without delay. In
   the largest the longest is that of a leaf between others that wait less. */
static void job_sizes(void)
{
    size_t length;

    expect_sizes("sizes of Tree Q", 4, 3, 4, 15,
                 relay_job_sizes(tree_q, sizeof tree_q));
    length = build(RELAY_FEWEST_NODES, RELAY_FEWEST_FRAMES);
    expect_sizes("smallest job", 2, 1, 1, 2, relay_job_sizes(built, length));
    write_number(record_of(1) + DELAY, 2, RELAY_LONGEST_DELAY);
    expect_sizes("one frame, longest delay", 2, 1, 4097, 4098,
                 relay_job_sizes(built, length));

    length = build(RELAY_MOST_NODES, RELAY_MOST_FRAMES);
    expect_sizes("largest job, no delay", 64, 65536, 65536, 4128831,
                 relay_job_sizes(built, length));
    write_number(record_of(1) + DELAY, 2, 2);
    write_number(record_of(31) + DELAY, 2, RELAY_LONGEST_DELAY);
    write_number(record_of(63) + DELAY, 2, 1);
    expect_sizes("largest job", RELAY_MOST_NODES, RELAY_MOST_FRAMES, 69632,
                 RELAY_MOST_PLAN_LENGTH, relay_job_sizes(built, length));
}

/* A number, and no sizes. */
static void expect_no_sizes(uint64_t number, struct relay_sizes sizes)
{
    expect("no sizes, number", number, sizes.number);
    expect("no sizes, nodes", 0, sizes.nodes);
    expect("no sizes, frames", 0, sizes.frames);
    expect("no sizes, last slot", 0, sizes.last_slot);
    expect("no sizes, plan length", 0, sizes.plan_length);
}

/* Each refusal of 1 to 10: the string cut short, then one number in it set. */
static void refused_sizes(void)
{
    const size_t last = record_of(RELAY_MOST_NODES - 1);
    const struct { size_t place, width; uint64_t number, refusal; } faults[] = {
        { 0, 1, 'r', RELAY_BAD_MARK },
        { 3, 2, 2, RELAY_BAD_VERSION },
        { NODES, 1, RELAY_MOST_NODES + 1, RELAY_BAD_NODES },
        { FRAMES, 4, RELAY_FEWEST_FRAMES - 1, RELAY_BAD_FRAMES },
        { FRAMES, 4, 3, RELAY_BAD_LENGTH },
        { last, 1, RELAY_MOST_NODES - 1, RELAY_BAD_PARENT },
        { last + DELAY, 2, RELAY_LONGEST_DELAY + 1, RELAY_BAD_DELAY },
        { last + MEMORY, 8, RELAY_GREATEST_MEMORY + 1, RELAY_LARGE_MEMORY },
        { last + RATE, 8, RELAY_GREATEST_RATE + 1, RELAY_LARGE_MEMORY },
        { last + RATE + 8, 4, RELAY_GREATEST_FRAME + 1, RELAY_LARGE_FRAME }
    };
    size_t i;

    expect_no_sizes(RELAY_SHORT, relay_job_sizes(tree_q, 0));
    expect_no_sizes(RELAY_SHORT, relay_job_sizes(tree_q, 9));
    expect_no_sizes(RELAY_BAD_LENGTH, relay_job_sizes(tree_q, 10));
    for (i = 0; i < sizeof faults / sizeof faults[0]; i++) {
        size_t length = build(RELAY_MOST_NODES, 2);

        write_number(faults[i].place, faults[i].width, faults[i].number);
        expect_no_sizes(faults[i].refusal, relay_job_sizes(built, length));
    }
}

/* The memory question on Tree Q, then with too short a plan. */
static void memory_question(void)
{
    uint64_t plan[15];
    uint64_t peaks[3];
    struct relay_memory_answer answer;

    memset(plan, 0xA5, sizeof plan);
    memset(peaks, 0xA5, sizeof peaks);
    answer = relay_memory_question(tree_q, sizeof tree_q, plan, 15, peaks, 3);
    expect("Tree Q, number", RELAY_ANSWERED, answer.number);
    expect("Tree Q, last slot", 4, answer.last_slot);
    expect("Tree Q, total", 15, answer.total);
    expect_all("Tree Q, plan", tree_q_plan, plan, 15);
    expect_all("Tree Q, peaks", tree_q_peaks, peaks, 3);

    answer = relay_memory_question(tree_q, sizeof tree_q, plan, 14, peaks, 3);
    expect("short plan, number", RELAY_BAD_LENT, answer.number);
    expect("short plan, last slot", 0, answer.last_slot);
    expect("short plan, total", 0, answer.total);
    expect_all("short plan, plan", tree_q_plan, plan, 15);
    expect_all("short plan, peaks", tree_q_peaks, peaks, 3);
}

static void expect_row(const char *name, size_t start, size_t length,
                       struct relay_row row)
{
    expect(name, start, row.start);
    expect(name, length, row.length);
}

/* The rows of Tree Q's links, then those that are empty. */
static void rows(void)
{
    const size_t job = sizeof tree_q;
    size_t link;

    for (link = 1; link <= 3; link++) {
        expect_row("row", 5 * (link - 1), 5, relay_row_of(tree_q, job, 15, link));
    }
    expect_row("row of the root", 0, 0, relay_row_of(tree_q, job, 15, 0));
    expect_row("row past the last", 0, 0, relay_row_of(tree_q, job, 15, 4));
    expect_row("row far past", 0, 0, relay_row_of(tree_q, job, 15, SIZE_MAX));
    expect_row("row, short plan", 0, 0, relay_row_of(tree_q, job, 14, 2));
    expect_row("row, long plan", 0, 0, relay_row_of(tree_q, job, 16, 2));
    expect_row("row, short job", 0, 0, relay_row_of(tree_q, job - 1, 15, 2));
}

/* The rate question on Tree Q, then with too few memories and with rate 0. */
static void rate_question(void)
{
    static const uint64_t due[3] = { 0, 6, 6 };
    static const uint64_t untouched[3] = { 91, 92, 93 };
    uint8_t stopped[sizeof tree_q];
    uint64_t memories[3] = { 91, 92, 93 };
    struct relay_rate_answer answer;

    answer = relay_rate_question(tree_q, sizeof tree_q, memories, 2);
    expect("few memories, number", RELAY_BAD_LENT, answer.number);
    expect("few memories, delay", 0, answer.delay);
    expect("few memories, total", 0, answer.total);
    expect_all("few memories", untouched, memories, 3);

    memcpy(stopped, tree_q, sizeof stopped);
    stopped[28] = 0; /* The rate of node 1. */
    answer = relay_rate_question(stopped, sizeof stopped, memories, 3);
    expect("rate 0, number", RELAY_NO_DELAY, answer.number);
    expect("rate 0, delay", 0, answer.delay);
    expect("rate 0, total", 0, answer.total);
    expect_all("rate 0, memories", untouched, memories, 3);

    answer = relay_rate_question(tree_q, sizeof tree_q, memories, 3);
    expect("rates of Tree Q, number", 0, answer.number);
    expect("rates of Tree Q, delay", 2, answer.delay);
    expect("rates of Tree Q, total", 12, answer.total);
    expect_all("rates of Tree Q, memories", due, memories, 3);
}

enum { RATES = RELAY_MOST_RATES, LINES = RELAY_LINE_LENGTH * RELAY_MOST_RATES };

/* Any rates, one more than are taken, and a list as long as for all of them. */
static const uint64_t any_rates[RATES + 1] = {
    0, 1, 4, 5, 7, 10, 15, UINT64_MAX, 5
};
static uint64_t lines[LINES + RELAY_LINE_LENGTH];

/* Fills the list, so that what is written there is seen. */
static void fill_lines(void)
{
    size_t i;

    for (i = 0; i < sizeof lines / sizeof lines[0]; i++) {
        lines[i] = 91 + i;
    }
}

/* The list from a place on is as it was filled. */
static void expect_filled(const char *name, size_t first)
{
    size_t i;

    for (i = first; i < sizeof lines / sizeof lines[0]; i++) {
        expect(name, 91 + i, lines[i]);
    }
}

/* Tree Q has played 4, 14, 15 by the end of its first three slots. At rate 5 the link
   has carried 5, 10, 15, so that the 14 come one slot late. With delay 1 it has played
   0, 4, 14 by then, and 5, 6, 1 wait: memory 6. At rate 4, with delay 2, the link has
   carried 4, 8, 12, 15 and 0, 0, 4, 14 are played: 8. At rate 1 the 14 come 12 slots
   late, and 12 wait before the 4 are played. At rates 7, 10 and from 15 on nothing is
   late, and at slot 1 there wait 3, 6 and 11. */
static void constant_rates(void)
{
    static const uint64_t due[LINES] = {
        RELAY_NO_DELAY, 0, 0,
        0, 12, 12,
        0, 2, 8,
        0, 1, 6,
        0, 0, 3,
        0, 0, 6,
        0, 0, 11,
        0, 0, 11
    };
    const size_t job = sizeof tree_q;

    fill_lines();
    expect("constant rates", RELAY_ANSWERED,
           relay_constant_rates(tree_q, job, any_rates, RATES, lines, LINES));
    expect_all("constant rates, lines", due, lines, LINES);
    expect_filled("constant rates, past the lines", LINES);

    fill_lines();
    expect("one rate", RELAY_ANSWERED,
           relay_constant_rates(tree_q, job, any_rates + 3, 1, lines,
                                RELAY_LINE_LENGTH));
    expect_all("one rate, line", due + 3 * RELAY_LINE_LENGTH, lines,
               RELAY_LINE_LENGTH);
    expect_filled("one rate, past the line", RELAY_LINE_LENGTH);

    fill_lines();
    expect("no delay at all", RELAY_ANSWERED,
           relay_constant_rates(tree_q, job, any_rates, 1, lines,
                                RELAY_LINE_LENGTH));
    expect_all("no delay at all, line", due, lines, RELAY_LINE_LENGTH);
    expect_filled("no delay at all, past the line", RELAY_LINE_LENGTH);
}

/* Constant rates that are refused: the number, and the list is as it was. */
static void refused_rates(const char *name, size_t job_length, size_t rates_length,
                          size_t lines_length, uint64_t number)
{
    fill_lines();
    expect(name, number,
           relay_constant_rates(tree_q, job_length, any_rates, rates_length, lines,
                                lines_length));
    expect_filled(name, 0);
}

static void refused_constant_rates(void)
{
    const size_t job = sizeof tree_q;

    refused_rates("too many rates", job, RATES + 1, LINES + RELAY_LINE_LENGTH,
                  RELAY_BAD_RATES);
    refused_rates("too many rates, short list", job, RATES + 1, LINES,
                  RELAY_BAD_RATES);
    refused_rates("no rate", job, 0, 0, RELAY_BAD_RATES);
    refused_rates("no rate, long list", job, 0, RELAY_LINE_LENGTH, RELAY_BAD_RATES);
    refused_rates("short list", job, RATES, LINES - 1, RELAY_BAD_LENT);
    refused_rates("long list", job, RATES, LINES + 1, RELAY_BAD_LENT);
    refused_rates("no list", job, 1, 0, RELAY_BAD_LENT);
    refused_rates("list of two lines", job, 1, 2 * RELAY_LINE_LENGTH, RELAY_BAD_LENT);
    refused_rates("short job, no rate", 9, 0, 0, RELAY_SHORT);
    refused_rates("short job, short list", 9, RATES, LINES - 1, RELAY_SHORT);
    refused_rates("job cut off, too many rates", job - 1, RATES + 1, 0,
                  RELAY_BAD_LENGTH);
}

static void expect_bytes(const char *name, const uint8_t *expected,
                         const uint8_t *got, size_t length)
{
    size_t i;

    for (i = 0; i < length; i++) {
        expect(name, expected[i], got[i]);
    }
}

/* Answers that are refused, then that of the rate question put back into Tree Q: node 1
   has no memory, so all rows are the same, and the peaks are within the rates 5, 10, 4. */
static void put_back(void)
{
    static const uint64_t plan_due[18] = {
        0, 2, 6, 10, 14, 15,
        0, 2, 6, 10, 14, 15,
        0, 2, 6, 10, 14, 15
    };
    static const uint64_t peaks_due[3] = { 4, 4, 4 };
    uint64_t memories[4] = { 0, 6, 6, 7 };
    uint64_t plan[18];
    uint64_t peaks[3];
    uint8_t job[sizeof tree_q];
    uint8_t due[sizeof tree_q];
    struct relay_memory_answer answer;

    memcpy(job, tree_q, sizeof job);
    expect("put back, short job", 1, relay_put_back(job, 9, 4097, memories, 4));
    expect("put back, many memories", 11,
           relay_put_back(job, sizeof job, 4096, memories, 4));
    expect("put back, long delay and many memories", 8,
           relay_put_back(job, sizeof job, 4097, memories, 4));
    memories[3] = RELAY_GREATEST_MEMORY + 1;
    expect("put back, many memories, the last too large", 9,
           relay_put_back(job, sizeof job, 4096, memories, 4));
    expect("put back, few memories, none of them too large", 11,
           relay_put_back(job, sizeof job, 4096, memories, 2));
    expect("put back, no memories", 11,
           relay_put_back(job, sizeof job, 4096, memories + 3, 0));
    memories[2] = RELAY_GREATEST_MEMORY + 1;
    expect("put back, long delay", 8,
           relay_put_back(job, sizeof job, 4097, memories, 3));
    expect("put back, large memory", 9,
           relay_put_back(job, sizeof job, 4096, memories, 3));
    expect_bytes("put back, refused", tree_q, job, sizeof job);

    memories[2] = 6;
    memcpy(due, tree_q, sizeof due);
    due[20] = 0; /* Memory of node 1, delay and memory of node 2, delay of node 3. */
    due[31] = 2;
    due[39] = 6;
    due[50] = 2;
    expect("put back", 0, relay_put_back(job, sizeof job, 2, memories, 3));
    expect_bytes("put back, bytes", due, job, sizeof job);

    answer = relay_memory_question(job, sizeof job, plan, 18, peaks, 3);
    expect("put back, number", 0, answer.number);
    expect("put back, last slot", 5, answer.last_slot);
    expect("put back, total", 15, answer.total);
    expect_all("put back, plan", plan_due, plan, 18);
    expect_all("put back, peaks", peaks_due, peaks, 3);
}

/* A step that was not taken: the tree and the rows are as before. */
static void expect_kept(const char *name, const uint64_t *before,
                        const uint64_t *tree,
                        const uint64_t *sent, const uint64_t *held)
{
    static const uint64_t untouched[3] = { 91, 92, 93 };

    expect_all(name, before, tree, RELAY_TREE_LENGTH);
    expect_all(name, untouched, sent, 3);
    expect_all(name, untouched, held, 3);
}

/* The plan of Tree Q from its first step to done. */
static void run_to_the_end(void)
{
    /* S - D at the leaves, S less the least child's S at node 1. */
    static const uint64_t held_due[4][3] = {
        { 3, 0, 5 }, { 4, 0, 6 }, { 1, 0, 0 }, { 0, 0, 0 }
    };
    uint64_t tree[RELAY_TREE_LENGTH] = { 0 };
    uint64_t last[RELAY_TREE_LENGTH];
    struct relay_step_answer answer;
    size_t slot, i;

    tree[1 + 0] = 71;
    tree[1 + 4] = 72;
    tree[1 + 63] = 73;
    for (slot = 1; slot <= 4; slot++) {
        uint64_t sent[3] = { 91, 92, 93 };
        uint64_t held[3] = { 91, 92, 93 };

        answer = relay_step(tree, RELAY_TREE_LENGTH, tree_q, sizeof tree_q,
                            tree_q_plan, 15, sent, 3, held, 3);
        expect("step, number", 0, answer.number);
        expect("step, link", 0, answer.link);
        expect("step, slot", slot, tree[0]);
        for (i = 0; i < 3; i++) {
            expect("step, carried", tree_q_plan[5 * i + slot], tree[1 + i + 1]);
            expect("step, sent", tree_q_plan[5 * i + slot] -
                   tree_q_plan[5 * i + slot - 1], sent[i]);
        }
        expect_all("step, held", held_due[slot - 1], held, 3);
        expect("step, place 0", 71, tree[1 + 0]);
        expect("step, place 4", 72, tree[1 + 4]);
        expect("step, place 63", 73, tree[1 + 63]);
    }
    memcpy(last, tree, sizeof last);
    for (i = 0; i < 2; i++) {
        uint64_t sent[3] = { 91, 92, 93 };
        uint64_t held[3] = { 91, 92, 93 };

        answer = relay_step(tree, RELAY_TREE_LENGTH, tree_q, sizeof tree_q,
                            tree_q_plan, 15, sent, 3, held, 3);
        expect("done, number", RELAY_DONE, answer.number);
        expect("done, link", 0, answer.link);
        expect_kept("done", last, tree, sent, held);
    }
}

/* A step that is refused: its number and its link, and nothing lent changes. */
static void refused_step(const char *name, size_t tree_length, size_t job_length,
                         size_t held_length, uint64_t number, uint64_t link)
{
    uint64_t plan[15];
    uint64_t sent[3] = { 91, 92, 93 };
    uint64_t held[3] = { 91, 92, 93 };
    uint64_t before[RELAY_TREE_LENGTH + 1];
    uint64_t tree[RELAY_TREE_LENGTH + 1];
    struct relay_step_answer answer;
    size_t i;

    memcpy(plan, tree_q_plan, sizeof plan);
    plan[6] = 3; /* Leaf 2 has 4 to play by slot 1. */
    for (i = 0; i <= RELAY_TREE_LENGTH; i++) {
        before[i] = 0;
    }
    before[1 + 0] = 71;
    before[1 + 63] = 73;
    before[RELAY_TREE_LENGTH] = 74;
    memcpy(tree, before, sizeof tree);

    answer = relay_step(tree, tree_length, tree_q, job_length, plan, 15, sent, 3,
                        held, held_length);
    expect(name, number, answer.number);
    expect(name, link, answer.link);
    expect_kept(name, before, tree, sent, held);
    expect(name, 74, tree[RELAY_TREE_LENGTH]);
}

static void refused_steps(void)
{
    const size_t all = RELAY_TREE_LENGTH, job = sizeof tree_q;

    refused_step("short job", all, 9, 3, RELAY_SHORT, 0);
    refused_step("short job and tree", all - 1, 9, 3, RELAY_SHORT, 0);
    refused_step("short tree", all - 1, job, 3, RELAY_BAD_LENT, 0);
    refused_step("long tree", all + 1, job, 3, RELAY_BAD_LENT, 0);
    refused_step("no tree", 0, job, 3, RELAY_BAD_LENT, 0);
    refused_step("short row", all, job, 2, RELAY_BAD_LENT, 0);
    refused_step("starved leaf", all, job, 3, RELAY_BROKEN_RULE, 2);
}

enum { SLICE = 5, COUNTS = RELAY_MOST_CHILDREN };

static struct relay_store store;
static uint8_t slice[SLICE + 1];

/* A text of one byte each, as the library has them. */
static const uint8_t *bytes_of(const char *text)
{
    return (const uint8_t *)text;
}

/* The store's numbers, of two children, and the slice, with a byte past it. */
static void expect_store(const char *name, size_t place, size_t first, size_t second,
                         const char *text)
{
    size_t i;

    expect(name, SLICE, store.length);
    expect(name, 2, store.children);
    expect(name, place, store.place);
    expect(name, first, store.waiting[0]);
    expect(name, second, store.waiting[1]);
    for (i = 2; i < COUNTS; i++) {
        expect(name, 0, store.waiting[i]);
    }
    expect_bytes(name, bytes_of(text), slice, SLICE);
    expect(name, '!', slice[SLICE]);
}

static void append(const char *text, size_t length, uint64_t number)
{
    expect(text, number,
           relay_store_append(&store, slice, SLICE, bytes_of(text), length));
}

/* A take, and the byte past what is taken. */
static void take(size_t child, const char *text, size_t length, uint64_t number)
{
    static const char untouched[] = "??????";
    uint8_t out[SLICE + 2];

    memset(out, '?', sizeof out);
    expect(text, number,
           relay_store_take(&store, slice, SLICE, child, out, length));
    if (number != RELAY_ANSWERED) {
        length = 0;
    }
    expect_bytes(text, bytes_of(text), out, length);
    expect_bytes(text, bytes_of(untouched), out + length, SLICE + 1 - length);
}

/* A stream of nine bytes through a slice of five, for two children. */
static void byte_store(void)
{
    memset(&store, 0xA5, sizeof store);
    memcpy(slice, ".....!", sizeof slice);
    expect("start", RELAY_ANSWERED, relay_store_start(&store, SLICE, 2));
    expect_store("started", 0, 0, 0, ".....");
    append("abc", 3, RELAY_ANSWERED);
    take(0, "ab", 2, RELAY_ANSWERED);
    expect_store("abc", 3, 1, 3, "abc..");
    append("def", 3, RELAY_NO_SPACE);
    take(0, "cd", 2, RELAY_NOT_WAITING);
    take(2, "", 0, RELAY_BAD_STORE);
    take(2, "c", 1, RELAY_BAD_STORE);
    expect_store("refused", 3, 1, 3, "abc..");
    append("de", 2, RELAY_ANSWERED);
    append("f", 1, RELAY_NO_SPACE);
    append("", 0, RELAY_ANSWERED);
    expect_store("full", 0, 3, 5, "abcde");
    take(1, "abcd", 4, RELAY_ANSWERED);
    append("fg", 2, RELAY_ANSWERED);
    expect_store("round the end", 2, 5, 3, "fgcde");
    take(0, "cdefg", 5, RELAY_ANSWERED);
    take(1, "ef", 2, RELAY_ANSWERED);
    append("hi", 2, RELAY_ANSWERED);
    take(1, "ghi", 3, RELAY_ANSWERED);
    take(1, "", 0, RELAY_ANSWERED);
    take(0, "hi", 2, RELAY_ANSWERED);
    expect_store("all taken", 4, 0, 0, "fghie");
}

/* The store with one number changed, or in a slice of another length, is refused and as
   it was, whatever else the call asks. */
static void refused_store(const char *name, size_t *number, size_t changed,
                          size_t slice_length)
{
    const struct relay_store good = store;
    struct relay_store before;
    uint8_t out[1] = { '?' };

    *number = changed;
    before = store;
    expect(name, RELAY_BAD_STORE,
           relay_store_append(&store, slice, slice_length, bytes_of("xyzxyz"), 6));
    expect(name, RELAY_BAD_STORE,
           relay_store_append(&store, slice, slice_length, bytes_of(""), 0));
    expect(name, RELAY_BAD_STORE,
           relay_store_take(&store, slice, slice_length, 0, out, 1));
    expect(name, '?', out[0]);
    expect(name, 0, (uint64_t)(memcmp(&before, &store, sizeof store) != 0));
    store = good;
    expect_store(name, 4, 0, 0, "fghie");
}

static void refused_stores(void)
{
    refused_store("short slice", &store.length, SLICE, SLICE - 1);
    refused_store("long slice", &store.length, SLICE, SLICE + 1);
    refused_store("no slice", &store.length, SLICE, 0);
    refused_store("other length", &store.length, SLICE + 1, SLICE);
    refused_store("place at the end", &store.place, SLICE, SLICE);
    refused_store("greatest place", &store.place, SIZE_MAX, SLICE);
    refused_store("no children", &store.children, 0, SLICE);
    refused_store("many children", &store.children, COUNTS + 1, SLICE);
    refused_store("much waits", &store.waiting[1], SLICE + 1, SLICE);
    refused_store("absent child", &store.waiting[2], 1, SLICE);
    refused_store("last absent child", &store.waiting[COUNTS - 1], 1, SLICE);
}

/* The child counts at their bounds, and a slice of no bytes. */
static void store_starts(void)
{
    struct relay_store before;
    uint8_t out[1];
    size_t i;

    memset(&before, 0xA5, sizeof before);
    store = before;
    expect("store of so many numbers", 3 + COUNTS, sizeof store / sizeof(size_t));
    expect("too many children", RELAY_BAD_STORE,
           relay_store_start(&store, 7, RELAY_MOST_CHILDREN + 1));
    expect("too many children", 0,
           (uint64_t)(memcmp(&before, &store, sizeof store) != 0));
    expect("most children", RELAY_ANSWERED,
           relay_store_start(&store, 7, RELAY_MOST_CHILDREN));
    expect("most children", 7, store.length);
    expect("most children", RELAY_MOST_CHILDREN, store.children);
    expect("most children", 0, store.place);
    for (i = 0; i < COUNTS; i++) {
        expect("most children", 0, store.waiting[i]);
    }

    expect("no bytes", RELAY_ANSWERED, relay_store_start(&store, 0, 1));
    expect("no bytes", RELAY_ANSWERED,
           relay_store_append(&store, slice, 0, bytes_of("x"), 0));
    expect("no bytes", RELAY_NO_SPACE,
           relay_store_append(&store, slice, 0, bytes_of("x"), 1));
    expect("no bytes", RELAY_ANSWERED,
           relay_store_take(&store, slice, 0, 0, out, 0));
    expect("no children", RELAY_ANSWERED, relay_store_start(&store, SLICE, 0));
    expect("no children", RELAY_BAD_STORE,
           relay_store_append(&store, slice, SLICE, bytes_of(""), 0));
}

int main(void)
{
    sizes();
    edges();
    lengths();
    numbers();
    version();
    texts();
    job_sizes();
    refused_sizes();
    memory_question();
    rows();
    rate_question();
    constant_rates();
    refused_constant_rates();
    put_back();
    run_to_the_end();
    refused_steps();
    byte_store();
    refused_stores();
    store_starts();

    printf("header: %d passed, %d failed\n", passed, failed);
    return failed == 0 ? 0 : 1;
}
