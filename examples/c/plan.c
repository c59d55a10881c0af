/*
 * Plans a job of any size, as a host would: the plan lies on the heap.
 *
 *     plan FILE                  prints the lines of document 01's program
 *     plan --csv FILE            prints the plan's rows: slot,node1,node2,...
 *     plan --rates R,R,... FILE  prints the delay and the memory of one screen at
 *                                each of up to 8 constant rates, bytes a slot
 *
 * FILE is a job, or - for standard input. The first two forms ask both questions.
 * The status is 0 where all was answered, 1 where a question was refused or some
 * rate has no delay, and 2 where there is nothing to ask: no such file, no memory,
 * a word that is no rate, a job refused by 1 to 10, a list of rates by 16. What went
 * wrong is said on standard error; that a rate has no delay, in its line.
 */

#include <errno.h>
#include <inttypes.h>
#include <stdio.h>
#include <stdlib.h>
#include <string.h>

#include "relay.h"

enum status { ANSWERED = 0, REFUSED = 1, NOTHING = 2 };

/* A job's bytes, and both answers to it. */
struct asked {
    uint8_t *job;
    size_t job_length;
    size_t links;
    uint64_t *plan;
    size_t plan_length;
    uint64_t *peaks;
    struct relay_memory_answer memory;
    uint64_t *memories;
    struct relay_rate_answer rate;
};

/* Says what is wrong with `name`, and gives the status for it. */
static enum status complain(const char *name, const char *what)
{
    fprintf(stderr, "plan: %s: %s\n", name, what);
    return NOTHING;
}

/* Says which number refuses `name`. */
static void say_refused(const char *name, const char *what, uint64_t number)
{
    fprintf(stderr, "plan: %s: %s refused by %" PRIu64 ": %s\n", name, what,
            number, relay_text(number));
}

/*
 * Reads the file into asked->job. A longer file than any job is refused by what
 * the first bytes say, one more than a job may have, so no more are read.
 */
static enum status read_job(const char *name, struct asked *asked)
{
    int standard = strcmp(name, "-") == 0;
    FILE *file = standard ? stdin : fopen(name, "rb");
    const size_t room = RELAY_MOST_JOB_LENGTH + 1;
    int wrong;

    if (file == NULL) {
        return complain(name, strerror(errno));
    }
    asked->job = malloc(room);
    if (asked->job == NULL) {
        if (!standard) {
            fclose(file);
        }
        return complain(name, "no memory for the job");
    }
    errno = 0;
    asked->job_length = fread(asked->job, 1, room, file);
    wrong = ferror(file) ? (errno != 0 ? errno : EIO) : 0;
    if (!standard) {
        fclose(file);
    }
    return wrong != 0 ? complain(name, strerror(wrong)) : ANSWERED;
}

/* Asks both questions of an accepted job, which has these sizes. */
static enum status ask(const char *name, struct relay_sizes sizes,
                       struct asked *asked)
{
    size_t links = sizes.nodes - 1;
    size_t plan_length = sizes.plan_length;

    asked->links = links;
    asked->plan_length = plan_length;
    asked->plan = malloc(plan_length * sizeof *asked->plan);
    asked->peaks = malloc(links * sizeof *asked->peaks);
    asked->memories = malloc(links * sizeof *asked->memories);
    if (asked->plan == NULL || asked->peaks == NULL ||
        asked->memories == NULL) {
        return complain(name, "no memory for the plan");
    }
    asked->memory = relay_memory_question(asked->job, asked->job_length,
                                          asked->plan, plan_length,
                                          asked->peaks, links);
    asked->rate = relay_rate_question(asked->job, asked->job_length,
                                      asked->memories, links);
    if (asked->memory.number != 0) {
        say_refused(name, "the memory question is", asked->memory.number);
    }
    if (asked->rate.number != 0) {
        say_refused(name, "the rate question is", asked->rate.number);
    }
    return asked->memory.number == 0 && asked->rate.number == 0 ? ANSWERED
                                                                : REFUSED;
}

/* Prints `count` numbers, each after a space, and ends the line. */
static void print_rest(const uint64_t *numbers, size_t count)
{
    size_t i;

    for (i = 0; i < count; i++) {
        printf(" %" PRIu64, numbers[i]);
    }
    putchar('\n');
}

/* The row of the link into node `link`. */
static struct relay_row row_of(const struct asked *asked, size_t link)
{
    return relay_row_of(asked->job, asked->job_length, asked->plan_length, link);
}

/* Line one, and a line for each node: number, peak, row. */
static void print_memory(const struct asked *asked)
{
    size_t i;

    if (asked->memory.number != 0) {
        printf("%" PRIu64 "\n", asked->memory.number);
        return;
    }
    printf("0 %" PRIu64 " %" PRIu64 "\n", asked->memory.last_slot,
           asked->memory.total);
    for (i = 0; i < asked->links; i++) {
        struct relay_row row = row_of(asked, i + 1);

        printf("%zu %" PRIu64, i + 1, asked->peaks[i]);
        print_rest(asked->plan + row.start, row.length);
    }
}

/* The last line: number, w, total, memories. */
static void print_rate(const struct asked *asked)
{
    if (asked->rate.number != 0) {
        printf("%" PRIu64 "\n", asked->rate.number);
        return;
    }
    printf("0 %" PRIu64 " %" PRIu64, asked->rate.delay, asked->rate.total);
    print_rest(asked->memories, asked->links);
}

/* The rows as columns, a line for each slot; nothing where there is no plan. */
static void print_csv(const struct asked *asked)
{
    size_t slots = row_of(asked, 1).length;
    size_t i;
    size_t k;

    if (asked->memory.number != 0) {
        return;
    }
    printf("slot");
    for (i = 0; i < asked->links; i++) {
        printf(",node%zu", i + 1);
    }
    putchar('\n');
    for (k = 0; k < slots; k++) {
        printf("%zu", k);
        for (i = 0; i < asked->links; i++) {
            printf(",%" PRIu64, asked->plan[i * slots + k]);
        }
        putchar('\n');
    }
}

/* Reads, asks and prints; the caller frees what `asked` then has. */
static enum status plan(const char *name, int csv, struct asked *asked)
{
    enum status status = read_job(name, asked);
    struct relay_sizes sizes;

    if (status != ANSWERED) {
        return status;
    }
    sizes = relay_job_sizes(asked->job, asked->job_length);
    if (sizes.number != 0) {
        say_refused(name, "the job is", sizes.number);
        if (!csv) {
            printf("%" PRIu64 "\n", sizes.number);
        }
        return NOTHING;
    }
    status = ask(name, sizes, asked);
    if (status == NOTHING) {
        return status;
    }
    if (csv) {
        print_csv(asked);
    } else {
        print_memory(asked);
        print_rate(asked);
    }
    return status;
}

/* Reads a decimal number of `length` digits; says whether it is one, and fits. */
static int read_number(const char *text, size_t length, uint64_t *number)
{
    uint64_t value = 0;
    size_t i;

    for (i = 0; i < length; i++) {
        /* What is no digit comes out above 9. */
        uint64_t digit = (uint64_t)text[i] - '0';

        if (digit > 9 || value > (UINT64_MAX - digit) / 10) {
            return 0;
        }
        value = value * 10 + digit;
    }
    *number = value;
    return length > 0;
}

/*
 * Reads rates with commas between them; an empty text has none. One more than may be
 * asked is refused whatever follows, so no more are kept.
 */
static enum status read_rates(const char *text, uint64_t *rates, size_t *count)
{
    *count = 0;
    if (*text == '\0') {
        return ANSWERED;
    }
    do {
        size_t length = strcspn(text, ",");
        uint64_t rate;

        if (!read_number(text, length, &rate)) {
            fprintf(stderr,
                    "plan: rate '%.*s' is not a whole number from 0 to %" PRIu64
                    "\n", (int)length, text, UINT64_MAX);
            return NOTHING;
        }
        if (*count <= RELAY_MOST_RATES) {
            rates[*count] = rate;
            *count += 1;
        }
        text += length;
    } while (*text++ == ',');
    return ANSWERED;
}

/* A heading and a line for each rate; whether all have a delay. */
static enum status print_lines(const uint64_t *rates, size_t count,
                               const uint64_t *lines)
{
    enum status status = ANSWERED;
    size_t i;

    printf("%20s  %6s  %12s  %14s\n", "rate, bytes a slot", "number",
           "delay, slots", "memory, bytes");
    for (i = 0; i < count; i++) {
        const uint64_t *line = lines + RELAY_LINE_LENGTH * i;

        printf("%20" PRIu64 "  %6" PRIu64, rates[i], line[0]);
        if (line[0] == 0) {
            printf("  %12" PRIu64 "  %14" PRIu64 "\n", line[1], line[2]);
        } else {
            printf("  no delay up to 4,096 serves\n");
            status = REFUSED;
        }
    }
    return status;
}

/* As plan(), for constant rates. */
static enum status plan_rates(const char *text, const char *name,
                              struct asked *asked)
{
    uint64_t rates[RELAY_MOST_RATES + 1];
    uint64_t lines[RELAY_LINE_LENGTH * (RELAY_MOST_RATES + 1)];
    size_t count;
    uint64_t number;

    if (read_rates(text, rates, &count) != ANSWERED ||
        read_job(name, asked) != ANSWERED) {
        return NOTHING;
    }
    number = relay_constant_rates(asked->job, asked->job_length, rates, count,
                                  lines, RELAY_LINE_LENGTH * count);
    if (number != 0) {
        say_refused(name, number == RELAY_BAD_RATES ? "the list of rates is"
                                                    : "the job is", number);
        return NOTHING;
    }
    return print_lines(rates, count, lines);
}

int main(int argc, char **argv)
{
    struct asked asked = { 0 };
    int csv = argc > 1 && strcmp(argv[1], "--csv") == 0;
    int rates = argc > 1 && strcmp(argv[1], "--rates") == 0;
    const char *name;
    enum status status;

    if (argc != (csv ? 3 : rates ? 4 : 2)) {
        fprintf(stderr, "usage: plan [--csv | --rates RATE,RATE,...] FILE\n");
        return NOTHING;
    }
    name = argv[argc - 1];
    status = rates ? plan_rates(argv[2], name, &asked) : plan(name, csv, &asked);
    free(asked.job);
    free(asked.plan);
    free(asked.peaks);
    free(asked.memories);
    if (fflush(stdout) != 0 || ferror(stdout)) {
        return complain("standard output", "the answer could not be written");
    }
    return status;
}
