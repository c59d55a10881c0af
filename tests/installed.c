/*
 * A program that uses an installed copy of the library, as a firmware engineer's
 * would: it makes every call on Tree Q, makes them from several threads at once, each
 * with a stack of RELAY_STACK_SIZE, and sees what a call does whose stack is too small.
 */

#define _DEFAULT_SOURCE /* for MAP_ANONYMOUS */

#include <pthread.h>
#include <signal.h>
#include <stdio.h>
#include <string.h>
#include <sys/mman.h>
#include <sys/resource.h>
#include <sys/wait.h>
#include <unistd.h>

#include <relay.h>

enum { JOB = 79, LINKS = 3, SLOTS = 5, RATES = 2, SLICE = 7, CHILDREN = 2 };

/* Threads at once, how often each makes every call, and the last byte of frame 3. */
enum { THREADS = 8, ROUNDS = 200, LAST_FRAME = JOB - 1 };

/* A stack that is too small, a page below it that can't be touched, and what lies below. */
enum { SMALL_STACK = 65536, GUARD = 4096, BELOW = 4194304, MARK = 0xA5 };

/* Tree Q: delays 0 and 1, memories 4, 0, 6, rates 5, 10, 4, frames 4, 10, 1. */
static const uint8_t tree_q[JOB] = {
    0x52, 0x4C, 0x59, 0, 1, 4, 0, 0, 0, 3,
    0, 0, 0, 0, 0, 0, 0, 0, 0, 0, 4, 0, 0, 0, 0, 0, 0, 0, 5,
    1, 0, 0, 0, 0, 0, 0, 0, 0, 0, 0, 0, 0, 0, 0, 0, 0, 0, 10,
    1, 0, 1, 0, 0, 0, 0, 0, 0, 0, 6, 0, 0, 0, 0, 0, 0, 0, 4,
    0, 0, 0, 4, 0, 0, 0, 10, 0, 0, 0, 1
};

/* All that the calls give for one job, as plain numbers. */
struct answers {
    uint64_t refusal;
    struct relay_sizes sizes;
    struct relay_memory_answer memory;
    uint64_t plan[LINKS * SLOTS];
    uint64_t peaks[LINKS];
    struct relay_row row;
    struct relay_rate_answer rate;
    uint64_t memories[LINKS];
    uint64_t constant;
    uint64_t lines[RELAY_LINE_LENGTH * RATES];
    uint64_t put;
    uint8_t back[JOB];
    struct relay_step_answer step;
    uint64_t tree[RELAY_TREE_LENGTH];
    uint64_t sent[LINKS];
    uint64_t held[LINKS];
    uint64_t started;
    uint64_t appended;
    uint64_t taken;
    struct relay_store store;
    uint8_t slice[SLICE];
    uint8_t out[4];
};

/*
 * What Tree Q gets, by documents 01 and 02. At the constant rate 4 frame 2 is there by
 * slot 4, two slots late, and up to 8 bytes wait; at rate 0 nothing comes.
 */
static struct answers due = {
    .sizes = { 0, 4, 3, 4, 15 },
    .memory = { 0, 4, 15 },
    .plan = { 0, 7, 14, 15, 15, 0, 4, 14, 15, 15, 0, 5, 10, 14, 15 },
    .peaks = { 7, 10, 5 },
    .row = { 5, 5 },
    .rate = { 0, 2, 12 },
    .memories = { 0, 6, 6 },
    .lines = { 0, 2, 8, RELAY_NO_DELAY, 0, 0 },
    .back = {
        0x52, 0x4C, 0x59, 0, 1, 4, 0, 0, 0, 3,
        0, 0, 0, 0, 0, 0, 0, 0, 0, 0, 0, 0, 0, 0, 0, 0, 0, 0, 5,
        1, 0, 2, 0, 0, 0, 0, 0, 0, 0, 6, 0, 0, 0, 0, 0, 0, 0, 10,
        1, 0, 2, 0, 0, 0, 0, 0, 0, 0, 6, 0, 0, 0, 0, 0, 0, 0, 4,
        0, 0, 0, 4, 0, 0, 0, 10, 0, 0, 0, 1
    },
    .tree = { 1, 0, 7, 4, 5 },
    .sent = { 7, 4, 5 },
    .held = { 3, 0, 5 },
    .store = { SLICE, CHILDREN, 4, { 4, 1 } },
    .slice = { 10, 20, 30, 40 },
    .out = { 10, 20, 30 },
};

static int passed = 0;
static int failed = 0;

static void expect(const char *name, int right)
{
    if (right) {
        passed++;
        return;
    }
    failed++;
    printf("installed: %s: not as it should be\n", name);
}

/*
 * Makes every call for a job like Tree Q. The struct is cleared first, so that two of
 * them can be compared byte by byte.
 */
static void call_all(const uint8_t *job, struct answers *a)
{
    const uint64_t rates[RATES] = { 4, 0 };
    const uint8_t bytes[4] = { 10, 20, 30, 40 };

    memset(a, 0, sizeof *a);
    a->refusal = relay_refusal(job, JOB);
    a->sizes = relay_job_sizes(job, JOB);
    a->memory = relay_memory_question(job, JOB, a->plan, a->sizes.plan_length,
                                      a->peaks, LINKS);
    a->row = relay_row_of(job, JOB, a->sizes.plan_length, 2);
    a->rate = relay_rate_question(job, JOB, a->memories, LINKS);
    a->constant = relay_constant_rates(job, JOB, rates, RATES, a->lines,
                                       RELAY_LINE_LENGTH * RATES);
    memcpy(a->back, job, JOB);
    a->put = relay_put_back(a->back, JOB, a->rate.delay, a->memories, LINKS);
    a->step = relay_step(a->tree, RELAY_TREE_LENGTH, job, JOB, a->plan,
                         a->sizes.plan_length, a->sent, LINKS, a->held, LINKS);
    a->started = relay_store_start(&a->store, SLICE, CHILDREN);
    a->appended = relay_store_append(&a->store, a->slice, SLICE, bytes, 4);
    a->taken = relay_store_take(&a->store, a->slice, SLICE, 1, a->out, 3);
}

#define EXPECT_DUE(field) \
    expect(#field, memcmp(&got.field, &due.field, sizeof got.field) == 0)

static void calls(void)
{
    struct answers got;

    call_all(tree_q, &got);
    EXPECT_DUE(refusal);
    EXPECT_DUE(sizes);
    EXPECT_DUE(memory);
    EXPECT_DUE(plan);
    EXPECT_DUE(peaks);
    EXPECT_DUE(row);
    EXPECT_DUE(rate);
    EXPECT_DUE(memories);
    EXPECT_DUE(constant);
    EXPECT_DUE(lines);
    EXPECT_DUE(put);
    EXPECT_DUE(back);
    EXPECT_DUE(step);
    EXPECT_DUE(tree);
    EXPECT_DUE(sent);
    EXPECT_DUE(held);
    EXPECT_DUE(started);
    EXPECT_DUE(appended);
    EXPECT_DUE(taken);
    EXPECT_DUE(store);
    EXPECT_DUE(slice);
    EXPECT_DUE(out);
    expect("version", relay_version() == RELAY_VERSION);
    expect("most nodes",
           relay_library_limits().most_nodes == RELAY_MOST_NODES);
    expect("text", strcmp(relay_text(RELAY_BAD_MARK), "the mark is not RLY") == 0);
}

/* ---- several threads at once ---- */

/* A thread's job, and what one thread alone gets for it. */
struct work {
    uint8_t job[JOB];
    struct answers alone;
    int same;
};

static void *call_often(void *given)
{
    struct work *work = given;
    struct answers got;
    int i;

    work->same = 1;
    for (i = 0; i < ROUNDS; i++) {
        call_all(work->job, &got);
        work->same &= memcmp(&got, &work->alone, sizeof got) == 0;
    }
    return NULL;
}

/* The jobs differ in their last frame, so that no two threads should get the same. */
static void threads(void)
{
    static struct work works[THREADS];
    pthread_t ids[THREADS];
    pthread_attr_t attributes;
    int i;

    pthread_attr_init(&attributes);
    pthread_attr_setstacksize(&attributes, RELAY_STACK_SIZE);
    for (i = 0; i < THREADS; i++) {
        memcpy(works[i].job, tree_q, JOB);
        works[i].job[LAST_FRAME] = (uint8_t)(i + 1);
        call_all(works[i].job, &works[i].alone);
        expect("a job of its own", works[i].alone.memory.total == 15u + i);
    }
    for (i = 0; i < THREADS; i++) {
        expect("a thread", pthread_create(&ids[i], &attributes, call_often,
                                          &works[i]) == 0);
    }
    for (i = 0; i < THREADS; i++) {
        pthread_join(ids[i], NULL);
        expect("the same beside other threads", works[i].same);
    }
    pthread_attr_destroy(&attributes);
}

/* ---- a stack that is too small ---- */

static void *ask_memory(void *given)
{
    struct answers *a = given;

    relay_memory_question(tree_q, JOB, a->plan, LINKS * SLOTS, a->peaks, LINKS);
    return NULL;
}

static void *ask_rate(void *given)
{
    struct answers *a = given;

    relay_rate_question(tree_q, JOB, a->memories, LINKS);
    return NULL;
}

static void *ask_constant(void *given)
{
    struct answers *a = given;
    const uint64_t rate = 4;

    relay_constant_rates(tree_q, JOB, &rate, 1, a->lines, RELAY_LINE_LENGTH);
    return NULL;
}

static void *take_step(void *given)
{
    struct answers *a = given;

    relay_step(a->tree, RELAY_TREE_LENGTH, tree_q, JOB, due.plan, LINKS * SLOTS,
               a->sent, LINKS, a->held, LINKS);
    return NULL;
}

/* Makes a call in a thread of this process with the small stack, and ends it. */
static void call_on(void *stack, void *(*call)(void *))
{
    static struct answers a;
    pthread_attr_t attributes;
    pthread_t id;

    pthread_attr_init(&attributes);
    if (pthread_attr_setstack(&attributes, stack, SMALL_STACK) == 0 &&
        pthread_create(&id, &attributes, call, &a) == 0) {
        pthread_join(id, NULL);
    }
    _exit(0);
}

/* The call ends its process at the page below the stack, and writes nothing past it. */
static void expect_stopped(const char *name, void *(*call)(void *))
{
    unsigned char *below = mmap(NULL, BELOW + GUARD + SMALL_STACK,
                                PROT_READ | PROT_WRITE,
                                MAP_SHARED | MAP_ANONYMOUS, -1, 0);
    int status = 0;
    size_t i = 0;
    pid_t child;

    if (below == MAP_FAILED) {
        expect("memory for a stack", 0);
        return;
    }
    memset(below, MARK, BELOW);
    mprotect(below + BELOW, GUARD, PROT_NONE);
    child = fork();
    if (child == 0) {
        call_on(below + BELOW + GUARD, call);
    }
    waitpid(child, &status, 0);
    expect(name, WIFSIGNALED(status) && WTERMSIG(status) == SIGSEGV);
    while (i < BELOW && below[i] == MARK) {
        i++;
    }
    expect(name, i == BELOW);
    munmap(below, BELOW + GUARD + SMALL_STACK);
}

static void small_stacks(void)
{
    const struct rlimit no_core = { 0, 0 };

    setrlimit(RLIMIT_CORE, &no_core);
    expect_stopped("the memory question on a small stack", ask_memory);
    expect_stopped("the rate question on a small stack", ask_rate);
    expect_stopped("constant rates on a small stack", ask_constant);
    expect_stopped("a step on a small stack", take_step);
}

int main(void)
{
    calls();
    small_stacks();
    threads();
    printf("installed: %d passed, %d failed\n", passed, failed);
    return failed == 0 ? 0 : 1;
}
