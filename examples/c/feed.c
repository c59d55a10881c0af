/*
 * A box with three children, fed from a file: bytes are appended to a byte store as
 * they come, and each child takes them at its own pace and writes them to a file of
 * its own.
 *
 *     feed FILE OUT1 OUT2 OUT3
 *
 * FILE may be - for standard input. The outputs must not exist, so that nothing is
 * written over; in the end each is equal to FILE, and a line for each says how many
 * bytes its child took. The status is 0 then, 1 where the library refuses a call, and
 * 2 where a file can't be read or written. What went wrong is said on standard error,
 * and outputs that are not whole are removed.
 */

#include <errno.h>
#include <inttypes.h>
#include <stdio.h>
#include <string.h>

#include "relay.h"

enum status { FED = 0, REFUSED = 1, NOTHING = 2 };

/* The slice is small, so that a file of some size goes round it many times. A piece
   that is read at once fits into it. */
enum { CHILDREN = 3, SLICE = 1000, PIECE = 300 };

struct child {
    const char *name;
    FILE *file;
    size_t pace; /* The most bytes that it takes at once. */
    size_t taken;
};

struct box {
    struct relay_store store;
    uint8_t slice[SLICE];
    struct child children[CHILDREN];
};

/* Says what is wrong with a file, by the error number where there is one. */
static enum status complain(const char *name)
{
    fprintf(stderr, "feed: %s: %s\n", name, strerror(errno != 0 ? errno : EIO));
    return NOTHING;
}

/* Says which number refuses a call. None is refused here but for want of space. */
static enum status refused(const char *call, uint64_t number)
{
    fprintf(stderr, "feed: %s is refused by %" PRIu64 ": %s\n", call, number,
            relay_text(number));
    return REFUSED;
}

/* Lets a child take what waits for it, as far as its pace goes. */
static enum status take(struct box *box, size_t number)
{
    struct child *child = &box->children[number];
    size_t waiting = box->store.waiting[number];
    size_t count = waiting < child->pace ? waiting : child->pace;
    uint8_t bytes[SLICE];
    uint64_t refusal = relay_store_take(&box->store, box->slice, SLICE, number,
                                        bytes, count);

    if (refusal != RELAY_ANSWERED) {
        return refused("a take", refusal);
    }
    errno = 0;
    if (fwrite(bytes, 1, count, child->file) != count) {
        return complain(child->name);
    }
    child->taken += count;
    return FED;
}

/* Lets each child take once. */
static enum status take_all(struct box *box)
{
    enum status status = FED;
    size_t i;

    for (i = 0; i < CHILDREN && status == FED; i++) {
        status = take(box, i);
    }
    return status;
}

/* Appends a piece; as long as there is no space for it the children take. */
static enum status append(struct box *box, const uint8_t *piece, size_t length)
{
    enum status status = FED;

    while (status == FED) {
        uint64_t refusal = relay_store_append(&box->store, box->slice, SLICE,
                                              piece, length);

        if (refusal == RELAY_ANSWERED) {
            return FED;
        }
        status = refusal == RELAY_NO_SPACE ? take_all(box)
                                           : refused("an append", refusal);
    }
    return status;
}

static int some_wait(const struct box *box)
{
    size_t i;

    for (i = 0; i < CHILDREN; i++) {
        if (box->store.waiting[i] > 0) {
            return 1;
        }
    }
    return 0;
}

/* Feeds the whole file to the children. */
static enum status feed(struct box *box, const char *name, FILE *file)
{
    uint64_t refusal = relay_store_start(&box->store, SLICE, CHILDREN);
    enum status status = FED;
    uint8_t piece[PIECE];
    size_t length;

    if (refusal != RELAY_ANSWERED) {
        return refused("the start", refusal);
    }
    errno = 0;
    while (status == FED && (length = fread(piece, 1, PIECE, file)) > 0) {
        status = append(box, piece, length);
        if (status == FED) {
            status = take_all(box);
        }
        errno = 0;
    }
    if (status == FED && ferror(file)) {
        return complain(name);
    }
    while (status == FED && some_wait(box)) {
        status = take_all(box);
    }
    return status;
}

/* Opens the outputs, feeds them and closes them. */
static enum status feed_files(struct box *box, const char *name, FILE *file)
{
    enum status status = FED;
    size_t made = 0;
    size_t i;

    while (made < CHILDREN && status == FED) {
        struct child *child = &box->children[made];

        child->file = fopen(child->name, "wbx");
        if (child->file == NULL) {
            status = complain(child->name);
        } else {
            made++;
        }
    }
    if (status == FED) {
        status = feed(box, name, file);
    }
    for (i = 0; i < made; i++) {
        errno = 0;
        if (fclose(box->children[i].file) != 0 && status == FED) {
            status = complain(box->children[i].name);
        }
    }
    for (i = 0; i < made && status != FED; i++) {
        remove(box->children[i].name);
    }
    return status;
}

int main(int argc, char **argv)
{
    static const size_t paces[CHILDREN] = { 1000, 130, 7 };
    static struct box box;
    enum status status;
    FILE *file;
    size_t i;

    if (argc != 2 + CHILDREN) {
        fprintf(stderr, "usage: feed FILE OUT1 OUT2 OUT3\n");
        return NOTHING;
    }
    for (i = 0; i < CHILDREN; i++) {
        box.children[i].name = argv[2 + i];
        box.children[i].pace = paces[i];
    }
    file = strcmp(argv[1], "-") == 0 ? stdin : fopen(argv[1], "rb");
    if (file == NULL) {
        return complain(argv[1]);
    }
    status = feed_files(&box, argv[1], file);
    if (file != stdin) {
        fclose(file);
    }
    for (i = 0; i < CHILDREN && status == FED; i++) {
        printf("%s: %zu bytes\n", box.children[i].name, box.children[i].taken);
    }
    errno = 0;
    if (fflush(stdout) != 0 || ferror(stdout)) {
        return complain("standard output");
    }
    return status;
}
