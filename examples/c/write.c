/*
 * Builds requirement tables as a form would, prints each as text for a `req=` line, and reads the
 * text back. Prints the lines that stand in write.printed.
 *
 *   cc -std=c11 -Iinclude examples/c/write.c crates/varmityep/out/libvarmityep.a -o target/write
 *   target/write
 */
#include "varmityep.h"

#include <inttypes.h>
#include <stdio.h>
#include <string.h>

/* A table that is being built: each part gives the number of its node. */
struct table {
    uint64_t nodes[VARMITYEP_NODES];
    uint64_t count[1];
};

static uint64_t add(struct table *t, uint64_t kind, uint64_t left, uint64_t right, uint64_t lo,
                    uint64_t hi)
{
    /* The marks, which follow hi, are 0: these forms count both ends of a window. */
    const uint64_t numbers[VARMITYEP_NODE_NUMBERS] = {kind, left, right, lo, hi};
    memcpy(t->nodes + VARMITYEP_NODE_NUMBERS * t->count[0], numbers, sizeof numbers);
    return t->count[0]++;
}

static uint64_t predicate(struct table *t, uint64_t number)
{
    return add(t, VARMITYEP_KIND_PREDICATE, number, 0, 0, 0);
}

static uint64_t always(struct table *t, uint64_t left)
{
    return add(t, VARMITYEP_KIND_ALWAYS, left, 0, 0, VARMITYEP_NO_END);
}

/* Within 90 minutes the output reaches its floor for good, or the card is in service; and the pump
   current never exceeds its ceiling. */
static void acceptance(struct table *t)
{
    const uint64_t kept = always(t, predicate(t, 0));
    const uint64_t reached = add(t, VARMITYEP_KIND_EVENTUALLY, kept, 0, 0, 5400);
    const uint64_t service = predicate(t, 4);
    const uint64_t either = add(t, VARMITYEP_KIND_OR, reached, service, 0, 0);
    const uint64_t below = always(t, predicate(t, 2));
    add(t, VARMITYEP_KIND_AND, either, below, 0, 0);
}

/* The first pump is on until, within 15 minutes, both are, for good. The first pump's predicate is
   one node with two uses. */
static void hand_over(struct table *t)
{
    const uint64_t first = predicate(t, 0);
    const uint64_t second = predicate(t, 1);
    const uint64_t kept = always(t, add(t, VARMITYEP_KIND_AND, first, second, 0, 0));
    add(t, VARMITYEP_KIND_UNTIL, first, kept, 0, 900);
}

/* Each node is the one before it twice: seven nodes, 127 once each use is written. */
static void doubled(struct table *t)
{
    uint64_t last = predicate(t, 0);
    for (int i = 0; i < 6; i++)
        last = add(t, VARMITYEP_KIND_AND, last, last, 0, 0);
}

/* The text, and how it reads. */
static int show(const struct table *t)
{
    uint8_t text[VARMITYEP_REQUIREMENT_BYTES];
    struct varmityep_written written =
        varmityep_write(t->nodes, VARMITYEP_NODES, t->count[0], text, sizeof text);
    printf("%" PRIu64 " nodes: ", t->count[0]);
    if (written.number != VARMITYEP_ACCEPTED) {
        printf("refused=%" PRIu64 "\n", written.number);
        return 1;
    }
    fwrite(text, 1, written.length, stdout);

    struct table read;
    uint64_t refusal = varmityep_requirement(text, written.length, read.nodes, VARMITYEP_NODES,
                                             read.count, 1);
    if (refusal != VARMITYEP_ACCEPTED) {
        printf("\nread back: refused=%" PRIu64 "\n", refusal);
        return 0;
    }
    int same = read.count[0] == t->count[0] && memcmp(read.nodes, t->nodes, sizeof read.nodes) == 0;
    printf("\nread back: %" PRIu64 " nodes, %s\n", read.count[0],
           same ? "the same table" : "the same tree, unshared");
    return 1;
}

int main(void)
{
    void (*const forms[])(struct table *) = {acceptance, hand_over, doubled};
    for (size_t i = 0; i < sizeof forms / sizeof forms[0]; i++) {
        /* Places beyond the nodes are 0, as the reader leaves them. */
        struct table t = {{0}, {0}};
        forms[i](&t);
        if (!show(&t))
            return 1;
    }
    return fflush(stdout) == 0 ? 0 : 1;
}
