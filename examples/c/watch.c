/*
 * Reads a sheet from standard input, its rows one by one as they come, and prints the margin behind
 * each measured row. A row that is refused is as if it had not come. Given watch.sheet, it prints the
 * lines that stand in watch.printed.
 *
 *   cc -std=c11 -Iinclude examples/c/watch.c crates/varmityep/out/libvarmityep.a -o target/watch
 *   target/watch <examples/c/watch.sheet
 */
#include "varmityep.h"

#include <inttypes.h>
#include <stdio.h>
#include <string.h>

/* One byte more than a sheet may have, so that a longer one is seen to be longer. */
static uint8_t head[VARMITYEP_MOST_BYTES + 1];
static uint8_t line[VARMITYEP_MOST_BYTES + 1];

/* What a sheet says. */
struct sheet {
    uint64_t numbers[VARMITYEP_NUMBERS];
    uint64_t places[VARMITYEP_PLACES];
    uint64_t scales[VARMITYEP_SCALES];
    uint64_t ranges[VARMITYEP_RANGES];
    int64_t ends[VARMITYEP_ENDS];
};

/* The requirements that are watched, by their numbers in the sheet. */
struct desk {
    uint64_t channels;
    int several; /* whether the sheet has several requirements */
    size_t count;
    size_t numbers[VARMITYEP_MOST_REQUIREMENTS];
    varmityep_watch watches[VARMITYEP_MOST_REQUIREMENTS];
};

/* The next line with its line feed, or the rest of the input: its length, 0 at the end. What has no
   room is left out, and the line feed with it: so long a line is no row. */
static size_t read_line(void)
{
    size_t length = 0;
    for (int byte = getchar(); byte != EOF; byte = getchar()) {
        if (length < sizeof line)
            line[length++] = (uint8_t)byte;
        if (byte == '\n')
            break;
    }
    return length;
}

/* Reads all that stands before the first row into head, and that row's line: the length of the head,
   and that of the line at row[0]. */
static size_t read_head(size_t *row)
{
    size_t length = 0;
    for (;;) {
        row[0] = read_line();
        const size_t room = sizeof head - length;
        if (row[0] == 0 || room == 0 || (row[0] >= 2 && memcmp(line, "t=", 2) == 0))
            return length;
        const size_t part = row[0] < room ? row[0] : room;
        memcpy(head + length, line, part);
        length += part;
    }
}

static void print_mark(int several, size_t k)
{
    if (several)
        printf("req=%zu ", k);
}

/* Makes a watch for requirement k: refusal 0, 2, 3, 4, 13 or 16. */
static uint64_t make(const struct sheet *s, size_t k, varmityep_watch *watch)
{
    uint64_t nodes[VARMITYEP_NODES], count[1];
    const uint64_t channels = s->numbers[VARMITYEP_SHEET_CHANNELS];
    /* One for each channel; where channels is not 1 to 8, the sheet has none, which is 4. */
    const size_t scales = channels <= VARMITYEP_MOST_CHANNELS ? channels : 0;
    const size_t from = s->places[2 * k], to = s->places[2 * k + 1];
    uint64_t refusal =
        varmityep_requirement(head + from, to - from, nodes, VARMITYEP_NODES, count, 1);
    if (refusal != VARMITYEP_ACCEPTED)
        return refusal;
    return varmityep_watch_fresh(nodes, VARMITYEP_NODES, count[0], s->ranges, VARMITYEP_RANGES,
                                 s->ends, VARMITYEP_ENDS, s->scales, scales, watch->numbers,
                                 VARMITYEP_WATCH_NUMBERS, watch->cells, VARMITYEP_WATCH_CELLS);
}

/* Makes a watch for each requirement that can be watched; of the others, what refuses them is
   printed. */
static void make_all(const struct sheet *s, struct desk *d)
{
    const size_t count = s->numbers[VARMITYEP_SHEET_REQUIREMENTS];
    d->channels = s->numbers[VARMITYEP_SHEET_CHANNELS];
    d->several = count > 1;
    d->count = 0;
    for (size_t k = 0; k < count; k++) {
        uint64_t refusal = make(s, k, &d->watches[d->count]);
        if (refusal == VARMITYEP_ACCEPTED) {
            d->numbers[d->count++] = k;
        } else {
            print_mark(d->several, k);
            printf("refused=%" PRIu64 "\n", refusal);
        }
    }
}

/* Offers a row to a watch and prints its margin, or what refused the row. */
static void take(varmityep_watch *watch, uint64_t time, const int64_t *values, size_t channels)
{
    int64_t margin[1];
    uint64_t refusal = varmityep_watch_row(watch->numbers, VARMITYEP_WATCH_NUMBERS, watch->cells,
                                           VARMITYEP_WATCH_CELLS, time, values, channels);
    if (refusal == VARMITYEP_ACCEPTED)
        refusal = varmityep_watch_margin(watch->numbers, VARMITYEP_WATCH_NUMBERS, watch->cells,
                                         VARMITYEP_WATCH_CELLS, margin, 1);
    if (refusal == VARMITYEP_ACCEPTED)
        printf("t=%" PRIu64 " margin=%" PRId64 "\n", time, margin[0]);
    else
        printf("t=%" PRIu64 " refused=%" PRIu64 "\n", time, refusal);
}

/* Offers a row's line to every watch. A filled row is checked as text, and otherwise skipped. */
static void take_line(struct desk *d, size_t length)
{
    uint64_t times[1], counts[VARMITYEP_COUNTS];
    int64_t values[VARMITYEP_MOST_CHANNELS];
    uint64_t refusal = varmityep_rows(line, length, d->channels, times, 1, values,
                                      VARMITYEP_MOST_CHANNELS, counts, VARMITYEP_COUNTS);
    if (refusal != VARMITYEP_ACCEPTED) {
        printf("refused=%" PRIu64 "\n", refusal);
        return;
    }
    for (size_t i = 0; counts[0] > 0 && i < d->count; i++) {
        print_mark(d->several, d->numbers[i]);
        take(&d->watches[i], times[0], values, d->channels);
    }
}

int main(void)
{
    static struct desk d;
    struct sheet s;
    size_t row[1];
    const size_t length = read_head(row);
    uint64_t refusal = varmityep_sheet(head, length, s.numbers, VARMITYEP_NUMBERS, s.places,
                                       VARMITYEP_PLACES, s.scales, VARMITYEP_SCALES, s.ranges,
                                       VARMITYEP_RANGES, s.ends, VARMITYEP_ENDS);
    if (refusal == VARMITYEP_ACCEPTED)
        make_all(&s, &d);
    else
        printf("refused=%" PRIu64 "\n", refusal);
    /* Where channels are not 1 to 8, nothing is watched, and no row is read. */
    for (; row[0] > 0 && d.count > 0; row[0] = read_line()) {
        take_line(&d, row[0]);
        if (fflush(stdout) != 0)
            return 1;
    }
    return fflush(stdout) == 0 && !ferror(stdin) ? 0 : 1;
}
