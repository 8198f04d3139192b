/*
 * Margins and verdicts of amplifier recordings: the proved library's C names.
 *
 * A slice is a pointer and then the count of its elements. Every function takes slices of any
 * length: a place that a slice does not have reads as 0, and what has no place is not written, so
 * the lengths named here are what loses nothing. The caller owns every slice. A pointer must be
 * valid for its count, and a slice that is written must share no place with another of the call.
 *
 * No function keeps a pointer, allocates, or has a state: calls on several threads are
 * independent, and equal inputs give equal answers. A watch is a state, but stands in the caller's
 * own slices.
 *
 * A refusal is its number below, 0 for none: what a function returns, or, of varmityep_write, a
 * member of what it returns. Of several that apply, the first in that list is given, whatever the
 * size of its number. Under a refusal nothing is written: every slice keeps its contents.
 * varmityep_answer alone gives no number, and writes its lines under a refusal too: they say it.
 * varmityep_watch_fresh writes a watch under a refusal too: it gives that number to every later call.
 */
#ifndef VARMITYEP_H
#define VARMITYEP_H

#include <stddef.h>
#include <stdint.h>

#ifdef __cplusplus
extern "C" {
#endif

/* Limits of what is accepted. */
#define VARMITYEP_MOST_BYTES 65536
#define VARMITYEP_MOST_ROWS 4096
#define VARMITYEP_MOST_CHANNELS 8
#define VARMITYEP_MOST_SCALE 1000      /* of a channel; the least is 1 */
#define VARMITYEP_MOST_REQUIREMENTS 16 /* of a sheet */
#define VARMITYEP_MOST_NODES 64
#define VARMITYEP_PREDICATES 16
#define VARMITYEP_NO_END UINT64_C(4294967295) /* hi of a window without end */
#define VARMITYEP_TOP INT64_C(4000000000000)  /* margin of what cannot be missed */

/* Lengths that lose nothing, in elements. */
#define VARMITYEP_NODE_NUMBERS 7 /* of a node: kind, left, right, lo, hi, open_lo, open_hi */
#define VARMITYEP_NODES (VARMITYEP_MOST_NODES * VARMITYEP_NODE_NUMBERS)
#define VARMITYEP_RANGES (2 * VARMITYEP_PREDICATES)        /* range and channel of each predicate */
#define VARMITYEP_ENDS (2 * VARMITYEP_PREDICATES)          /* lo and hi of each predicate */
#define VARMITYEP_NUMBERS 5                                /* of a sheet, see VARMITYEP_SHEET_.. */
#define VARMITYEP_PLACES (2 * VARMITYEP_MOST_REQUIREMENTS) /* from and to of each requirement */
#define VARMITYEP_SCALES VARMITYEP_MOST_CHANNELS           /* of a sheet: one for each channel */
#define VARMITYEP_COUNTS 2                                 /* counts of rows: measured, filled */
#define VARMITYEP_RESULT 3                                 /* of a verdict: verdict, hold, fail */
#define VARMITYEP_LINES 2688                               /* lines, in bytes: no answer is longer */
/* text of a written requirement, in bytes: no node needs more of it, so none is longer */
#define VARMITYEP_NODE_BYTES 26
#define VARMITYEP_REQUIREMENT_BYTES (VARMITYEP_MOST_NODES * VARMITYEP_NODE_BYTES)
/*
 * numbers and cells of a watch: shorter ones hold none, and are refused by 8. Numbers: five of its own,
 * then its scales, ranges and nodes. Cells: its predicates' ends, then three for each node.
 */
#define VARMITYEP_WATCH_NUMBERS (5 + VARMITYEP_SCALES + VARMITYEP_RANGES + VARMITYEP_NODES)
#define VARMITYEP_WATCH_CELLS (VARMITYEP_ENDS + 3 * VARMITYEP_MOST_NODES)

/* What varmityep_answer, and with it the program, has room for. */
#define VARMITYEP_ANSWER_ROWS 2048
#define VARMITYEP_ANSWER_CELLS 8192

/* Refusals, in the order in which they count: this list's, not that of the numbers. */
enum {
    VARMITYEP_ACCEPTED = 0,
    /* a line breaks the form or is missing, or over 65,536 bytes */
    VARMITYEP_TEXT = 1,
    /* a seventeenth `req=` line */
    VARMITYEP_TOO_MANY_REQUIREMENTS = 12,
    /* requirement text outside the grammar or its limits */
    VARMITYEP_REQUIREMENT = 2,
    /* a table rule broken, or a predicate named above 15 or, where predicates are passed, unset */
    VARMITYEP_TABLE = 3,
    /* a table to be written: its tree, unshared, over 64 nodes, or its text over 32 enclosings */
    VARMITYEP_TOO_LARGE = 14,
    /* no room for the written text */
    VARMITYEP_ROOM = 15,
    /* channels not 1 to 8, or a set predicate's channel or ends */
    VARMITYEP_PREDICATE = 4,
    /* a scale not 1 to 1,000 */
    VARMITYEP_SCALE = 13,
    /* a table to be watched: a temporal operator (kinds 5 to 8) stands inside another, in any node */
    VARMITYEP_NESTED = 16,
    /* no sample, over 4,096, values not rows x channels long, or scales not one for each channel; of
       a watch: values not one for each channel, or no row accepted yet */
    VARMITYEP_SAMPLES = 5,
    /* times not rising, or one above 2,000,000,000 */
    VARMITYEP_TIMES = 6,
    /* a value beyond 1,000,000,000, either sign */
    VARMITYEP_VALUES = 7,
    /* work too short, or the slices of a watch */
    VARMITYEP_WORK = 8,
    /* step not 1 to 1,000,000,000, or drift above 1,000,000,000 */
    VARMITYEP_STEP_DRIFT = 9,
    /* two neighbouring times differ by more than the step */
    VARMITYEP_GAP = 10,
    /* two neighbouring values of a channel differ, scaled, by over 2 x drift */
    VARMITYEP_JUMP = 11
};

/*
 * Kinds of node k, at nodes[7k]; left, right, lo, hi, open_lo and open_hi follow it, and those that a
 * kind does not use are 0. A child is the number of an earlier node, the root is the last one. A window
 * has lo and hi up to 1,000,000,000 seconds, or hi VARMITYEP_NO_END. The two marks are 1 where that end
 * itself is excluded, else 0: with open_lo the window is read from lo + 1 on, with open_hi up to
 * hi - 1. In text `(` and `)` then stand for `[` and `]`. A window that is left empty, or an open_hi
 * without an end, is refused: by 3 in a table, by 2 in text.
 */
enum {
    VARMITYEP_KIND_TRUE = 0,
    VARMITYEP_KIND_PREDICATE = 1,  /* its number, 0 to 15, in left */
    VARMITYEP_KIND_NOT = 2,        /* child left */
    VARMITYEP_KIND_AND = 3,        /* children left and right; so in or, until and release */
    VARMITYEP_KIND_OR = 4,
    VARMITYEP_KIND_UNTIL = 5,      /* a window; so in the kinds below */
    VARMITYEP_KIND_RELEASE = 6,
    VARMITYEP_KIND_EVENTUALLY = 7, /* child left */
    VARMITYEP_KIND_ALWAYS = 8      /* child left */
};

/* Ranges of a predicate, at ranges[2p]; its channel is at ranges[2p + 1]. */
enum {
    VARMITYEP_UNSET = 0,
    VARMITYEP_FREE = 1,
    VARMITYEP_AT_LEAST = 2, /* lo at ends[2p] */
    VARMITYEP_AT_MOST = 3,  /* hi at ends[2p + 1] */
    VARMITYEP_BETWEEN = 4   /* both */
};

/* Verdicts, at result[0]. */
enum { VARMITYEP_NOT_SHOWN = 0, VARMITYEP_HOLDS = 1, VARMITYEP_FAILS = 2 };

/* Places of a sheet's numbers. */
enum {
    VARMITYEP_SHEET_CHANNELS = 0,
    VARMITYEP_SHEET_STEP = 1,
    VARMITYEP_SHEET_DRIFT = 2,
    VARMITYEP_SHEET_ROWS = 3,        /* the place in the text of the rows' first byte */
    VARMITYEP_SHEET_REQUIREMENTS = 4 /* the count of requirements, 1 to 16 */
};

/*
 * The lines that the program prints for a sheet's text, their line feeds included. There is one for
 * each requirement, a refusal too; where there are several, `req=` and the requirement's number,
 * counted from 0, stand before each, they come by rising margin, equal margins in sheet order, and
 * the refused ones follow, in sheet order. A sheet refused by 1 or 12 gives one line, without
 * `req=`. The lines stand in lines from its first byte on, without a closing 0; bytes behind them
 * keep their contents. Returns the length of all of them, whether or not lines has room for it:
 * give VARMITYEP_LINES bytes. Its own arrays are on the stack: leave it 512 KiB.
 */
size_t varmityep_answer(const uint8_t *text, size_t text_len, uint8_t *lines, size_t lines_len);

/*
 * Reads a sheet: refusal 0, 1 or 12. The whole text is judged, its rows too where channels is 1 to
 * 8. Then a `c=` line is due for each channel, in order, and otherwise none. `p=` lines stand by
 * rising number, gaps allowed; any other order, or a number twice, is 1.
 * Writes numbers (VARMITYEP_NUMBERS), places (VARMITYEP_PLACES), scales (VARMITYEP_SCALES), ranges
 * (VARMITYEP_RANGES) and ends (VARMITYEP_ENDS). Requirement k is the part of the text from
 * places[2k] up to but not including places[2k + 1]; places beyond the count are 0. Channel c's
 * scale is scales[c], out of range or not; scales beyond the channels are 0. An end that a range
 * does not have is 0, and so is an unset predicate's channel.
 */
uint64_t varmityep_sheet(const uint8_t *text, size_t text_len,
                         uint64_t *numbers, size_t numbers_len,
                         uint64_t *places, size_t places_len,
                         uint64_t *scales, size_t scales_len,
                         uint64_t *ranges, size_t ranges_len,
                         int64_t *ends, size_t ends_len);

/*
 * Reads requirement text: refusal 0 or 2. Writes nodes (VARMITYEP_NODES), 0 beyond the last node,
 * and their count at count[0].
 */
uint64_t varmityep_requirement(const uint8_t *text, size_t text_len,
                               uint64_t *nodes, size_t nodes_len,
                               uint64_t *count, size_t count_len);

/* What varmityep_write hands back. */
struct varmityep_written {
    uint64_t number; /* the refusal, 0 for none */
    size_t length;   /* of the text in bytes; 0 under a refusal */
};

/*
 * Writes a table (nodes: VARMITYEP_NODES) as requirement text: refusal 0, 3 (of the table alone,
 * every node; no predicates are passed), 14 or 15 (text_len is less than the text needs;
 * VARMITYEP_REQUIREMENT_BYTES are enough for every text).
 * The text is that of the last node, the root. Parentheses stand only where the grammar would
 * otherwise read another requirement or none; a node that several nodes use is written once for each
 * use; a window whose hi is VARMITYEP_NO_END ends in `*]`. The text stands in text from its first
 * byte on, without a closing 0; bytes behind it keep their contents.
 * Read by varmityep_requirement, it gives back the table where that is one that a text can give, and
 * otherwise the root's tree as a text gives it: nodes stand left, right, parent, none shared.
 */
struct varmityep_written varmityep_write(const uint64_t *nodes, size_t nodes_len, uint64_t count,
                                         uint8_t *text, size_t text_len);

/*
 * Reads rows, the part of a sheet's text from VARMITYEP_SHEET_ROWS on: refusal 0, 1, 4 (channels)
 * or 5 (more measured rows than 4,096, than times, or than values has room for). Fills times, one
 * for each measured row, and values, channels for each, in order; later places keep their contents.
 * Writes counts (VARMITYEP_COUNTS). With no measured row it succeeds with 0.
 */
uint64_t varmityep_rows(const uint8_t *text, size_t text_len, uint64_t channels,
                        uint64_t *times, size_t times_len,
                        int64_t *values, size_t values_len,
                        uint64_t *counts, size_t counts_len);

/*
 * The distance of a value from one predicate, times the scale: refusal 0, 4 (channel above 7, or an
 * end broken), 13 (scale) or 7 (value). range is a number of a predicate's range; an end that it
 * does not have is not looked at, and unset counts as free, which is VARMITYEP_TOP by every scale.
 * Writes the distance at result[0].
 */
uint64_t varmityep_distance(uint64_t range, uint64_t channel, int64_t lo, int64_t hi,
                            uint64_t scale, int64_t value,
                            int64_t *result, size_t result_len);

/*
 * The margin of a recording: refusal 0, 3 to 8 or 13. The recording has times_len rows; values has
 * times_len x channels, and scales one for each channel. Every scale is judged by 13, also where
 * their count is wrong. work needs count x times_len cells: cell k x times_len + i ends as node k's
 * margin at sample i; later cells keep their contents. Writes the margin at result[0].
 */
uint64_t varmityep_margin(const uint64_t *nodes, size_t nodes_len, uint64_t count,
                          const uint64_t *ranges, size_t ranges_len,
                          const int64_t *ends, size_t ends_len,
                          uint64_t channels,
                          const uint64_t *scales, size_t scales_len,
                          const uint64_t *times, size_t times_len,
                          const int64_t *values, size_t values_len,
                          int64_t *work, size_t work_len,
                          int64_t *result, size_t result_len);

/*
 * The verdict on a recording: refusal 0, 3 to 11 or 13. The drift is in the scaled unit, as margins
 * are. work needs 2 x count x times_len cells: row 2k has node k's strengthened margins, row 2k + 1
 * those of its negation; later cells keep their contents. Writes result (VARMITYEP_RESULT): the
 * verdict, hold, fail.
 */
uint64_t varmityep_verdict(const uint64_t *nodes, size_t nodes_len, uint64_t count,
                           const uint64_t *ranges, size_t ranges_len,
                           const int64_t *ends, size_t ends_len,
                           uint64_t channels,
                           const uint64_t *scales, size_t scales_len,
                           const uint64_t *times, size_t times_len,
                           const int64_t *values, size_t values_len,
                           uint64_t step, uint64_t drift,
                           int64_t *work, size_t work_len,
                           int64_t *result, size_t result_len);

/*
 * A place for a watch: a requirement's margin while the card runs, one row after the other. It
 * stores no row, and takes any count of them, also above VARMITYEP_MOST_ROWS. What stands in it is
 * the library's own; it has no pointer in it, and a copy is a watch by itself.
 */
typedef struct varmityep_watch {
    uint64_t numbers[VARMITYEP_WATCH_NUMBERS];
    int64_t cells[VARMITYEP_WATCH_CELLS];
} varmityep_watch;

/*
 * Makes a fresh watch, which has seen no row, for a table (nodes: VARMITYEP_NODES), its predicates
 * and scales; scales_len is the count of channels. Refusal 0, 3, 4 (scales_len not 1 to 8, or a
 * predicate), 13, 16 (every node is looked at) or, after these, 8 (numbers or cells too short).
 * Writes the watch into numbers (VARMITYEP_WATCH_NUMBERS) and cells (VARMITYEP_WATCH_CELLS), places
 * behind it keep their contents. Under 3, 4, 13 and 16 it writes one too, if both have the room: a
 * watch that gives the same number to every row and to its margin.
 */
uint64_t varmityep_watch_fresh(const uint64_t *nodes, size_t nodes_len, uint64_t count,
                               const uint64_t *ranges, size_t ranges_len,
                               const int64_t *ends, size_t ends_len,
                               const uint64_t *scales, size_t scales_len,
                               uint64_t *numbers, size_t numbers_len,
                               int64_t *cells, size_t cells_len);

/*
 * Offers a row to a watch: refusal 0, 8 (numbers or cells too short to hold a watch, in which case
 * nothing else is judged), the number that refused the making, 5 (values_len is not the count of
 * channels), 6 (time is not later than that of the last row accepted, or above 2,000,000,000) or 7.
 * Under a refusal the watch is unchanged: the row is as if it had not come.
 * Where no call of varmityep_watch_fresh made what stands in numbers and cells, here and in
 * varmityep_watch_margin, any answer may come, but nothing beyond what is lent is read or written.
 */
uint64_t varmityep_watch_row(uint64_t *numbers, size_t numbers_len,
                             int64_t *cells, size_t cells_len,
                             uint64_t time,
                             const int64_t *values, size_t values_len);

/*
 * The margin of the recording that is made of the rows accepted so far: refusal 0, 8 (as above), the
 * number that refused the making, or 5 before the first row accepted. It is what varmityep_margin
 * gives for these rows, where they are not more than that takes. Writes the margin at result[0].
 */
uint64_t varmityep_watch_margin(const uint64_t *numbers, size_t numbers_len,
                                const int64_t *cells, size_t cells_len,
                                int64_t *result, size_t result_len);

#ifdef __cplusplus
}
#endif

#endif
