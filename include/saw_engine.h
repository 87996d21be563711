/* The beam saw plan engine as a static library: the calls of document 01 with requests One to Seven of document 02, for a host in C.
 *
 * Link target/staticlib/libengine.a, which `tools/build engine` puts there; from the top of the repository, for examples/host.c:
 *
 *     tools/build engine
 *     cc -Iinclude examples/host.c target/staticlib/libengine.a -o host
 *
 * and where tools/install has put it: cc host.c -lsaw_engine -o host. There is one target: x86-64 Linux on processors of the level
 * x86-64-v2, by the calling convention of its C compilers (System V). The header is C99 and C++. Each function is proved to meet its contract in
 * crates/engine/src/calls.rt or, of the two texts, text_calls.rt. It allocates nothing, keeps no state between calls and always returns; of the C library it
 * uses memcpy and memset alone.
 *
 * What a host must keep:
 *   - A pointer and the length after it name one array of so many words, aligned for its type; a length counts words and not bytes, but of a text, whose
 *     words are bytes. It may be 0; the pointer is then still aligned and not null.
 *   - `answer` points to three words, at the unfolding to four.
 *   - No two arrays of one call overlap, unless neither is written. The arrays passed as `const` are read and never change; the others are written.
 *   - No other thread writes an array of a running call, or reads one that it writes.
 *   - SAW_STACK bytes of stack are free at the call, SAW_TEXT_STACK at that of a text.
 * Nothing else is asked: the words may be any, and the lengths too. Old contents of a lent buffer have no influence.
 *
 * What a call leaves:
 *   answer[0]   the refusal number, 1 to 19; 0 where the call is accepted (20 is the saw text's alone, and stands on its line 9)
 *   answer[1]   the first value; of a refusal the place that it names, or 4294967295 where that is above it
 *   answer[2]   the second value; 0 of a refusal
 *   answer[3]   at the unfolding alone, the third value; 0 of a refusal
 * After 5 the lent buffers are as they were; after any other refusal every word of them is 0; after success they hold their records from the first word
 * on, and 0 in every word past them. Refusal 5 names the buffer that is shorter than its full size: plates 1, cuts 2, counts 3, placements 4,
 * offcuts 5. */
#ifndef SAW_ENGINE_H
#define SAW_ENGINE_H

#include <stddef.h>
#include <stdint.h>

#ifdef __cplusplus
extern "C" {
#endif

/* The version: 0, the last request of document 02 that the calls keep, and a number within it; and the same as one number, 10,000 for the first and 100 for the second. Words,
 * records and texts change with requests, so header and library are of one version. */
#define SAW_ENGINE_VERSION "0.7.0"
#define SAW_ENGINE_VERSION_NUMBER 700

/* Refusal numbers: answer[0] of a call, or the first number of a text's line 9. */
#define SAW_ACCEPTED 0
#define SAW_NOT_OF_THE_FORM 1        /* words or a line not of the form, kind or order, or missing */
#define SAW_OUTSIDE_LIMITS 2         /* a value outside its limits */
#define SAW_ITEM_TOO_LARGE 3         /* an item type of which no permitted position fits any size */
#define SAW_DEMANDS_TOO_HIGH 4       /* demands that add up to more than 4,000 */
#define SAW_BUFFER_TOO_SHORT 5       /* a buffer shorter than its full size; no text is refused so */
#define SAW_TOO_MANY_PLATE_TYPES 6   /* a 2,049th plate type */
#define SAW_TOO_MANY_CUTS 7          /* an 8,193rd cut */
#define SAW_NO_SUCH_CUT 8            /* a count or a line of the plan for a cut that the listing has not */
#define SAW_CUT_NOT_RISING 9         /* a line of the plan that does not come after the last; texts alone */
#define SAW_TOTAL_TOO_HIGH 10        /* more than 4,000 cuts counted, or lines of layouts */
#define SAW_TYPE_SHORT 11            /* an item type cut, or laid, less often than demanded */
#define SAW_PLATE_TYPE_OVERDRAWN 12  /* a residual type cut more often than it arises */
#define SAW_PRICES_NOT_THE_MODELS 13 /* prices whose numbers of types are not the listing's */
#define SAW_CUT_OVER_LIMIT 14        /* a cut worth more than the plate that it is made on */
#define SAW_NOT_NEXT_IN_TURN 15      /* board, strip, stack or place not the next in turn, or another size than the board's */
#define SAW_STAGE_RULE 16            /* a strip that cannot be sawn in the mode */
#define SAW_PAST_THE_BOARD 17        /* a strip that reaches past its board */
#define SAW_POSITION_WRONG 18        /* an x or y that is not the item's position */
#define SAW_TURNED_WITHOUT_LEAVE 19  /* an item turned that has no leave, or is square */
#define SAW_OTHER_PLATE_SHOWN 20     /* a line of the plan that shows another plate than it numbers; saw text alone */

/* Work. Every loop ends by a limit of the job, whatever the words are; nothing is tried again, and nothing depends on an earlier call. At the most, beside some passes over the words
 * that are handed in or lent:
 *   listing      13,439 looks at a position, then 163,840 pairs of a plate type and a permitted position, of which 8,192 are cuts, and for the 16,384 residuals of these 2.7 million
 *                comparisons of plate types, at most 166 for each
 *   plan test    the listing, and two passes over its cuts
 *   price test   the listing, and a pass over its cuts
 *   unfolding    the plan test, a pass over its cuts, and 12,000 searches (4,000 pieces and 8,000 offcuts) among the counts of one plate type, at most 80: 960,000 looks at a count
 *   folding      the listing, and for 4,000 lines 160 passes, two for each position, and a search by halving among 8,192 cuts
 *   texts        each byte once, and then as the plan test, the price test and the unfolding, or as the folding
 * What each call takes for the greatest inputs known is counted in bench/RESULTS.md (as yet of the build by the older kit):
 * none takes more than 38 million instructions. */

/* Full sizes, in words of 16 bits: 2,048 plate types of 4 words, 8,192 cuts of 4 words, their counts, 4,000 placements of 9 words, 8,000 offcuts of 6 words. */
#define SAW_PLATES 8192
#define SAW_CUTS 32768
#define SAW_COUNTS 8192
#define SAW_PLACEMENTS 36000
#define SAW_OFFCUTS 48000

/* Stack that a call may use, in bytes, and that a text may use. What each used as the older kit built it, rounded up to hundreds:
 *   listing       30,000
 *   plan test     30,000
 *   price test    30,000
 *   unfolding     30,100
 *   folding       30,000
 *   saw text     205,800
 *   fold text    201,100
 * In each of them 29,518 are the tables of the listing, where every call is deepest: 24,110 the index of plate types, 4,096 their least sides, 1,312 the positions. Of a saw text 174,846
 * more, of a fold text 170,670, are its own arrays of words, as other calls are handed and lent them. Measured by a thread's stack that is filled with a pattern, on the jobs of data/limits,
 * from before the arguments that are passed on the stack. The frames of the compiled code are of fixed sizes and add up to the same, whatever the words are. Where a loader binds memset at its
 * first call, it uses stack of its own below that: 3,200 where it was measured. */
#define SAW_STACK 65536
#define SAW_TEXT_STACK 262144

/* The longest answer to a text, in bytes: to a saw text and to a fold text. */
#define SAW_TEXT_OUT 364046
#define SAW_FOLD_TEXT_OUT 292000

/* Words. A job: five head words, stages, exact, t, the number of board sizes, 1 to 6, n and b, the width of the blade, 0 to 20; then W, H, cost of each size,
 * the cost 1 to 999; then width, height, demand, leave of each item type; so 5 + 3t + 4n in all, 183 at the most. Leave is 1 if the type may be turned by 90
 * degrees, else 0. Sizes are numbered from 0. A plate: width, height, stage, cost; plates 0 to t-1 are the sizes, at stage 1, and those from t on residual
 * types, whose cost is 0. A cut: plate, item, top, right, where item is twice the type plus the turn (1 if turned, else 0), and 0 as top or right is a residual
 * that is not kept; what a cut leaves lies beyond the blade. Counts: one for each cut, from cut 1. Prices: D, one for each item type, one for each residual
 * type; 2,088 words at the most. A placement: board, size, strip, stack, place, type, x, y, turn; neighbours are b apart. An offcut: board, x, y, width,
 * height, usable, which is 1 or 0; the size of its board is in the placements. */

/* Listing. Values: the numbers of residual types and of cuts. Plates and cuts end as the listing.
 * Refusals: 1, 2, 3, 4 of the job, where 2, place 0, is a head word or a word of a size outside its limits, and 3 a type of which no permitted position fits
 * any size; 5; 6, 7 of the model. */
void saw_list(const uint16_t *job, size_t job_len,
              uint16_t *plates, size_t plates_len,
              uint16_t *cuts, size_t cuts_len,
              uint32_t answer[3]);

/* Plan test. Values: the number of boards that the plan opens, and their cost. Plates and cuts end as the listing.
 * Refusals: those of the listing; 8, 10, 11, 12 of the plan, where 12 names a plate from t on. Counts are SAW_COUNTS words or more. */
void saw_test_plan(const uint16_t *job, size_t job_len,
                   const uint16_t *counts, size_t counts_len,
                   uint16_t *plates, size_t plates_len,
                   uint16_t *cuts, size_t cuts_len,
                   uint32_t answer[3]);

/* Price test. Values: the sum of price times demand, and D. Every set of layouts over the sizes that keeps the rules and meets the demands costs so much
 * that its cost times D is at least the sum. A cut on a size may be priced up to D times the size's cost. Plates and cuts end as the listing.
 * Refusals: those of the listing, 2 also of a price word, which it names from 1; 13, 14 of the prices. */
void saw_test_prices(const uint16_t *job, size_t job_len,
                     const uint16_t *prices, size_t prices_len,
                     uint16_t *plates, size_t plates_len,
                     uint16_t *cuts, size_t cuts_len,
                     uint32_t answer[3]);

/* Unfolding. Values: the numbers of boards, of pieces and of offcuts. Boards are opened size by size in rising number. Plates and cuts end as the listing,
 * placements as the pieces in turn, offcuts as the pieces of plate that are left over, in the order in which they are. An offcut is usable if its width is at
 * least the first length and its height at least the second; it is not turned for that.
 * Refusals: those of the plan test; 2, place 0, also of a length that is not 1 to 10,000, after 1 and 2 of the job and before 3. */
void saw_unfold(const uint16_t *job, size_t job_len,
                const uint16_t *counts, size_t counts_len,
                uint16_t first_length, uint16_t second_length,
                uint16_t *plates, size_t plates_len,
                uint16_t *cuts, size_t cuts_len,
                uint16_t *placements, size_t placements_len,
                uint16_t *offcuts, size_t offcuts_len,
                uint32_t answer[4]);

/* Folding. Values: the number of boards of the layouts, and their cost. Plates and cuts end as the listing, counts as an accepted plan, one word for each cut,
 * which opens as many boards of each size. Layouts are placements, nine words for each; boards may come in any order of sizes, and every line of a board names
 * the size that its first line names, else 15.
 * Refusals: those of the listing, 1, 2 and then 19 also of a line of the layouts, which they name from 1; 10, 15, 16, 17, 18, 11 of the layouts. */
void saw_fold(const uint16_t *job, size_t job_len,
              const uint16_t *layouts, size_t layouts_len,
              uint16_t *plates, size_t plates_len,
              uint16_t *cuts, size_t cuts_len,
              uint16_t *counts, size_t counts_len,
              uint32_t answer[3]);

/* The saw text, from bytes to bytes: `out` ends with lines 7, the size after the board, and line 8, which gives the cost, or one line 9, at its start. A line 3
 * shows its plate: width, height and stage stand after the count, any numbers of nine columns; one that shows other numbers than the model has is 20, after 8
 * of every line and before 9 of any, and line 9 names it. The number of bytes written is handed back; the bytes behind them stay. Where `out` is shorter than
 * SAW_TEXT_OUT nothing is written, and 0 is handed back; any other answer has at least one line. The text may have any bytes; the rest of it is not looked at
 * once a line is refused. */
size_t saw_text(const uint8_t *text, size_t text_len,
                uint8_t *out, size_t out_len);

/* The fold text, from bytes to bytes: lines 3, which show their plates, or one line 9; as above, with SAW_FOLD_TEXT_OUT. Behind the job's lines 1, 10 and 2
 * its lines 3 are a saw text that is accepted. */
size_t saw_fold_text(const uint8_t *text, size_t text_len,
                     uint8_t *out, size_t out_len);

#ifdef __cplusplus
}
#endif

#endif
