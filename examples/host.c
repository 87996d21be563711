/* A host of the engine: job A of document 01, listed, its plan and prices tested, its plan unfolded, with the offcuts for the
 * storeman's shelf, and folded again; then the job with a blade of 1 mm, and on boards of two sizes; then five refusals; then job A as texts, one of them
 * of a solver that numbers plates otherwise.
 * Build and run: tools/test-hosts; by hand as the header says. */
#include <stdio.h>
#include <string.h>

#include "saw_engine.h"

/* The lent buffers, at their full sizes, and the counts passed in; room for the answer to a text. They are static: together they are 630,350 bytes. */
static uint16_t plates[SAW_PLATES];
static uint16_t cuts[SAW_CUTS];
static uint16_t counts[SAW_COUNTS];
static uint16_t placements[SAW_PLACEMENTS];
static uint16_t offcuts[SAW_OFFCUTS];
static uint8_t out[SAW_TEXT_OUT];

/* Mode 2N, one size, two item types, a blade of no width; size 0 of 9 by 7 at a cost of 1; item 1 of 5 by 4 (demand 2), item 2 of 3 by 3 (demand 3); no item may be turned. */
static const uint16_t job_a[] = {2, 0, 1, 2, 0, 9, 7, 1, 5, 4, 2, 0, 3, 3, 3, 0};
/* The fifth head word: the blade. */
enum { BLADE = 4 };
/* The same items on boards of two sizes: 9 by 7 at a cost of 3, and 9 by 3 at 1. */
static const uint16_t two_sizes[] = {2, 0, 2, 2, 0, 9, 7, 3, 9, 3, 1, 5, 4, 2, 0, 3, 3, 3, 0};
/* Two boards of the first size, one of the second: counts of cuts 1 to 9. */
static const uint16_t two_sizes_plan[] = {2, 0, 1, 0, 2, 0, 0, 0, 0};
/* The counts of cuts 1 to 8. */
static const uint16_t plan_a[] = {2, 0, 1, 1, 0, 0, 1, 0};
/* D 1; item types 1 and 2; residual types 1 to 5. */
static const uint16_t prices_a[] = {1, 1, 0, 0, 0, 1, 0, 0};
/* The lengths from which an offcut is worth shelving: its width is 4 or more, its height 3 or more. */
static const uint16_t first_length = 4, second_length = 3;

/* The same as a saw text, of lines 1, 10, 2 and 3, and its two boards as a fold text, of lines 1, 10, 2 and 7. */
static const char job_text[] =
    "        1        2        0        1        2        0\n"
    "       10        0        9        7        1\n"
    "        2        1        5        4        2        0\n"
    "        2        2        3        3        3        0\n";
static const char plan_text[] =
    "        3        0        1        2        9        7        1        0\n"
    "        3        1        2        1        9        3        1        0\n"
    "        3        2        2        1        4        4        2        0\n"
    "        3        4        2        1        6        3        2        0\n";
/* Two lines of a solver that numbers a cut's right before its top: it takes plate 1 for the one that is plate 2. */
static const char other_plate_text[] =
    "        3        0        1        2        9        7        1        0\n"
    "        3        1        2        1        4        4        2        0\n";
static const char layout_text[] =
    "        7        1        0        1        1        1        1        0        0        0\n"
    "        7        1        0        1        2        1        2        5        0        0\n"
    "        7        1        0        2        1        1        2        0        4        0\n"
    "        7        1        0        2        2        1        2        3        4        0\n";
static const char second_board[] =
    "        7        2        0        1        1        1        1        0        0        0\n";

#define LENGTH(array) (sizeof(array) / sizeof((array)[0]))

static void print_answer(const char *call, const uint32_t answer[3])
{
    if (answer[0] == SAW_ACCEPTED)
        printf("%s: %u %u\n", call, (unsigned)answer[1], (unsigned)answer[2]);
    else
        printf("%s: refused %u at %u\n", call, (unsigned)answer[0], (unsigned)answer[1]);
}

/* The records of a lent buffer, so many of so many words. */
static void print_records(const uint16_t *words, size_t records, size_t width)
{
    for (size_t record = 0; record < records; record++) {
        for (size_t word = 0; word < width; word++)
            printf(" %5u", (unsigned)words[record * width + word]);
        printf("\n");
    }
}

/* The offcuts for the shelf, so many being listed: those that are usable. */
static void print_usable(size_t listed)
{
    for (size_t index = 0; index < listed; index++) {
        const uint16_t *offcut = offcuts + 6 * index;
        if (offcut[5] == 1)
            printf("shelve from board %u: %u by %u, at x %u, y %u\n", (unsigned)offcut[0], (unsigned)offcut[3],
                   (unsigned)offcut[4], (unsigned)offcut[1], (unsigned)offcut[2]);
    }
}

/* Unfolds the counts, prints pieces and usable offcuts, and gives the number of pieces. */
static size_t unfold(void)
{
    uint32_t answer[4];

    saw_unfold(job_a, LENGTH(job_a), counts, LENGTH(counts), first_length, second_length, plates, LENGTH(plates), cuts, LENGTH(cuts),
               placements, LENGTH(placements), offcuts, LENGTH(offcuts), answer);
    print_answer("unfolding, boards and pieces", answer);
    print_records(placements, answer[2], 9);
    printf("offcuts: %u\n", (unsigned)answer[3]);
    print_usable(answer[3]);
    return answer[2];
}

/* The same with a length of 0, which is refused. */
static void unfold_wrongly(void)
{
    uint32_t answer[4];

    saw_unfold(job_a, LENGTH(job_a), counts, LENGTH(counts), 0, second_length, plates, LENGTH(plates), cuts, LENGTH(cuts),
               placements, LENGTH(placements), offcuts, LENGTH(offcuts), answer);
    print_answer("first length 0", answer);
}

/* Lists job A with a blade. */
static void list_with_blade(const char *call, uint16_t blade)
{
    uint16_t job[LENGTH(job_a)];
    uint32_t answer[3];

    memcpy(job, job_a, sizeof job_a);
    job[BLADE] = blade;
    saw_list(job, LENGTH(job), plates, LENGTH(plates), cuts, LENGTH(cuts), answer);
    print_answer(call, answer);
    if (answer[0] == SAW_ACCEPTED)
        print_records(plates, answer[1] + 1, 4);
}

/* The same items on boards of two sizes: the plates, of which the first two are the sizes, and a plan with boards of both. */
static void print_two_sizes(void)
{
    uint32_t answer[4];

    saw_list(two_sizes, LENGTH(two_sizes), plates, LENGTH(plates), cuts, LENGTH(cuts), answer);
    print_answer("two sizes, residual types and cuts", answer);
    print_records(plates, answer[1] + 2, 4);
    memset(counts, 0, sizeof counts);
    memcpy(counts, two_sizes_plan, sizeof two_sizes_plan);
    saw_test_plan(two_sizes, LENGTH(two_sizes), counts, LENGTH(counts), plates, LENGTH(plates), cuts, LENGTH(cuts), answer);
    print_answer("plan test, boards and cost", answer);
    saw_unfold(two_sizes, LENGTH(two_sizes), counts, LENGTH(counts), first_length, second_length, plates, LENGTH(plates), cuts,
               LENGTH(cuts), placements, LENGTH(placements), offcuts, LENGTH(offcuts), answer);
    print_answer("unfolding, boards and pieces", answer);
    print_records(placements, answer[2], 9);
}

/* A text of two or three parts, which are joined in `text`. */
static size_t joined(uint8_t *text, const char *first, const char *second, const char *third)
{
    size_t a = strlen(first), b = strlen(second), c = strlen(third);
    memcpy(text, first, a);
    memcpy(text + a, second, b);
    memcpy(text + a + b, third, c);
    return a + b + c;
}

static void print_text(const char *call, size_t bytes)
{
    printf("%s: %u bytes\n%.*s", call, (unsigned)bytes, (int)bytes, (const char *)out);
}

static void print_texts(void)
{
    uint8_t text[1024];

    size_t length = joined(text, job_text, plan_text, "");
    print_text("saw text", saw_text(text, length, out, LENGTH(out)));
    print_text("saw text, its last byte missing", saw_text(text, length - 1, out, LENGTH(out)));
    print_text("saw text, too little room", saw_text(text, length, out, LENGTH(out) - 1));
    length = joined(text, job_text, other_plate_text, "");
    print_text("saw text, another plate shown on its line 6", saw_text(text, length, out, LENGTH(out)));
    length = joined(text, job_text, layout_text, second_board);
    print_text("fold text", saw_fold_text(text, length, out, SAW_FOLD_TEXT_OUT));
    length = joined(text, job_text, layout_text, "");
    print_text("fold text without its second board", saw_fold_text(text, length, out, SAW_FOLD_TEXT_OUT));
}

int main(void)
{
    uint32_t answer[3];

    saw_list(job_a, LENGTH(job_a), plates, LENGTH(plates), cuts, LENGTH(cuts), answer);
    print_answer("listing, residual types and cuts", answer);
    print_records(plates, answer[1] + 1, 4);
    print_records(cuts, answer[2], 4);

    memcpy(counts, plan_a, sizeof plan_a);
    saw_test_plan(job_a, LENGTH(job_a), counts, LENGTH(counts), plates, LENGTH(plates), cuts, LENGTH(cuts), answer);
    print_answer("plan test, boards and cost", answer);

    saw_test_prices(job_a, LENGTH(job_a), prices_a, LENGTH(prices_a), plates, LENGTH(plates), cuts, LENGTH(cuts), answer);
    print_answer("price test, sum and D", answer);

    size_t pieces = unfold();

    memset(counts, 0xff, sizeof counts);
    saw_fold(job_a, LENGTH(job_a), placements, 9 * pieces, plates, LENGTH(plates), cuts, LENGTH(cuts), counts, LENGTH(counts), answer);
    print_answer("folding, boards and cost", answer);
    print_records(counts, 1, LENGTH(plan_a));

    list_with_blade("a blade of 1, residual types and cuts", 1);
    print_two_sizes();
    memset(counts, 0, sizeof counts);
    memcpy(counts, plan_a, sizeof plan_a);

    saw_list(job_a, LENGTH(job_a) - 1, plates, LENGTH(plates), cuts, LENGTH(cuts), answer);
    print_answer("a job cut short", answer);
    saw_list(job_a, LENGTH(job_a), plates, LENGTH(plates), cuts, LENGTH(cuts) - 1, answer);
    print_answer("cuts too short", answer);
    counts[3] = 3;
    saw_test_plan(job_a, LENGTH(job_a), counts, LENGTH(counts), plates, LENGTH(plates), cuts, LENGTH(cuts), answer);
    print_answer("cut 4 at 3", answer);
    unfold_wrongly();
    list_with_blade("a blade of 21", 21);

    print_texts();
    return 0;
}
