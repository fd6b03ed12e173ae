/* Tests the header and the archive from C: `test IMAGE` prints the refusals' words, and fails if an answer is wrong. */
#include <stdio.h>
#include <string.h>

#include "showclean.h"

#define ROOM 4096

static uint8_t image[ROOM], output[ROOM], report[ROOM], again[ROOM];
static uint32_t work[SHOWCLEAN_WORK(ROOM)];
static int failures = 0;

static void check(int holds, const char *what)
{
    if (!holds) {
        fprintf(stderr, "not so: %s\n", what);
        failures++;
    }
}

static uint64_t cleaned(size_t length, uint8_t *lent, size_t lent_length)
{
    return showclean_clean(image, length, output, ROOM, work, SHOWCLEAN_WORK(ROOM), lent, lent_length);
}

/* NULL stands for no memory: nothing is read from it or written to it. */
static void check_null(size_t length)
{
    uint64_t answer = showclean_clean(NULL, 0, NULL, 0, NULL, 0, NULL, 0);
    check(showclean_number(answer) == SHOWCLEAN_SIZE && showclean_place(answer) == 0, "no image is refused with 1");
    check(showclean_number(showclean_overlap(NULL, 0, 0, 0)) == SHOWCLEAN_SIZE, "no image is refused by Overlap");
    answer = showclean_clean(image, length, NULL, 0, work, SHOWCLEAN_WORK(ROOM), NULL, 0);
    check(showclean_number(answer) == SHOWCLEAN_OUTPUT_SHORT, "no output is refused with 2");
    answer = showclean_clean(image, length, output, ROOM, NULL, 0, NULL, 0);
    check(showclean_number(answer) == SHOWCLEAN_WORK_SHORT, "no work is refused with 3");
}

static void check_clean(size_t length)
{
    uint64_t answer = cleaned(length, NULL, 0);
    size_t needed = showclean_place(answer), place;
    check(showclean_number(answer) == SHOWCLEAN_REPORT_SHORT && needed > 0, "no report is refused with 12 and a length");
    answer = cleaned(length, report, needed);
    check(showclean_number(answer) == SHOWCLEAN_DONE, "a report of that length is enough");
    check(showclean_report_length(answer) == needed, "the report fills it");
    check(showclean_output_length(answer) <= length, "the output is no longer than the image");
    for (place = 0; place < SHOWCLEAN_WORK(ROOM); place++)
        check(work[place] == 0, "work is zero");
    memcpy(again, output, sizeof again);
    check(cleaned(length, report, needed) == answer && !memcmp(again, output, sizeof again), "nothing is kept between calls");
}

static void check_overlap(size_t length)
{
    uint64_t answer = showclean_overlap(image, length, 0, 0);
    check(showclean_number(answer) == SHOWCLEAN_DONE && showclean_verdict(answer) == SHOWCLEAN_OVERLAP, "a sentence meets itself");
    check(showclean_spent(answer) > 0 && showclean_spent(answer) <= 4096, "entries are spent");
    answer = showclean_overlap(image, length, 0, (size_t)-1);
    check(showclean_number(answer) == SHOWCLEAN_NO_SENTENCE, "no sentence has the largest number");
}

/* Sentences 3 and 4 of examples/removed.image meet. */
static void check_expression(size_t length)
{
    uint64_t answer = showclean_overlap_expression(image, length, 3, 4, again, sizeof again);
    size_t written = showclean_expression_length(answer);
    check(showclean_number(answer) == SHOWCLEAN_DONE && showclean_expression_verdict(answer) == SHOWCLEAN_OVERLAP, "two sentences share an expression");
    check(showclean_expression_spent(answer) == showclean_spent(showclean_overlap(image, length, 3, 4)), "it spends what Overlap does");
    check(written > 0 && written <= sizeof again, "the expression fits");
    answer = showclean_overlap_expression(image, length, 3, 4, again, written - 1);
    check(showclean_number(answer) == SHOWCLEAN_EXPRESSION_SHORT && showclean_place(answer) == 0, "a byte less is refused with 17");
    check(showclean_number(showclean_overlap_expression(NULL, 0, 0, 0, NULL, 0)) == SHOWCLEAN_SIZE, "no image is refused");
}

int main(int count, char **words)
{
    unsigned number;
    size_t length;
    FILE *file = count == 2 ? fopen(words[1], "rb") : NULL;
    if (!file) {
        fprintf(stderr, "usage: test IMAGE\n");
        return 2;
    }
    length = fread(image, 1, sizeof image, file);
    fclose(file);
    check_null(length);
    check_clean(length);
    check_overlap(length);
    check_expression(length);
    check(!strcmp(showclean_version(), SHOWCLEAN_VERSION), "the version is the header's");
    for (number = 0; number <= SHOWCLEAN_EXPRESSION_SHORT + 1; number++)
        printf("%u: %s\n", number, showclean_refusal_text(number));
    return failures > 0;
}
