/* Replays the corpus of tools/expression_vectors.py, on standard input, on the static library: each answer, the bytes
   written, and the bytes of the lent slice past them. Says how many answers were as stored; status 1 at the first other. */
#include <stdio.h>
#include <stdlib.h>
#include <string.h>

#include "../bindings/c/showclean.h"

static uint8_t image[65536], expected[65536], lent[65536];

static unsigned number16(const uint8_t *p) { return p[0] + 256u * p[1]; }

static size_t sentence(unsigned n) { return n == 65535 ? (size_t)-1 : n; }

static void take(uint8_t *to, size_t n)
{
    if (fread(to, 1, n, stdin) != n) {
        fprintf(stderr, "the corpus is cut off\n");
        exit(2);
    }
}

static int as_stored(const uint8_t *r, size_t length)
{
    size_t room = number16(r + 6), written = number16(r + 14), i;
    uint64_t answer;
    memset(lent, 165, sizeof lent);
    answer = showclean_overlap_expression(image, length, sentence(number16(r + 2)), sentence(number16(r + 4)), lent, room);
    if (showclean_number(answer) != r[8]) return 0;
    if (r[8] == 0 && (showclean_expression_verdict(answer) != r[9] || showclean_expression_spent(answer) != number16(r + 10) ||
                      showclean_expression_length(answer) != written))
        return 0;
    if (r[8] != 0 && showclean_place(answer) != number16(r + 12)) return 0;
    if (memcmp(lent, expected, written) != 0) return 0;
    for (i = written; i < sizeof lent; i++)
        if (lent[i] != 165) return 0;
    return 1;
}

int main(void)
{
    uint8_t r[16];
    size_t length = 0;
    unsigned long count = 0;
    while (fread(r, 1, sizeof r, stdin) == sizeof r) {
        if (number16(r) != 0) {
            length = number16(r);
            take(image, length);
        }
        take(expected, number16(r + 14));
        if (!as_stored(r, length)) {
            printf("answer %lu is not as stored\n", count);
            return 1;
        }
        count++;
    }
    printf("%lu expressions as stored\n", count);
    return count == 0;
}
