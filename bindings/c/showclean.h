/* The show cleaner as C functions: link with target/staticlib/libcleaner.a, which `sh tools/archive.sh` builds.
   Every call on any bytes, numbers and lengths ends; the answer is one 64-bit number.

   What the caller owes, since no proof reaches into C:
   - Each pointer is valid for its length. It may be NULL if its length is 0.
   - Lent slices share no memory: image, output, work, report and expression lie apart. That they do is not tested, and nothing
     is promised if they do not: an answer 0 with wrong bytes was seen.
   - work is aligned for uint32_t.

   Threads: nothing is kept between calls, so that any number of threads may call at once, each with its own output,
   work, report and expression; an image is only read and may be shared.

   Memory and code: docs/BINDINGS.md. The archive needs one symbol from outside, memset, and holds x86-64 code.

   C90 and later, C++11 and later; the archive aside, all of it stands in this file, and functions that are not used
   leave nothing in the program. */
#ifndef SHOWCLEAN_H
#define SHOWCLEAN_H

#include <stddef.h>
#include <stdint.h>

#define SHOWCLEAN_VERSION_MAJOR 0
#define SHOWCLEAN_VERSION_MINOR 1
#define SHOWCLEAN_VERSION_PATCH 0
#define SHOWCLEAN_VERSION "0.1.0"

#define SHOWCLEAN_LARGEST_IMAGE 32768
#define SHOWCLEAN_EXPRESSION_ROOM 131072
#define SHOWCLEAN_WORK(image_length) (((image_length) + 3) / 4)

/* C90 has no `inline`. */
#if defined(__cplusplus) || (defined(__STDC_VERSION__) && __STDC_VERSION__ >= 199901L)
#define SHOWCLEAN_INLINE static inline
#elif defined(__GNUC__)
#define SHOWCLEAN_INLINE static __inline__
#else
#define SHOWCLEAN_INLINE static
#endif

#ifdef __cplusplus
extern "C" {
#endif

/* Removes from an image the sentences that no call can reach.
   output: at least image_length bytes. work: at least SHOWCLEAN_WORK(image_length) entries. report: any length; with
   0 the answer is 12, and its place is the length needed, up to 2.7 MB on images that were tried.
   A refusal changes no lent memory, but for 12, which leaves work zero. */
uint64_t showclean_clean(const uint8_t *image, size_t image_length,
                         uint8_t *output, size_t output_length,
                         uint32_t *work, size_t work_length,
                         uint8_t *report, size_t report_length);

/* Compares the patterns of two sentences, numbered in file order from 0. */
uint64_t showclean_overlap(const uint8_t *image, size_t image_length, size_t first, size_t second);

/* The same, and for the verdict Overlap one expression that matches both patterns, written as image records with zero
   spans and no close at the end. Whatever the image, SHOWCLEAN_EXPRESSION_ROOM bytes are enough. */
uint64_t showclean_overlap_expression(const uint8_t *image, size_t image_length, size_t first, size_t second,
                                      uint8_t *expression, size_t expression_length);

#ifdef __cplusplus
}
#endif

/* What showclean_number gives: 0, or why the call was refused. */
enum showclean_number {
    SHOWCLEAN_DONE = 0,
    SHOWCLEAN_SIZE = 1,
    SHOWCLEAN_OUTPUT_SHORT = 2,
    SHOWCLEAN_WORK_SHORT = 3,
    SHOWCLEAN_TRAILER = 4,
    SHOWCLEAN_BYTE = 5,
    SHOWCLEAN_NAME = 6,
    SHOWCLEAN_CHARACTER = 7,
    SHOWCLEAN_SPAN = 8,
    SHOWCLEAN_CALL_IN_PATTERN = 9,
    SHOWCLEAN_NESTED = 10,
    SHOWCLEAN_COUNTS = 11,
    SHOWCLEAN_REPORT_SHORT = 12, /* the place is the length needed */
    SHOWCLEAN_NO_SENTENCE = 13,
    SHOWCLEAN_EXPRESSION_SHORT = 17
};

enum showclean_verdict {
    SHOWCLEAN_DISJOINT = 0, /* nothing matches both */
    SHOWCLEAN_OVERLAP = 1,  /* something matches both, each occurrence of a variable read by itself */
    SHOWCLEAN_UNKNOWN = 2   /* 4,096 entries were not enough */
};

/* The parts of an answer: bits 0 to 7, 8 to 23 and 24 to 63. */
SHOWCLEAN_INLINE unsigned showclean_number(uint64_t answer) { return (unsigned)(answer & 0xff); }
SHOWCLEAN_INLINE unsigned showclean_middle(uint64_t answer) { return (unsigned)(answer >> 8 & 0xffff); }
SHOWCLEAN_INLINE uint64_t showclean_rest(uint64_t answer) { return answer >> 24; }

/* Of a call of showclean_clean that was not refused. */
SHOWCLEAN_INLINE size_t showclean_output_length(uint64_t answer) { return showclean_middle(answer); }
SHOWCLEAN_INLINE size_t showclean_report_length(uint64_t answer) { return (size_t)showclean_rest(answer); }

/* Of a call of showclean_overlap that was not refused. */
SHOWCLEAN_INLINE unsigned showclean_verdict(uint64_t answer) { return showclean_middle(answer); }
SHOWCLEAN_INLINE unsigned showclean_spent(uint64_t answer) { return (unsigned)showclean_rest(answer); }

/* Of a call of showclean_overlap_expression that was not refused: bits 8 and 9, 10 to 23, 24 to 63. */
SHOWCLEAN_INLINE unsigned showclean_expression_verdict(uint64_t answer) { return showclean_middle(answer) & 3; }
SHOWCLEAN_INLINE unsigned showclean_expression_spent(uint64_t answer) { return showclean_middle(answer) >> 2; }
SHOWCLEAN_INLINE size_t showclean_expression_length(uint64_t answer) { return (size_t)showclean_rest(answer); }

/* Of a refused call: the byte of the image that is at fault (5 to 10), the length needed (12), else 0. */
SHOWCLEAN_INLINE size_t showclean_place(uint64_t answer) { return (size_t)showclean_rest(answer); }

/* The version of this header, and of the interface that it declares. */
SHOWCLEAN_INLINE const char *showclean_version(void) { return SHOWCLEAN_VERSION; }

/* A refusal's number in words. */
SHOWCLEAN_INLINE const char *showclean_refusal_text(unsigned number)
{
    switch (number) {
    case SHOWCLEAN_DONE: return "not refused";
    case SHOWCLEAN_SIZE: return "an image shorter than 12 bytes or longer than 32,768";
    case SHOWCLEAN_OUTPUT_SHORT: return "output shorter than the image";
    case SHOWCLEAN_WORK_SHORT: return "work with fewer entries than the image's bytes divided by 4, rounded up";
    case SHOWCLEAN_TRAILER: return "the trailer's lengths do not fit the image";
    case SHOWCLEAN_BYTE: return "a byte that no record allows, or a record cut off";
    case SHOWCLEAN_NAME: return "a name or number that is empty, above 63 bytes, or has a byte it cannot have";
    case SHOWCLEAN_CHARACTER: return "no character has this code";
    case SHOWCLEAN_SPAN: return "a span that starts after its end";
    case SHOWCLEAN_CALL_IN_PATTERN: return "a call or a block inside a pattern";
    case SHOWCLEAN_NESTED: return "brackets, calls and blocks nested above 32";
    case SHOWCLEAN_COUNTS: return "the trailer's second field or counts do not agree with the body";
    case SHOWCLEAN_REPORT_SHORT: return "report text longer than the report";
    case SHOWCLEAN_NO_SENTENCE: return "a sentence number not below the sentence count";
    case SHOWCLEAN_EXPRESSION_SHORT: return "a lent slice shorter than the expression";
    default: return "no refusal has this number";
    }
}

#endif
