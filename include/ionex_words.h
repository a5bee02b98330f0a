/*
 * ionex_words.h: what an answer of enum ionex_answer says, in words: the same that the program ionex and the crate say.
 *
 *     fprintf(stderr, "refused %d: %s\n", (int)answer, ionex_words(answer));
 */
#ifndef IONEX_WORDS_H
#define IONEX_WORDS_H

#include "ionex.h"

/* WORDS(answer, words) for every answer there is, in rising order. */
#define IONEX_ALL_WORDS(WORDS)                                                                                        \
    WORDS(IONEX_DONE, "done")                                                                                         \
    WORDS(IONEX_LONG_LINE, "a line of more than 80 bytes")                                                            \
    WORDS(IONEX_BAD_BYTE, "a byte that is not printable ASCII")                                                       \
    WORDS(IONEX_NOT_IONEX, "no version record first, or a version, type or code that is not accepted")                \
    WORDS(IONEX_UNKNOWN_LABEL, "an unknown label")                                                                    \
    WORDS(IONEX_MISPLACED, "a record where it may not stand, or once too often")                                      \
    WORDS(IONEX_ILL_FORMED, "a field that is ill-formed, or a byte where blanks belong")                              \
    WORDS(IONEX_OUT_OF_RANGE, "a value outside what is accepted")                                                     \
    WORDS(IONEX_DISAGREES, "a value that disagrees with the header or an earlier record")                             \
    WORDS(IONEX_MISSING, "a header record, block or map is missing at an END record")                                 \
    WORDS(IONEX_CUT_SHORT, "the text ends before END OF FILE")                                                        \
    WORDS(IONEX_SHORT_AREA, "an area is too short")                                                                   \
    WORDS(IONEX_OUTSIDE_TIME, "the time lies before the first or after the last map")                                 \
    WORDS(IONEX_OUTSIDE_GRID, "the place or the layer lies outside the grid")                                         \
    WORDS(IONEX_NO_VALUE, "a node that the answer needs has no value")                                                \
    WORDS(IONEX_UNKNOWN_CHOICE, "an unknown kind or method")                                                          \
    WORDS(IONEX_UNSERVED, "maps that cannot be turned with the Sun: the grid does not go round the Earth, its columns are more than 5.0 degrees apart, or two maps more than 7200 seconds") \
    WORDS(IONEX_UNSERVED_CARRIER, "a carrier outside 1.0e9 to 2.0e9 hertz")                                           \
    WORDS(IONEX_SHORT_OUTPUT, "the output is too short")                                                              \
    WORDS(IONEX_NO_MAP_SET, "not a valid map set")                                                                    \
    WORDS(IONEX_UNLIKE, "the grids, dimensions, heights or base radii differ")                                        \
    WORDS(IONEX_APART, "the last epoch of the first set is not the first of the second")                              \
    WORDS(IONEX_TOO_MANY, "the joined set would have too many maps or values")                                        \
    WORDS(IONEX_ASTRAY, "an index entry that does not fit the text")                                                  \
    WORDS(IONEX_FULL_WEEK, "more than 100 map sets")                                                                  \
    WORDS(IONEX_SHORT_HEADER, "fewer than 45 header numbers")                                                         \
    WORDS(IONEX_SHORT_TEXTS, "fewer than 1324 bytes of texts")                                                        \
    WORDS(IONEX_SHORT_RESULT, "no room for the result")

/* The words of an answer. */
static inline const char *ionex_words(uint64_t answer)
{
#define IONEX_WORDS_CASE(number, words) \
    case number: return words;
    switch (answer) {
        IONEX_ALL_WORDS(IONEX_WORDS_CASE)
    default: return "an answer that this header file does not know";
    }
#undef IONEX_WORDS_CASE
}

#endif
