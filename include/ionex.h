/*
 * ionex.h: reads, writes, interpolates and joins IONEX 1.0 and 1.1 ionosphere maps, and reads a text's biases.
 *
 * Link with target/staticlib/libionex.a (x86-64), which `./build library` makes. There is nothing to set up and
 * nothing to free: the library keeps nothing between calls and touches only the areas it is lent.
 *
 * WHAT THE CALLER MUST GIVE. The functions are proved for callers that keep these four rules, and C cannot check them:
 *   - each pointer points to as many elements as the length behind it says, and is aligned for them;
 *   - each pointer is valid and not null, for length 0 too (any valid pointer will do there). In C malloc(0), and in
 *     C++ data() of an empty std::vector, may be null: give the address of any object of that type instead;
 *   - an area that a call writes overlaps no other area of that call;
 *   - no other thread writes to an area during the call. Calls in many threads at once may share what they only read:
 *     a text that is read, a map set that is asked or written.
 * Everything else may be anything at all: every text, number and length has an answer.
 *
 * STACK. ionex_read, ionex_needs, ionex_index and ionex_biases take less than 16 KiB, each other call less than 4 KiB,
 * whatever it is given: none calls itself. tests/stack.c measures it. Nothing is allocated; of the C library memcpy and
 * memset are called, no more.
 *
 * TIME. Every epoch is in seconds from 1900-01-01 00:00:00, in universal time (UT) as document 001 has its maps, and
 * each day has 86,400 seconds. A clock in GPS time runs ahead of it by the leap seconds that have come since 1980, 18
 * since 2017-01-01: who has GPS time subtracts them.
 *
 * THE ANSWER of each function is 0 for done, or a number of enum ionex_answer. Lengths count elements, not bytes.
 */
#ifndef IONEX_H
#define IONEX_H

#include <stddef.h>
#include <stdint.h>

#ifdef __cplusplus
extern "C" {
#endif

/*
 * VERSIONS. 1.2.3 is the number 10203. Functions, answers and the places of numbers stay as they are within a major version;
 * what is added comes behind what there is, and a program that lends too little for it gets 101 to 103.
 */
#define IONEX_LIBRARY_MAJOR 1
#define IONEX_LIBRARY_MINOR 0
#define IONEX_LIBRARY_PATCH 0
#define IONEX_LIBRARY_VERSION "1.0.0"
#define IONEX_LIBRARY_NUMBER UINT64_C(10000) /* of this header file */
uint64_t ionex_version(void);                /* the number of the library that is linked */

/* Where other clocks begin: to be added to Unix seconds, and to GPS seconds without their leap seconds. */
#define IONEX_UNIX_ZERO UINT64_C(2208988800) /* 1970-01-01 00:00:00 */
#define IONEX_GPS_ZERO UINT64_C(2524953600)  /* 1980-01-06 00:00:00 */

enum ionex_answer {
    IONEX_DONE = 0,

    /* Reading a text: place[0] is the line and place[1] the column, both from 1; column 0 is a rule over several
     * fields or records. The lowest line is told. */
    IONEX_LONG_LINE = 1,     /* a line has more than 80 bytes */
    IONEX_BAD_BYTE = 2,      /* a byte that is not printable ASCII (32 to 126) */
    IONEX_NOT_IONEX = 3,     /* no version record first, or not version 1.0 or 1.1, type I and a code of that version */
    IONEX_UNKNOWN_LABEL = 4, /* columns 61 to 80 hold no label of IONEX */
    IONEX_MISPLACED = 5,     /* a record where it may not stand, or once too often */
    IONEX_ILL_FORMED = 6,    /* no number in a number's field, or a byte where blanks belong */
    IONEX_OUT_OF_RANGE = 7,  /* a value that is not accepted */
    IONEX_DISAGREES = 8,     /* disagrees with the header or an earlier record */
    IONEX_MISSING = 9,       /* at an END record: a header record, block or map has not come */
    IONEX_CUT_SHORT = 10,    /* the text ends before END OF FILE; the line is one past the last */

    /* Reading and joining: all is good, but an area is too short. place[0] is the area (1 TEC, 2 RMS, 3 height,
     * 4 exponents, 5 epochs, 6 marks), place[1] the elements it needs. Adding to a week: area 1 is rows. An index, and
     * biases: their three areas. */
    IONEX_SHORT_AREA = 11,

    /* Asking. */
    IONEX_OUTSIDE_TIME = 20,  /* the second lies before the first or after the last map */
    IONEX_OUTSIDE_GRID = 21,  /* the place or the layer lies outside the grid */
    IONEX_NO_VALUE = 22,      /* a node that the answer needs has no value: it holds IONEX_ABSENT or a number outside
                               * -9999 to 99999, its exponent is outside -3 to 0, or its map does not stand, so also
                               * where the kind has no map at all */
    IONEX_UNKNOWN_CHOICE = 23, /* kind or method is none of those listed */
    IONEX_UNSERVED = 24, /* methods 2 and 3: the grid does not go round the Earth, DLON is above 5.0 degrees, or two
                          * neighbouring epochs are more than 7,200 s apart */
    IONEX_UNSERVED_CARRIER = 25, /* the carrier is not from 1.0e9 to 2.0e9 Hz */

    /* Writing, and 31 also asking, joining and adding to a week. */
    IONEX_SHORT_OUTPUT = 30, /* the output is too short; count[0] is the bytes needed */
    IONEX_NO_MAP_SET = 31,   /* what was given is not a valid map set. Writing, joining and adding to a week look at all
                              * of it; asking at header, texts, lengths of the areas, epochs and marks only. Adding to a
                              * week: or the week is none */

    /* Joining. */
    IONEX_UNLIKE = 40,        /* the grids (heights among them), the dimensions or the base radii differ */
    IONEX_APART = 41,         /* the earlier set's last epoch is not the later set's first */
    IONEX_TOO_MANY = 42,      /* more than 300 maps, or more than 2,000,000 values of a kind */

    /* Adding to a week. */
    IONEX_FULL_WEEK = 60,     /* the week has IONEX_WEEK_SETS map sets already */

    /* One node by an index. */
    IONEX_ASTRAY = 50, /* the entry does not point at a block of that row and layer, its exponent is outside -3 to 0, or the
                        * block's lines are cut or ill-formed */

    /* A small area of the call's own is too short. Told first, in this order, before anything else is looked at,
     * and then nothing is written. So is a program that was built with a header file of before IONEX_DESCRIPTIONS. */
    IONEX_SHORT_HEADER = 101, /* fewer than IONEX_HEADER numbers of header */
    IONEX_SHORT_TEXTS = 102,  /* fewer than IONEX_TEXTS bytes of texts */
    IONEX_SHORT_RESULT = 103  /* no room for place, needs, count, value, explained, lacking, bounds, record, moved,
                               * counts or week */
};

/*
 * THE MAP SET: a header, its texts and six areas. n is the number of TEC maps (header[IONEX_MAPS]), L, R and C are the
 * layers, rows and columns of the grid.
 *
 *   area        element   needs             holds
 *   tec         int32_t   n*L*R*C           values, map by map, layer by layer, row by row
 *   rms         int32_t   n*L*R*C, or 0     the same; needs nothing where no map has RMS values
 *   height      int32_t   n*L*R*C, or 0     the same; needs nothing where no map has heights
 *   exponents   int32_t   3*n*L*R           -3 to 0, one for each row: all of TEC, then all of RMS, then all of height
 *   epochs      uint64_t  n                 seconds from 1900-01-01 00:00:00
 *   marks       uint8_t   n                 which maps stand beside TEC map i: 1 RMS, 2 height, 3 both, 0 neither
 *
 * A value v under exponent k is v * 10^k TECU (TEC, RMS) or kilometres (height); IONEX_ABSENT says that there is none. A
 * missing RMS or height map holds IONEX_ABSENT everywhere and exponent -1. Areas may be longer than the need: the rest is
 * neither read nor written. Never more than 2,000,000 values of each kind, 6,000,000 exponents, 300 epochs and 300 marks
 * are needed.
 */
#define IONEX_ABSENT 9999

/* Places in the header, IONEX_HEADER numbers. Tenths: 87.5 degrees are 875. */
enum ionex_header {
    IONEX_VERSION = 0,     /* in tenths: 10 (IONEX 1.0) or 11 (1.1); a call writes the version that it is given */
    IONEX_TYPE = 1,        /* the byte 'I', 73 */
    IONEX_CODE = 2,        /* the system or model that the maps are from, of enum ionex_code */
    IONEX_FIRST_EPOCH = 3, /* EPOCH OF FIRST MAP, seconds from 1900-01-01 00:00:00 */
    IONEX_LAST_EPOCH = 4,  /* EPOCH OF LAST MAP */
    IONEX_INTERVAL = 5,    /* seconds, 0 to 21,600; 0 says that it varies */
    IONEX_MAPS = 6,        /* # OF MAPS IN FILE: the TEC maps, n, 1 to 300 */
    IONEX_CUTOFF = 7,      /* ELEVATION CUTOFF, tenths of a degree */
    IONEX_RADIUS = 8,      /* BASE RADIUS, tenths of a kilometre */
    IONEX_DIMENSION = 9,   /* MAP DIMENSION, 2 or 3 */
    IONEX_HGT1 = 10,       /* heights of the layers, tenths of a kilometre: first, */
    IONEX_HGT2 = 11,       /* last */
    IONEX_DHGT = 12,       /* and step; L is (HGT2 - HGT1) / DHGT + 1, and 1 in dimension 2, where DHGT is 0 */
    IONEX_LAT1 = 13,       /* latitudes of the rows, tenths of a degree: first, */
    IONEX_LAT2 = 14,       /* last */
    IONEX_DLAT = 15,       /* and step, often negative; R is (LAT2 - LAT1) / DLAT + 1 */
    IONEX_LON1 = 16,       /* longitudes of the columns, tenths of a degree: first, */
    IONEX_LON2 = 17,       /* last */
    IONEX_DLON = 18,       /* and step; C is (LON2 - LON1) / DLON + 1 */

    /* Optional records. A flag says whether the record stands: a reading gives 0 or 1, a call takes any number but 0
     * for yes. The numbers of a record that does not stand are 0, and a call that is given others answers 31. */
    IONEX_HAS_STATIONS = 19,
    IONEX_STATIONS = 20, /* # OF STATIONS */
    IONEX_HAS_SATELLITES = 21,
    IONEX_SATELLITES = 22, /* # OF SATELLITES */
    IONEX_SYSTEMS = 23,    /* SYS / #STA / #SAT of G R E C J I S: three numbers each, see below */

    IONEX_DESCRIPTIONS = 44, /* how many DESCRIPTION lines there are, 0 to 20; see IONEX_DESCRIPTION_LINE below */

    IONEX_HEADER = 45 /* how many numbers there are */
};

enum ionex_code {
    IONEX_BEN = 0,
    IONEX_ENV = 1,
    IONEX_ERS = 2,
    IONEX_GEO = 3,
    IONEX_GNS = 4,
    IONEX_IRI = 5,
    IONEX_MIX = 6,
    IONEX_NNS = 7,
    IONEX_TOP = 8,
    IONEX_GPS = 9, /* version 1.0 only, and so is GLO */
    IONEX_GLO = 10
};

/* For the j-th letter of G R E C J I S (j from 0): whether its SYS record stands, its stations, its satellites. */
#define IONEX_HAS_SYSTEM(j) (IONEX_SYSTEMS + 3 * (j))
#define IONEX_SYSTEM_STATIONS(j) (IONEX_SYSTEMS + 3 * (j) + 1)
#define IONEX_SYSTEM_SATELLITES(j) (IONEX_SYSTEMS + 3 * (j) + 2)

/* Places in the texts, IONEX_TEXTS bytes: printable, padded with blanks, no ending 0. */
enum ionex_texts {
    IONEX_PROGRAM = 0,       /* 20 bytes: the program that made the file */
    IONEX_RUN_BY = 20,       /* 20 bytes: the agency */
    IONEX_DATE = 40,         /* 20 bytes: date and time of making */
    IONEX_MAPPING = 60,      /*  4 bytes: MAPPING FUNCTION */
    IONEX_OBSERVABLES = 64,  /* 60 bytes: OBSERVABLES USED */
    IONEX_DESCRIPTION = 124, /* 20 lines of 60 bytes: the DESCRIPTION lines in the text's order, blank ones too; those behind
                              * the last of header[IONEX_DESCRIPTIONS] are blank, and a call that is given others answers 31 */
    IONEX_TEXTS = 1324       /* how many bytes there are */
};

/* Where the k-th DESCRIPTION line (k from 0) stands in the texts: IONEX_DESCRIPTION_BYTES bytes. */
#define IONEX_DESCRIPTION_BYTES 60
#define IONEX_DESCRIPTION_LINE(k) (IONEX_DESCRIPTION + IONEX_DESCRIPTION_BYTES * (k))

/*
 * Reads an IONEX text into the six areas.
 *
 *   0         the map set stands in front of the six areas, of header and of texts; place is as found.
 *   1 to 10   the text is refused; place says where.
 *   11        an area is too short; place says which, and what it needs. 11 is told only where nothing else is wrong,
 *             so a reading with areas of length 0 tells the need of the first; ionex_needs tells all six.
 *
 * After a refusal header, texts and all six areas are as they were found, byte for byte.
 */
uint64_t ionex_read(const uint8_t *text, size_t text_len,
                    int32_t *tec, size_t tec_len,
                    int32_t *rms, size_t rms_len,
                    int32_t *height, size_t height_len,
                    int32_t *exponents, size_t exponents_len,
                    uint64_t *epochs, size_t epochs_len,
                    uint8_t *marks, size_t marks_len,
                    int64_t *header, size_t header_len, /* IONEX_HEADER numbers, else 101 */
                    uint8_t *texts, size_t texts_len,   /* IONEX_TEXTS bytes, else 102 */
                    uint64_t *place, size_t place_len); /* 2 numbers, else 103 */

/* Places in what ionex_needs tells: the elements that each area needs, IONEX_NEEDS numbers. */
enum ionex_need {
    IONEX_NEEDS_TEC = 0,
    IONEX_NEEDS_RMS = 1,
    IONEX_NEEDS_HEIGHT = 2,
    IONEX_NEEDS_EXPONENTS = 3,
    IONEX_NEEDS_EPOCHS = 4,
    IONEX_NEEDS_MARKS = 5,
    IONEX_NEEDS = 6 /* how many numbers there are */
};

/*
 * Tells what each of the six areas needs for an IONEX text, before any of them is lent. It goes over the text once, as
 * ionex_read does before it writes.
 *
 *   0         the six needs stand in front of needs; place is as found. With areas of at least these lengths ionex_read
 *             accepts this text: it never answers 11 then.
 *   1 to 10   the text is refused, as ionex_read refuses it whatever is lent; place says where, needs is as found.
 */
uint64_t ionex_needs(const uint8_t *text, size_t text_len,
                     uint64_t *needs, size_t needs_len,  /* IONEX_NEEDS numbers, else 103 */
                     uint64_t *place, size_t place_len); /* 2 numbers, else 103 */

/*
 * Writes a map set as canonical text: the one text that says the same in a fixed order and spacing. DESCRIPTION lines come
 * behind PGM / RUN BY / DATE. What a reading skips is not in it: COMMENT records and aux blocks.
 *
 *   0    count[0] bytes of text stand in front of out; the bytes behind them are as found.
 *   30   out is too short; count[0] is the bytes needed.
 *   31   not a valid map set: no accepted text means this (an area shorter than its need among the reasons, and a
 *        header number that its field cannot hold). count is as found.
 *
 * After a refusal out is as it was found, byte for byte.
 */
uint64_t ionex_write(const int64_t *header, size_t header_len, /* IONEX_HEADER numbers, else 101 */
                     const uint8_t *texts, size_t texts_len,   /* IONEX_TEXTS bytes, else 102 */
                     const int32_t *tec, size_t tec_len,
                     const int32_t *rms, size_t rms_len,
                     const int32_t *height, size_t height_len,
                     const int32_t *exponents, size_t exponents_len,
                     const uint64_t *epochs, size_t epochs_len,
                     const uint8_t *marks, size_t marks_len,
                     uint8_t *out, size_t out_len,
                     uint64_t *count, size_t count_len); /* 1 number, else 103 */

enum ionex_kind { IONEX_KIND_TEC = 0, IONEX_KIND_RMS = 1, IONEX_KIND_HEIGHT = 2 };

enum ionex_method {
    IONEX_NEAREST = 0,    /* the map nearest in time, the earlier of two equally near */
    IONEX_BETWEEN = 1,    /* interpolated in time between the two maps around the second */
    IONEX_SUN = 2,        /* as IONEX_BETWEEN, each map asked where the Sun stood the same at its epoch: one degree of
                           * longitude in 240 s. Document 001 recommends this, its formula (3) */
    IONEX_NEAREST_SUN = 3 /* as IONEX_NEAREST, the map asked likewise */
};

/* A grid goes round the Earth where LON2 = LON1 + 360.0, or where LON2 + DLON = LON1 + 360.0. Of the second sort the
 * column after the last is the first, for every method. */

/*
 * Answers for the value at a place and second, interpolated between the four nodes around the place. The exact fraction
 * is rounded once, halves away from zero.
 *
 *   lat, lon   hundredths of a degree; whole turns of longitude make no difference. Where LON2 + DLON is LON1 + 360.0,
 *              the column after the last is the first, so that no longitude is outside; else x beyond LON2 is
 *   layer      counted from 0
 *   second     seconds from 1900-01-01 00:00:00
 *
 * A node whose weight is zero is not needed, and its value is not looked at.
 *
 *   0                        value[0] is the answer: thousandths of a TECU (TEC, RMS) or of a kilometre (height).
 *   23, 31, 24, 20, 21, 22   refused, told in this order; value is as found.
 */
uint64_t ionex_ask(const int64_t *header, size_t header_len, /* IONEX_HEADER numbers, else 101 */
                   const uint8_t *texts, size_t texts_len,   /* IONEX_TEXTS bytes, else 102 */
                   const int32_t *tec, size_t tec_len,
                   const int32_t *rms, size_t rms_len,
                   const int32_t *height, size_t height_len,
                   const int32_t *exponents, size_t exponents_len,
                   const uint64_t *epochs, size_t epochs_len,
                   const uint8_t *marks, size_t marks_len,
                   uint64_t kind, uint64_t method, uint64_t layer,
                   int32_t lat, int32_t lon, uint64_t second,
                   int32_t *value, size_t value_len); /* 1 number, else 103 */

/*
 * Answers for many places and seconds in one call: what ionex_ask answers to each of them, for one kind, method and layer.
 * The map set is judged once for the call (31), not for each question, so that a call of many questions takes much less time
 * than as many calls of ionex_ask. The seconds may come in any order.
 *
 *   lats, lons, seconds   given: the place and the second of each question, as for ionex_ask
 *   answers, values       lent: answers[i] is 0, 20, 21 or 22; where it is 0 values[i] is the value, else it is as found
 *
 * There are as many questions as the shortest of these five has elements; what stands behind the last question in answers
 * and values is as found.
 *
 *   0            every question has its answer, also where there is none.
 *   23, 31, 24   refused as a whole, told in this order; answers and values are as found.
 *
 * Worked example, for a map set read as above: the TEC over three rovers at one second, in thousandths of a TECU;
 * the third is beyond the pole, and refused (21).
 *
 *     int32_t lats[] = {-1000, -500, 9001}, lons[] = {0, 0, 0};
 *     uint64_t seconds[] = {second, second, second};
 *     uint8_t answers[3];
 *     int32_t values[3];
 *     uint64_t answer = ionex_ask_all(header, IONEX_HEADER, texts, IONEX_TEXTS, tec, tec_len, rms, rms_len,
 *                                     height, height_len, exponents, exponents_len, epochs, epochs_len, marks, marks_len,
 *                                     IONEX_KIND_TEC, IONEX_BETWEEN, 0, lats, 3, lons, 3, seconds, 3, answers, 3, values, 3);
 *     for (int i = 0; answer == IONEX_DONE && i < 3; i++)
 *         if (answers[i] == IONEX_DONE)
 *             printf("rover %d: %d\n", i, (int)values[i]);
 *         else
 *             printf("rover %d: refused %d\n", i, (int)answers[i]);
 *     if (answer != IONEX_DONE)
 *         printf("refused %d\n", (int)answer);
 */
uint64_t ionex_ask_all(const int64_t *header, size_t header_len, /* IONEX_HEADER numbers, else 101 */
                       const uint8_t *texts, size_t texts_len,   /* IONEX_TEXTS bytes, else 102 */
                       const int32_t *tec, size_t tec_len,
                       const int32_t *rms, size_t rms_len,
                       const int32_t *height, size_t height_len,
                       const int32_t *exponents, size_t exponents_len,
                       const uint64_t *epochs, size_t epochs_len,
                       const uint8_t *marks, size_t marks_len,
                       uint64_t kind, uint64_t method, uint64_t layer,
                       const int32_t *lats, size_t lats_len,
                       const int32_t *lons, size_t lons_len,
                       const uint64_t *seconds, size_t seconds_len,
                       uint8_t *answers, size_t answers_len,
                       int32_t *values, size_t values_len);

/* Places in what ionex_explain tells of an answer, IONEX_EXPLAINED numbers. */
enum ionex_explained {
    IONEX_NODES = 0,       /* how many nodes the answer is made of, 1 to 8 */
    IONEX_DENOMINATOR = 1, /* what their weights add to */
    IONEX_ANSWER = 2,      /* the value that ionex_ask answers */
    IONEX_NODE = 3,        /* eight nodes, IONEX_NODE_SIZE numbers each; those that are not used hold 0 */
    IONEX_EXPLAINED = 51   /* how many numbers there are */
};

/* Places in a node. */
enum ionex_node {
    IONEX_NODE_MAP = 0, /* counted from 1; layer, row and column from 0 */
    IONEX_NODE_LAYER = 1,
    IONEX_NODE_ROW = 2,
    IONEX_NODE_COLUMN = 3,
    IONEX_NODE_VALUE = 4,  /* thousandths of a TECU (TEC, RMS) or of a kilometre (height) */
    IONEX_NODE_WEIGHT = 5, /* positive */
    IONEX_NODE_SIZE = 6    /* how many numbers there are */
};

/* Where a number of the j-th node stands (j from 0), as explained[IONEX_NODE_AT(j, IONEX_NODE_VALUE)]. */
#define IONEX_NODE_AT(j, number) (IONEX_NODE + IONEX_NODE_SIZE * (j) + (number))

/* Places in what ionex_explain tells of a node that has no value, IONEX_LACKING numbers. */
enum ionex_lacking {
    IONEX_LACKING_MAP = 0, /* counted as in a node */
    IONEX_LACKING_LAYER = 1,
    IONEX_LACKING_ROW = 2,
    IONEX_LACKING_COLUMN = 3,
    IONEX_LACKING_CAUSE = 4, /* of enum ionex_cause */
    IONEX_LACKING = 5        /* how many numbers there are */
};

/* Why a node has no value; of two causes the first of these. */
enum ionex_cause {
    IONEX_CAUSE_MAP = 1,      /* its map does not stand */
    IONEX_CAUSE_EXPONENT = 2, /* its exponent is outside -3 to 0 */
    IONEX_CAUSE_NUMBER = 3,   /* its number is outside -9999 to 99999 */
    IONEX_CAUSE_ABSENT = 4    /* it holds IONEX_ABSENT */
};

/*
 * Asks what ionex_ask asks, and tells where the answer came from: the nodes that it needs, each with its value and its
 * weight, and the denominator that the weights add to. The answer is the sum of value times weight over the denominator,
 * rounded once. The nodes come by map, row and column; each once, and none whose weight is zero.
 *
 * The denominator is |DLAT| times DLON, both in hundredths of a degree, DLON in 1/1200 of a degree for IONEX_SUN and
 * IONEX_NEAREST_SUN; for IONEX_BETWEEN and IONEX_SUN, before the last epoch, also times the seconds between the two maps
 * around the second. It is not reduced.
 *
 *   0                    number of nodes, denominator, answer and nodes stand in front of explained; lacking is as found.
 *   22                   lacking tells of the first needed node without a value, by map, row and column, and its cause;
 *                        explained is as found.
 *   23, 31, 24, 20, 21   refused as ionex_ask refuses; both are as found.
 */
uint64_t ionex_explain(const int64_t *header, size_t header_len, /* IONEX_HEADER numbers, else 101 */
                       const uint8_t *texts, size_t texts_len,   /* IONEX_TEXTS bytes, else 102 */
                       const int32_t *tec, size_t tec_len,
                       const int32_t *rms, size_t rms_len,
                       const int32_t *height, size_t height_len,
                       const int32_t *exponents, size_t exponents_len,
                       const uint64_t *epochs, size_t epochs_len,
                       const uint8_t *marks, size_t marks_len,
                       uint64_t kind, uint64_t method, uint64_t layer,
                       int32_t lat, int32_t lon, uint64_t second,
                       int64_t *explained, size_t explained_len, /* IONEX_EXPLAINED numbers, else 103 */
                       uint64_t *lacking, size_t lacking_len);   /* IONEX_LACKING numbers, else 103 */

/* Places in the record of a delay, IONEX_RECORD numbers. */
enum ionex_delay_record {
    IONEX_CARRIER = 0, /* hertz, as it was given */
    IONEX_TECU = 1,    /* TECU */
    IONEX_METRES = 2,  /* the group delay */
    IONEX_RECORD = 3   /* how many numbers there are */
};

/*
 * Gives the group delay in metres of so many thousandths of a TECU, as ionex_ask answers for TEC and RMS, at a carrier in
 * hertz (L1 is 1575420000). In IEEE 754 double precision, each step rounded once: carrier times carrier; the thousandths
 * divided by 1000; that times 4.03e17; that divided by the product. What is given is always finite.
 *
 *   0    carrier, TECU and delay stand in front of record.
 *   25   the carrier does not compare as at least 1.0e9 and at most 2.0e9 (not-a-number never does); record is as found.
 *
 * A height has no delay: do not hand one in. ionex_delay asks for the value itself, and so cannot mistake one.
 */
uint64_t ionex_tecu_delay(int32_t thousandths, double carrier,
                          double *record, size_t record_len); /* IONEX_RECORD numbers, else 103 */

/*
 * Asks what ionex_ask asks, and gives the delay of the answer at a carrier, as ionex_tecu_delay does. Kind is TEC or RMS.
 *
 *   0                            carrier, TECU and delay stand in front of record.
 *   23, 31, 24, 20, 21, 22, 25   refused, told in this order; record is as found. IONEX_KIND_HEIGHT is 23 here.
 */
uint64_t ionex_delay(const int64_t *header, size_t header_len, /* IONEX_HEADER numbers, else 101 */
                     const uint8_t *texts, size_t texts_len,   /* IONEX_TEXTS bytes, else 102 */
                     const int32_t *tec, size_t tec_len,
                     const int32_t *rms, size_t rms_len,
                     const int32_t *height, size_t height_len,
                     const int32_t *exponents, size_t exponents_len,
                     const uint64_t *epochs, size_t epochs_len,
                     const uint8_t *marks, size_t marks_len,
                     uint64_t kind, uint64_t method, uint64_t layer,
                     int32_t lat, int32_t lon, uint64_t second, double carrier,
                     double *record, size_t record_len); /* IONEX_RECORD numbers, else 103 */

/*
 * Joins two map sets of which the earlier one's last epoch is the later one's first. The shared map comes once, from the
 * later set, with its RMS and height maps. The header is the later set's, with the earlier first epoch and n of both;
 * INTERVAL is kept where both are equal and else 0. The texts are the later set's, its DESCRIPTION lines too.
 *
 *   0            the joined set stands in front of the six areas, of header and of texts; place is as found. It is a
 *                valid map set: it can be asked, written, and joined again.
 *   31           one of the two is not a valid map set, judged as writing judges it.
 *   40, 41, 42   told in this order, after 31.
 *   11           told last; place says which area, and what it needs. It never needs more than a reading may.
 *
 * After a refusal header, texts and all six areas are as they were found, byte for byte. A kind that only the earlier
 * set's last map had is not in the joined set; where one set has no map of a kind that the other has, its maps hold
 * IONEX_ABSENT everywhere and exponent -1. Three sets come to the same in both groupings, or both are refused, though
 * the numbers may differ; the areas between must be long enough.
 */
uint64_t ionex_join(const int64_t *early_header, size_t early_header_len, /* IONEX_HEADER numbers, else 101 */
                    const uint8_t *early_texts, size_t early_texts_len,   /* IONEX_TEXTS bytes, else 102 */
                    const int32_t *early_tec, size_t early_tec_len,
                    const int32_t *early_rms, size_t early_rms_len,
                    const int32_t *early_height, size_t early_height_len,
                    const int32_t *early_exponents, size_t early_exponents_len,
                    const uint64_t *early_epochs, size_t early_epochs_len,
                    const uint8_t *early_marks, size_t early_marks_len,
                    const int64_t *late_header, size_t late_header_len, /* IONEX_HEADER numbers, else 101 */
                    const uint8_t *late_texts, size_t late_texts_len,   /* IONEX_TEXTS bytes, else 102 */
                    const int32_t *late_tec, size_t late_tec_len,
                    const int32_t *late_rms, size_t late_rms_len,
                    const int32_t *late_height, size_t late_height_len,
                    const int32_t *late_exponents, size_t late_exponents_len,
                    const uint64_t *late_epochs, size_t late_epochs_len,
                    const uint8_t *late_marks, size_t late_marks_len,
                    int32_t *tec, size_t tec_len,
                    int32_t *rms, size_t rms_len,
                    int32_t *height, size_t height_len,
                    int32_t *exponents, size_t exponents_len,
                    uint64_t *epochs, size_t epochs_len,
                    uint8_t *marks, size_t marks_len,
                    int64_t *header, size_t header_len, /* IONEX_HEADER numbers, else 101 */
                    uint8_t *texts, size_t texts_len,   /* IONEX_TEXTS bytes, else 102 */
                    uint64_t *place, size_t place_len); /* 2 numbers, else 103 */

/*
 * THE WEEK IN FIGURES: IONEX_WEEK numbers, which a caller keeps from call to call; all 0 to begin with. Figures are five
 * numbers, also those of a row: nodes with a value, nodes without, the smallest value, the largest, the sum; thousandths
 * of a TECU (TEC, RMS) or of a kilometre (height). Where no node has a value, smallest, largest and sum are 0. A mean is
 * sum and count, two whole numbers.
 */
enum ionex_week {
    IONEX_WEEK_ADDED = 0, /* how many map sets were added, 0 to IONEX_WEEK_SETS */
    IONEX_WEEK_KINDS = 1, /* the figures of TEC, RMS and height over all of them: IONEX_FIGURES numbers each */
    IONEX_WEEK = 16,      /* how many numbers there are */
    IONEX_WEEK_SETS = 100 /* how many map sets are added at most */
};

/* Places in figures. */
enum ionex_figures {
    IONEX_FIGURES_GIVEN = 0,
    IONEX_FIGURES_LACKING = 1, /* an absent map has all its nodes here */
    IONEX_FIGURES_SMALLEST = 2,
    IONEX_FIGURES_LARGEST = 3,
    IONEX_FIGURES_SUM = 4,
    IONEX_FIGURES = 5 /* how many numbers there are */
};

/* Where the figures of a kind stand in a week, and those of map i of n (from 0) in rows; of all maps of the kind: i is n. */
#define IONEX_WEEK_KIND(kind) (IONEX_WEEK_KINDS + IONEX_FIGURES * (kind))
#define IONEX_ROW(kind, i, n) (IONEX_FIGURES * ((kind) * ((n) + 1) + (i)))
#define IONEX_ROWS(n) (3 * IONEX_FIGURES * ((n) + 1)) /* how many numbers all rows are */

/*
 * Adds a map set to a week. The figures of up to IONEX_WEEK_SETS valid sets are the same whatever order they come in.
 *
 *   0            week is the week with the set; its own figures stand in front of rows, kind by kind, map by map.
 *   60, 31, 11   refused, told in this order; week and rows are as found. 31: the set is no valid map set, or the week is
 *                none (a count below 0 or above 2,000,000 for each set, a sum that so many values cannot have, a smallest
 *                above the largest, or either of them not 0 where no node has a value). 11: place[0] is 1, place[1] the
 *                numbers that rows needs.
 */
uint64_t ionex_week_add(int64_t *week, size_t week_len,           /* IONEX_WEEK numbers, else 103 */
                        const int64_t *header, size_t header_len, /* IONEX_HEADER numbers, else 101 */
                        const uint8_t *texts, size_t texts_len,   /* IONEX_TEXTS bytes, else 102 */
                        const int32_t *tec, size_t tec_len,
                        const int32_t *rms, size_t rms_len,
                        const int32_t *height, size_t height_len,
                        const int32_t *exponents, size_t exponents_len,
                        const uint64_t *epochs, size_t epochs_len,
                        const uint8_t *marks, size_t marks_len,
                        int64_t *rows, size_t rows_len,     /* IONEX_ROWS(n) numbers, else 11 */
                        uint64_t *place, size_t place_len); /* 2 numbers, else 103 */

/*
 * Moves an epoch, in seconds from 1900-01-01 00:00:00, by a number of seconds, backwards where it is negative.
 *
 *   0    moved[0] is the epoch that comes so much later.
 *   7    the epoch, or what would come of it, lies outside the years 1900 to 2199; moved is as found.
 */
uint64_t ionex_moved(uint64_t epoch, int64_t by,
                     uint64_t *moved, size_t moved_len); /* 1 number, else 103 */

/*
 * THE INDEX of a text, for who has the text and no room for areas: header and texts, and three areas.
 *
 *   area        element   needs    holds
 *   positions   uint64_t  3*n*L*R  where each block opens, in bytes from the text's start, in the order of the exponents
 *   exponents   int32_t   3*n*L*R  the exponent of each block
 *   marks       uint8_t   n        as in a map set
 *
 * A missing RMS or height map has position 0 and exponent -1.
 */

/*
 * Makes the index of a text.
 *
 *   0         the index stands in front of the three areas, of header and of texts; place is as found.
 *   1 to 10   the text is refused, as ionex_read refuses it; place says where.
 *   11        an area is too short; place is the area (1 positions, 2 exponents, 3 marks) and the elements it needs.
 *
 * After a refusal header, texts and the three areas are as they were found.
 */
uint64_t ionex_index(const uint8_t *text, size_t text_len,
                     uint64_t *positions, size_t positions_len,
                     int32_t *exponents, size_t exponents_len,
                     uint8_t *marks, size_t marks_len,
                     int64_t *header, size_t header_len, /* IONEX_HEADER numbers, else 101 */
                     uint8_t *texts, size_t texts_len,   /* IONEX_TEXTS bytes, else 102 */
                     uint64_t *place, size_t place_len); /* 2 numbers, else 103 */

/*
 * Answers for one node from a text and an index, which may be of another text, or noise: nothing is trusted, and the block
 * that the entry points at is looked at whole. An index of another file whose block of that row stands at the very
 * same bytes cannot be told from the right one.
 *
 *   map   counted from 1; layer, row and column from 0
 *
 *   0                    value[0] is the number as written, IONEX_ABSENT included, value[1] its exponent.
 *   23, 31, 21, 22, 50   refused, told in this order; value is as found. 31 looks at header, texts, lengths and marks; 22 is
 *                        for a map that is marked missing.
 */
uint64_t ionex_indexed_node(const uint8_t *text, size_t text_len,
                            const int64_t *header, size_t header_len, /* IONEX_HEADER numbers, else 101 */
                            const uint8_t *texts, size_t texts_len,   /* IONEX_TEXTS bytes, else 102 */
                            const uint64_t *positions, size_t positions_len,
                            const int32_t *exponents, size_t exponents_len,
                            const uint8_t *marks, size_t marks_len,
                            uint64_t kind, uint64_t map, uint64_t layer, uint64_t row, uint64_t column,
                            int32_t *value, size_t value_len); /* 2 numbers, else 103 */

/*
 * The lines of that node's block, from its opening to its last value line, without the last line's end: bounds[0] is where
 * they start in the text, bounds[1] how many bytes they have. Refused as ionex_indexed_node; bounds is then as found.
 */
uint64_t ionex_indexed_block(const uint8_t *text, size_t text_len,
                             const int64_t *header, size_t header_len, /* IONEX_HEADER numbers, else 101 */
                             const uint8_t *texts, size_t texts_len,   /* IONEX_TEXTS bytes, else 102 */
                             const uint64_t *positions, size_t positions_len,
                             const int32_t *exponents, size_t exponents_len,
                             const uint8_t *marks, size_t marks_len,
                             uint64_t kind, uint64_t map, uint64_t layer, uint64_t row, uint64_t column,
                             uint64_t *bounds, size_t bounds_len); /* 2 numbers, else 103 */

/* How many elements a satellite and a station take in the areas of ionex_biases. */
#define IONEX_SATELLITE_NUMBERS 4
#define IONEX_STATION_NUMBERS 3
#define IONEX_STATION_NAME 20

/*
 * Reads the code biases of a text's header, of both versions: the records PRN / BIAS / RMS and STATION / BIAS / RMS of its
 * aux blocks that are titled DIFFERENTIAL CODE BIASES. ionex_read skips them.
 *
 *   area         element   for each                              holds
 *   satellites   int32_t   satellite, IONEX_SATELLITE_NUMBERS    system ('G' or 'R'), number 1 to 99, bias, RMS
 *   stations     int32_t   station, IONEX_STATION_NUMBERS        system, bias, RMS
 *   names        uint8_t   station, IONEX_STATION_NAME           its name, printable, padded with blanks, no ending 0
 *
 * Bias and RMS are in thousandths of a nanosecond. Satellites and stations stand in the text's order each. Areas may be
 * longer than the need: the rest is not written.
 *
 *   0         counts[0] satellites and counts[1] stations stand in front of the areas; both may be 0. place is as found.
 *   1 to 10   refused; place[0] is the line and place[1] the column. What ionex_read refuses comes first; then the first
 *             line of a bias block that is at fault: 6, 7 (column 4: a letter other than G, R or blank, which is G;
 *             column 5: a number outside 1 to 99), 5 (column 61: a satellite, or a station with the same system, given
 *             before).
 *   11        place[0] is the first area too short (1 satellites, 2 stations, 3 names), place[1] the elements it needs.
 *             Told only where nothing else is wrong.
 *
 * After a refusal the areas and counts are as they were found. The text is gone over as for ionex_needs, its header once
 * or twice more, and for each station the header's lines before it: nothing is kept of earlier ones but the text.
 */
uint64_t ionex_biases(const uint8_t *text, size_t text_len,
                      int32_t *satellites, size_t satellites_len,
                      int32_t *stations, size_t stations_len,
                      uint8_t *names, size_t names_len,
                      uint64_t *counts, size_t counts_len, /* 2 numbers, else 103 */
                      uint64_t *place, size_t place_len);  /* 2 numbers, else 103 */

#ifdef __cplusplus
}
#endif

/* What an answer says in words is in ionex_words.h. */

#endif
