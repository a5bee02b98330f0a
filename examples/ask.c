/* ask FILE LAT,LON TIME OUT: reads an IONEX file, prints the TEC at a place and time, and writes the file's canonical text.
 * Exit status: 0 done, 1 refused, 2 a word or a file is wrong. */
#include "ionex.h"
#include <ctype.h>
#include <errno.h>
#include <inttypes.h>
#include <stdio.h>
#include <stdlib.h>
#include <string.h>

/* A map set with the six areas, each with its length. */
struct maps {
    int64_t header[IONEX_HEADER];
    uint8_t texts[IONEX_TEXTS];
    int32_t *tec, *rms, *height, *exponents;
    uint64_t *epochs;
    uint8_t *marks;
    size_t tec_len, rms_len, height_len, exponents_len, epochs_len, marks_len;
};

/* What the calls of writing and asking are given of a map set. */
#define SET(m)                                                                                                       \
    (m)->header, IONEX_HEADER, (m)->texts, IONEX_TEXTS, (m)->tec, (m)->tec_len, (m)->rms, (m)->rms_len, (m)->height, \
        (m)->height_len, (m)->exponents, (m)->exponents_len, (m)->epochs, (m)->epochs_len, (m)->marks, (m)->marks_len

/* ---- refusals in words ---- */

static const char *words(enum ionex_answer answer)
{
    switch (answer) {
    case IONEX_DONE: return "done";
    case IONEX_LONG_LINE: return "a line of more than 80 bytes";
    case IONEX_BAD_BYTE: return "a byte that is not printable ASCII";
    case IONEX_NOT_IONEX: return "no version record first, or a version, type or code that is not accepted";
    case IONEX_UNKNOWN_LABEL: return "an unknown label";
    case IONEX_MISPLACED: return "a record where it may not stand, or once too often";
    case IONEX_ILL_FORMED: return "a field that is ill-formed, or a byte where blanks belong";
    case IONEX_OUT_OF_RANGE: return "a value outside what is accepted";
    case IONEX_DISAGREES: return "a value that disagrees with the header or an earlier record";
    case IONEX_MISSING: return "a header record, block or map is missing at an END record";
    case IONEX_CUT_SHORT: return "the text ends before END OF FILE";
    case IONEX_SHORT_AREA: return "an area is too short";
    case IONEX_OUTSIDE_TIME: return "the time lies before the first or after the last map";
    case IONEX_OUTSIDE_GRID: return "the place or the layer lies outside the grid";
    case IONEX_NO_VALUE: return "a node that the answer needs has no value";
    case IONEX_UNKNOWN_CHOICE: return "an unknown kind or method";
    case IONEX_UNSERVED: return "maps that cannot be turned with the Sun";
    case IONEX_SHORT_OUTPUT: return "the output is too short";
    case IONEX_NO_MAP_SET: return "not a valid map set";
    case IONEX_SHORT_HEADER: return "fewer numbers than a header has";
    case IONEX_SHORT_TEXTS: return "fewer bytes than the texts have";
    case IONEX_SHORT_RESULT: return "no room for the result";
    default: return "a refusal of another call";
    }
}

/* Tells a refusal, with the place of a text where there is one. */
static int refused(uint64_t answer, const uint64_t *place)
{
    fprintf(stderr, "refused %" PRIu64 ": %s", answer, words((enum ionex_answer)answer));
    if (place)
        fprintf(stderr, ", line %" PRIu64, place[0]);
    if (place && place[1])
        fprintf(stderr, ", column %" PRIu64, place[1]);
    fprintf(stderr, "\n");
    return 1;
}

/* ---- places and times as people write them ---- */

/* Reads digits from *word on, at most `most` of them; -1 where there are none. */
static int64_t digits(const char **word, int most)
{
    int64_t number = 0;
    int count = 0;
    for (; count < most && isdigit((unsigned char)**word); count++)
        number = 10 * number + (*(*word)++ - '0');
    return count ? number : -1;
}

/* Degrees with at most two decimals, in hundredths: more decimals are no number, and nothing is rounded. */
static int hundredths(const char **word, int32_t *found)
{
    int negative = **word == '-';
    *word += negative;
    int64_t whole = digits(word, 3), tenths = 0, hundredth = 0;
    if (**word == '.') {
        (*word)++;
        tenths = digits(word, 1);
        hundredth = isdigit((unsigned char)**word) ? digits(word, 1) : 0;
    }
    int64_t number = 100 * whole + 10 * tenths + hundredth;
    *found = (int32_t)(negative ? -number : number);
    return whole >= 0 && tenths >= 0;
}

static int place_of(const char *word, int32_t *lat, int32_t *lon)
{
    return hundredths(&word, lat) && *word++ == ',' && hundredths(&word, lon) && !*word;
}

/* Reads a number of so many digits from *word on, and the mark behind it. */
static int part(const char **word, int width, char mark, int64_t *number)
{
    const char *start = *word;
    *number = digits(word, width);
    if (*word - start != width || **word != mark)
        return 0;
    *word += mark != 0;
    return 1;
}

/* The days of all years before this one, in the Gregorian calendar. */
static int64_t days_before(int64_t year)
{
    year--;
    return 365 * year + year / 4 - year / 100 + year / 400;
}

/* 2010-12-04T06:30:00, in seconds from 1900-01-01 00:00:00. */
static int second_of(const char *word, uint64_t *second)
{
    int64_t year, month, day, hour, minute, sec;
    if (!part(&word, 4, '-', &year) || !part(&word, 2, '-', &month) || !part(&word, 2, 'T', &day) ||
        !part(&word, 2, ':', &hour) || !part(&word, 2, ':', &minute) || !part(&word, 2, 0, &sec))
        return 0;
    int lengths[] = {31, 28, 31, 30, 31, 30, 31, 31, 30, 31, 30, 31};
    lengths[1] += days_before(year + 1) - days_before(year) - 365;
    if (year < 1900 || year > 2199 || month < 1 || month > 12 || day < 1 || day > lengths[month - 1] || hour > 23 ||
        minute > 59 || sec > 59)
        return 0;
    int64_t days = days_before(year) - days_before(1900) + day - 1;
    for (int64_t past = 1; past < month; past++)
        days += lengths[past - 1];
    *second = (uint64_t)(((days * 24 + hour) * 60 + minute) * 60 + sec);
    return 1;
}

/* ---- files ---- */

static int file_fault(const char *name, FILE *file)
{
    fprintf(stderr, "%s: %s\n", name, strerror(errno));
    if (file)
        fclose(file);
    return 0;
}

/* All bytes of a file, however many there are. A folder can be opened, but not read. */
static int load(const char *name, uint8_t **bytes, size_t *length)
{
    FILE *file = fopen(name, "rb");
    if (!file)
        return file_fault(name, file);
    size_t room = 1 << 20;
    *bytes = malloc(room);
    *length = 0;
    while (*bytes) {
        *length += fread(*bytes + *length, 1, room - *length, file);
        if (*length < room)
            break;
        uint8_t *more = realloc(*bytes, room *= 2);
        if (!more)
            free(*bytes);
        *bytes = more;
    }
    if (!*bytes || ferror(file))
        return file_fault(name, file);
    fclose(file);
    return 1;
}

static int save(const char *name, const uint8_t *bytes, size_t length)
{
    FILE *file = fopen(name, "wb");
    if (!file || fwrite(bytes, 1, length, file) != length)
        return file_fault(name, file);
    return fclose(file) == 0 ? 1 : file_fault(name, NULL);
}

/* ---- the three calls ---- */

/* An area of so many elements. At least one is made, so that no pointer is null. */
static void *area(size_t elements, size_t size)
{
    void *made = calloc(elements ? elements : 1, size);
    if (!made) {
        fprintf(stderr, "no memory for %zu elements\n", elements);
        exit(2);
    }
    return made;
}

/* Makes areas as long as the text needs, and reads it into them. */
static int read_maps(const uint8_t *text, size_t length, struct maps *m)
{
    uint64_t needs[IONEX_NEEDS], place[2];
    uint64_t answer = ionex_needs(text, length, needs, IONEX_NEEDS, place, 2);
    if (answer != IONEX_DONE)
        return refused(answer, place);
    m->tec = area(m->tec_len = needs[IONEX_NEEDS_TEC], sizeof *m->tec);
    m->rms = area(m->rms_len = needs[IONEX_NEEDS_RMS], sizeof *m->rms);
    m->height = area(m->height_len = needs[IONEX_NEEDS_HEIGHT], sizeof *m->height);
    m->exponents = area(m->exponents_len = needs[IONEX_NEEDS_EXPONENTS], sizeof *m->exponents);
    m->epochs = area(m->epochs_len = needs[IONEX_NEEDS_EPOCHS], sizeof *m->epochs);
    m->marks = area(m->marks_len = needs[IONEX_NEEDS_MARKS], sizeof *m->marks);
    answer = ionex_read(text, length, m->tec, m->tec_len, m->rms, m->rms_len, m->height, m->height_len, m->exponents,
                        m->exponents_len, m->epochs, m->epochs_len, m->marks, m->marks_len, m->header, IONEX_HEADER,
                        m->texts, IONEX_TEXTS, place, 2);
    return answer == IONEX_DONE ? 0 : refused(answer, place);
}

static int ask(const struct maps *m, int32_t lat, int32_t lon, uint64_t second)
{
    int32_t value[1];
    uint64_t answer = ionex_ask(SET(m), IONEX_KIND_TEC, IONEX_BETWEEN, 0, lat, lon, second, value, 1);
    if (answer != IONEX_DONE)
        return refused(answer, NULL);
    printf("%s%d.%03d TECU\n", value[0] < 0 ? "-" : "", abs(value[0]) / 1000, abs(value[0]) % 1000);
    return 0;
}

/* Writes the canonical text: an output of no length tells the bytes needed (30). */
static int write_maps(const struct maps *m, const char *name)
{
    uint64_t count[1] = {0};
    uint8_t *out = area(0, 1);
    uint64_t answer = ionex_write(SET(m), out, 0, count, 1);
    if (answer == IONEX_SHORT_OUTPUT) {
        free(out);
        out = area(count[0], 1);
        answer = ionex_write(SET(m), out, count[0], count, 1);
    }
    int status = answer != IONEX_DONE ? refused(answer, NULL) : save(name, out, count[0]) ? 0 : 2;
    if (status == 0)
        printf("%" PRIu64 " bytes written\n", count[0]);
    free(out);
    return status;
}

int main(int argc, char **argv)
{
    int32_t lat, lon;
    uint64_t second;
    if (argc != 5 || !place_of(argv[2], &lat, &lon) || !second_of(argv[3], &second)) {
        fprintf(stderr, "usage: ask FILE LAT,LON TIME OUT, as: ask maps.inx 47.25,8.50 2010-12-04T06:30:00 canonical.inx\n");
        return 2;
    }
    uint8_t *text = NULL;
    size_t length = 0;
    if (!load(argv[1], &text, &length))
        return 2;
    struct maps m = {0};
    int status = read_maps(text, length, &m);
    free(text);
    if (status == 0)
        status = ask(&m, lat, lon, second);
    if (status == 0)
        status = write_maps(&m, argv[4]);
    free(m.tec), free(m.rms), free(m.height), free(m.exponents), free(m.epochs), free(m.marks);
    return status;
}
