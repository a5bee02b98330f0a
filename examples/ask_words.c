/* ask FILE LAT,LON TIME OUT: reads an IONEX file, prints the TEC at a place and time, and writes the file's canonical text, as
 * ask.c does, but with the words of ionex_words.h for refusals, and a date alone is a time too.
 * Exit status: 0 done, 1 refused, 2 a word or a file is wrong. */
#include "ionex.h"
#include "ionex_words.h"
#include <ctype.h>
#include <errno.h>
#include <inttypes.h>
#include <stdio.h>
#include <stdlib.h>
#include <string.h>

/* A map set with the six areas, each with its length. */
struct maps {
    int64_t header[IONEX_HEADER];
    uint8_t texts[IONEX_TEXTS];
    int32_t *tec, *rms, *height, *exponents;
    uint64_t *epochs;
    uint8_t *marks;
    size_t tec_len, rms_len, height_len, exponents_len, epochs_len, marks_len;
};

/* The six areas, and what the calls of writing and asking are given of a map set. */
#define AREAS(m)                                                                                                     \
    (m)->tec, (m)->tec_len, (m)->rms, (m)->rms_len, (m)->height, (m)->height_len, (m)->exponents, (m)->exponents_len, \
        (m)->epochs, (m)->epochs_len, (m)->marks, (m)->marks_len
#define SET(m) (m)->header, IONEX_HEADER, (m)->texts, IONEX_TEXTS, AREAS(m)

/* Tells a refusal, with the place of a text where there is one. */
static int refused(uint64_t answer, const uint64_t *place)
{
    fprintf(stderr, "refused %" PRIu64 ": %s", answer, ionex_words(answer));
    if (place)
        fprintf(stderr, ", line %" PRIu64, place[0]);
    if (place && place[1])
        fprintf(stderr, ", column %" PRIu64, place[1]);
    fprintf(stderr, "\n");
    return 1;
}

/* Whether a word looks like a pattern, in which 0 stands for any digit. */
static int looks_like(const char *word, const char *pattern)
{
    for (; *pattern; word++, pattern++)
        if (*pattern == '0' ? !isdigit((unsigned char)*word) : *word != *pattern)
            return 0;
    return !*word;
}

/* Degrees with at most two decimals, in hundredths; *word goes on behind them. Nothing is rounded. */
static int hundredths(const char **word, int32_t *found)
{
    int sign = **word == '-' ? -1 : 1, whole = 0, decimals = 0, digits = 0;
    *word += sign < 0;
    for (; digits < 3 && isdigit((unsigned char)**word); digits++)
        whole = 10 * whole + (*(*word)++ - '0');
    int is_number = digits > 0;
    if (**word == '.') {
        for (digits = 0, (*word)++; digits < 2 && isdigit((unsigned char)**word); digits++)
            decimals += (*(*word)++ - '0') * (digits ? 1 : 10);
        is_number = is_number && digits > 0;
    }
    *found = sign * (100 * whole + decimals);
    return is_number;
}

static int place_of(const char *word, int32_t *lat, int32_t *lon)
{
    return hundredths(&word, lat) && *word++ == ',' && hundredths(&word, lon) && !*word;
}

/* The days of all years before this one, in the Gregorian calendar. */
static int days_before(int year)
{
    year--;
    return 365 * year + year / 4 - year / 100 + year / 400;
}

/* 2010-12-04T06:30:00, or 2010-12-04 for its first second, in seconds from 1900-01-01 00:00:00. */
static int second_of(const char *word, uint64_t *second)
{
    int year, month, day, hour = 0, minute = 0, sec = 0, lengths[] = {31, 28, 31, 30, 31, 30, 31, 31, 30, 31, 30, 31};
    if (!looks_like(word, "0000-00-00") && !looks_like(word, "0000-00-00T00:00:00"))
        return 0;
    sscanf(word, "%d-%d-%dT%d:%d:%d", &year, &month, &day, &hour, &minute, &sec);
    if (year < 1900 || year > 2199 || month < 1 || month > 12 || hour > 23 || minute > 59 || sec > 59)
        return 0;
    lengths[1] += days_before(year + 1) - days_before(year) - 365;
    int64_t days = days_before(year) - days_before(1900) + day - 1;
    for (int past = 1; past < month; past++)
        days += lengths[past - 1];
    *second = (uint64_t)(((days * 24 + hour) * 60 + minute) * 60 + sec);
    return day >= 1 && day <= lengths[month - 1];
}

static int file_fault(const char *name, FILE *file)
{
    fprintf(stderr, "%s: %s\n", name, strerror(errno));
    if (file)
        fclose(file);
    return 0;
}

/* An area of so many elements. At least one is made, so that no pointer is null. */
static void *area(void *old, size_t elements, size_t size)
{
    void *made = realloc(old, (elements ? elements : 1) * size);
    if (!made) {
        fprintf(stderr, "no memory for %zu elements\n", elements);
        exit(2);
    }
    return made;
}

/* All bytes of a file, however many there are. A folder can be opened, but not read. */
static int load(const char *name, uint8_t **bytes, size_t *length)
{
    FILE *file = fopen(name, "rb");
    if (!file)
        return file_fault(name, file);
    for (size_t room = 1 << 20; !feof(file) && !ferror(file); room *= 2) {
        *bytes = area(*bytes, room, 1);
        *length += fread(*bytes + *length, 1, room - *length, file);
    }
    if (ferror(file))
        return file_fault(name, file);
    fclose(file);
    return 1;
}

static int save(const char *name, const uint8_t *bytes, size_t length)
{
    FILE *file = fopen(name, "wb");
    if (!file || fwrite(bytes, 1, length, file) != length)
        return file_fault(name, file);
    return fclose(file) == 0 ? 1 : file_fault(name, NULL);
}

/* Makes areas as long as the text needs, and reads it into them. */
static int read_maps(const uint8_t *text, size_t length, struct maps *m)
{
    uint64_t needs[IONEX_NEEDS], place[2];
    uint64_t answer = ionex_needs(text, length, needs, IONEX_NEEDS, place, 2);
    if (answer != IONEX_DONE)
        return refused(answer, place);
    m->tec = area(NULL, m->tec_len = needs[IONEX_NEEDS_TEC], sizeof *m->tec);
    m->rms = area(NULL, m->rms_len = needs[IONEX_NEEDS_RMS], sizeof *m->rms);
    m->height = area(NULL, m->height_len = needs[IONEX_NEEDS_HEIGHT], sizeof *m->height);
    m->exponents = area(NULL, m->exponents_len = needs[IONEX_NEEDS_EXPONENTS], sizeof *m->exponents);
    m->epochs = area(NULL, m->epochs_len = needs[IONEX_NEEDS_EPOCHS], sizeof *m->epochs);
    m->marks = area(NULL, m->marks_len = needs[IONEX_NEEDS_MARKS], sizeof *m->marks);
    answer = ionex_read(text, length, AREAS(m), m->header, IONEX_HEADER, m->texts, IONEX_TEXTS, place, 2);
    return answer == IONEX_DONE ? 0 : refused(answer, place);
}

static int ask(const struct maps *m, int32_t lat, int32_t lon, uint64_t second)
{
    int32_t value[1];
    uint64_t answer = ionex_ask(SET(m), IONEX_KIND_TEC, IONEX_BETWEEN, 0, lat, lon, second, value, 1);
    if (answer != IONEX_DONE)
        return refused(answer, NULL);
    printf("%s%d.%03d TECU\n", value[0] < 0 ? "-" : "", abs(value[0]) / 1000, abs(value[0]) % 1000);
    return 0;
}

/* Writes the canonical text: an output of no length tells the bytes needed (30). */
static int write_maps(const struct maps *m, const char *name)
{
    uint64_t count[1] = {0};
    uint8_t *out = area(NULL, 0, 1);
    uint64_t answer = ionex_write(SET(m), out, 0, count, 1);
    if (answer == IONEX_SHORT_OUTPUT) {
        out = area(out, count[0], 1);
        answer = ionex_write(SET(m), out, count[0], count, 1);
    }
    int status = answer != IONEX_DONE ? refused(answer, NULL) : save(name, out, count[0]) ? 0 : 2;
    if (status == 0)
        printf("%" PRIu64 " bytes written\n", count[0]);
    free(out);
    return status;
}

int main(int argc, char **argv)
{
    int32_t lat, lon;
    uint64_t second;
    if (argc != 5 || !place_of(argv[2], &lat, &lon) || !second_of(argv[3], &second)) {
        fprintf(stderr, "usage: ask FILE LAT,LON TIME OUT, as: ask maps.inx 47.25,8.50 2010-12-04T06:30:00 canonical.inx\n");
        return 2;
    }
    uint8_t *text = NULL;
    size_t length = 0;
    struct maps m = {0};
    if (!load(argv[1], &text, &length))
        return 2;
    int status = read_maps(text, length, &m);
    if (status == 0)
        status = ask(&m, lat, lon, second);
    if (status == 0)
        status = write_maps(&m, argv[4]);
    free(text), free(m.tec), free(m.rms), free(m.height), free(m.exponents), free(m.epochs), free(m.marks);
    return status;
}
