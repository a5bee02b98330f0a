/* How far the calls look: a line that is too long is known by its first 82 bytes, which are 80, CR and LF. The texts here
 * are said to have 5 MB, but behind those 82 bytes nothing can be read: a call that looks there is ended by the system.
 * Given an accepted text. */
#define _GNU_SOURCE
#include "ionex.h"
#include <stdio.h>
#include <string.h>
#include <sys/mman.h>

#define AREA(a) a, sizeof a / sizeof a[0]
#define INDEX AREA(header), AREA(texts), AREA(positions), AREA(exponents), AREA(marks)

enum { LENGTH = 5 << 20, FRONT = 1 << 20, LINE = 82 };

static uint8_t text[FRONT], marks[300], texts[IONEX_TEXTS], names[IONEX_STATION_NAME];
static uint64_t positions[100000], place[2], needs[IONEX_NEEDS], bounds[2], epochs[300], counts[2];
static int32_t exponents[100000], value[2], tec[1], rms[1], height[1];
static int32_t satellites[IONEX_SATELLITE_NUMBERS], stations[IONEX_STATION_NUMBERS];
static int64_t header[IONEX_HEADER];
static int failed;

static void expect(const char *name, uint64_t answer, uint64_t expected)
{
    if (answer != expected) {
        printf("%s: %d, not %d\n", name, (int)answer, (int)expected);
        failed = 1;
    }
}

/* Where a front of these bytes and a line of 82 begins, so that both end where nothing can be read. */
static uint8_t *placed(uint8_t *border, size_t front, const uint8_t *line)
{
    memcpy(border - LINE, line, LINE);
    return memcpy(border - LINE - front, text, front);
}

/* The line starts the text. */
static void at_start(uint8_t *border, const uint8_t *line)
{
    const uint8_t *t = placed(border, 0, line);
    expect("needs", ionex_needs(t, LENGTH, AREA(needs), AREA(place)), 1);
    expect("column", place[1], 81);
    expect("read", ionex_read(t, LENGTH, AREA(tec), AREA(rms), AREA(height), AREA(exponents), AREA(epochs), AREA(marks),
                              AREA(header), AREA(texts), AREA(place)), 1);
    expect("index", ionex_index(t, LENGTH, AREA(positions), AREA(exponents), AREA(marks), AREA(header), AREA(texts),
                                AREA(place)), 1);
    expect("biases", ionex_biases(t, LENGTH, AREA(satellites), AREA(stations), AREA(names), AREA(counts), AREA(place)), 1);
}

/* The line stands where the values of the first block should. */
static void in_block(uint8_t *border, size_t front, const uint8_t *line)
{
    const uint8_t *t = placed(border, front, line);
    expect("node", ionex_indexed_node(t, LENGTH, INDEX, IONEX_KIND_TEC, 1, 0, 0, 0, AREA(value)), 50);
    expect("block", ionex_indexed_block(t, LENGTH, INDEX, IONEX_KIND_TEC, 1, 0, 0, 0, AREA(bounds)), 50);
}

int main(int count, char **words)
{
    FILE *file = count == 2 ? fopen(words[1], "rb") : NULL;
    size_t length = file ? fread(text, 1, FRONT, file) : 0;
    expect("the text", ionex_index(text, length, AREA(positions), AREA(exponents), AREA(marks), AREA(header), AREA(texts),
                                   AREA(place)), 0);
    uint8_t *opening = text + positions[0];
    size_t front = (size_t)((uint8_t *)memchr(opening, '\n', length - positions[0]) + 1 - text);
    uint8_t *pages = mmap(NULL, FRONT + LENGTH, PROT_READ | PROT_WRITE, MAP_PRIVATE | MAP_ANONYMOUS, -1, 0);
    uint8_t *border = pages + FRONT;
    if (failed || pages == MAP_FAILED || mprotect(border, LENGTH, PROT_NONE) != 0) {
        puts("cannot begin");
        return 1;
    }
    /* Printable to the end; a byte that is not at the start, and before the last; CR without LF. */
    for (int k = 0; k < 4; k++) {
        uint8_t line[LINE];
        memset(line, 'x', LINE);
        line[k == 1 ? 0 : 80] = k == 0 ? 'x' : k == 3 ? '\r' : 1;
        in_block(border, front, line);
        at_start(border, line);
    }
    puts(failed ? "a call looks too far, or answers wrong" : "no call looks further than the line");
    return failed;
}
