/* How much stack the calls take, against what include/ionex.h says: each is run on a stack that was painted before. Given
 * texts; those that are accepted are given to the other calls too. */
#define _GNU_SOURCE
#include "ionex.h"
#include <stdio.h>
#include <stdlib.h>
#include <string.h>
#include <ucontext.h>

#define AREA(a) a, sizeof a / sizeof a[0]
#define SET AREA(header), AREA(texts), AREA(tec), AREA(rms), AREA(height), AREA(exponents), AREA(epochs), AREA(marks)
#define PAINT 0xA5

static int32_t tec[2000000], rms[2000000], height[2000000], exponents[6000000], value[2];
static int32_t tec2[2000000], rms2[2000000], height2[2000000], exponents2[6000000];
static uint64_t epochs[300], epochs2[300], place[2], needs[IONEX_NEEDS], count[1], moved[1], positions[6000000], method;
static uint8_t text[1 << 24], out[1 << 24], marks[300], marks2[300], texts[IONEX_TEXTS], texts2[IONEX_TEXTS];
static int64_t header[IONEX_HEADER], header2[IONEX_HEADER], week[IONEX_WEEK], figures[15 * 301];
enum { MANY = 100 };
static int32_t lats[MANY], lons[MANY], values[MANY];
static uint64_t seconds[MANY];
static uint8_t answers[MANY];
static int64_t explained[IONEX_EXPLAINED];
static uint64_t lacking[IONEX_LACKING];
static double record[IONEX_RECORD];
static int32_t satellites[198 * IONEX_SATELLITE_NUMBERS], stations[8192 * IONEX_STATION_NUMBERS];
static uint8_t names[8192 * IONEX_STATION_NAME];
static uint64_t counts[2];
static size_t length;
static uint64_t answer;

static uint8_t stack[1 << 18];
static ucontext_t back, there;

static void reading(void)
{
    answer = ionex_read(text, length, AREA(tec), AREA(rms), AREA(height), AREA(exponents), AREA(epochs), AREA(marks),
                        AREA(header), AREA(texts), AREA(place));
}

static void needing(void) { ionex_needs(text, length, AREA(needs), AREA(place)); }

static void writing(void) { ionex_write(SET, AREA(out), AREA(count)); }

static void asking(void)
{
    int32_t lat = (int32_t)(10 * header[IONEX_LAT1] + 3 * header[IONEX_DLAT]);
    int32_t lon = (int32_t)(10 * header[IONEX_LON1] + 3 * header[IONEX_DLON]);
    ionex_ask(SET, IONEX_KIND_TEC, method, 0, lat, lon, epochs[0] + 1, AREA(value));
}

static void asking_many(void)
{
    for (int k = 0; k < MANY; k++) {
        lats[k] = (int32_t)(10 * header[IONEX_LAT1] + k * header[IONEX_DLAT]);
        lons[k] = (int32_t)(10 * header[IONEX_LON1] + k * header[IONEX_DLON]);
        seconds[k] = epochs[0] + (uint64_t)k;
    }
    ionex_ask_all(SET, IONEX_KIND_TEC, method, 0, AREA(lats), AREA(lons), AREA(seconds), AREA(answers), AREA(values));
}

static void explaining(void)
{
    int32_t lat = (int32_t)(10 * header[IONEX_LAT1] + 3 * header[IONEX_DLAT]);
    int32_t lon = (int32_t)(10 * header[IONEX_LON1] + 3 * header[IONEX_DLON]);
    ionex_explain(SET, IONEX_KIND_TEC, method, 0, lat, lon, epochs[0] + 1, AREA(explained), AREA(lacking));
}

static void delaying(void)
{
    int32_t lat = (int32_t)(10 * header[IONEX_LAT1]);
    int32_t lon = (int32_t)(10 * header[IONEX_LON1]);
    ionex_delay(SET, IONEX_KIND_TEC, method, 0, lat, lon, epochs[0], 1.5e9, AREA(record));
}

static void multiplying(void) { ionex_tecu_delay(1000, 1.5e9, AREA(record)); }

/* With itself: a set of one map meets itself. */
static void joining(void)
{
    ionex_join(SET, SET, AREA(tec2), AREA(rms2), AREA(height2), AREA(exponents2), AREA(epochs2), AREA(marks2),
               AREA(header2), AREA(texts2), AREA(place));
}

static void adding(void)
{
    memset(week, 0, sizeof week);
    ionex_week_add(AREA(week), SET, AREA(figures), AREA(place));
}

static void indexing(void)
{
    ionex_index(text, length, AREA(positions), AREA(exponents2), AREA(marks2), AREA(header2), AREA(texts2), AREA(place));
}

static void pointing(void)
{
    ionex_indexed_node(text, length, AREA(header2), AREA(texts2), AREA(positions), AREA(exponents2), AREA(marks2),
                       IONEX_KIND_TEC, 1, 0, 0, 0, AREA(value));
}

static void blocking(void)
{
    uint64_t bounds[2];
    ionex_indexed_block(text, length, AREA(header2), AREA(texts2), AREA(positions), AREA(exponents2), AREA(marks2),
                        IONEX_KIND_TEC, 1, 0, 0, 0, AREA(bounds));
}

static void biasing(void)
{
    ionex_biases(text, length, AREA(satellites), AREA(stations), AREA(names), AREA(counts), AREA(place));
}

static void moving(void) { ionex_moved(epochs[0], 1, AREA(moved)); }
static void nothing(void) {}

/* The bytes of stack that a call changed. */
static size_t taken(void (*call)(void))
{
    memset(stack, PAINT, sizeof stack);
    getcontext(&there);
    there.uc_stack.ss_sp = stack;
    there.uc_stack.ss_size = sizeof stack;
    there.uc_link = &back;
    makecontext(&there, call, 0);
    swapcontext(&back, &there);
    size_t clean = 0;
    while (clean < sizeof stack && stack[clean] == PAINT)
        clean++;
    return sizeof stack - clean;
}

/* Each call, less than how much stack the header file tells, and the most that it took. Those of a text come first: the
 * others are given what reading left. */
static struct {
    const char *name;
    void (*call)(void);
    size_t allowed, most;
} calls[] = {
    {"needs", needing, 16384, 0},
    {"biases", biasing, 16384, 0},
    {"reading", reading, 16384, 0},
    {"the index", indexing, 16384, 0},
    {"a node", pointing, 4096, 0},
    {"a block", blocking, 4096, 0},
    {"writing", writing, 4096, 0},
    {"asking", asking, 4096, 0},
    {"asking many", asking_many, 4096, 0},
    {"explaining", explaining, 4096, 0},
    {"delay", delaying, 4096, 0},
    {"delay of TECU", multiplying, 4096, 0},
    {"joining", joining, 4096, 0},
    {"the week", adding, 4096, 0},
    {"moving", moving, 4096, 0},
};
enum { CALLS = sizeof calls / sizeof calls[0], OF_A_TEXT = 3 };

/* The most that a call took, less what an empty one takes. */
static void judge(int k)
{
    size_t bytes = taken(calls[k].call) - taken(nothing);
    if (bytes > calls[k].most)
        calls[k].most = bytes;
}

int main(int argc, char **argv)
{
    int accepted = 0, wrong = 0;
    /* Found by the loader at their first call, which takes stack of its own. */
    memcpy(out, text, (size_t)argc);
    for (int i = 1; i < argc; i++) {
        FILE *file = fopen(argv[i], "rb");
        length = file ? fread(text, 1, sizeof text, file) : 0;
        if (!file || fclose(file) != 0)
            return 2;
        for (int k = 0; k < OF_A_TEXT; k++)
            judge(k);
        if (answer != IONEX_DONE)
            continue;
        accepted++;
        for (method = 0; method <= 4; method++)
            for (int k = OF_A_TEXT; k < CALLS; k++)
                judge(k);
    }
    for (int k = 0; k < CALLS; k++) {
        int over = calls[k].most >= calls[k].allowed;
        printf("%s took %zu bytes of stack at most%s\n", calls[k].name, calls[k].most, over ? ": more than is told" : "");
        wrong |= over;
    }
    return wrong || !accepted;
}
