/* include/ionex.h against the archive: each function called from C, on tests/examples/accepted-2d-freedoms.
 * Given the text and its canonical text; says what is wrong, if anything is. */
#include "ionex.h"
#include <stdio.h>
#include <string.h>

static uint8_t text[8192], canonical[8192], out[8192], marks[2], texts[IONEX_TEXTS];
static int32_t tec[8], rms[8], height[8], exponents[12], value[1];
static uint64_t epochs[2], place[2], count[1], needs[IONEX_NEEDS];
static int64_t header[IONEX_HEADER];

#define AREA(a) a, sizeof a / sizeof a[0]
#define SET AREA(header), AREA(texts), AREA(tec), AREA(rms), AREA(height), AREA(exponents), AREA(epochs), AREA(marks)

static int wrong;

static void must(int right, const char *what)
{
    if (!right) {
        printf("wrong: %s\n", what);
        wrong = 1;
    }
}

static size_t load(const char *name, uint8_t *bytes, size_t room)
{
    FILE *file = fopen(name, "rb");
    size_t length = file ? fread(bytes, 1, room, file) : 0;
    must(length > 0, name);
    if (file)
        fclose(file);
    return length;
}

static uint64_t ask(enum ionex_kind kind)
{
    return ionex_ask(SET, kind, IONEX_BETWEEN, 0, -1000, 0, epochs[0], AREA(value));
}

static int blank(size_t from, size_t to)
{
    while (from < to && texts[from] == ' ')
        from++;
    return from == to;
}

/* A caller that was built before there were descriptions lends 44 numbers and 124 bytes: nothing is written. */
static void old_lengths(size_t length)
{
    int64_t numbers[44], numbers_before[44];
    uint8_t words[124], words_before[124];
    int32_t left[8], left_before[8];
    memset(numbers, 7, sizeof numbers);
    memset(words, 7, sizeof words);
    memset(left, 7, sizeof left);
    memcpy(numbers_before, numbers, sizeof numbers);
    memcpy(words_before, words, sizeof words);
    memcpy(left_before, left, sizeof left);
    memset(out, 7, sizeof out);
    place[0] = place[1] = count[0] = 99;
    value[0] = 99;
    must(ionex_read(text, length, AREA(left), AREA(rms), AREA(height), AREA(exponents), AREA(epochs), AREA(marks),
                    AREA(numbers), AREA(words), AREA(place)) == IONEX_SHORT_HEADER, "an old header, read");
    must(ionex_read(text, length, AREA(left), AREA(rms), AREA(height), AREA(exponents), AREA(epochs), AREA(marks),
                    AREA(header), AREA(words), AREA(place)) == IONEX_SHORT_TEXTS, "old texts, read");
    must(ionex_write(header, 44, texts, 124, AREA(tec), AREA(rms), AREA(height), AREA(exponents), AREA(epochs),
                     AREA(marks), AREA(out), AREA(count)) == IONEX_SHORT_HEADER, "an old header, written");
    must(ionex_write(AREA(header), texts, 124, AREA(tec), AREA(rms), AREA(height), AREA(exponents), AREA(epochs),
                     AREA(marks), AREA(out), AREA(count)) == IONEX_SHORT_TEXTS, "old texts, written");
    must(ionex_ask(header, 44, texts, 124, AREA(tec), AREA(rms), AREA(height), AREA(exponents), AREA(epochs), AREA(marks),
                   IONEX_KIND_TEC, IONEX_BETWEEN, 0, -1000, 0, epochs[0], AREA(value)) == IONEX_SHORT_HEADER, "asked");
    must(memcmp(numbers, numbers_before, sizeof numbers) == 0 && memcmp(words, words_before, sizeof words) == 0 &&
         memcmp(left, left_before, sizeof left) == 0, "nothing is written to old lengths");
    must(out[0] == 7 && place[0] == 99 && place[1] == 99 && count[0] == 99 && value[0] == 99, "nor anywhere else");
}

static uint64_t explain(enum ionex_kind kind, int64_t *nodes, uint64_t *lacking)
{
    return ionex_explain(SET, kind, IONEX_BETWEEN, 0, -1000, 0, epochs[0], nodes, IONEX_EXPLAINED, lacking, IONEX_LACKING);
}

/* The worked example of ionex_ask_all, as tests/run takes it from the header file. */
static uint64_t rovers(uint64_t second)
{
    size_t tec_len = 8, rms_len = 8, height_len = 8, exponents_len = 12, epochs_len = 2, marks_len = 2;
#include "rovers.h"
    return answer;
}

int main(int argc, char **argv)
{
    if (argc != 3)
        return 2;
    size_t length = load(argv[1], text, sizeof text), need = load(argv[2], canonical, sizeof canonical);

    must(ionex_read(text, length, tec, 7, AREA(rms), AREA(height), AREA(exponents), AREA(epochs), AREA(marks),
                    AREA(header), AREA(texts), AREA(place)) == IONEX_SHORT_AREA, "a short area");
    must(place[0] == 1 && place[1] == 8, "area and need");
    must(ionex_needs(text, length, AREA(needs), AREA(place)) == IONEX_DONE, "needs of a text");
    must(needs[IONEX_NEEDS_TEC] == 8 && needs[IONEX_NEEDS_RMS] == 8 && needs[IONEX_NEEDS_HEIGHT] == 8, "values");
    must(needs[IONEX_NEEDS_EXPONENTS] == 12 && needs[IONEX_NEEDS_EPOCHS] == 2, "exponents and epochs");
    must(needs[IONEX_NEEDS_MARKS] == 2 && place[0] == 1 && place[1] == 8, "marks, and place as found");
    must(ionex_needs(text, 0, AREA(needs), AREA(place)) == IONEX_CUT_SHORT && place[0] == 1, "needs of no text");
    must(ionex_read(text, length, AREA(tec), AREA(rms), AREA(height), AREA(exponents), AREA(epochs), AREA(marks),
                    AREA(header), AREA(texts), AREA(place)) == IONEX_DONE, "reading");
    must(header[IONEX_VERSION] == 11 && header[IONEX_TYPE] == 'I' && header[IONEX_CODE] == IONEX_MIX, "version, type, code");
    must(header[IONEX_FIRST_EPOCH] == 3155673599 && header[IONEX_LAST_EPOCH] == 3155673600, "epochs of the header");
    must(header[IONEX_INTERVAL] == 0 && header[IONEX_MAPS] == 2, "interval and maps");
    must(header[IONEX_CUTOFF] == 0 && header[IONEX_RADIUS] == 63710 && header[IONEX_DIMENSION] == 2, "radius");
    must(header[IONEX_HGT1] == 4500 && header[IONEX_HGT2] == 4500 && header[IONEX_DHGT] == 0, "heights");
    must(header[IONEX_LAT1] == -100 && header[IONEX_LAT2] == 0 && header[IONEX_DLAT] == 100, "latitudes");
    must(header[IONEX_LON1] == 0 && header[IONEX_LON2] == 100 && header[IONEX_DLON] == 100, "longitudes");
    must(header[IONEX_HAS_STATIONS] == 1 && header[IONEX_STATIONS] == 80, "stations");
    must(header[IONEX_HAS_SATELLITES] == 0 && header[IONEX_SATELLITES] == 0, "satellites");
    must(header[IONEX_HAS_SYSTEM(0)] == 1 && header[IONEX_SYSTEM_STATIONS(0)] == 80, "system G");
    must(header[IONEX_HAS_SYSTEM(6)] == 1 && header[IONEX_SYSTEM_SATELLITES(6)] == 2, "system S");
    must(header[IONEX_HAS_SYSTEM(1)] == 0, "system R");
    must(memcmp(texts + IONEX_PROGRAM, " p ", 3) == 0 && texts[IONEX_RUN_BY + 1] == 'a', "program and agency");
    must(texts[IONEX_DATE + 1] == 'd' && memcmp(texts + IONEX_MAPPING, "NONE", 4) == 0, "date and mapping");
    must(texts[IONEX_OBSERVABLES] == ' ' && texts[IONEX_OBSERVABLES + 59] == ' ', "observables");
    must(header[IONEX_DESCRIPTIONS] == 1 && memcmp(texts + IONEX_DESCRIPTION, "a description ", 14) == 0, "a description");
    must(blank(IONEX_DESCRIPTION_LINE(0) + 13, IONEX_DESCRIPTION_LINE(20)), "blanks behind it");
    must(IONEX_DESCRIPTION_LINE(20) == IONEX_TEXTS, "room for twenty");
    must(marks[0] == 2 && marks[1] == 1 && epochs[0] == 3155673599, "marks and epochs");
    old_lengths(length);

    must(ionex_write(SET, out, 10, AREA(count)) == IONEX_SHORT_OUTPUT && count[0] == need, "a short output");
    must(ionex_write(SET, AREA(out), AREA(count)) == IONEX_DONE && count[0] == need, "writing");
    must(memcmp(out, canonical, need) == 0, "canonical text");

    must(ask(IONEX_KIND_TEC) == IONEX_DONE && value[0] == 10, "TEC asked for");
    must(ask(IONEX_KIND_HEIGHT) == IONEX_DONE && value[0] == 50, "height asked for");
    must(ask(IONEX_KIND_RMS) == IONEX_NO_VALUE && value[0] == 50, "no RMS value");

    int32_t lats[] = {-1000, -1000, 1}, lons[] = {0, 0, 0}, many[4] = {7, 7, 7, 7};
    uint64_t seconds[] = {epochs[0], epochs[1] + 1, epochs[0]};
    uint8_t answers[5] = {77, 77, 77, 77, 77};
    must(ionex_ask_all(SET, IONEX_KIND_TEC, IONEX_BETWEEN, 0, AREA(lats), AREA(lons), AREA(seconds), AREA(answers),
                       AREA(many)) == IONEX_DONE, "many questions");
    must(answers[0] == IONEX_DONE && answers[1] == IONEX_OUTSIDE_TIME && answers[2] == IONEX_OUTSIDE_GRID, "each answer");
    must(many[0] == 10 && many[1] == 7 && many[2] == 7, "the value of each, or as found");
    must(many[3] == 7 && answers[3] == 77 && answers[4] == 77, "behind the last question");
    must(ionex_ask_all(SET, IONEX_KIND_TEC, IONEX_SUN, 0, AREA(lats), AREA(lons), AREA(seconds), AREA(answers),
                       AREA(many)) == IONEX_UNSERVED && answers[0] == IONEX_DONE, "many questions refused");
    must(rovers(epochs[0]) == IONEX_DONE, "the worked example");

    int64_t nodes[IONEX_EXPLAINED] = {7};
    uint64_t lacking[IONEX_LACKING] = {7};
    must(explain(IONEX_KIND_TEC, nodes, lacking) == IONEX_DONE && lacking[0] == 7, "TEC explained");
    must(nodes[IONEX_NODES] == 1 && nodes[IONEX_DENOMINATOR] == 1000000 && nodes[IONEX_ANSWER] == 10, "one node");
    must(nodes[IONEX_NODE_AT(0, IONEX_NODE_MAP)] == 1 && nodes[IONEX_NODE_AT(0, IONEX_NODE_LAYER)] == 0, "map and layer");
    must(nodes[IONEX_NODE_AT(0, IONEX_NODE_ROW)] == 0 && nodes[IONEX_NODE_AT(0, IONEX_NODE_COLUMN)] == 0, "row and column");
    must(nodes[IONEX_NODE_AT(0, IONEX_NODE_VALUE)] == 10 && nodes[IONEX_NODE_AT(0, IONEX_NODE_WEIGHT)] == 1000000 &&
         nodes[IONEX_NODE_AT(1, IONEX_NODE_MAP)] == 0, "value and weight, and no other node");
    must(IONEX_NODE_AT(8, 0) == IONEX_EXPLAINED, "eight nodes");
    must(explain(IONEX_KIND_RMS, nodes, lacking) == IONEX_NO_VALUE && nodes[IONEX_ANSWER] == 10, "no RMS explained");
    must(lacking[IONEX_LACKING_MAP] == 1 && lacking[IONEX_LACKING_LAYER] == 0 && lacking[IONEX_LACKING_ROW] == 0 &&
         lacking[IONEX_LACKING_COLUMN] == 0 && lacking[IONEX_LACKING_CAUSE] == IONEX_CAUSE_MAP, "because of its map");
    must(ionex_explain(SET, IONEX_KIND_TEC, IONEX_NEAREST, 0, 0, 1000, epochs[0], AREA(nodes), AREA(lacking)) ==
         IONEX_NO_VALUE && lacking[IONEX_LACKING_ROW] == 1 && lacking[IONEX_LACKING_COLUMN] == 1 &&
         lacking[IONEX_LACKING_CAUSE] == IONEX_CAUSE_ABSENT, "because of 9999");

    must(tec[3] == IONEX_ABSENT && rms[0] == IONEX_ABSENT, "no value, and no map");
    int32_t node = tec[1];
    tec[1] = 100000;
    must(ionex_write(SET, AREA(out), AREA(count)) == IONEX_NO_MAP_SET, "writing looks at every value");
    must(ask(IONEX_KIND_TEC) == IONEX_DONE && value[0] == 10, "asking looks at the needed node alone");
    tec[1] = node;
    marks[0] = 0;
    must(ask(IONEX_KIND_HEIGHT) == IONEX_NO_VALUE, "a kind without a map");
    marks[0] = 2;
    header[IONEX_SATELLITES] = 1;
    must(ionex_write(SET, AREA(out), AREA(count)) == IONEX_NO_MAP_SET, "a number without its record, written");
    must(ask(IONEX_KIND_TEC) == IONEX_NO_MAP_SET, "a number without its record, asked");
    header[IONEX_SATELLITES] = 0;
    texts[IONEX_DATE] = 127;
    must(ask(IONEX_KIND_TEC) == IONEX_NO_MAP_SET, "asking looks at the texts");
    texts[IONEX_DATE] = ' ';
    texts[IONEX_DESCRIPTION_LINE(1)] = 'x';
    must(ionex_write(SET, AREA(out), AREA(count)) == IONEX_NO_MAP_SET, "a byte behind the last description, written");
    must(ask(IONEX_KIND_TEC) == IONEX_NO_MAP_SET, "a byte behind the last description, asked");
    header[IONEX_DESCRIPTIONS] = 2;
    must(ask(IONEX_KIND_TEC) == IONEX_DONE, "a second description");
    header[IONEX_DESCRIPTIONS] = 21;
    must(ask(IONEX_KIND_TEC) == IONEX_NO_MAP_SET, "a twenty-first description");
    header[IONEX_DESCRIPTIONS] = 1;
    texts[IONEX_DESCRIPTION_LINE(1)] = ' ';

    double record[IONEX_RECORD] = {-1, -1, -1};
    must(ionex_tecu_delay(1000, 0, AREA(record)) == IONEX_UNSERVED_CARRIER && record[0] == -1, "no carrier");
    must(ionex_tecu_delay(1000, 1e9, AREA(record)) == IONEX_DONE && record[IONEX_CARRIER] == 1e9, "a delay");
    must(record[IONEX_TECU] == 1 && record[IONEX_METRES] == 0.403, "TECU and metres");
    must(ionex_delay(SET, IONEX_KIND_TEC, IONEX_BETWEEN, 0, -1000, 0, epochs[0], 1e9, AREA(record)) == IONEX_DONE &&
         record[IONEX_TECU] == 0.01, "the delay of a question");
    must(ionex_delay(SET, IONEX_KIND_HEIGHT, IONEX_BETWEEN, 0, -1000, 0, epochs[0], 1e9, AREA(record)) ==
         IONEX_UNKNOWN_CHOICE && record[IONEX_TECU] == 0.01, "a height is no delay");

    /* A set of one map after itself is that map. */
    int64_t one[IONEX_HEADER], joined[IONEX_HEADER];
    int32_t of_one[6] = {-1, -1, -1, -1, -1, -1}, values[4];
    uint8_t words[IONEX_TEXTS], mark[1], none[1] = {0};
    uint64_t second[1];
    memcpy(one, header, sizeof one);
    one[IONEX_MAPS] = 1;
    one[IONEX_LAST_EPOCH] = one[IONEX_FIRST_EPOCH];
    must(ionex_join(AREA(one), AREA(texts), AREA(tec), rms, 0, height, 0, AREA(of_one), AREA(epochs), AREA(none),
                    AREA(one), AREA(texts), AREA(tec), rms, 0, height, 0, AREA(of_one), AREA(epochs), AREA(none),
                    values, 3, values, 0, values, 0, of_one, 0, second, 0, mark, 0, AREA(joined), AREA(words),
                    AREA(place)) == IONEX_SHORT_AREA && place[0] == 1 && place[1] == 4, "a short area for joining");
    int32_t thirds[6];
    must(ionex_join(AREA(one), AREA(texts), AREA(tec), rms, 0, height, 0, AREA(of_one), AREA(epochs), AREA(none),
                    AREA(one), AREA(texts), AREA(tec), rms, 0, height, 0, AREA(of_one), AREA(epochs), AREA(none),
                    AREA(values), rms, 0, height, 0, AREA(thirds), AREA(second), AREA(mark), AREA(joined),
                    AREA(words), AREA(place)) == IONEX_DONE, "joining");
    must(memcmp(joined, one, sizeof one) == 0 && memcmp(words, texts, sizeof words) == 0, "the joined header");
    must(memcmp(values, tec, sizeof values) == 0 && second[0] == epochs[0] && mark[0] == 0, "the joined map");

    int64_t week[16] = {0}, rows[45];
    must(ionex_week_add(AREA(week), SET, rows, 44, AREA(place)) == IONEX_SHORT_AREA && place[0] == 1 && place[1] == 45,
         "short rows");
    must(ionex_week_add(AREA(week), SET, AREA(rows), AREA(place)) == IONEX_DONE && week[0] == 1, "a set into a week");
    must(rows[0] == 3 && rows[1] == 1 && rows[2] == -20 && rows[3] == 10 && rows[4] == -10, "the first TEC map");
    must(week[1] == 7 && week[2] == 1 && week[3] == -999900 && week[4] == 9999900 && week[5] == 9002290, "all TEC maps");
    must(week[6] == 4 && week[7] == 4 && week[10] == 6000 && week[11] == 4 && week[15] == 1610, "RMS and height maps");
    week[0] = 100;
    must(ionex_week_add(AREA(week), SET, AREA(rows), AREA(place)) == 60 && week[0] == 100, "a full week");

    uint64_t positions[12], bounds[2];
    int32_t found[2];
    must(ionex_index(text, length, positions, 11, AREA(exponents), AREA(marks), AREA(header), AREA(texts), AREA(place)) ==
         IONEX_SHORT_AREA && place[0] == 1 && place[1] == 12, "a short index");
    must(ionex_index(text, length, AREA(positions), AREA(exponents), AREA(marks), AREA(header), AREA(texts),
                     AREA(place)) == IONEX_DONE && positions[4] == 0 && exponents[4] == -1, "an index");
#define INDEX text, length, AREA(header), AREA(texts), AREA(positions), AREA(exponents), AREA(marks)
    must(ionex_indexed_node(INDEX, IONEX_KIND_TEC, 2, 0, 0, 1, AREA(found)) == IONEX_DONE && found[0] == 99999 &&
         found[1] == -1, "a node by the index");
    must(ionex_indexed_node(INDEX, IONEX_KIND_RMS, 1, 0, 0, 1, AREA(found)) == IONEX_NO_VALUE, "a node of no map");
    must(ionex_indexed_block(INDEX, IONEX_KIND_TEC, 2, 0, 0, 1, AREA(bounds)) == IONEX_DONE &&
         bounds[0] == positions[2] && memcmp(text + bounds[0] + 60, "LAT/LON1", 8) == 0, "a block");
    positions[2]++;
    must(ionex_indexed_block(INDEX, IONEX_KIND_TEC, 2, 0, 0, 1, AREA(bounds)) == 50 && bounds[0] + 1 == positions[2],
         "an index that is wrong");

    static const char block[] =
        "DIFFERENTIAL CODE BIASES                                    START OF AUX DATA\n"
        "    07    -1.234      .005                                  PRN / BIAS / RMS\n"
        "   R  BRUS 13101M004          12.345     0.100              STATION / BIAS / RMS\n"
        "                                                            END OF AUX DATA\n";
    static uint8_t biased[8192], names[IONEX_STATION_NAME];
    int32_t satellites[IONEX_SATELLITE_NUMBERS], stations[IONEX_STATION_NUMBERS];
    uint64_t counts[2];
    size_t version = sizeof "     1.1            IONOSPHERE MAPS     MIX                 IONEX VERSION / TYPE";
    size_t more = sizeof block - 1;
    memcpy(biased, canonical, version);
    memcpy(biased + version, block, more);
    memcpy(biased + version + more, canonical + version, need - version);
    must(ionex_biases(biased, need + more, satellites, 3, AREA(stations), AREA(names), AREA(counts), AREA(place)) ==
         IONEX_SHORT_AREA && place[0] == 1 && place[1] == 4, "too little room for a satellite");
    must(ionex_biases(biased, need + more, AREA(satellites), AREA(stations), AREA(names), AREA(counts),
                      AREA(place)) == IONEX_DONE && counts[0] == 1 && counts[1] == 1, "biases");
    must(satellites[0] == 'G' && satellites[1] == 7 && satellites[2] == -1234 && satellites[3] == 5, "a satellite");
    must(stations[0] == 'R' && stations[1] == 12345 && stations[2] == 100, "a station");
    must(memcmp(names, "BRUS 13101M004      ", 20) == 0, "its name");

    must(ionex_version() == IONEX_LIBRARY_NUMBER, "the version");
    uint64_t moved[1] = {9};
    must(ionex_moved(IONEX_UNIX_ZERO, 315964800, AREA(moved)) == IONEX_DONE && moved[0] == IONEX_GPS_ZERO, "GPS zero");
    must(ionex_moved(epochs[0], 1, AREA(moved)) == IONEX_DONE && moved[0] == epochs[1], "an epoch moved");
    must(ionex_moved(0, -1, AREA(moved)) == IONEX_OUT_OF_RANGE && moved[0] == epochs[1], "before 1900");

    return wrong;
}
