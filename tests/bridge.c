/* Calls the library for a harness that cannot link it, because its machine does not run x86-64 code: reads one call
 * after another from standard input and answers each on standard output. src/bridge.rs is the other end.
 *
 * A call is a struct call, then its areas. What goes back is the function's answer, then the areas that were lent, as
 * the call left them. -D READ, NEEDS, WRITE, ASK, ASK_ALL, EXPLAIN, TECU_DELAY, DELAY, MOVED, JOIN, WEEK_ADD, INDEX, INDEXED_NODE,
 * INDEXED_BLOCK or BIASES: the archive has this function. */
#include "ionex.h"
#include <stdio.h>
#include <stdlib.h>
#include <string.h>

enum { AREAS = 25, NUMBERS = 7 };

/* src/bridge.rs has the same numbers. */
enum function {
    FUNCTION_READ,
    FUNCTION_WRITE,
    FUNCTION_ASK,
    FUNCTION_MOVED,
    FUNCTION_NEEDS,
    FUNCTION_TECU_DELAY,
    FUNCTION_DELAY,
    FUNCTION_JOIN,
    FUNCTION_WEEK_ADD,
    FUNCTION_INDEX,
    FUNCTION_INDEXED_NODE,
    FUNCTION_INDEXED_BLOCK,
    FUNCTION_BIASES,
    FUNCTION_EXPLAIN,
    FUNCTION_ASK_ALL
};

struct area {
    uint64_t length; /* in elements, as the library is told */
    uint64_t bytes;  /* with the guard behind it, a multiple of 8 */
};

struct call {
    uint64_t function;
    uint64_t number[NUMBERS]; /* what is given by value */
    uint64_t given;           /* how many areas are only read; they come first */
    struct area area[AREAS];  /* of no bytes where a function has fewer */
};

/* The k-th number; the k-th area as two arguments, and the first six or eight areas. */
#define N(k) call->number[k]
#define AREA(k) at[k], call->area[k].length
#define SIX AREA(0), AREA(1), AREA(2), AREA(3), AREA(4), AREA(5)
#define EIGHT SIX, AREA(6), AREA(7)
#define NEXT_EIGHT AREA(8), AREA(9), AREA(10), AREA(11), AREA(12), AREA(13), AREA(14), AREA(15)
#define LAST_NINE AREA(16), AREA(17), AREA(18), AREA(19), AREA(20), AREA(21), AREA(22), AREA(23), AREA(24)

/* A number of a call that is a double's bits. */
static inline double real(uint64_t bits)
{
    double number;
    memcpy(&number, &bits, sizeof number);
    return number;
}

static uint64_t answer(const struct call *call, void *const *at)
{
    switch (call->function) {
#ifdef READ
    case FUNCTION_READ:
        return ionex_read(EIGHT, AREA(8), AREA(9));
#endif
#ifdef WRITE
    case FUNCTION_WRITE:
        return ionex_write(EIGHT, AREA(8), AREA(9));
#endif
#ifdef ASK
    case FUNCTION_ASK:
        return ionex_ask(EIGHT, N(0), N(1), N(2), (int32_t)N(3), (int32_t)N(4), N(5), AREA(8));
#endif
#ifdef MOVED
    case FUNCTION_MOVED:
        return ionex_moved(N(0), (int64_t)N(1), AREA(0));
#endif
#ifdef NEEDS
    case FUNCTION_NEEDS:
        return ionex_needs(AREA(0), AREA(1), AREA(2));
#endif
#ifdef TECU_DELAY
    case FUNCTION_TECU_DELAY:
        return ionex_tecu_delay((int32_t)N(0), real(N(1)), AREA(0));
#endif
#ifdef DELAY
    case FUNCTION_DELAY:
        return ionex_delay(EIGHT, N(0), N(1), N(2), (int32_t)N(3), (int32_t)N(4), N(5), real(N(6)), AREA(8));
#endif
#ifdef JOIN
    case FUNCTION_JOIN:
        return ionex_join(EIGHT, NEXT_EIGHT, LAST_NINE);
#endif
#ifdef WEEK_ADD
    case FUNCTION_WEEK_ADD:
        return ionex_week_add(AREA(8), EIGHT, AREA(9), AREA(10));
#endif
#ifdef INDEX
    case FUNCTION_INDEX:
        return ionex_index(AREA(0), AREA(1), AREA(2), AREA(3), AREA(4), AREA(5), AREA(6));
#endif
#ifdef INDEXED_NODE
    case FUNCTION_INDEXED_NODE:
        return ionex_indexed_node(SIX, N(0), N(1), N(2), N(3), N(4), AREA(6));
#endif
#ifdef INDEXED_BLOCK
    case FUNCTION_INDEXED_BLOCK:
        return ionex_indexed_block(SIX, N(0), N(1), N(2), N(3), N(4), AREA(6));
#endif
#ifdef BIASES
    case FUNCTION_BIASES:
        return ionex_biases(SIX);
#endif
#ifdef EXPLAIN
    case FUNCTION_EXPLAIN:
        return ionex_explain(EIGHT, N(0), N(1), N(2), (int32_t)N(3), (int32_t)N(4), N(5), AREA(8), AREA(9));
#endif
#ifdef ASK_ALL
    case FUNCTION_ASK_ALL:
        return ionex_ask_all(EIGHT, N(0), N(1), N(2), AREA(8), AREA(9), AREA(10), AREA(11), AREA(12));
#endif
    default:
        fprintf(stderr, "bridge: no function %d\n", (int)call->function);
        exit(1);
    }
}

/* Receives the areas of a call, makes it and sends what goes back; whether all of that went well. */
static int serve(const struct call *call)
{
    size_t start[AREAS + 1] = {0};
    for (int k = 0; k < AREAS; k++)
        start[k + 1] = start[k] + call->area[k].bytes;
    size_t all = start[AREAS], given = start[call->given];

    char *areas = malloc(all);
    if (!areas || fread(areas, 1, all, stdin) != all)
        return 0;
    void *at[AREAS];
    for (int k = 0; k < AREAS; k++)
        at[k] = areas + start[k];
    uint64_t number = answer(call, at);
    int sent = fwrite(&number, sizeof number, 1, stdout) == 1 &&
               fwrite(areas + given, 1, all - given, stdout) == all - given && fflush(stdout) == 0;
    free(areas);
    return sent;
}

int main(void)
{
    struct call call;
    while (fread(&call, sizeof call, 1, stdin) == 1)
        if (!serve(&call))
            return 1;
    return 0;
}
