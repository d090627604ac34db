/* ring.c: a ring of eight nodes comes up, a link is cut, and it comes to rest again. Uses hop.h alone.
 *
 *     cc -std=c11 -Iinclude examples/ring.c target/staticlib/libhop_c.a -o ring
 */
#include "hop.h"

#include <stdio.h>
#include <stdlib.h>

enum { NODES = 8 };

/* The caller owns the bytes: here they are static, and nothing is allocated. 1 + 4n^2 + 3n^3. */
static uint8_t state[1 + 4 * NODES * NODES + 3 * NODES * NODES * NODES];

/* Every call gives a number, and this program has no use for a refusal. */
static void must(const char *what, uint32_t code)
{
    if (code != 0) {
        fprintf(stderr, "%s: refused with %u\n", what, (unsigned)code);
        exit(EXIT_FAILURE);
    }
}

static void run_to_rest(void)
{
    hop_ran ran = hop_run(state, sizeof state, 255);
    must("run", ran.code);
    printf("at rest after %u passes, %u deliveries\n", (unsigned)ran.passes, (unsigned)ran.deliveries);
}

/* Each row is a node, each column a destination: the hops, and the neighbour to go through. */
static void print_tables(void)
{
    printf("      ");
    for (size_t v = 0; v < NODES; v++)
        printf("%6zu", v);
    printf("\n");
    for (size_t u = 0; u < NODES; u++) {
        printf("%6zu", u);
        for (size_t v = 0; v < NODES; v++) {
            hop_way way = hop_route(state, sizeof state, u, v);
            must("route", way.code);
            if (way.downstream == 255)
                printf("   -/-");
            else
                printf("%4u/%u", (unsigned)way.distance, (unsigned)way.downstream);
        }
        printf("\n");
    }
}

int main(void)
{
    must("make", hop_make(state, sizeof state, NODES));
    for (size_t u = 0; u < NODES; u++)
        must("up", hop_up(state, sizeof state, u, (u + 1) % NODES));
    hop_answer waiting = hop_total_queued(state, sizeof state);
    must("total queued", waiting.code);
    printf("a ring of %d nodes, %u entries wait\n", NODES, (unsigned)waiting.value);
    run_to_rest();
    print_tables();

    must("down", hop_down(state, sizeof state, 0, NODES - 1));
    printf("\nthe link between 0 and %d is cut\n", NODES - 1);
    run_to_rest();
    print_tables();
    return 0;
}
