/* notice.c: a cable of a ring drops, one end notices it before the other, and the tables say what comes of that until the
 * other end notices too. Uses hop.h alone.
 *
 *     cc -std=c11 -Iinclude examples/notice.c target/staticlib/libhop_c.a -o notice
 *
 * The cable between 0 and 5 drops. 0 notices it at once, 5 only later.
 *
 *     0 - 1 - 2
 *     |       |
 *     5 - 4 - 3
 */
#include "hop.h"

#include <stdio.h>
#include <stdlib.h>

enum { NODES = 6, FIRST = 0, LAST = NODES - 1 };

/* The caller owns the bytes: 1 + 4n^2 + 3n^3. */
static uint8_t state[1 + 4 * NODES * NODES + 3 * NODES * NODES * NODES];

/* Every call gives a number. One that is not 0 is printed, and ends this program. */
static void must(const char *what, uint32_t code)
{
    if (code != 0) {
        fprintf(stderr, "%s: refused with %u\n", what, (unsigned)code);
        exit(EXIT_FAILURE);
    }
}

/* a's own end of its link to b, by the state's bytes. The link is one-ended where the two ends differ. */
static int end_is_up(size_t a, size_t b)
{
    return state[1 + a * NODES + b] == 1;
}

static hop_way route(size_t node, size_t destination)
{
    hop_way way = hop_route(state, sizeof state, node, destination);
    must("route", way.code);
    return way;
}

/* Whether the way along the downstreams meets a link whose other end is down. Such ways can go round in a circle: no
 * more steps are taken than a path has. */
static int leads_over_a_dead_link(size_t node, size_t destination)
{
    for (size_t step = 0; step < NODES && node != destination; step++) {
        size_t next = route(node, destination).downstream;
        if (next == 255)
            return 0;
        if (!end_is_up(next, node))
            return 1;
        node = next;
    }
    return 0;
}

/* The hops over the cables of the ring, with the one between the first and the last or without it. */
static size_t hops(size_t u, size_t v, int with_cable)
{
    size_t along = u < v ? v - u : u - v;
    return with_cable && NODES - along < along ? NODES - along : along;
}

/* Each row is a node, each column a destination: the hops, and the neighbour to go through. */
static void print_tables(int with_cable)
{
    unsigned wrong = 0, dead = 0;
    printf("      ");
    for (size_t v = 0; v < NODES; v++)
        printf("%6zu", v);
    printf("\n");
    for (size_t u = 0; u < NODES; u++) {
        printf("%6zu", u);
        for (size_t v = 0; v < NODES; v++) {
            hop_way way = route(u, v);
            int over = leads_over_a_dead_link(u, v);
            printf("  %c%u/%u", over ? '!' : ' ', (unsigned)way.distance, (unsigned)way.downstream);
            wrong += way.distance != hops(u, v, with_cable);
            dead += (unsigned)over;
        }
        printf("\n");
    }
    printf("%u distances are wrong; %u ways lead over a dead link%s\n", wrong, dead, dead ? ", marked with !" : "");
}

static void print_one_ended(void)
{
    int found = 0;
    for (size_t a = 0; a < NODES; a++)
        for (size_t b = 0; b < NODES; b++)
            if (end_is_up(a, b) && !end_is_up(b, a)) {
                printf("the link of %zu and %zu has one end up, that of %zu\n", a, b, a);
                found = 1;
            }
    if (!found)
        printf("no link has just one end up\n");
}

static void run_to_rest(int with_cable)
{
    hop_ran ran = hop_run(state, sizeof state, 255);
    must("run", ran.code);
    printf("at rest after %u passes, %u deliveries\n", (unsigned)ran.passes, (unsigned)ran.deliveries);
    print_one_ended();
    print_tables(with_cable);
}

static void print_way(size_t node, size_t destination)
{
    hop_way way = route(node, destination);
    printf("from %zu to %zu at once: %u/%u\n", node, destination, (unsigned)way.distance, (unsigned)way.downstream);
}

static void notice(size_t noticing, size_t other)
{
    must("notice", hop_notice(state, sizeof state, noticing, other));
    hop_answer waiting = hop_total_queued(state, sizeof state);
    must("total queued", waiting.code);
    printf("\n%zu notices that its link to %zu is lost, %u entries wait\n", noticing, other, (unsigned)waiting.value);
    print_way(noticing, other);
    print_way(other, noticing);
}

static void ask_why(size_t node, size_t destination)
{
    uint8_t list[NODES]; /* n bytes are always enough */
    hop_reason why = hop_why(state, sizeof state, node, destination, list, sizeof list);
    printf("why from %zu to %zu: ", node, destination);
    if (why.code != 0) {
        printf("refused with %u\n", (unsigned)why.code);
        return;
    }
    printf("%s", why.kind == 1 ? "the path" : "no route, joined to");
    for (size_t k = 0; k < why.count; k++)
        printf(" %u", (unsigned)list[k]);
    printf("\n");
}

int main(void)
{
    must("make", hop_make(state, sizeof state, NODES));
    for (size_t u = 0; u < NODES; u++)
        must("up", hop_up(state, sizeof state, u, (u + 1) % NODES));
    printf("a ring of %d nodes\n", NODES);
    run_to_rest(1);

    /* The cable is gone. The first end knows; the last still goes by what it last heard. */
    notice(FIRST, LAST);
    run_to_rest(0);
    printf("notice again: refused with %u\n", (unsigned)hop_notice(state, sizeof state, FIRST, LAST));
    printf("link up: refused with %u\n", (unsigned)hop_up(state, sizeof state, FIRST, LAST));
    printf("delivery: refused with %u\n", (unsigned)hop_deliver(state, sizeof state, LAST, FIRST));
    ask_why(LAST, FIRST);

    /* hop_down would give this notice too, whichever end is missing. */
    notice(LAST, FIRST);
    run_to_rest(0);
    ask_why(LAST, FIRST);
    return 0;
}
