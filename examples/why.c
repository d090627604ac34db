/* why.c: the night desk asks why one instance of a site reaches another in so many hops, or not at all, and checks what
 * it is told by its own list of links. Uses hop.h alone.
 *
 *     cc -std=c11 -Iinclude examples/why.c target/staticlib/libhop_c.a -o why
 *
 * The site: two ways lead from 0 to 7, and no link leads to 8 and 9.
 *
 *             2 --- 4
 *           /         \
 *     0 - 1             6 - 7      8 - 9
 *           \         /
 *             3 --- 5
 */
#include "hop.h"

#include <stdio.h>
#include <stdlib.h>

enum { NODES = 10 };

/* The kinds of reason, and the refusal that this program knows what to do about. */
enum { PATH = 1, SET = 2 };
enum { NOT_AT_REST = 12 };

/* The state, and its bytes, which are the caller's. */
static uint8_t *state;
static size_t size;

/* The links as the desk knows them. The checks below go by these and not by the state. */
static struct {
    size_t a, b;
    int up;
} links[] = {{0, 1, 1}, {1, 2, 1}, {1, 3, 1}, {2, 4, 1}, {3, 5, 1}, {4, 6, 1}, {5, 6, 1}, {6, 7, 1}, {8, 9, 1}};
enum { LINKS = sizeof links / sizeof links[0], CUT = 3 };

/* Every call gives a number. One that is not 0 is printed, and ends this program. */
static void must(const char *what, uint32_t code)
{
    if (code != 0) {
        fprintf(stderr, "%s: refused with %u\n", what, (unsigned)code);
        exit(EXIT_FAILURE);
    }
}

static void run_to_rest(void)
{
    hop_ran ran = hop_run(state, size, 255);
    must("run", ran.code);
    printf("at rest after %u passes, %u deliveries\n", (unsigned)ran.passes, (unsigned)ran.deliveries);
}

static int is_up(size_t a, size_t b)
{
    for (size_t k = 0; k < LINKS; k++)
        if (links[k].up && ((links[k].a == a && links[k].b == b) || (links[k].a == b && links[k].b == a)))
            return 1;
    return 0;
}

/* What the links show of a path: it leads from the node to the destination over up links. So there are no more hops
 * than its own; that there are no fewer is the core's word, which is proved. */
static int is_path(size_t node, size_t destination, const uint8_t *list, size_t count)
{
    if (count == 0 || list[0] != node || list[count - 1] != destination)
        return 0;
    for (size_t k = 1; k < count; k++)
        if (!is_up(list[k - 1], list[k]))
            return 0;
    return 1;
}

/* What the links show of a set: the node is inside, the destination is outside, and no up link has one end inside and
 * the other outside. So no path over up links leads to the destination, whoever says so. */
static int is_closed(size_t node, size_t destination, const uint8_t *list, size_t count)
{
    int inside[NODES] = {0};
    for (size_t k = 0; k < count; k++) {
        if (list[k] >= NODES)
            return 0;
        inside[list[k]] = 1;
    }
    for (size_t k = 0; k < LINKS; k++)
        if (links[k].up && inside[links[k].a] != inside[links[k].b])
            return 0;
    return inside[node] && !inside[destination];
}

static void say(const char *what, const uint8_t *list, size_t count)
{
    printf("  %s", what);
    for (size_t k = 0; k < count; k++)
        printf(" %u", (unsigned)list[k]);
    printf("\n");
}

/* What the desk's own links show. A reason that they do not show ends this program. */
static void seen(int shown, const char *what)
{
    if (!shown) {
        fprintf(stderr, "the links do not show this reason\n");
        exit(EXIT_FAILURE);
    }
    printf("  by the desk's own links %s\n", what);
}

/* Asks, and prints the reason in words. */
static void ask(size_t node, size_t destination)
{
    uint8_t list[NODES]; /* n bytes are always enough */
    hop_reason why = hop_why(state, size, node, destination, list, sizeof list);
    printf("\nfrom %zu to %zu: ", node, destination);
    if (why.code == NOT_AT_REST) {
        printf("refused with 12, an entry waits: run to rest and ask again\n");
        return;
    }
    must("why", why.code);
    switch (why.kind) {
    case PATH:
        printf("%u %s, and no path is shorter\n", (unsigned)why.count - 1, why.count == 2 ? "hop" : "hops");
        say("the path:", list, why.count);
        seen(is_path(node, destination, list, why.count), "each step is over an up link: it takes no more hops");
        break;
    case SET:
        printf("no route\n");
        say("the set:", list, why.count);
        seen(is_closed(node, destination, list, why.count), "no up link leaves it: no path leads there");
        break;
    default:
        seen(0, "");
    }
}

int main(void)
{
    size = hop_size(NODES);
    state = (uint8_t *)malloc(size);
    if (state == NULL) {
        fprintf(stderr, "no room for %zu bytes\n", size);
        return EXIT_FAILURE;
    }
    must("make", hop_make(state, size, NODES));
    for (size_t k = 0; k < LINKS; k++)
        must("up", hop_up(state, size, links[k].a, links[k].b));
    printf("a site of %d instances and %d links\n", NODES, LINKS);
    run_to_rest();
    ask(0, 7);
    ask(0, 9);
    ask(9, 0);

    must("down", hop_down(state, size, links[CUT].a, links[CUT].b));
    links[CUT].up = 0;
    printf("\nthe link between %zu and %zu is cut\n", links[CUT].a, links[CUT].b);
    ask(0, 7);
    printf("\n");
    run_to_rest();
    ask(0, 7);

    free(state);
    return 0;
}
