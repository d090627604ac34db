/* worth.c: a small site comes up, and a table says what each of its links is worth. Uses hop.h alone.
 *
 *     cc -std=c11 -Iinclude examples/worth.c target/staticlib/libhop_c.a -o worth
 *
 * The most precious link stands first. Links that are up come before those that are down. An up link is precious by
 * the ordered pairs that lose their route without it, and where these are as many, by the hops that the other routes
 * then take more. A down link is precious by the ordered pairs that gain a route with it, and where these are as
 * many, by the hops that it saves. Equals stand by their ends, ascending.
 *
 * The site: one link leads to 0, there are two ways to 6, and 7 has no link yet.
 *
 *             2 --- 4
 *           / |       \
 *     0 - 1   |         6      7
 *           \ |       /
 *             3 --- 5
 */
#include "hop.h"

#include <stdio.h>
#include <stdlib.h>

enum { NODES = 8, PAIRS = NODES * (NODES - 1) / 2 };

/* The numbers of a line, in their order. */
enum { A, B, PASSES, DELIVERIES, LOST, GAINED, CHANGE, NUMBERS };

static const size_t links[][2] = {{0, 1}, {1, 2}, {1, 3}, {2, 3}, {2, 4}, {3, 5}, {4, 6}, {5, 6}};
enum { LINKS = sizeof links / sizeof links[0] };

/* Every call gives a number. One that is not 0 is printed, and ends this program. */
static void must(const char *what, uint32_t code)
{
    if (code != 0) {
        fprintf(stderr, "%s: refused with %u\n", what, (unsigned)code);
        exit(EXIT_FAILURE);
    }
}

static void *room(size_t bytes)
{
    void *front = malloc(bytes);
    if (front == NULL) {
        fprintf(stderr, "no room for %zu bytes\n", bytes);
        exit(EXIT_FAILURE);
    }
    return front;
}

static void bring_up(uint8_t *state, size_t size)
{
    must("make", hop_make(state, size, NODES));
    for (size_t k = 0; k < LINKS; k++)
        must("up", hop_up(state, size, links[k][0], links[k][1]));
    hop_ran ran = hop_run(state, size, 255);
    must("run", ran.code);
    printf("a site of %d instances and %d links, at rest after %u passes, %u deliveries\n", NODES, LINKS,
           (unsigned)ran.passes, (unsigned)ran.deliveries);
}

/* Without an up link the routes between its ends are lost or longer; with another link they are gained or shorter.
   So it is where no link has just one end up, as here; beside one that has, a line may say nothing. */
static int is_up(const int32_t *line)
{
    return line[LOST] > 0 || line[CHANGE] > 0;
}

/* Pairs lost by an up link, which gains none, or gained by a down link, which loses none. */
static int32_t pairs(const int32_t *line)
{
    return line[LOST] + line[GAINED];
}

/* Hops added by an up link's going, or saved by a down link's coming. */
static int32_t hops(const int32_t *line)
{
    return line[CHANGE] < 0 ? -line[CHANGE] : line[CHANGE];
}

/* Which of two lines stands first, for qsort. What is to descend is taken the other way round. */
static int by_worth(const void *first, const void *second)
{
    const int32_t *x = first, *y = second;
    const int32_t keys[][2] = {
        {is_up(y), is_up(x)}, {pairs(y), pairs(x)}, {hops(y), hops(x)}, {x[A], y[A]}, {x[B], y[B]},
    };
    for (size_t k = 0; k < sizeof keys / sizeof keys[0]; k++)
        if (keys[k][0] != keys[k][1])
            return keys[k][0] < keys[k][1] ? -1 : 1;
    return 0;
}

static void print_table(const int32_t *lines, size_t count)
{
    printf("\nWhat each link is worth, the most precious first:\n"
           "  links that are up, by ordered pairs lost without them, then by hops added;\n"
           "  links that are down, by ordered pairs gained with them, then by hops saved.\n"
           "Passes and deliveries are those until the site is at rest again.\n\n"
           " link   now     lost  gained    hops  passes  deliveries\n");
    for (const int32_t *line = lines; line < lines + count * NUMBERS; line += NUMBERS)
        printf("%3d-%-3d %-4s %7d %7d %7d %7d %11d\n", (int)line[A], (int)line[B], is_up(line) ? "up" : "down",
               (int)line[LOST], (int)line[GAINED], (int)line[CHANGE], (int)line[PASSES], (int)line[DELIVERIES]);
}

int main(void)
{
    /* The state, a second buffer of its size for the trials, and the list: all three are the caller's. */
    size_t size = hop_size(NODES);
    uint8_t *state = room(size), *trial = room(size);
    int32_t *lines = room(PAIRS * NUMBERS * sizeof *lines);

    bring_up(state, size);
    hop_answer worth = hop_worth(state, size, trial, size, lines, PAIRS * NUMBERS);
    must("worth", worth.code);
    qsort(lines, worth.value, NUMBERS * sizeof *lines, by_worth);
    print_table(lines, worth.value);

    free(lines);
    free(trial);
    free(state);
    return 0;
}
