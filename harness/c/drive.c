/* drive.c: the calls from C through hop.h, on buffers of exact size from malloc, for valgrind and the sanitizers.
 * Uses hop.h and the C library. Memory is left as malloc gives it wherever no byte may be read: a make in it, the
 * bytes behind a state, an output, a trial, a list. What the answers should be is the comparison's matter; here a
 * few are looked at.
 */
#include "hop.h"

#include <stdio.h>
#include <stdlib.h>
#include <string.h>

static unsigned long calls;

static void must(int holds, const char *what, int line)
{
    calls++;
    if (!holds) {
        fprintf(stderr, "line %d: %s does not hold\n", line, what);
        exit(EXIT_FAILURE);
    }
}
#define MUST(holds) must((holds), #holds, __LINE__)

/* A small generator: the same numbers each time. */
static uint64_t word = 88172645463325252u;
static size_t below(size_t limit)
{
    word ^= word << 13;
    word ^= word >> 7;
    word ^= word << 17;
    return (size_t)(word % limit);
}

static uint8_t *room(size_t size)
{
    uint8_t *bytes = malloc(size ? size : 1);
    if (bytes == NULL)
        exit(EXIT_FAILURE);
    return bytes;
}

/* A route's number and both of its answers. */
static int is_way(hop_way way, uint32_t code, size_t distance, size_t downstream)
{
    return way.code == code && way.distance == distance && way.downstream == downstream;
}

/* No bytes at all, also by no pointer. */
static void nothing(void)
{
    size_t place = 0;
    hop_event event;
    MUST(hop_make(NULL, 0, 1) == 2);
    MUST(hop_make(NULL, 0, 41) == 1);
    MUST(hop_check(NULL, 0) == 2);
    MUST(hop_up(NULL, 0, 0, 1) == 2);
    MUST(hop_down(NULL, 0, 0, 1) == 2);
    MUST(hop_notice(NULL, 0, 0, 1) == 2);
    MUST(hop_deliver(NULL, 0, 0, 1) == 2);
    MUST(hop_pass(NULL, 0).code == 2);
    MUST(hop_run(NULL, 0, 255).code == 2);
    MUST(is_way(hop_route(NULL, 0, 0, 0), 2, 0, 0));
    MUST(hop_queue_length(NULL, 0, 0, 1).code == 2);
    MUST(hop_total_queued(NULL, 0).code == 2);
    MUST(hop_status(NULL, 0, 0, NULL, 0).code == 2);
    MUST(hop_worth(NULL, 0, NULL, 0, NULL, 0).code == 2);
    MUST(hop_why(NULL, 0, 0, 0, NULL, 0).code == 2);
    MUST(hop_write_event(19, 0, 0, NULL, 0).code == 2);
    MUST(hop_write_event(20, 0, 0, NULL, 0).code == 2);
    MUST(hop_write_event(21, 0, 0, NULL, 0).code == 10);
    event = hop_read_event(NULL, 0, &place);
    MUST(event.code == 0 && event.kind == 0 && place == 0);
    place = 1;
    MUST(hop_read_event(NULL, 0, &place).code == 9 && place == 1);
}

/* Buffers that are too short: only the first byte of one may be read. */
static void short_buffers(size_t n)
{
    size_t size = hop_size(n);
    size_t lengths[3] = {1, 1 + below(size), size - 1};
    for (size_t k = 0; k < 3; k++) {
        size_t length = lengths[k] < size ? lengths[k] : size - 1;
        uint8_t *state = room(length);
        MUST(hop_make(state, length, n) == 2);
        state[0] = (uint8_t)n;
        MUST(hop_check(state, length) == 2);
        MUST(hop_up(state, length, 0, 1) == 2);
        MUST(hop_notice(state, length, 0, 1) == 2);
        MUST(hop_pass(state, length).code == 2);
        MUST(is_way(hop_route(state, length, 0, 0), 2, 0, 0));
        MUST(hop_worth(state, length, NULL, 0, NULL, 0).code == 2);
        MUST(hop_why(state, length, 0, 0, NULL, 0).code == 2);
        state[0] = 41;
        MUST(hop_check(state, length) == 1);
        MUST(hop_notice(state, length, 0, 1) == 1);
        MUST(is_way(hop_route(state, length, 0, 0), 1, 0, 0));
        MUST(hop_worth(state, length, NULL, 0, NULL, 0).code == 1);
        MUST(hop_why(state, length, 0, 0, NULL, 0).code == 1);
        free(state);
    }
}

static void questions(const uint8_t *state, size_t length, size_t n)
{
    size_t u = below(n), v = below(n);
    hop_way way = hop_route(state, length, u, v);
    MUST(way.code == 0 && (way.distance < n ? way.downstream < n : is_way(way, 0, n, 255)));
    MUST(is_way(hop_route(state, length, u, u), 0, 0, u));
    MUST(is_way(hop_route(state, length, n, v), 4, 0, 0) && is_way(hop_route(state, length, u, (size_t)-1), 4, 0, 0));
    MUST(hop_queue_length(state, length, u, v).code == (u == v ? 5u : 0u));
    MUST(hop_total_queued(state, length).value <= n * n * (n - 1));
    uint8_t *record = room(14);
    hop_answer status = hop_status(state, length, u, record, 14);
    MUST(status.code == 0 && status.value == 14 && record[0] == 12 && record[4] == u);
    MUST(hop_status(state, length, u, record, 13).code == 2);
    free(record);
}

/* Whether a's end of its link to b is up. */
static int end_up(const uint8_t *state, size_t n, size_t a, size_t b)
{
    return state[1 + a * n + b];
}

/* Pairs of which one end is up. */
static size_t one_ended(const uint8_t *state, size_t n)
{
    size_t count = 0;
    for (size_t a = 0; a < n; a++) {
        for (size_t b = a + 1; b < n; b++)
            count += end_up(state, n, a, b) != end_up(state, n, b, a);
    }
    return count;
}

/* Each line is its pair's, and a pair of which one end is up has none. A link that is up is taken away and gains nothing;
 * one that is down is put up and loses nothing. */
static int in_order(const uint8_t *state, size_t n, const int32_t *line)
{
    for (size_t a = 0; a < n; a++) {
        for (size_t b = a + 1; b < n; b++) {
            int is_up = end_up(state, n, a, b);
            if (is_up != end_up(state, n, b, a))
                continue;
            if ((size_t)line[0] != a || (size_t)line[1] != b || line[2] > (int32_t)n || line[3] < line[2])
                return 0;
            if (is_up ? line[5] != 0 || line[6] < 0 : line[4] != 0 || line[6] > 0)
                return 0;
            line += 7;
        }
    }
    return 1;
}

/* The worth of a state of n nodes, in a trial and a list of so many bytes and numbers that nobody has written. */
static hop_answer worth(const uint8_t *state, size_t length, size_t n, size_t trial_len, size_t lines_len)
{
    uint8_t *trial = room(trial_len);
    int32_t *lines = (int32_t *)(void *)room(lines_len * sizeof *lines);
    hop_answer answer = hop_worth(state, length, trial, trial_len, lines, lines_len);
    if (answer.code == 0)
        MUST(memcmp(trial, state, hop_size(n)) == 0 && in_order(state, n, lines));
    free(trial);
    free(lines);
    return answer;
}

/* What each link of a site at rest is worth: in buffers of exact size, in longer ones, and in short ones. */
static void worths(const uint8_t *state, size_t length, size_t n)
{
    size_t size = hop_size(n), pairs = n * (n - 1) / 2 - one_ended(state, n);
    hop_answer answer = worth(state, length, n, size, 7 * pairs);
    MUST(answer.code == 0 && answer.value == pairs);
    MUST(worth(state, length, n, size - 1, 7 * pairs).code == 2);
    if (pairs > 0)
        MUST(worth(state, length, n, size, 7 * pairs - 1).code == 2);
    if (n <= 12)
        MUST(worth(state, length, n, size + n, 7 * pairs + n).value == pairs);
}

/* A path: its ends, and at each step a link with both ends up, which the route goes by with the hops that are left. */
static int is_path(const uint8_t *state, size_t n, size_t node, size_t destination, const uint8_t *list, size_t count)
{
    for (size_t k = 0; k + 1 < count; k++) {
        if (list[k] >= n || list[k + 1] >= n)
            return 0;
        if (!end_up(state, n, list[k], list[k + 1]) || !end_up(state, n, list[k + 1], list[k]))
            return 0;
        if (!is_way(hop_route(state, hop_size(n), list[k], destination), 0, count - 1 - k, list[k + 1]))
            return 0;
    }
    return count > 0 && list[0] == node && list[count - 1] == destination;
}

/* A set: ascending, the node in it and the destination not, and no up link from inside to outside. */
static int is_set(const uint8_t *state, size_t n, size_t node, size_t destination, const uint8_t *list, size_t count)
{
    uint8_t inside[40] = {0};
    for (size_t k = 0; k < count; k++) {
        if (list[k] >= n || (k > 0 && list[k - 1] >= list[k]))
            return 0;
        inside[list[k]] = 1;
    }
    for (size_t a = 0; a < n; a++) {
        for (size_t b = 0; b < n; b++) {
            if (inside[a] && !inside[b] && end_up(state, n, a, b))
                return 0;
        }
    }
    return inside[node] && !inside[destination];
}

/* The reason of a pair, in a list of so many bytes that nobody has written. */
static hop_reason why(const uint8_t *state, size_t length, size_t node, size_t destination, size_t list_len)
{
    uint8_t *list = room(list_len);
    hop_reason reason = hop_why(state, length, node, destination, list, list_len);
    if (reason.code != 0)
        MUST(reason.kind == 0 && reason.count == 0);
    else if (reason.kind == 1)
        MUST(is_path(state, state[0], node, destination, list, reason.count));
    else
        MUST(reason.kind == 2 && is_set(state, state[0], node, destination, list, reason.count));
    free(list);
    return reason;
}

/* The reasons of some pairs of a site at rest: in lists that would do for any, in exact ones, and in short ones. */
static void whys(const uint8_t *state, size_t length, size_t n)
{
    for (int k = 0; k < 8; k++) {
        size_t u = below(n), v = k == 0 ? u : below(n);
        hop_reason reason = why(state, length, u, v, n);
        MUST(reason.code == 0 && 1 <= reason.count && reason.count <= n);
        MUST(why(state, length, u, v, reason.count).count == reason.count);
        MUST(why(state, length, u, v, reason.count + n).kind == reason.kind);
        MUST(why(state, length, u, v, reason.count - 1).code == 2);
        MUST(why(state, length, u, v, 0).code == 2);
        MUST(why(state, length, n, v, 0).code == 4 && why(state, length, u, (size_t)-1, n).code == 4);
    }
    MUST(hop_why(state, length, 0, 0, NULL, 0).code == 2);
}

/* A run to rest takes at most n passes. */
static void to_rest(uint8_t *state, size_t length, size_t n)
{
    hop_ran ran = hop_run(state, length, 255);
    MUST(ran.code == 0 && ran.passes <= n);
    MUST(hop_total_queued(state, length).value == 0);
    MUST(hop_check(state, length) == 0);
}

/* Gives the notices that are missing: link down where one end is up. Nothing else is left to notice then. */
static void missing(uint8_t *state, size_t length, size_t n)
{
    for (size_t a = 0; a < n; a++) {
        for (size_t b = a + 1; b < n; b++) {
            if (end_up(state, n, a, b) == end_up(state, n, b, a))
                continue;
            MUST(hop_up(state, length, a, b) == 13);
            MUST(hop_deliver(state, length, a, b) == 7 && hop_deliver(state, length, b, a) == 7);
            MUST(hop_down(state, length, a, b) == 0);
            MUST(hop_notice(state, length, a, b) == 7 && hop_notice(state, length, b, a) == 7);
        }
    }
    MUST(one_ended(state, n) == 0);
}

/* Random events in a buffer with bytes behind the state that nobody has written. */
static void events(size_t n, size_t behind, int steps)
{
    size_t length = hop_size(n) + behind;
    uint8_t *state = room(length);
    MUST(hop_make(state, length, n) == 0);
    for (int k = 0; k < steps; k++) {
        size_t a = below(n), b = below(n);
        uint32_t code;
        switch (below(7)) {
        case 0:
        case 1:
            code = hop_up(state, length, a, b);
            MUST(code == 0 || code == 5 || code == 6 || code == 13);
            break;
        case 2:
            code = hop_down(state, length, a, b);
            MUST(code == 0 || code == 5 || code == 7);
            break;
        case 3:
            code = hop_notice(state, length, a, b);
            MUST(code == 0 || code == 5 || code == 7);
            break;
        case 4:
            code = hop_deliver(state, length, a, b);
            MUST(code == 0 || code == 5 || code == 7 || code == 8);
            break;
        case 5: {
            uint32_t waiting = hop_total_queued(state, length).value;
            MUST(hop_pass(state, length).value == waiting);
            break;
        }
        default:
            MUST(hop_run(state, length, (uint8_t)below(3)).code == 0);
        }
        questions(state, length, n);
    }
    if (hop_total_queued(state, length).value > 0)
        MUST(worth(state, length, n, hop_size(n), 7 * n * n).code == 12 && why(state, length, 0, n - 1, n).code == 12);
    to_rest(state, length, n);
    /* All trials of all large sites would take long; one of them is enough. */
    if (n <= 16 || n == 40)
        worths(state, length, n);
    if (one_ended(state, n) > 0) {
        MUST(why(state, length, 0, n - 1, n).code == 13 && why(state, length, 0, 0, 0).code == 13);
        missing(state, length, n);
        to_rest(state, length, n);
    }
    whys(state, length, n);
    state[1] = 2;
    MUST(hop_check(state, length) == 3);
    MUST(hop_run(state, length, 255).code == 3);
    MUST(hop_notice(state, length, n, n) == 3);
    MUST(is_way(hop_route(state, length, n, n), 3, 0, 0));
    MUST(worth(state, length, n, 0, 0).code == 3);
    MUST(why(state, length, n, n, 0).code == 3);
    free(state);
}

/* Records of exact length, whole and cut. */
static void records(void)
{
    static const size_t bytes[6] = {6, 8, 8, 8, 4, 8};
    for (uint32_t kind = 15; kind <= 20; kind++) {
        size_t length = bytes[kind - 15];
        uint8_t *record = room(length);
        hop_answer written = hop_write_event(kind, 0x0102, 0xfffe, record, length);
        MUST(written.code == 0 && written.value == length);
        MUST(hop_write_event(kind, 1, 2, record, length - 1).code == 2);
        size_t place = 0;
        hop_event event = hop_read_event(record, length, &place);
        MUST(event.code == 0 && event.kind == kind && place == length);
        MUST(event.first == (kind == 19 ? 0u : 0x0102u));
        MUST(event.second == (kind == 15 || kind == 19 ? 0u : 0xfffeu));
        for (size_t cut = 1; cut < length; cut++) {
            uint8_t *part = room(cut);
            memcpy(part, record, cut);
            place = 0;
            MUST(hop_read_event(part, cut, &place).code == 9 && place == 0);
            free(part);
        }
        free(record);
    }
}

int main(int count, char **words)
{
    /* The first word says how many events each state goes through. */
    int steps = count > 1 ? atoi(words[1]) : 40;
    nothing();
    records();
    for (size_t n = 1; n <= 40; n++) {
        short_buffers(n);
        events(n, n % 3 == 0 ? 0 : n, n <= 12 ? steps : 1 + steps / 10);
    }
    printf("%lu calls from C, all as the header says\n", calls);
    return 0;
}
