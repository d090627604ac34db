/* hop.h: the hop-route core for C and C++. Link libhop_c.a; it needs memcpy and memset from the C library and nothing else.
 *
 * The core keeps a small network of n nodes (0 to n-1, n from 1 to 40): links that are up or down, one
 * queue of announcements in each direction of a link, and for each node and destination a distance in
 * hops and the downstream neighbour on the way there. Links are brought up and down, or one end of a link
 * notices that it is lost before the other does; entries are delivered one at a time, in passes, or in runs
 * of passes until no queue holds any. From any sound state, and without link events, rest comes within n
 * passes; distances are then true hop counts, unless a link has just one end up.
 * For a state at rest one call tries every link out in a second buffer, and says what each is worth; and
 * another says why a node reaches a destination in so many hops, or not at all.
 *
 * THE STATE is a buffer of bytes that the caller owns: hop_size(n) bytes at its front, which can be kept
 * in a file or handed on as they are. Bytes of the buffer after these are never read or written. Every
 * call on a state first checks all of it, so that a stray write by somebody else is answered with 3 and
 * never followed.
 *
 * LINKS WITH ONE END UP. Each end of a link is up or down by itself. The link is whole where both ends are up,
 * and one-ended where one is: hop_notice takes one end down, as one machine sees the cable drop before the
 * other does. Entries wait on whole links only. On a one-ended link what the end still up would send is dropped,
 * and until its own notice it goes by what it last heard there. So a route, of any node, may lead over the dead
 * link, at rest too. What holds with one-ended links and without: n passes bring rest, and never do more than
 * n^2 (n-1) entries wait. What holds only where there is none: distances and downstreams are right at rest.
 * The byte of the state at 1 + a n + b is a's own end of the link to b, 1 up and 0 down, and that at 1 + b n + a
 * is b's: a link is one-ended where the two differ. hop_down gives the notice that is missing.
 *
 * ANSWERS. Each call gives one of these numbers. Any other than 0 is a refusal: every other answer is then
 * 0, and no byte of any buffer, nor number of any list, has changed.
 *
 *    0  done
 *    1  the node count (asked for, or the state's first byte) is not 1 to 40
 *    2  a buffer is shorter than needed
 *    3  the state is not sound
 *    4  a node or destination number is not below n
 *    5  both ends are one node
 *    6  link up asked where both ends are up
 *    7  link down asked where both ends are down, a notice where its own end is, a delivery where either is
 *    8  delivery from an empty queue
 *    9  a record is cut short
 *   10  its kind is unknown
 *   11  its length is not that of its kind
 *   12  the state is not at rest: an entry waits
 *   13  one end is still up: of the link that is asked up, or, where why is asked, of any link of the state
 *
 * WHAT IS JUDGED FIRST. Where several refusals apply, a call on a state gives the first of: 2 for an empty
 * buffer, 1, 2 for a buffer that is shorter than hop_size of its first byte, 3, 4, 5, 6 or 7, 8, 12, and last
 * 2 for an output, a trial or a list that is too short. 13 of hop_up stands where 6 does, that of hop_why after
 * 12. At each call below its refusals stand in this order; 'the state's own' are 2, 1, 2, 3 as just said.
 *
 * POINTERS AND LENGTHS. A length may be anything, 0 too; the pointer must be valid for so many bytes, or for
 * so many numbers of a list. Nodes, destinations, node counts and places are full size_t, so that no number
 * is cut down on its way in: 65,537 is refused and not taken for 1. A state and an output must not overlap,
 * nor may any two of a state, a trial and a list, nor may a place lie inside the bytes that are read. A list
 * of numbers is aligned as int32_t is. The core relies on all this and cannot check it.
 *
 * No function allocates, blocks, prints, keeps anything between calls, or calls another library. Calls on
 * different buffers may run at the same time. Nobody may write to a buffer while a call works on it: calls on one
 * buffer that change it run alone, and those that do not may share it.
 *
 *     #include "hop.h"
 *
 *     uint8_t state[41];                                     // hop_size(2)
 *     hop_make(state, sizeof state, 2);
 *     hop_up(state, sizeof state, 0, 1);
 *     hop_ran ran = hop_run(state, sizeof state, 255);       // ran.passes is 2, ran.deliveries is 5
 *     hop_way way = hop_route(state, sizeof state, 0, 1);    // way.code is 0, way.distance 1, way.downstream 1
 *
 * CHANGES, for callers who upgrade, by change request. A program that still names a call that went does not link.
 *
 *    R-1  came: hop_worth, and refusal 12.
 *    R-3  came: hop_why.
 *    R-4  came: hop_route; went: hop_distance, hop_downstream. Where a program asked both, it asks once now:
 *             hop_way way = hop_route(s, len, u, v);
 *         way.code is the code of both, way.distance the value of the first, way.downstream that of the second.
 *    R-5  came: hop_notice, record kind 20, and refusal 13. Without a notice no link is ever one-ended, and every call
 *         on such a state answers as it did. What changed where one may be:
 *             link bytes    that at 1 + a n + b is a's own end, and b's, at 1 + b n + a, can differ: whoever takes them
 *                           for symmetric looks at both now
 *             hop_check     a state whose ends differ can be sound; it was refused with 3
 *             hop_up        13 where one end is up
 *             hop_down      there it gives the notice that is missing; 7 only where both ends are down
 *             hop_deliver   7 where one end is up
 *             hop_route     right at rest only where no link is one-ended
 *             hop_worth     a one-ended pair has no line: count lines by value and not by n(n-1)/2, and find a pair by
 *                           its two numbers and not by its place
 *             hop_why       13, after 12
 *             records       hop_read_event gives kind 20, which was refused with 10
 */
#ifndef HOP_H
#define HOP_H

#include <stddef.h>
#include <stdint.h>

#ifdef __cplusplus
extern "C" {
#endif

/* A number, and one answer. The answer is 0 where the number is not. */
typedef struct {
    uint32_t code, value;
} hop_answer;

/* What a run did. Both counts are 0 where the number is not. */
typedef struct {
    uint32_t code, passes, deliveries;
} hop_ran;

/* A way to a destination: its hops, and the neighbour to send through. Both are 0 where the number is not. */
typedef struct {
    uint32_t code, distance, downstream;
} hop_way;

/* An event that was read. kind is 0 at the plain end (code 0) and where the record is refused. */
typedef struct {
    uint32_t code, kind, first, second;
} hop_event;

/* A reason that was written: its kind, 1 a path and 2 a set, and its bytes. Both are 0 where the number is not. */
typedef struct {
    uint32_t code, kind, count;
} hop_reason;

/* ------------------------------------------------------------------ making and checking a state */

/* The bytes that a state of n nodes takes, 1 + 4n^2 + 3n^3; 0 unless n is 1 to 40. Never refuses.
 *
 *     hop_size(1) is 8, hop_size(2) is 41, hop_size(27) is 61966, hop_size(40) is 198401, hop_size(41) is 0
 */
size_t hop_size(size_t n);

/* Makes a fresh state of n nodes: no links, every queue empty, distance n and downstream 255 (none) but for a
 * node to itself, 0 and itself. Reads no byte of the buffer, whatever stood there. Writes hop_size(n) bytes.
 *
 * Refuses: 1 if n is not 1 to 40; 2 if len is below hop_size(n).
 *
 *     uint8_t *state = malloc(hop_size(40));
 *     if (state) hop_make(state, hop_size(40), 40);          // 0
 *     hop_make(state, 40, 2);                                // 2: 41 are needed
 */
uint32_t hop_make(uint8_t *state, size_t len, size_t n);

/* Says whether the buffer holds a sound state. Changes nothing.
 *
 * Sound means all of these. Link bytes are 0 or 1, and 0 from a node to itself; the two ends of a link may differ. Each
 * distance and downstream is what the node finds from what it last heard over its own ends that are up. What was heard
 * is at most n, and n over an end that is down. Where not both ends of a link are up, both its queues are empty. In a
 * queue of a whole link each destination is a node and waits once, with the sender's present distance; of one that does
 * not wait the receiver has heard that distance. Places of a queue behind its length are 0.
 *
 * Refuses: the state's own (2 empty, 1, 2 short, 3 not sound).
 *
 *     if (hop_check(state, len) == 3) puts("damaged");
 */
uint32_t hop_check(const uint8_t *state, size_t len);

/* ------------------------------------------------------------------ events */

/* Brings the link between a and b up, where both its ends are down. Each end puts all n destinations, ascending,
 * with its own distances, into its queue to the other. No distance changes yet. Up a b and up b a are the same.
 *
 * Refuses: the state's own; 4; 5; 6 if both ends are up; 13 if one is: the other has given its notice, and hop_down
 * gives the one that is missing.
 *
 *     hop_up(state, len, 0, 1);                              // 0
 *     hop_up(state, len, 1, 0);                              // 6
 *     hop_up(state, len, 1, 1);                              // 5
 */
uint32_t hop_up(uint8_t *state, size_t len, size_t a, size_t b);

/* Takes the link between a and b down: gives whatever notices are missing, as hop_notice does, that of the
 * lower-numbered end first. Where both ends are up both queues are emptied, both ends forget what they heard on the
 * link and recompute every destination, and changed distances are queued on their other links, as if both had seen
 * it at one moment. Where one end is up it gives that end's notice. Down a b and down b a are the same.
 *
 * Refuses: the state's own; 4; 5; 7 if both ends are down.
 *
 *     hop_down(state, len, 0, 1);                            // 0
 *     hop_down(state, len, 0, 1);                            // 7
 */
uint32_t hop_down(uint8_t *state, size_t len, size_t a, size_t b);

/* One end of a link notices that it is lost. Both queues of the link are emptied. The noticing end is down; it forgets
 * what it heard on the link and recomputes every destination, ascending, and changed distances are queued on its other
 * links, as far as these are whole. The other end stays up, with what it last heard on the link, until its own notice:
 * hop_notice with the two exchanged, or hop_down. Meanwhile what it sends on this link is dropped, and nothing can be
 * delivered on it.
 *
 * Refuses: the state's own; 4; 5; 7 if the noticing end is down: its notice is given already, or the link was never up.
 *
 *     // with 3 nodes and the links 0-1 and 1-2, at rest:
 *     hop_notice(state, len, 1, 2);                          // 0: 1 has no route to 2; 2 has not noticed yet
 *     hop_notice(state, len, 1, 2);                          // 7
 *     hop_route(state, len, 2, 0);                           // .code 0, .distance 2, .downstream 1: over the dead link
 *     hop_up(state, len, 1, 2);                              // 13
 *     hop_notice(state, len, 2, 1);                          // 0: both ends are down; hop_down would have done it too
 */
uint32_t hop_notice(uint8_t *state, size_t len, size_t noticing, size_t other);

/* Delivers the head entry of the queue from one node to another. The receiver recomputes that destination
 * and, if its distance to it changed, queues the new one on each of its links that is whole.
 *
 * Refuses: the state's own; 4; 5; 7 unless both ends of the link are up; 8 if the queue is empty.
 *
 *     while (hop_deliver(state, len, 0, 1) == 0) {}          // until it gives 8
 */
uint32_t hop_deliver(uint8_t *state, size_t len, size_t from, size_t to);

/* Makes one pass: queues in ascending order of sender, then receiver, and each gives up as many entries as it
 * held when the pass began. value: the entries delivered, which is the total queued before it; 0 at rest.
 *
 * Refuses: the state's own.
 *
 *     hop_answer pass = hop_pass(state, len);                // pass.code is 0, pass.value entries were delivered
 */
hop_answer hop_pass(uint8_t *state, size_t len);

/* Makes passes until every queue is empty or as many as the allowance (0 to 255) are made. passes: those made;
 * deliveries: the entries delivered in them. n passes always bring rest, with one-ended links too, so that 40 are
 * enough for any state.
 *
 * Refuses: the state's own.
 *
 *     hop_ran ran = hop_run(state, len, 40);                 // at rest; ran.passes is at most 40
 *     hop_run(state, len, 0);                                // checks the state and does nothing
 */
hop_ran hop_run(uint8_t *state, size_t len, uint8_t allowance);

/* ------------------------------------------------------------------ questions: none changes the state */

/* What a node has for a destination: how many hops away it is, and the neighbour to send through. Both are of one state
 * as it stood at one moment, and the state is checked once for both.
 *
 *     destination         distance    downstream
 *     the node itself     0           the node itself
 *     with a route        1 to n-1    the neighbour to send through, the lowest-numbered of the nearest
 *     with none           n           255
 *
 * n and 255 always come together: either says that no route is known. Before rest the two are what the node believes:
 * where it has a route to another node, that neighbour has said one hop less, which can be out of date. At rest
 * distances are true hop counts, n where no path leads there, and the neighbour is one hop nearer, provided that no
 * link of the state is one-ended. Where one is, a route may lead over the dead link, at rest too: at the end that is
 * still up, and so at any node that goes by what this end says. It is then worth what a route before rest is worth.
 *
 * Refuses: the state's own; 4 (both answers are then 0, and not n and 255: look at code first).
 *
 *     hop_way way = hop_route(state, len, 0, 3);
 *     if (way.code == 0 && way.distance > 0 && way.downstream != 255)  // 0 hops: it is here
 *         printf("%u hops by way of %u\n", (unsigned)way.distance, (unsigned)way.downstream);
 *     // with 4 nodes and the links 0-1, 0-2, 1-3 and 2-3, at rest: 2 hops by way of 1
 */
hop_way hop_route(const uint8_t *state, size_t len, size_t node, size_t destination);

/* How many entries wait in the queue from one node to another. value: 0 to n; 0 unless both ends are up.
 *
 * Refuses: the state's own; 4; 5.
 *
 *     hop_queue_length(state, len, 0, 1).value               // n after hop_up(state, len, 0, 1)
 */
hop_answer hop_queue_length(const uint8_t *state, size_t len, size_t from, size_t to);

/* How many entries wait in the whole state. value: 0 at rest; at most n^2 (n-1), 62,400 with 40 nodes.
 *
 * Refuses: the state's own.
 *
 *     int at_rest = hop_total_queued(state, len).value == 0; // also 0 where the state is refused: see code
 */
hop_answer hop_total_queued(const uint8_t *state, size_t len);

/* ------------------------------------------------------------------ what each link is worth */

/* Tries out, for a state at rest and for every pair of nodes a < b, what their link is worth: a link that is up is
 * taken down, one that is down is put up, and the trial is run to rest. A pair whose link is one-ended is left out. The
 * state is only read, but for as long as the call takes: of a state that others write to, ask on a copy.
 *
 * The trials are made in a second buffer, trial, which is the caller's as well and needs as many bytes as the state's
 * form, hop_size(n). What stands in it before does not matter. It ends as a copy of the state's form; its bytes after
 * that stay as they were.
 *
 * lines gets seven numbers for each pair that is not one-ended, ascending by a and then by b. n(n-1)/2 lines are
 * always enough, and exactly so many are written where no link is one-ended; each that is makes it one fewer. So a
 * lines_len, which counts numbers and not bytes, of 7 n(n-1)/2 fits every state of n nodes: 21 for 3 nodes, 5,460 for
 * 40, and 0 for one. Numbers of the list after the lines stay as they were. value: the lines written.
 *
 *     at   number       what                                                                      bounds
 *     0    a            the lower-numbered end                                                    0 to n-2
 *     1    b            the other end                                                             a+1 to n-1
 *     2    passes       passes of the run that brought the trial to rest                          0 to n
 *     3    deliveries   entries delivered in them                                                 0 to n^3 (n-1)
 *     4    lost         ordered pairs with a route before, a distance below n, and none after     0 to n^2
 *     5    gained       ordered pairs with a route after and none before                          0 to n^2
 *     6    change       hops after minus hops before, over ordered pairs with a route both times  -n^3 to n^3
 *
 * With 40 nodes these are at most 40 passes, 2,496,000 deliveries, 1,600 pairs and 64,000 hops either way. The change
 * is below 0 where routes got shorter. Taking a link away gains nothing and its change is at least 0; adding one
 * loses nothing and its change is at most 0.
 *
 * Where no link of the state is one-ended, exactly one of the last three is not 0, and tells what was tried: lost, or a
 * change above 0, that the link is up; gained, or a change below 0, that it is down. Where one is, the trial of another
 * pair has it too, and its line counts routes as the tables say them before and after, those over the dead link among
 * them: lost and change, or gained and change, can then both be other than 0, and where what was last heard there is
 * nobody's distance all three can be 0.
 *
 * Refuses: the state's own; 12 if an entry waits (bring the state to rest first, or a copy of it: hop_run); 2 if
 * trial_len is below the state's hop_size(n), or lines_len below seven numbers for each line.
 *
 *     int32_t lines[21];                                     // 7 numbers for each of the 3 pairs of 3 nodes
 *     uint8_t trial[118];                                    // hop_size(3)
 *     hop_answer worth = hop_worth(state, len, trial, sizeof trial, lines, sizeof lines / sizeof lines[0]);
 *     // with the links 0-1 and 1-2, at rest: .code 0, .value 3; the line of the pair 0, 2, which begins at
 *     // lines[7], is 0 2 2 9 0 0 -2: adding it makes two routes a hop shorter, after 2 passes and 9 deliveries
 */
hop_answer hop_worth(const uint8_t *state, size_t len, uint8_t *trial, size_t trial_len, int32_t *lines,
                     size_t lines_len);

/* ------------------------------------------------------------------ why so many hops, or none at all */

/* Says, for a state at rest, why a node reaches a destination in so many hops, or why not at all. The reason is written
 * to the front of the list, a byte for each node that it names. The state is only read.
 *
 *     kind   the bytes are                                                                        count
 *     1      a path: from the node to the destination along the downstreams, both ends included   1 to n: its hops + 1
 *     2      a set: the nodes that up links join to the node, itself included, ascending          1 to n-1
 *
 * There is a path exactly where the node has a route to the destination, a distance below n. Each node of it but the
 * first is the downstream of the one before, and one hop nearer to the destination; so its hops are the distance, and
 * no path over up links is shorter. A node is its own path to itself, one byte. Where there is no route the destination
 * is outside the set, and no up link leaves it. An up link is up at both ends: while any link is one-ended no reason is
 * given.
 *
 * A list of n bytes is always enough, and one of 40 for every state. Bytes of the list after the reason stay as they
 * were. count: the bytes written.
 *
 * WHAT CAN BE CHECKED. Whoever holds the links need not take the core's word for a set. That the node is in it, the
 * destination is not, and no up link has one end inside and the other outside can be seen from the links, and is all
 * that it takes: no path over up links gets out. Of a path the links show that it is one: it begins at the node, ends
 * at the destination, and each step goes over an up link. So there are no more hops than its own. That there are no
 * fewer is the core's proved word, or what a search of the checker's own finds.
 *
 * Refuses: the state's own; 4; 12 if an entry waits (bring the state to rest first, or a copy of it: hop_run); 13 if
 * any link of the state is one-ended, however far away, and also where node and destination are the same (on a copy,
 * so that no end is told of a loss that it has not seen: hop_down on each such link, hop_run, and ask there); 2 if
 * list_len is below the bytes of this reason. A refusal does not tell how many they are: lend n bytes.
 *
 *     uint8_t list[40];                                      // enough for every state
 *     hop_reason why = hop_why(state, len, 0, 2, list, sizeof list);
 *     // with 4 nodes and the links 0-1 and 1-2, at rest: .code 0, .kind 1, .count 3, and the list begins with 0 1 2
 *     why = hop_why(state, len, 2, 3, list, sizeof list);
 *     // .code 0, .kind 2, .count 3, and the list begins with 0 1 2: no up link leads from these to any other
 */
hop_reason hop_why(const uint8_t *state, size_t len, size_t node, size_t destination, uint8_t *list,
                   size_t list_len);

/* ------------------------------------------------------------------ records */

/* Writes a node's status record: little-endian 16-bit numbers, the length 12 and the kind 1, then node, entries
 * waiting for it, entries waiting from it, destinations other than itself with a route, total queued in the
 * whole state. value: the bytes written, 14. Bytes of the output after these stay as they are. The state is not
 * changed. out must not overlap state.
 *
 * Refuses: the state's own; 4; 2 if out_len is below 14.
 *
 *     uint8_t record[14];
 *     hop_status(state, len, 1, record, sizeof record);      // .code 0, .value 14
 */
hop_answer hop_status(const uint8_t *state, size_t len, size_t node, uint8_t *out, size_t out_len);

/* Writes an event record: little-endian 16-bit numbers, the length of what follows it, the kind, the body.
 *
 *     kind   event                     body             bytes in all
 *     15     make                      first: n         6
 *     16     link up                   first, second    8
 *     17     link down                 first, second    8
 *     18     deliver, first to second  first, second    8
 *     19     pass                      none             4
 *     20     notice, given by first    first, second    8
 *
 * Numbers that the kind does not have are not looked at, and the others may be anything: they are judged by the
 * call that an event is given to. value: the bytes written. Bytes of the output after these stay as they are.
 *
 * Refuses: 10 if the kind is none of these; 2 if out_len is too small.
 *
 *     uint8_t record[8];
 *     hop_write_event(16, 0, 1, record, sizeof record);      // .value 8; record is 06 00 10 00 00 00 01 00
 *     hop_write_event(20, 1, 0, record, sizeof record);      // .value 8; record is 06 00 14 00 01 00 00 00
 */
hop_answer hop_write_event(uint32_t kind, uint16_t first, uint16_t second, uint8_t *out, size_t out_len);

/* Reads the event record at *place of the bytes and moves *place past it. Numbers that the kind does not have
 * are 0. At the plain end, *place equal to len, code and kind are 0. There and at a refusal *place stays as it
 * was. place must not be NULL.
 *
 * Refuses: 9 if *place is past the end; (plain end); 9 if fewer than 4 bytes are left; 10 if the kind is none
 * of the six, also for a status record; 11 if the length is not that of the kind; 9 if the body is cut.
 *
 *     size_t place = 0;
 *     hop_event event;
 *     while ((event = hop_read_event(bytes, len, &place)).kind != 0) apply(event);
 *     if (event.code != 0) printf("refused with %u at byte %zu\n", (unsigned)event.code, place);
 */
hop_event hop_read_event(const uint8_t *bytes, size_t len, size_t *place);

#ifdef __cplusplus
}
#endif

#endif
