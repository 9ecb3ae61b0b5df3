/*
 * The planner: a pool of riders and their partners as a graph. It works out levels of the anchored k-core, checks them, tells whom one
 * more anchor lifts and beforehand how many at most, whom a vertex takes down and on which day a vertex is first under a level, shares
 * rounds among houses, works down a list of events, and turns a text into a sheet of rounds.
 *
 * For C99 and C++ on x86-64 Linux, with the archive libplanner_c.a (README.md says how to make it and link with it). Every function is
 * proved to answer, and to leave in the memory lent to it, exactly what is defined, whatever the numbers that it is handed, if the caller
 * keeps the rules of "Slices" below.
 *
 *
 * Slices
 *
 * A pointer NAME and the number NAME_len behind it are one slice: NAME_len is the number of its elements, not of bytes. A slice behind a
 * pointer to const is only read; any other is lent for writing. The caller sees to this:
 *
 *   - NAME points to NAME_len elements, all of them initialized, in a slice lent for writing too. During the call nothing else writes
 *     them, and nothing else reads those lent for writing.
 *   - A slice lent for writing does not overlap any other slice of the same call. Slices that are only read may overlap each other.
 *   - NAME is not null and is aligned for its type, also where NAME_len is 0: the address of any object of the type will do.
 *
 * A call that is refused leaves every slice as it was. No call allocates memory, keeps a pointer, or has a state: calls from several
 * threads at once are safe so long as none writes what another one uses. A call works on arrays of fixed size on the stack, for which 256
 * KiB are enough (tested, not proved).
 *
 *
 * Words, with those of the house in brackets
 *
 *   vertex (rider)       a number from 0 to n - 1; n is at most 1,024
 *   neighbors (partners) the vertices that a vertex has an edge (pair) with: mutual, and never the vertex itself
 *   degree               of a vertex: how many neighbors it has
 *   anchored (retained)  a byte for each vertex: 1 if it is anchored, 0 if not; in planner_first_day terms say it instead
 *   term                 a vertex, a first day and an end day: the vertex is anchored on every day from the first on and before the end;
 *                        days are numbered from 0 to 65,535
 *   house                in planner_houses: the vertices are those of 1 to 16 houses, numbered from 0 on, each vertex in one
 *   quota                of a house: how many rounds it may have, each of which anchors one of its vertices
 *   core k               the largest set of vertices in which each one that is not anchored has at least k neighbors in the set; an
 *                        anchored vertex is always in it
 *   level                of a vertex not anchored: the largest k whose core holds it
 *   layer                of a vertex of level k: start from core k and take out, in batches, all vertices at once that are not anchored and
 *                        have fewer than k + 1 neighbors left; the layer is the number of its batch, from 1
 *   component (patch)    a maximal connected set of vertices, not anchored, of one level; its number is its lowest vertex
 *   level sheet          the levels and the layers of all vertices
 *   follower (lifted)    of x: a vertex, neither x nor anchored, whose level is greater with x anchored too; always by one
 *   bare level           of a vertex: its level with nobody anchored
 *   climb                of a vertex not anchored: its level less its bare level, which is 0 or more
 *   net yield            of a vertex not anchored: how many followers it has, less its climb; from -1,022 to 1,023
 *   reached count        of a vertex not anchored: how many vertices the search from it reaches (planner_followers), followers included
 *   ceiling              of a vertex not anchored: how many upstair walks of one step or more there are from it (planner_ceiling), 65,535
 *                        if there are more; never below its reached count
 *
 * An anchored vertex has level 65,535, layer 0, component 65,535, net yield -32,768 and reached count 65,535. Pairs (level, layer) are
 * compared level first, and an anchored vertex stands above all of them.
 *
 *
 * Refusals
 *
 * Each call below names the refusals that it can answer, in the order in which they are tested. Each test is over the whole input, and the
 * first that fails is answered, with its place. Where several places offend it is the lowest; of several terms it is that of the first. k
 * and l are a vertex's level and layer in the sheet that the call is handed; an anchored neighbor counts in 19, 20 and 21.
 *
 *   number  place            what is wrong
 *    1      0                starts has no element
 *    2      0                there are more than 1,024 vertices
 *    3      0                there are more than 16,384 links; in a session, the last start is above 16,384; in a text, there are more
 *                            than 16,384 partners in all lists together
 *    4      index in starts  the first start is not 0, a start is below the one before it, or, but for a session, the last is not links_len
 *    5      vertex           it has a neighbor of n or more
 *    6      vertex           it is its own neighbor
 *    7      vertex           its neighbors are not strictly ascending
 *    8      vertex           it lists a neighbor that does not list it
 *    9      0                there are not n anchored bytes; in a session also: kinds, firsts and seconds are not of one length; of terms:
 *                            vertices, firsts and ends are not of one length; of houses also: houses is not n long
 *   10      vertex           its byte is above 1
 *   11      0                there are more than 4,096 events; in a text, more than 60 rounds; of houses, the quotas sum to more than 60
 *   12      0                a slice lent for writing does not have the length stated with the call, or holds less than the sheet
 *   13      0                levels or layers are not n
 *   14      vertex           it is anchored and its entry is not 65,535 and 0, or it is not anchored and its layer is 0
 *   15      the number       a term's vertex, x, or a number in a text's retained list, is n or more
 *   16      vertex           x is anchored already
 *   17      0                the text has more than 65,536 bytes
 *   18      line, from 1     the line departs from the form, is missing, or is one too many
 *   19      vertex           it has fewer than k neighbors of level k or more
 *   20      vertex           it has more than k neighbors at or above (k, l)
 *   21      vertex           l is above 1, and it has fewer than k + 1 neighbors at or above (k, l - 1)
 *   24      0                there are more than 256 terms
 *   25      index of a term  its end day is not after its first day
 *   26      0                there is no house, or there are more than 16
 *   27      vertex           its house is not below quotas_len
 */
#ifndef PLANNER_H
#define PLANNER_H

#include <stddef.h>
#include <stdint.h>

#ifdef __cplusplus
extern "C" {
#endif

/*
 * Accepted: number is 0. edges is how many edges the table has, and max_degree the greatest degree of a vertex, 0 if there are no vertices:
 * every call that answers so states these two, of the table as it was handed in. first and second are the values that the call states
 * beside them, 0 where it states no other.
 * Refused: number is the refusal's number, first its place, second, edges and max_degree 0.
 */
typedef struct planner_answer {
    uint64_t number;
    uint64_t first;
    uint64_t second;
    uint64_t edges;
    uint64_t max_degree;
} planner_answer;

/*
 * Accepted: number is 0, and value is the length of the sheet.
 * Refused: number is the refusal's number, value its place.
 */
typedef struct planner_sheeted {
    uint64_t number;
    uint64_t value;
} planner_sheeted;

/*
 * Whether two slices are the table of a graph. All calls but the last take a table and test it first in this way; planner_run, which
 * changes it, is lent more places than it has links.
 *
 *   starts  n + 1 numbers, the first 0: the neighbors of vertex v are links[starts[v]] up to, not including, links[starts[v + 1]]
 *   links   at most 16,384 numbers: the neighbors of all vertices, list after list, each list strictly ascending, each edge in two lists
 *
 * Accepted: states edges and max_degree, and no other value.
 * Refused: 1, 2, 3, 4, 5, 6, 7, 8.
 */
planner_answer planner_check(const uint16_t *starts, size_t starts_len, const uint16_t *links, size_t links_len);

/*
 * Works out levels, layers and components.
 *
 *   starts, links  the table
 *   anchored       n bytes: who is anchored
 *   levels         filled, n numbers: the level of each vertex
 *   layers         filled, n numbers: the layer of each vertex
 *   components     filled, n numbers: the number of each vertex's component
 *
 * Accepted: states no other value.
 * Refused: 1 to 8, 9, 10, 12.
 */
planner_answer planner_work(
    const uint16_t *starts, size_t starts_len, const uint16_t *links, size_t links_len, const uint8_t *anchored, size_t anchored_len,
    uint16_t *levels, size_t levels_len, uint16_t *layers, size_t layers_len, uint16_t *components, size_t components_len);

/*
 * Lists the components, each once, by falling level, then by rising number.
 *
 *   starts, links  the table
 *   anchored       n bytes: who is anchored
 *   levels         n numbers, filled from the front: the level of each component
 *   sizes          n numbers, filled from the front: how many vertices it has
 *   numbers        n numbers, filled from the front: its number, which is its lowest vertex
 *
 * Accepted: first is how many components there are; places of the three slices past so many keep what they held.
 * Refused: 1 to 8, 9, 10, 12.
 */
planner_answer planner_list_components(
    const uint16_t *starts, size_t starts_len, const uint16_t *links, size_t links_len, const uint8_t *anchored, size_t anchored_len,
    uint16_t *levels, size_t levels_len, uint16_t *sizes, size_t sizes_len, uint16_t *numbers, size_t numbers_len);

/*
 * Whether a level sheet is the one that planner_work would fill in. A sheet that is accepted, or refused with 20 or 21, gives no vertex a
 * level above that one's.
 *
 *   starts, links  the table
 *   anchored       n bytes: who is anchored
 *   levels         n numbers: the sheet's levels
 *   layers         n numbers: the sheet's layers
 *
 * Accepted: states no other value.
 * Refused: 1 to 8, 9, 10, 13, 14, 19, 20, 21.
 */
planner_answer planner_check_sheet(
    const uint16_t *starts, size_t starts_len, const uint16_t *links, size_t links_len, const uint8_t *anchored, size_t anchored_len,
    const uint16_t *levels, size_t levels_len, const uint16_t *layers, size_t layers_len);

/*
 * The follower search (local search): whom one more anchor lifts. An upstair walk goes from x to a neighbor that is not anchored and has a
 * greater pair (level, layer), and from there on to neighbors of the same level and a greater layer; it reaches every follower of x.
 *
 *   starts, links   the table
 *   anchored        n bytes: who is anchored
 *   levels, layers  n numbers each: the level sheet, as planner_work fills it in
 *   x               a vertex that is not anchored
 *   marks           filled, n bytes: 2 for a follower of x, 1 for another vertex that an upstair walk reaches, 0 for all others and for x
 *
 * Accepted: first is how many followers x has, second how many vertices upstair walks reach, followers included.
 * Refused: 1 to 8, 9, 10, 12, 13, 14, 19, 20, 21, 15, 16.
 */
planner_answer planner_followers(
    const uint16_t *starts, size_t starts_len, const uint16_t *links, size_t links_len, const uint8_t *anchored, size_t anchored_len,
    const uint16_t *levels, size_t levels_len, const uint16_t *layers, size_t layers_len, size_t x, uint8_t *marks, size_t marks_len);

/*
 * The ceiling of the follower search, told without searching: how many upstair walks (planner_followers) there are from x, of one step or
 * more. Each step from x counts 1, and 1 more for each walk that goes on from there, by the rule for later steps. A vertex counts once for
 * each walk that ends at it, so that the ceiling is never below the reached count, nor below how many followers x has. If the ceiling of x
 * less its climb is below the net yield of another vertex that a round may choose, the round does not choose x.
 *
 *   starts, links   the table
 *   anchored        n bytes: who is anchored
 *   levels, layers  n numbers each: the level sheet, as planner_work fills it in
 *   x               a vertex that is not anchored
 *
 * Accepted: first is the ceiling; 65,535 says that it is that much or more.
 * Refused: 1 to 8, 9, 10, 13, 14, 19, 20, 21, 15, 16.
 */
planner_answer planner_ceiling(
    const uint16_t *starts, size_t starts_len, const uint16_t *links, size_t links_len, const uint8_t *anchored, size_t anchored_len,
    const uint16_t *levels, size_t levels_len, const uint16_t *layers, size_t layers_len, size_t x);

/*
 * Who falls when a vertex goes (a rider quits): the vertices, neither x nor anchored, whose level would be lower were x and its edges not
 * there; it is then lower by one.
 *
 *   starts, links   the table
 *   anchored        n bytes: who is anchored
 *   levels, layers  n numbers each: the level sheet, as planner_work fills it in
 *   x               a vertex, anchored or not
 *   marks           filled, n bytes: 1 for a vertex that falls, 0 for all others and for x
 *
 * Accepted: states no other value.
 * Refused: 1 to 8, 9, 10, 12, 13, 14, 19, 20, 21, 15.
 */
planner_answer planner_collapse(
    const uint16_t *starts, size_t starts_len, const uint16_t *links, size_t links_len, const uint8_t *anchored, size_t anchored_len,
    const uint16_t *levels, size_t levels_len, const uint16_t *layers, size_t layers_len, size_t x, uint8_t *marks, size_t marks_len);

/*
 * The first day of a span on which the level of a vertex is under k (retainers by term): on each day exactly those vertices are anchored
 * that have a term with first day <= day < end day. An anchored vertex is under no k. The answer is that of working out the levels of every
 * day of the span.
 *
 *   starts, links  the table
 *   vertices       at most 256 numbers, the vertex of each term; terms may overlap, also those of one vertex
 *   firsts         a number for each term: its first day
 *   ends           a number for each term: its end day, above its first day; on the end day the term is over
 *   from, until    the span: the days from `from` up to, not including, `until`; it has none where until is not above from
 *   x              a vertex
 *   k              a level
 *
 * Accepted: where there is such a day, first is that day and second 1; where there is none, states no other value.
 * Refused: 1 to 8, 9, 15 (the vertices of the terms, then x), 24, 25.
 */
planner_answer planner_first_day(
    const uint16_t *starts, size_t starts_len, const uint16_t *links, size_t links_len, const uint16_t *vertices, size_t vertices_len,
    const uint16_t *firsts, size_t firsts_len, const uint16_t *ends, size_t ends_len, uint16_t from, uint16_t until, size_t x, uint16_t k);

/*
 * A sheet of rounds that houses share (docs/HOUSES.md). Turns go round by house number: the first line's from house 0 on, each other line's
 * from the house behind the one that the line before it served. A house is passed if its quota is spent or all its vertices are anchored,
 * which takes no line; the first that is not passed is served. Of its vertices that are not anchored the line anchors the one of the
 * greatest net yield, the lowest among equals, and is otherwise as in the sheet of a text. Once all houses are passed, every line left is
 * that of a round with nobody left. So no house has more lines than its quota, and a house that is not to be passed before a line is served
 * by that line or one of the next ones, within as many lines as there are houses.
 *
 *   starts, links  the table
 *   anchored       n bytes: who is anchored at the start
 *   houses         n numbers: the house of each vertex, below quotas_len
 *   quotas         1 to 16 numbers, a quota for each house, which may be 0; they sum to at most 60
 *   sheet          filled from the front: as many lines as the quotas sum to, each of 48 + n bytes, so that 64,320 hold every sheet
 *
 * Accepted: first is the sheet's length; bytes past it keep what they held.
 * Refused: 1 to 8, 9, 10, 11, 26, 27, 12.
 */
planner_answer planner_houses(
    const uint16_t *starts, size_t starts_len, const uint16_t *links, size_t links_len, const uint8_t *anchored, size_t anchored_len,
    const uint16_t *houses, size_t houses_len, const uint16_t *quotas, size_t quotas_len, uint8_t *sheet, size_t sheet_len);

/*
 * A session: takes events one after the other, each on what the one before left. An event anchors a vertex (retains a rider), or adds or
 * drops an edge (a pair). Every vertex's net yield and reached count are kept right by working out anew, both together, exactly those that
 * the event may have changed. So long as no edge changes, the sum of the climbs of all vertices not anchored grows by the net yields of the
 * vertices that are anchored, each as it was just before. An edge more or less moves no level and no bare level by more than one.
 *
 *   starts         n + 1 numbers, the table's; filled: those of the table as the events left it
 *   links          exactly 16,384 places. As many as the last start says are the table's links, the others may hold anything. Filled: the
 *                  links of the table as the events left it, and 0 in every place past its last start
 *   given          n bytes: who is anchored at the start
 *   kinds          at most 4,096 numbers, the kind of each event: 0 anchors vertex firsts[i], 1 adds the edge between firsts[i] and
 *                  seconds[i], 2 drops that edge
 *   firsts         a number for each event: a vertex
 *   seconds        a number for each event: the other vertex of the edge; of an event that anchors it is ignored
 *   anchored       filled, n bytes: who is anchored at the end
 *   levels         filled, n numbers: the levels at the end
 *   layers         filled, n numbers: the layers at the end
 *   components     filled, n numbers: the components at the end
 *   yields         filled, n numbers: the net yield of each vertex at the end, its followers less what it has already climbed above its
 *                  level with nobody anchored; -32,768 for an anchored one
 *   reached        filled, n numbers: how many vertices the search from each vertex reaches at the end, which says how widely its followers
 *                  were looked for; 65,535 for an anchored one; worked out anew and kept together with the net yield
 *   stamps         filled, n numbers: the position, from 1, of the last event that anchored the vertex or had its net yield and reached
 *                  count worked out anew; 0 if none did
 *   status         filled, a number for each event: 0 if it was done, else the first of these that holds. Such an event changes nothing,
 *                  and the session goes on.
 *                    10: its kind is above 2
 *                     6: it adds or drops an edge between a number and itself
 *                    15: it names a number of n or more; seconds[i] of an event that anchors is not looked at
 *                    16: it anchors a vertex that is anchored already
 *                    22: it adds an edge that is there, or drops one that is not
 *                    23: it adds an edge, and there is no place for two more links
 *   lifted         filled, a number for each event: how many vertices it lifted by anchoring one; 0 if it adds or drops an edge, or its
 *                  status is not 0
 *   redone         filled, a number for each event: of how many vertices net yield and reached count were worked out anew after it, a newly
 *                  anchored one not counted; 0 if its status is not 0
 *
 * Accepted: states no other value; edges and max_degree are those of the table before the events.
 * Refused: 1, 2, 12 (links), 3, 4, 5, 6, 7, 8, 9, 10, 11, 12 (the slices from anchored on); the bytes of 9 and 10 are given, the links of 4
 * to 8 are those up to the last start.
 */
planner_answer planner_run(
    uint16_t *starts, size_t starts_len, uint16_t *links, size_t links_len, const uint8_t *given, size_t given_len,
    const uint16_t *kinds, size_t kinds_len, const uint16_t *firsts, size_t firsts_len, const uint16_t *seconds, size_t seconds_len,
    uint8_t *anchored, size_t anchored_len, uint16_t *levels, size_t levels_len, uint16_t *layers, size_t layers_len,
    uint16_t *components, size_t components_len, int16_t *yields, size_t yields_len, uint16_t *reached, size_t reached_len,
    uint16_t *stamps, size_t stamps_len, uint16_t *status, size_t status_len, uint16_t *lifted, size_t lifted_len,
    uint16_t *redone, size_t redone_len);

/*
 * From a text to the answer sheet. docs/FORMAT.md describes both.
 *
 *   text   at most 65,536 bytes: riders, their partners, who is retained, and how many rounds to play
 *   sheet  filled from the front: a line for each round. A sheet has r * (48 + n) bytes for r rounds, so that 64,320 hold every one
 *
 * Accepted: value is the sheet's length; bytes past it keep what they held.
 * Refused: 17, 18, 2, 3, 5, 6, 7, 8, 11, 12, 15.
 */
planner_sheeted planner_text_to_sheet(const uint8_t *text, size_t text_len, uint8_t *sheet, size_t sheet_len);

#ifdef __cplusplus
}
#endif

#endif
