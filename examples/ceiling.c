/*
 * Ceilings of the planner's search from C: four riders in a row, 0-1, 1-2, 2-3, of whom 0 is retained. From the repository's folder, once
 * `rt lib` has run in crates/planner_c:
 *
 *     cc -std=c99 -Iinclude examples/ceiling.c crates/planner_c/out/libplanner_c.a -o /tmp/ceiling && /tmp/ceiling
 */
#include <inttypes.h>
#include <stdio.h>

#include "planner.h"

static const uint16_t starts[] = {0, 1, 3, 5, 6};
static const uint16_t links[] = {1, 0, 2, 1, 3, 2};
static const uint8_t retained[] = {1, 0, 0, 0};

static void tell(const char *call, planner_answer answer)
{
    printf("%s: %" PRIu64 " %" PRIu64 " %" PRIu64, call, answer.number, answer.first, answer.second);
    printf(", edges %" PRIu64 ", max_degree %" PRIu64 "\n", answer.edges, answer.max_degree);
}

/* On the level sheet, how many rider 3 lifts at most. Of rider 0, who is retained already, there is no ceiling. */
int main(void)
{
    uint16_t levels[4] = {0}, layers[4] = {0}, components[4] = {0};
    planner_answer worked = planner_work(starts, 5, links, 6, retained, 4, levels, 4, layers, 4, components, 4);
    if (worked.number != 0)
        return 1;
    tell("ceiling", planner_ceiling(starts, 5, links, 6, retained, 4, levels, 4, layers, 4, 3));
    tell("ceiling of rider 0", planner_ceiling(starts, 5, links, 6, retained, 4, levels, 4, layers, 4, 0));
    return 0;
}
