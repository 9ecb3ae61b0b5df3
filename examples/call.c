/*
 * Calls of the planner from C: four riders in a row, 0-1, 1-2, 2-3. From the repository's folder, once `rt lib` has run in crates/planner_c:
 *
 *     cc -std=c99 -Iinclude examples/call.c crates/planner_c/out/libplanner_c.a -o /tmp/call && /tmp/call
 */
#include <inttypes.h>
#include <stdio.h>
#include <string.h>

#include "planner.h"

static const uint16_t starts[] = {0, 1, 3, 5, 6};
static const uint16_t links[] = {1, 0, 2, 1, 3, 2};
static const uint8_t retained[] = {1, 0, 0, 0};

static void tell(const char *call, planner_answer answer)
{
    printf("%s: %" PRIu64 " %" PRIu64 " %" PRIu64, call, answer.number, answer.first, answer.second);
    printf(", edges %" PRIu64 ", max_degree %" PRIu64 "\n", answer.edges, answer.max_degree);
}

static void numbers(const char *name, const uint16_t *list, size_t count)
{
    printf("  %s", name);
    for (size_t i = 0; i < count; i++)
        printf(" %u", list[i]);
    printf("\n");
}

static void signed_numbers(const char *name, const int16_t *list, size_t count)
{
    printf("  %s", name);
    for (size_t i = 0; i < count; i++)
        printf(" %d", list[i]);
    printf("\n");
}

static void bytes(const char *name, const uint8_t *list, size_t count)
{
    printf("  %s", name);
    for (size_t i = 0; i < count; i++)
        printf(" %u", list[i]);
    printf("\n");
}

/* The table, and the same with the last link cut off. */
static void check(void)
{
    tell("check", planner_check(starts, 5, links, 6));
    tell("check of five links", planner_check(starts, 5, links, 5));
}

/* The level sheet with rider 0 retained, the patches, and what rests on the sheet: whom 3 lifts, whom 2 takes down. */
static void sheet(void)
{
    uint16_t levels[4] = {0}, layers[4] = {0}, components[4] = {0}, of[4] = {0}, sizes[4] = {0}, lowest[4] = {0};
    uint8_t marks[4] = {0};
    tell("work", planner_work(starts, 5, links, 6, retained, 4, levels, 4, layers, 4, components, 4));
    numbers("levels", levels, 4);
    numbers("layers", layers, 4);
    numbers("components", components, 4);
    tell("list_components", planner_list_components(starts, 5, links, 6, retained, 4, of, 4, sizes, 4, lowest, 4));
    numbers("level, size, number", (uint16_t[]){of[0], sizes[0], lowest[0]}, 3);
    tell("followers", planner_followers(starts, 5, links, 6, retained, 4, levels, 4, layers, 4, 3, marks, 4));
    bytes("marks", marks, 4);
    tell("collapse", planner_collapse(starts, 5, links, 6, retained, 4, levels, 4, layers, 4, 2, marks, 4));
    bytes("marks", marks, 4);
    tell("check_sheet", planner_check_sheet(starts, 5, links, 6, retained, 4, levels, 4, layers, 4));
    layers[1] = 9;
    tell("check_sheet with a layer of 9", planner_check_sheet(starts, 5, links, 6, retained, 4, levels, 4, layers, 4));
}

/*
 * Rider 0 is retained on the days 0 to 9, rider 3 on 0 to 4 and by a second term on 5 to 7; so long as both are, 1 and 2 have level 2. Day
 * 8 is the first on which rider 1 is under 2, and before it there is none. A term that ends on its first day is refused.
 */
static void terms(void)
{
    static const uint16_t riders[] = {0, 3, 3}, firsts[] = {0, 0, 5}, ends[] = {10, 5, 8}, wrong_ends[] = {10, 5, 5};
    tell("first_day", planner_first_day(starts, 5, links, 6, riders, 3, firsts, 3, ends, 3, 2, 20, 1, 2));
    tell("first_day before day 8", planner_first_day(starts, 5, links, 6, riders, 3, firsts, 3, ends, 3, 2, 8, 1, 2));
    tell("first_day with an end of 5", planner_first_day(starts, 5, links, 6, riders, 3, firsts, 3, wrong_ends, 3, 2, 20, 1, 2));
}

/*
 * Rider 0 is retained; he and 1 are of house 0, 2 and 3 of house 1. House 0 has one round and retains 1. House 1 has two: it retains 3, who
 * lifts 2, and, house 0 being passed, 2. With two quotas there is no house 2.
 */
static void houses(void)
{
    static const uint16_t of[] = {0, 0, 1, 1}, wrong_of[] = {0, 0, 1, 2}, quotas[] = {1, 2};
    uint8_t sheet[156] = {0};
    tell("houses", planner_houses(starts, 5, links, 6, retained, 4, of, 4, quotas, 2, sheet, sizeof sheet));
    printf("%.*s", (int)sizeof sheet, (const char *)sheet);
    tell("houses with a house 2", planner_houses(starts, 5, links, 6, retained, 4, wrong_of, 4, quotas, 2, sheet, sizeof sheet));
}

/*
 * A week of events, rider 0 being retained. 3 is retained: 1 and 2 climb a level. 0 and 2 become partners, 1 and 2 part: 1 falls again.
 * Parting them once more is refused, and so is retaining 9, who is no rider. 0 and 3 become partners too: 0 has three now, and there are
 * four pairs, where the answer has those of the start, three and two. 1 and 2 are left with retained partners alone, so that a search from
 * either reaches nobody.
 */
static void session(void)
{
    static const uint16_t kinds[] = {0, 1, 2, 2, 0, 1}, firsts[] = {3, 0, 1, 2, 9, 3}, seconds[] = {0, 2, 2, 1, 0, 0};
    static uint16_t lent_links[16384];
    uint16_t lent_starts[5];
    uint8_t anchored[4] = {0};
    uint16_t levels[4] = {0}, layers[4] = {0}, components[4] = {0}, reached[4] = {0}, stamps[4] = {0};
    int16_t yields[4] = {0};
    uint16_t status[6] = {0}, lifted[6] = {0}, redone[6] = {0};
    memcpy(lent_starts, starts, sizeof starts);
    memcpy(lent_links, links, sizeof links);
    tell("run", planner_run(lent_starts, 5, lent_links, 16384, retained, 4, kinds, 6, firsts, 6, seconds, 6, anchored, 4, levels, 4,
                            layers, 4, components, 4, yields, 4, reached, 4, stamps, 4, status, 6, lifted, 6, redone, 6));
    numbers("starts", lent_starts, 5);
    numbers("links", lent_links, lent_starts[4]);
    bytes("anchored", anchored, 4);
    numbers("levels", levels, 4);
    numbers("layers", layers, 4);
    numbers("components", components, 4);
    signed_numbers("yields", yields, 4);
    numbers("reached", reached, 4);
    numbers("stamps", stamps, 4);
    numbers("status", status, 6);
    numbers("lifted", lifted, 6);
    numbers("redone", redone, 6);
}

/* A text of two riders and one round, with room enough for its sheet and with none. */
static void text(void)
{
    static const char text[] = "(riders 2)\n(rider 0 (with 1))\n(rider 1 (with 0))\n(retained)\n(rounds 1)\n";
    uint8_t sheet[50] = {0};
    for (size_t room = 0; room <= sizeof sheet; room += sizeof sheet) {
        planner_sheeted answer = planner_text_to_sheet((const uint8_t *)text, strlen(text), sheet, room);
        printf("text_to_sheet: %" PRIu64 " %" PRIu64 "\n", answer.number, answer.value);
    }
    printf("%.*s", (int)sizeof sheet, (const char *)sheet);
}

int main(void)
{
    check();
    sheet();
    terms();
    houses();
    session();
    text();
    return 0;
}
