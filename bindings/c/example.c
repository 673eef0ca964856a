/* The worked example of the rules, from C: a session takes two updates, asks three times what may be read, and asks for parents and children. Each
   line is what the rules print for it; the program compares and says which line differs. Built and run by bindings/test. */
#include "threshpetal.h"

#include <stdio.h>
#include <stdlib.h>
#include <string.h>

static const uint64_t first_rows[] = {
    /* id, start, end, state, created, seal flag, seal epoch, legacy flag, legacy text, parents, children */
    1, 0, 65535, 1, 0, 0, 0, 0, 0, 0, 0,
};
static const uint64_t second_rows[] = {
    1, 0, 65535, 2, 0, 1, 3, 0, 0, 0, 2,
    2, 0, 32767, 1, 3, 0, 0, 0, 0, 1, 0,
    3, 32768, 65535, 1, 3, 0, 0, 0, 0, 1, 0,
};
static const uint64_t second_edges[] = {2, 3, 1, 1};
static const uint64_t none[1];

/* What the caller keeps of one watched topic: the session and its held areas, with room for 3 rows and 4 edge words. */
enum { ROWS = 3, EDGES = 4, WORK = 32 * (ROWS + EDGES + ROWS) };
static threshpetal_session session;
static uint64_t work[WORK], held[15 * ROWS], links[EDGES], order[ROWS], added[ROWS], removed[ROWS], splits[2 * EDGES], merges[2 * EDGES];
static uint64_t first[EDGES + 1], second[EDGES + 1];

static char line[256];
static int wrong, lines;

static void put(const char *text) { strncat(line, text, sizeof line - strlen(line) - 1); }

static void put_number(uint64_t n) {
    char digits[24];
    snprintf(digits, sizeof digits, "%llu", (unsigned long long)n);
    put(digits);
}

/* ids, or pairs of ids, by commas; - for none */
static void put_list(const uint64_t *ids, size_t count, const char *between) {
    put(" ");
    if (count == 0) put("-");
    for (size_t i = 0; i < count; i++) {
        if (i != 0) put(",");
        put_number(ids[between == NULL ? i : 2 * i]);
        if (between == NULL) continue;
        put(between);
        put_number(ids[2 * i + 1]);
    }
}

static void expect(const char *wanted) {
    lines++;
    if (strcmp(line, wanted) == 0) {
        printf("%s\n", line);
    } else {
        printf("%s  WRONG, the rules say: %s\n", line, wanted);
        wrong++;
    }
    line[0] = 0;
}

static void put_refusal(threshpetal_refusal r) {
    const uint64_t values[] = {r.a, r.b, r.c, r.d};
    threshpetal_kind kind = threshpetal_kind_of(r.number);
    put("R ");
    put_number(r.number);
    for (uint64_t i = 0; i < kind.values; i++) {
        put(" ");
        put_number(values[i]);
    }
}

static void update(uint64_t epoch, uint64_t size, const uint64_t *rows, size_t n, const uint64_t *edges, size_t k) {
    threshpetal_update u = {.session = 7, .layout = true, .epoch = epoch, .size = size};
    threshpetal_updated r =
        threshpetal_handle_update(&session, u, threshpetal_default_limits(), rows, 11 * n, edges, k, none, 0, work, WORK, held, 15 * ROWS, links,
                                  EDGES, order, ROWS, added, ROWS, removed, ROWS, splits, 2 * EDGES, merges, 2 * EDGES);
    if (r.outcome == 0) put_refusal(r.refusal);
    if (r.outcome == 1) put("T");
    if (r.outcome != 2) return;
    put("A ");
    put_number(r.epoch);
    put_list(order, session.rows, NULL);
    put_list(added, r.added, NULL);
    put_list(removed, r.removed, NULL);
    put_list(splits, r.splits, ">");
    put_list(merges, r.merges, "<");
    put(" ");
    put(&"S\0M\0R\0U"[2 * r.reason]);
    put(" ");
    put_number(r.handover);
}

static void ask(uint64_t segment, bool broker_managed, const uint64_t *history, size_t owned, const uint64_t *completed, size_t done) {
    threshpetal_ordering r = threshpetal_ordering_eligibility(held, 15 * ROWS, links, EDGES, session.rows, session.edges, broker_managed, segment, history,
                                                              owned, completed, done, work, WORK, first, EDGES + 1, second, EDGES + 1);
    switch (r.outcome) {
    case 0:
        put_refusal(r.refusal);
        if (r.refusal.number == 51) put_list(first, r.first, NULL);
        break;
    case 1:
        put("B");
        put_list(first, r.first, NULL);
        put_list(second, r.second, NULL);
        break;
    case 2:
        put("E");
        break;
    case 3:
        put("M");
        put_list(second, r.second, NULL);
        break;
    }
}

static void stretch(threshpetal_stretch s) {
    if (s.refusal.number != 0) put_refusal(s.refusal);
    else put_list(links + s.start, s.length, NULL);
}

int main(void) {
    const uint64_t one[] = {1};
    session = threshpetal_new_session(7);
    update(0, 60, first_rows, 1, none, 0);
    expect("A 0 1 1 - - - U 65536");
    update(3, 150, second_rows, 3, second_edges, 4);
    expect("A 3 1,2,3 2,3 - 1>2,1>3 - S 65536");
    ask(3, false, one, 1, none, 0);
    expect("B 1 -");
    ask(3, false, one, 1, one, 1);
    expect("E");
    ask(3, true, none, 0, none, 0);
    expect("M 1");

    /* what the listing of the rules does not ask */
    ask(3, false, none, 0, none, 0);
    expect("R 51 3 1");
    ask(9, false, none, 0, none, 0);
    expect("R 50 9");
    update(3, 150, second_rows, 3, second_edges, 4);
    expect("T");
    stretch(threshpetal_children_of(held, 15 * ROWS, links, EDGES, session.rows, session.edges, 1));
    expect(" 2,3");
    stretch(threshpetal_parents_of(held, 15 * ROWS, links, EDGES, session.rows, session.edges, 3));
    expect(" 1");
    stretch(threshpetal_parents_of(held, 15 * ROWS, links, EDGES, session.rows, session.edges, 4));
    expect("R 50 4");

    threshpetal_assigned list[] = {{2, 0, 32767}, {3, 32768, 65534}};
    put_refusal(threshpetal_validate_assignment(list, 1, held, 15 * ROWS, session.rows, session.epoch, 3));
    expect("R 0");
    put_refusal(threshpetal_validate_assignment(list, 2, held, 15 * ROWS, session.rows, session.epoch, 3));
    expect("R 62 3");
    put_refusal(threshpetal_validate_assignment(list, 2, held, 15 * ROWS, session.rows, session.epoch, 2));
    expect("R 60 2 3");

    /* a layout alone, with the room given exactly and one word short */
    threshpetal_update_needs needs = threshpetal_needs_to_update(1, 0, 0, 0);
    put_refusal(threshpetal_judge(0, 60, threshpetal_default_limits(), first_rows, 11, none, 0, none, 0, work, needs.work, held, needs.held, links,
                                  needs.links, order, needs.order));
    expect("R 0");
    put_refusal(threshpetal_judge(0, 60, threshpetal_default_limits(), first_rows, 11, none, 0, none, 0, work, needs.work - 1, held, needs.held, links,
                                  needs.links, order, needs.order));
    expect("R 2");

    printf("C: %d of %d lines are right\n", lines - wrong, lines);
    return wrong == 0 ? EXIT_SUCCESS : EXIT_FAILURE;
}
