/* Calls the operations on lent lists, reading for a caller with its own limits, the rules of one place and the counts of a state, with numbers
 * worked out on paper: cc lists.c libexports.a && ./a.out */
#include "nobyaluk.h"
#include <stdio.h>
#include <string.h>

static int wrong;

static void hold(const char *what, int is) {
    if (!is) printf("wrong: %s\n", what), wrong = 1;
}

static void loads(void) {
    uint32_t list[10];
    static const uint32_t stated[10] = {236, 278, 820, 668, 384, 622, 344, 640, 508, 582};
    nobyaluk_loaded a = nobyaluk_load(0, 1000, list, 10);
    hold("a stated load", a.number == 0 && a.last == 2498801434u && !memcmp(list, stated, sizeof list));
    a = nobyaluk_load(42, 1000001, list, 10);
    hold("25", a.number == NOBYALUK_REFUSAL_PEAK && a.last == 42 && !memcmp(list, stated, sizeof list));
}

static void wants(void) {
    uint32_t table[3] = {9, 9, 9};
    static const uint32_t soon[3] = {0, 0, 3}, late[3] = {0, 0, 6}, found[3] = {1, 1, 2};
    nobyaluk_wanted_answer a = nobyaluk_wanted(4, 3, 2, soon, 3, table, 3);
    hold("a wanted queue", a.number == 0 && a.found == 1 && !memcmp(table, found, sizeof table));
    a = nobyaluk_wanted(4, 3, 2, late, 3, table, 3);
    hold("none", a.number == 0 && a.found == 0 && !memcmp(table, found, sizeof table));
    a = nobyaluk_wanted(4, 3, 2, soon, 3, table, 2);
    hold("23", a.number == NOBYALUK_REFUSAL_WANTED_INPUT && a.found == 0 && !memcmp(table, found, sizeof table));
}

static void grants(void) {
    uint32_t given[3] = {8, 8, 8};
    static const uint32_t guarantees[3] = {2, 3, 1}, wishes[3] = {7, 1, 9}, fair[3] = {7, 1, 2};
    hold("a street", nobyaluk_grant(10, guarantees, 3, wishes, 3, given, 3) == 0 && !memcmp(given, fair, sizeof given));
    hold("24", nobyaluk_grant(5, guarantees, 3, wishes, 3, given, 3) == NOBYALUK_REFUSAL_STREET_INPUT && !memcmp(given, fair, sizeof given));
}

/* the gate's queue after the steps is 2500, 2142 and 1890, with 1000 arrivals in each; ramp 2's is 1700, 1900 and 2100 */
static void longest(const uint8_t *record, size_t bytes) {
    uint32_t list[9];
    nobyaluk_longest a = nobyaluk_run_longest(record, bytes, NULL, 0, list, 9);
    hold("the longest queues", a.ended.total == 33098 && a.gate == 2500 && a.waiting == 1500 && a.ramps[0] == 0 && a.ramps[1] == 2100 && a.ramps[2] == 0);
    a = nobyaluk_run_longest(record, bytes, NULL, 0, list, 8);
    hold("11", a.ended.number == NOBYALUK_REFUSAL_LIST_LENGTH && a.gate == 0 && a.waiting == 0 && a.ramps[1] == 0);
    static uint8_t filled[NOBYALUK_BYTES];
    memcpy(filled, record, bytes);
    a = nobyaluk_fill_longest(filled, bytes, NULL, 0, NULL, 0, NULL, 0, list, 9);
    hold("a ramp that stays shut", a.ended.number == 0 && a.ramps[1] == 3000);
}

/* the entries of many studies, compared with single calls: each study has other arrivals, those of study 2 are above the limits in step 1 */
static void many(const uint8_t *given, size_t bytes) {
    enum { STUDIES = 5, N = 2, T = 3, TABLE = T * (N + 1) };
    static uint8_t record[NOBYALUK_BYTES], single[NOBYALUK_BYTES];
    static nobyaluk_answer entries[STUDIES + 1];
    uint8_t lanes[N * (T + 1)] = {3, 7, 3, 7, 1, 3, 3, 7};
    uint8_t kinds[N] = {NOBYALUK_FIXED, NOBYALUK_ALINEA};
    double numbers[3 * N] = {0, 0, 0, 0.1, 5000, 0};
    uint32_t arrivals[STUDIES * TABLE], list[TABLE], other[TABLE], rows[T * (1 + 2 * N)];
    for (int laws = 0; laws < 2; laws++)
        for (int closed = 0; closed < 2; closed++) {
            for (int k = 0; k < STUDIES; k++)
                for (int t = 0; t < T; t++)
                    for (int p = 0; p <= N; p++)
                        arrivals[k * TABLE + t * (N + 1) + p] = p == 1 ? 0 : 211 * (k + 1) * (t + 1) + 50 * p;
            arrivals[2 * TABLE + N + 1] = 1000001;
            memcpy(record, given, bytes);
            memset(entries, 7, sizeof entries);
            uint64_t count = closed ? sizeof lanes : 0;
            nobyaluk_many a = laws ? nobyaluk_fill_many(record, bytes, kinds, N, numbers, 3 * N, lanes, count, arrivals, STUDIES * TABLE, list, TABLE,
                                                        (uint64_t *)entries, STUDIES * NOBYALUK_ENTRY)
                                   : nobyaluk_run_many(record, bytes, lanes, count, arrivals, STUDIES * TABLE, list, TABLE, (uint64_t *)entries,
                                                       STUDIES * NOBYALUK_ENTRY);
            hold("many studies", a.number == 0 && a.place == 0 && entries[STUDIES].number == 0x0707070707070707);
            for (int k = 0; k < STUDIES; k++) {
                memcpy(single, given, bytes);
                for (int t = 0; t < T; t++)
                    for (int p = 0; p <= N; p++) {
                        uint8_t *to = single + 16 + 24 * N + t * (4 + 8 * N) + (p ? 8 * p - 4 : 0);
                        for (int b = 0; b < 4; b++) to[b] = arrivals[k * TABLE + t * (N + 1) + p] >> (24 - 8 * b);
                    }
                nobyaluk_longest l = laws ? nobyaluk_fill_longest(single, bytes, kinds, N, numbers, 3 * N, lanes, count, other, TABLE)
                                          : nobyaluk_run_longest(single, bytes, lanes, count, other, TABLE);
                nobyaluk_answer e = {l.ended.number, l.ended.step, l.ended.place, l.ended.state.gate_time, l.ended.state.road_time,
                                     l.ended.state.ramp_time, l.ended.total, l.ended.exits, l.ended.present, l.gate, l.waiting, {0}};
                for (int i = 0; i < 64; i++) e.ramps[i] = l.ramps[i];
                hold("a study's entry", !memcmp(&e, &entries[k], sizeof e));
                hold("the refused study", (k == 2) == (e.number == 6));
            }
            hold("the last study's list", !memcmp(list, other, sizeof list));
            hold("the last study's record", !memcmp(record, single, bytes));
            hold("its arrivals", nobyaluk_rows(record, bytes, N, T, rows, 15) == 15 && rows[0] == arrivals[4 * TABLE] && rows[13] == arrivals[5 * TABLE - 1]);
        }
    memcpy(record, given, bytes);
    nobyaluk_many a = nobyaluk_run_many(record, bytes, NULL, 0, arrivals, TABLE - 1, list, TABLE, (uint64_t *)entries, NOBYALUK_ENTRY);
    hold("27, no whole table", a.number == 27 && a.place == 1);
    a = nobyaluk_run_many(record, bytes, NULL, 0, arrivals, 2 * TABLE, list, TABLE, (uint64_t *)entries, 2 * NOBYALUK_ENTRY - 1);
    hold("27, no room", a.number == 27 && a.place == 2 && !memcmp(record, given, bytes));
    a = nobyaluk_run_many(record, bytes, NULL, 0, NULL, 0, NULL, 0, NULL, 0);
    hold("no study", a.number == 0);
    a = nobyaluk_run_many(record, bytes, NULL, 0, arrivals, TABLE, list, TABLE - 1, (uint64_t *)entries, NOBYALUK_ENTRY);
    hold("11 in its entry", a.number == 0 && entries[0].number == 11);
    a = nobyaluk_run_many(record, 5, NULL, 0, arrivals, TABLE, list, TABLE, (uint64_t *)entries, NOBYALUK_ENTRY);
    hold("1", a.number == 1);
}

static int same_end(const nobyaluk_ended *a, const nobyaluk_ended *b) {
    return a->number == b->number && a->total == b->total && a->present == b->present && a->exits == b->exits && !memcmp(&a->state, &b->state, sizeof a->state);
}

/* the printed run and a filling of it, cut after step 0: two records give what one gives, with lanes or without */
static void onward(const uint8_t *whole, size_t bytes) {
    enum { N = 2, T = 3, W = N + 1, ROW = 4 + 8 * N, HEAD = 16 + 24 * N, FIRST = HEAD + ROW, REST = HEAD + 2 * ROW };
    static uint8_t first[FIRST], rest[REST], filled[NOBYALUK_BYTES];
    uint8_t lanes[N * (T + 1)] = {3, 7, 3, 7, 1, 3, 3, 7}, later[N * T] = {3, 7, 1, 3, 3, 7};
    uint8_t kinds[N] = {NOBYALUK_FIXED, NOBYALUK_ALINEA};
    double numbers[3 * N] = {0, 0, 0, 0.1, 5000, 0};
    uint32_t list[T * W], cut[T * W], held[T * W], queue[T * W], held_on[2 * W], queue_on[2 * W];
    nobyaluk_weights weights;
    memset(&weights, 1, sizeof weights);
    weights.places[0] = 9;
    memcpy(first, whole, FIRST);
    memcpy(rest, whole, HEAD);
    memcpy(rest + HEAD, whole + FIRST, 2 * ROW);
    first[3] = FIRST - 4, first[7] = 1;
    rest[3] = REST - 4, rest[7] = 2;
    nobyaluk_state start = nobyaluk_read(whole, bytes).state;
    for (int closed = 0; closed < 2; closed++) {
        uint64_t all = closed ? sizeof lanes : 0, one = closed ? 2 * N : 0, two = closed ? sizeof later : 0;
        nobyaluk_weighed w = nobyaluk_run_weighted(whole, bytes, lanes, all, weights, list, T * W);
        nobyaluk_tallied a = nobyaluk_run_on(first, FIRST, lanes, one, weights, start, cut, W);
        nobyaluk_tallied b = nobyaluk_run_on(rest, REST, later, two, weights, a.longest.ended.state, cut + W, 2 * W);
        hold("a run cut in two", same_end(&w.ended, &b.longest.ended) && !memcmp(list, cut, sizeof list) && w.weighted == a.weighted + b.weighted);
        nobyaluk_longest l = nobyaluk_run_longest(whole, bytes, lanes, all, list, T * W);
        hold("its longest queues", l.gate == (a.longest.gate > b.longest.gate ? a.longest.gate : b.longest.gate) && l.ramps[1] == b.longest.ramps[1]);

        nobyaluk_ended h = nobyaluk_history(whole, bytes, lanes, all, list, T * W, held, T * W, queue, T * W);
        nobyaluk_ended j = nobyaluk_judge_on(rest, REST, later, two, a.longest.ended.state, list + W, 2 * W);
        hold("a schedule judged on", same_end(&h, &j));
        j = nobyaluk_history_on(rest, REST, later, two, a.longest.ended.state, list + W, 2 * W, held_on, 2 * W, queue_on, 2 * W);
        hold("its states", same_end(&h, &j) && !memcmp(held + W, held_on, sizeof held_on) && !memcmp(queue + W, queue_on, sizeof queue_on));

        memcpy(filled, whole, bytes);
        l = nobyaluk_fill_longest(filled, bytes, kinds, N, numbers, 3 * N, lanes, all, list, T * W);
        nobyaluk_progress from = {start, {0}, {0}};
        nobyaluk_filled f = nobyaluk_fill_on(first, FIRST, kinds, N, numbers, 3 * N, lanes, one, from, cut, W);
        from.state = f.longest.ended.state;
        memcpy(from.releases, f.releases, sizeof f.releases);
        memcpy(from.entries, f.entries, sizeof f.entries);
        f = nobyaluk_fill_on(rest, REST, kinds, N, numbers, 3 * N, later, two, from, cut + W, 2 * W);
        hold("a filling cut in two", same_end(&l.ended, &f.longest.ended) && !memcmp(list, cut, sizeof list));
        hold("its releases", !memcmp(first + HEAD, filled + HEAD, ROW) && !memcmp(rest + HEAD, filled + FIRST, 2 * ROW));
        memcpy(first + HEAD, whole + HEAD, ROW);
        memcpy(rest + HEAD, whole + FIRST, 2 * ROW);

        from.entries[1] = from.state.held[1] + 1;
        f = nobyaluk_fill_on(rest, REST, kinds, N, numbers, 3 * N, later, two, from, cut, 2 * W);
        hold("7, an entry", f.longest.ended.number == NOBYALUK_REFUSAL_STEP_INPUT && f.releases[1] == 0 && f.entries[0] == 0 && !memcmp(list, cut, sizeof list));
        hold("nothing filled", !memcmp(rest + HEAD, whole + FIRST, 2 * ROW));
    }
    nobyaluk_state late = start;
    late.done = 1438;
    nobyaluk_tallied a = nobyaluk_run_on(whole, bytes, NULL, 0, weights, late, cut, T * W);
    hold("8", a.longest.ended.number == NOBYALUK_REFUSAL_STEPS_DONE && a.weighted == 0 && a.longest.gate == 0);
    late.done = 1437;
    hold("1,440 steps", nobyaluk_run_on(whole, bytes, NULL, 0, weights, late, cut, T * W).longest.ended.state.done == NOBYALUK_STEPS);
    late.held[0] = 8001;
    hold("7", nobyaluk_judge_on(whole, bytes, NULL, 0, late, list, T * W).number == NOBYALUK_REFUSAL_STEP_INPUT);
    hold("11", nobyaluk_history_on(whole, bytes, NULL, 0, start, list, T * W, held, T * W, queue, T * W - 1).number == NOBYALUK_REFUSAL_LIST_LENGTH);
}

static void puts_release(uint8_t *record, size_t bytes) {
    uint32_t rows[15];
    hold("a caller's limits", nobyaluk_read_within(record, bytes, 2, 124).number == 0 && nobyaluk_read_within(record, bytes, 8, 4096).steps == 3);
    hold("26", nobyaluk_read_within(record, bytes, 1, 124).number == NOBYALUK_REFUSAL_CALLER_LIMITS && nobyaluk_read_within(record, bytes, 2, 123).number == NOBYALUK_REFUSAL_CALLER_LIMITS);
    nobyaluk_released a = nobyaluk_put(record, bytes, 0, 3, 7);
    hold("5", a.number == NOBYALUK_REFUSAL_LIMITS && a.place == 3);
    a = nobyaluk_put(record, bytes, 3, 2, 7);
    hold("6", a.number == NOBYALUK_REFUSAL_RATES && a.place == 3);
    a = nobyaluk_put(record, bytes, 1, 2, 7);
    hold("a release put", a.number == 0 && nobyaluk_rows(record, bytes, 2, 3, rows, 15) == 15 && rows[9] == 7 && rows[8] == 500 && rows[14] == 300);
}

/* the printed run, joined to itself without the gate's queue and arrivals, which are at these bytes */
static void joins(const uint8_t *record, size_t bytes) {
    static uint8_t second[NOBYALUK_BYTES], target[NOBYALUK_BYTES];
    static const size_t gate[4] = {12, 64, 84, 104};
    memcpy(second, record, bytes);
    for (int i = 0; i < 4; i++) memset(second + gate[i], 0, 4);
    nobyaluk_written a = nobyaluk_join(record, bytes, record, bytes, 650, target, sizeof target);
    hold("21", a.number == NOBYALUK_REFUSAL_SECOND_GATE && a.place == 0 && a.count == 0 && target[0] == 0 && target[5] == 0);
    a = nobyaluk_join(record, bytes, second, bytes, 1001, target, sizeof target);
    hold("5 at the joint", a.number == NOBYALUK_REFUSAL_LIMITS && a.place == 2 && a.count == 0);
    target[220] = 7;
    a = nobyaluk_join(record, bytes, second, bytes, 650, target, sizeof target);
    nobyaluk_reading r = nobyaluk_read(target, a.count);
    hold("two roads joined", a.number == 0 && a.count == 220 && r.number == 0 && r.road.n == 4 && r.road.share[1] == 650 && r.road.share[2] == 750);
    hold("nothing beyond", target[220] == 7 && !memcmp(target + 16 + 48 + 24, second + 16 + 24, 24));
}

/* the rules of one place (docs/MODEL.md), also with numbers out of their limits */
static void rules(void) {
    hold("demands", nobyaluk_demand(500, 2000, 2566) == 1283 && nobyaluk_gate_demand(2000, 3000) == 2000 && nobyaluk_gate_demand(2000, 1) == 1);
    hold("room", nobyaluk_supply(250, 2000, 8000, 2566) == 1358 && nobyaluk_room(1358, 300) == 1058 && nobyaluk_room(300, 1358) == 0);
    hold("onward", nobyaluk_onward(750, 934) == 700 && nobyaluk_entering(750, 934, 933) == 700 && nobyaluk_onward(65535, 4294967295u) == 281470681677u);
    hold("outflow", nobyaluk_outflow(750, 934, 700, 1283) == 933 && nobyaluk_outflow_by_halves(750, 934, 700, 1283) == 933);
    hold("open lanes", nobyaluk_open_capacity(1000, 7, 6) == 666);
}

/* the printed run's states before step 0 and after its last, and one of its rows */
static void counts(const uint8_t *record, size_t bytes) {
    static uint32_t out[9];
    nobyaluk_reading r = nobyaluk_read(record, bytes);
    hold("present", nobyaluk_present(r.road, r.state) == 10500 && nobyaluk_on_road(r.road, r.state) == 6000 && nobyaluk_at_ramps(r.road, r.state) == 1500);
    nobyaluk_ended e = nobyaluk_run(record, bytes, NULL, 0, out, 9);
    hold("at the end", nobyaluk_present(e.road, e.state) == e.present && nobyaluk_exits(e.road, e.state) == 3701 && e.exits == 3701);
    hold("total", nobyaluk_total(r.state) == 0 && nobyaluk_total(e.state) == 33098 && e.total == 33098);
    r.state.gate_time = UINT64_MAX - 1;
    r.state.road_time = 1;
    hold("the greatest total", nobyaluk_total(r.state) == UINT64_MAX);
    r.state.ramp_time = 1;
    hold("never above it", nobyaluk_total(r.state) == UINT64_MAX);
    hold("vehicle-seconds", nobyaluk_vehicle_seconds(20, e.state) == 661 && nobyaluk_vehicle_seconds(0, e.state) == 0);
    nobyaluk_row_answer row = nobyaluk_row(record, bytes, 2, 2);
    hold("a row", row.numbers[0] == 1000 && row.numbers[3] == 500 && row.numbers[4] == 300 && row.numbers[5] == 0);
    hold("no row", nobyaluk_row(record, bytes, 2, 3).numbers[0] == 0 && nobyaluk_row(record, bytes, 65, 0).numbers[0] == 0);
}

int main(void) {
    static uint8_t record[NOBYALUK_BYTES];
    size_t bytes = fread(record, 1, sizeof record, stdin);
    loads();
    wants();
    grants();
    rules();
    counts(record, bytes);
    joins(record, bytes);
    longest(record, bytes);
    onward(record, bytes);
    many(record, bytes);
    puts_release(record, bytes);
    return wrong;
}
