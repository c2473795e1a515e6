/* The run of a record as an expert writes it in C for plain x86-64, unproved: the limit that the engine is measured by. It takes the
 * record and the list of nobyaluk_run without a table of lanes, and gives the same answer and the same list.
 *
 * What makes it fast:
 *  - Rows are checked by the greatest byte at each place over all rows. Only if these bytes together are above a limit are the
 *    rows checked one by one.
 *  - Supplies and demands are 32-bit loops over columns without a branch, which the compiler turns into vector code.
 *  - A list of the cells with a ramp, made once: no other cell's arrivals and release are read.
 *  - A share of 1,000 takes no arithmetic. For every other share the remainder of share x F by 1,000 is kept from step to step, so one
 *    division by a constant shows whether the demand fits. If it doesn't, exactly the room enters, and the outflow is one
 *    multiplication by the share's reciprocal.
 *  - The vehicles on the road are summed during the move. */
#include "nobyaluk.h"
#include <string.h>

enum { CELLS = NOBYALUK_CELLS, WHOLE = 1000, RATE = 1000000, START = 1000000000, ROW_BYTES = 4 + 8 * CELLS };

/* From this many cells on, cells of share 1,000 are sent by a separate vector loop. */
enum { WIDE = 32 };

/* The cells in columns. Loops take a multiple of four cells; past cell n every column is 0. */
typedef struct {
    uint64_t n, padded;
    uint32_t speed[CELLS], wave[CELLS], share[CELLS], jam[CELLS], capacity[CELLS];
    uint32_t held[CELLS], queue[CELLS], cumulative[CELLS];
    uint32_t rest[CELLS];                 /* of share x cumulative by 1,000 */
    uint64_t reciprocal[CELLS];           /* 2^40 / share + 1: a product by it and a shift divide exactly, up to 2^30 */
    uint32_t ramp_cell[CELLS], ramps;     /* the cells with a ramp */
    uint32_t split_cell[CELLS], splits;   /* the cells with another share than 1,000 */
} columns;

/* What one step computes: room and demand of each cell, and each ramp's release and next queue. */
typedef struct {
    uint32_t room[CELLS + 4], demand[CELLS];
    uint32_t release[CELLS], waiting[CELLS];
} turn;

typedef struct { uint32_t out, onward; } flow;

static uint32_t number_at(const uint8_t *p) {
    uint32_t x;
    memcpy(&x, p, sizeof x);
    return __builtin_bswap32(x);
}

static uint32_t short_at(const uint8_t *p) { return (uint32_t)p[0] << 8 | p[1]; }

static uint32_t least(uint32_t a, uint32_t b) { return a < b ? a : b; }

static void refuse(nobyaluk_ended *ended, uint64_t number, uint64_t place) {
    memset(ended, 0, sizeof *ended);
    ended->number = number;
    ended->place = place;
}

/* Refusals 1, 2, 3, 19 and 4: the number of the first, or 0. */
static uint64_t header_fault(const uint8_t *record, uint64_t bytes) {
    if (bytes < 16 || bytes > 65536 || number_at(record) != bytes - 4 || (record[4] == 2 && bytes < 18)) return 1;
    if (record[4] != 1 && record[4] != 2) return 2;
    uint64_t n = record[5], steps = short_at(record + 6);
    if (n < 1 || n > CELLS || steps < 1 || steps > 1440) return 3;
    uint32_t seconds = record[4] == 2 ? short_at(record + 8) : 1;
    if (seconds < 1 || seconds > 900) return 19;
    uint64_t head = record[4] == 2 ? 18 : 16;
    return bytes != head + 24 * n + steps * (4 + 8 * n) ? 4 : 0;
}

/* Reads the cell at i: 1, or 0 if it is out of its limits. */
static int read_cell(const uint8_t *p, uint64_t i, columns *c, nobyaluk_road *road) {
    uint32_t speed = short_at(p), wave = short_at(p + 2), share = short_at(p + 4), ramp = short_at(p + 6);
    uint32_t jam = number_at(p + 8), capacity = number_at(p + 12), held = number_at(p + 16), queue = number_at(p + 20);
    if (speed > WHOLE || wave > WHOLE || share > (i + 1 == c->n ? 0 : WHOLE) || ramp > 1) return 0;
    if (jam > RATE || capacity > RATE || held > jam || queue > START * ramp) return 0;
    road->speed[i] = (uint16_t)speed;
    road->wave[i] = (uint16_t)wave;
    road->share[i] = (uint16_t)share;
    road->ramp[i] = (uint16_t)ramp;
    road->jam[i] = c->jam[i] = jam;
    road->capacity[i] = c->capacity[i] = capacity;
    c->speed[i] = speed;
    c->wave[i] = wave;
    c->share[i] = share;
    c->held[i] = held;
    c->queue[i] = queue;
    if (ramp) c->ramp_cell[c->ramps++] = (uint32_t)i;
    if (share != WHOLE) {
        c->split_cell[c->splits++] = (uint32_t)i;
        c->reciprocal[i] = share ? (1ull << 40) / share + 1 : 0;
    }
    return 1;
}

/* Whether a row of bytes is out of its limits. */
static int row_fault(const uint8_t *row, uint64_t n, const uint16_t *ramp) {
    int fault = number_at(row) > RATE;
    for (uint64_t i = 0; i < n; i++) {
        uint32_t most = (uint32_t)RATE * ramp[i];
        fault |= number_at(row + 4 + 8 * i) > most;
        fault |= number_at(row + 8 + 8 * i) > most;
    }
    return fault;
}

static void raise(uint8_t *restrict greatest, const uint8_t *restrict part, uint64_t size) {
    for (uint64_t j = 0; j < size; j++) greatest[j] = greatest[j] < part[j] ? part[j] : greatest[j];
}

/* The first row out of its limits, or `steps`. Short rows are checked side by side. */
static uint64_t first_row_fault(const uint8_t *rows, uint64_t n, uint64_t steps, const uint16_t *ramp) {
    uint64_t size = 4 + 8 * n, beside = ROW_BYTES / size, blocks = steps / beside;
    uint8_t greatest[ROW_BYTES] = {0};
    for (uint64_t t = 0; t < blocks; t++) raise(greatest, rows + t * beside * size, beside * size);
    for (uint64_t t = blocks * beside; t < steps; t++) raise(greatest, rows + t * size, size);
    int fault = 0;
    for (uint64_t r = 0; r < beside; r++) fault |= row_fault(greatest + r * size, n, ramp);
    if (!fault) return steps;
    for (uint64_t t = 0; t < steps; t++) if (row_fault(rows + t * size, n, ramp)) return t;
    return steps;
}

/* Each cell's supply, as the room that it has. */
static void supplies(uint64_t padded, const columns *restrict c, turn *restrict now) {
    for (uint64_t i = 0; i < padded; i++) now->room[i] = least(c->capacity[i], c->wave[i] * (c->jam[i] - c->held[i]) / WHOLE);
}

/* Each cell's demand; after the releases, so that the counts stored last step have reached memory when vectors load them. */
static void demands(uint64_t padded, const columns *restrict c, turn *restrict now) {
    for (uint64_t i = 0; i < padded; i++) now->demand[i] = least(c->capacity[i], c->speed[i] * c->held[i] / WHOLE);
}

/* Takes the releases off the rooms: 0, or refusal 9 or 10 with its place. */
static uint64_t take_releases(const uint8_t *row, const columns *c, turn *now, uint64_t *place) {
    for (uint32_t k = 0; k < c->ramps; k++) {
        uint32_t i = c->ramp_cell[k];
        uint32_t coming = c->queue[i] + number_at(row + 4 + 8 * i), release = number_at(row + 8 + 8 * i);
        *place = i + 1;
        if (release > coming) return 9;
        if (release > now->room[i]) return 10;
        now->room[i] -= release;
        now->release[k] = release;
        now->waiting[k] = coming - release;
    }
    return 0;
}

/* The outflow of a cell whose share isn't 1,000, and what of it enters the next cell. Keeps the remainder. */
static flow send_split(columns *c, uint32_t i, uint32_t demand, uint32_t room) {
    uint32_t rest = c->rest[i];
    flow sent = {demand, (rest + c->share[i] * demand) / WHOLE};
    if (room < sent.onward) {
        sent.out = (uint32_t)((WHOLE * room + WHOLE - 1 - rest) * (unsigned __int128)c->reciprocal[i] >> 40);
        sent.onward = room;
    }
    c->rest[i] = rest + c->share[i] * sent.out - WHOLE * sent.onward;
    return sent;
}

/* Sends and moves cell after cell; gives the vehicles on the road. */
static uint32_t send_narrow(columns *c, const turn *now, uint32_t entering, uint32_t *y) {
    uint32_t on_road = 0;
    for (uint64_t i = 0; i < c->n; i++) {
        uint32_t demand = now->demand[i], room = now->room[i + 1], whole = least(demand, room);
        flow sent = {whole, whole};
        if (c->share[i] != WHOLE) sent = send_split(c, (uint32_t)i, demand, room);
        y[i] = sent.out;
        c->cumulative[i] += sent.out;
        on_road += c->held[i] += entering - sent.out;
        entering = sent.onward;
    }
    return on_road;
}

/* The same in three loops: shares of 1,000, the other shares, the move. */
static uint32_t send_wide(columns *restrict c, const turn *restrict now, uint32_t entering, uint32_t *restrict y) {
    uint32_t out[CELLS], into[CELLS + 1], on_road = 0;
    into[0] = entering;
    for (uint64_t i = 0; i < c->padded; i++) out[i] = into[i + 1] = least(now->demand[i], now->room[i + 1]);
    for (uint32_t k = 0; k < c->splits; k++) {
        uint32_t i = c->split_cell[k];
        flow sent = send_split(c, i, now->demand[i], now->room[i + 1]);
        out[i] = sent.out;
        into[i + 1] = sent.onward;
    }
    for (uint64_t i = 0; i < c->padded; i++) {
        c->cumulative[i] += out[i];
        c->held[i] += into[i] - out[i];
        on_road += c->held[i];
    }
    memcpy(y, out, sizeof *y * c->n);
    return on_road;
}

/* Adds the releases to the cells and stores the queues; gives the vehicles that wait, and adds the releases to those on the road. */
static uint64_t admit_releases(columns *c, const turn *now, uint32_t *on_road) {
    uint64_t waiting = 0;
    for (uint32_t k = 0; k < c->ramps; k++) {
        uint32_t i = c->ramp_cell[k];
        c->held[i] += now->release[k];
        *on_road += now->release[k];
        c->queue[i] = now->waiting[k];
        waiting += now->waiting[k];
    }
    return waiting;
}

/* Makes the steps up to the first refusal. */
static void run_rows(const uint8_t *row, uint64_t steps, columns *c, nobyaluk_ended *ended, uint32_t *list) {
    nobyaluk_state *s = &ended->state;
    uint32_t gate_queue = s->gate_queue, gate_cumulative = 0, capacity = ended->road.gate_capacity;
    uint64_t gate_time = 0, road_time = 0, ramp_time = 0, n = c->n, done = 0, place = 0;
    turn now = {0};
    for (; done < steps; done++, row += 4 + 8 * n, list += n + 1) {
        supplies(c->padded, c, &now);
        uint64_t fault = take_releases(row, c, &now, &place);
        if (fault) {
            ended->number = fault;
            ended->step = done;
            ended->place = place;
            break;
        }
        demands(c->padded, c, &now);
        uint32_t first = least(least(capacity, gate_queue), now.room[0]);
        list[0] = first;
        uint32_t on_road = n < WIDE ? send_narrow(c, &now, first, list + 1) : send_wide(c, &now, first, list + 1);
        ramp_time += admit_releases(c, &now, &on_road);
        road_time += on_road;
        gate_queue += number_at(row) - first;
        gate_cumulative += first;
        gate_time += gate_queue;
    }
    s->done = done;
    s->gate_time = gate_time;
    s->road_time = road_time;
    s->ramp_time = ramp_time;
    s->gate_queue = gate_queue;
    s->gate_cumulative = gate_cumulative;
}

/* Total, present and exits, and the cells of the state. */
static void end(const columns *c, nobyaluk_ended *ended) {
    nobyaluk_state *s = &ended->state;
    ended->total = s->gate_time + s->road_time + s->ramp_time;
    ended->present = s->gate_queue;
    for (uint64_t i = 0; i < c->n; i++) {
        s->held[i] = c->held[i];
        s->queue[i] = c->queue[i];
        s->cumulative[i] = c->cumulative[i];
        ended->present += (uint64_t)c->held[i] + c->queue[i];
        ended->exits += c->cumulative[i] - (uint64_t)c->share[i] * c->cumulative[i] / WHOLE;
    }
}

nobyaluk_ended limit_run(const uint8_t *record, uint64_t bytes, uint32_t *list, uint64_t count) {
    nobyaluk_ended ended;
    uint64_t fault = header_fault(record, bytes);
    refuse(&ended, fault, 0);
    if (fault) return ended;
    uint64_t head = record[4] == 2 ? 18 : 16, steps = short_at(record + 6);
    columns c = {0};
    c.n = record[5];
    c.padded = (c.n + 3) & ~3ull;
    ended.road.n = c.n;
    ended.road.version = record[4];
    ended.road.seconds = (uint16_t)(record[4] == 2 ? short_at(record + 8) : 0);
    ended.road.gate_capacity = number_at(record + head - 8);
    ended.state.gate_queue = number_at(record + head - 4);
    if (ended.road.gate_capacity > RATE || ended.state.gate_queue > START) { refuse(&ended, 5, 0); return ended; }
    for (uint64_t i = 0; i < c.n; i++)
        if (!read_cell(record + head + 24 * i, i, &c, &ended.road)) { refuse(&ended, 5, i + 1); return ended; }
    const uint8_t *rows = record + head + 24 * c.n;
    uint64_t row = first_row_fault(rows, c.n, steps, ended.road.ramp);
    if (row != steps) { refuse(&ended, 6, row); return ended; }
    if (count < steps * (c.n + 1)) { refuse(&ended, 11, 0); return ended; }
    run_rows(rows, steps, &c, &ended, list);
    end(&c, &ended);
    return ended;
}
