/* Flags are lent as bytes: 0 is false and every other byte is true. Every byte from 0 to 255 is lent at every place of `present`, `thermostats`, `flags` and
   the report's flags, in steps that are accepted and refused, and in make; then many places at once. Each answer is held against the one for 0 and 1, and the
   lent bytes must be left as shim.h says. The same comparison with other ways to read a byte must fail at every place, or it would show nothing. */
#include "shim.h"
#include <stdio.h>
#include <string.h>

/* What is lent, with no gaps: so that all of it can be compared at once. */
typedef struct {
    tank_arrays tank;
    report_arrays report;
    step_arrays step;
} lent;
_Static_assert(sizeof(lent) == 528 + 296 + 680, "no gaps");

/* A place of a flag among all of them: 8 thermostats, 8 flags, 16 set points present, 8 flags of the report. */
enum { THERMOSTATS = 0, FLAGS = HEATERS, PRESENT = 2 * HEATERS, REPORTED = 4 * HEATERS, PLACES = 5 * HEATERS };

static uint8_t *at(lent *m, int place) {
    if (place < FLAGS) return &m->tank.thermostats[place];
    if (place < PRESENT) return &m->tank.flags[place - FLAGS];
    if (place < REPORTED) return &m->step.present[place - PRESENT];
    return &m->report.flags[place - REPORTED];
}

/* ---- ways to read a byte: the first is right */

typedef uint8_t reader(uint8_t);
static uint8_t not_zero(uint8_t b) { return b != 0; }
static uint8_t only_one(uint8_t b) { return b == 1; }
static uint8_t lowest_bit(uint8_t b) { return b & 1; }
static uint8_t positive(uint8_t b) { return (int8_t)b > 0; }
static uint8_t not_all_ones(uint8_t b) { return b != 0 && b != 255; }
static reader *const wrong_readers[] = {only_one, lowest_bit, positive, not_all_ones};
enum { WRONG_READERS = sizeof wrong_readers / sizeof *wrong_readers };

static lent read_as(lent m, reader *read) {
    for (int place = 0; place < PLACES; place++) *at(&m, place) = read(*at(&m, place));
    return m;
}

/* ---- the three calls, and what each must leave of the bytes lent, given what it left where 0 and 1 were lent */

typedef uint8_t call(lent *);
static uint8_t by_step(lent *m) { return step(&m->tank, &m->report, &m->step); }
static uint8_t by_method(lent *m) { return demand_hot_water(&m->tank, &m->report, &m->step); }
static uint8_t by_make(lent *m) { return make(m->report.totals[0], &m->tank); }

/* The step writes no byte of `thermostats`, and none at all where it is refused; no call writes what is lent to be read alone. */
static void as_lent(call *which, uint8_t number, lent *want, const lent *m) {
    memcpy(want->step.present, m->step.present, sizeof m->step.present);
    if (which == by_step) memcpy(want->tank.thermostats, m->tank.thermostats, HEATERS);
    if (which == by_step && number != 0) memcpy(want->tank.flags, m->tank.flags, HEATERS);
    if (which == by_make || (which == by_step && number != 0)) memcpy(want->report.flags, m->report.flags, HEATERS);
}

static unsigned long calls, accepted, refused;

/* Whether the call answers and leaves what it should if bytes are read so: of 0 and 1 it makes 0 and 1, and of what is lent the same but for the bytes that
   stay. */
static int agrees(call *which, const lent *m, reader *read) {
    lent got = *m, want = read_as(*m, read);
    uint8_t number = which(&want);
    for (int place = 0; place < PLACES; place++)
        if (*at(&want, place) > 1) return 0;
    as_lent(which, number, &want, m);
    calls++;
    if (number == 0) accepted++;
    else refused++;
    return which(&got) == number && memcmp(&got, &want, sizeof got) == 0;
}

/* ---- tanks and steps in which each flag bears on something */

static uint32_t drawn = 1;
static uint32_t draw(uint32_t below) {
    drawn = drawn * 1664525u + 1013904223u;
    return (uint32_t)(((uint64_t)drawn * below) >> 32);
}

/* Layers around the set points, 8 heaters with a thermostat position away from their own, small enough that all layers stay where they are. */
static lent household(void) {
    lent m;
    memset(&m, 0, sizeof m);
    m.tank.counts[0] = 8;
    m.tank.counts[1] = HEATERS;
    const double numbers[6] = {150, 1.7, 0.998, 0.001163, 18, 0.5};
    memcpy(m.tank.numbers, numbers, sizeof numbers);
    for (int i = 0; i < LAYERS; i++) m.tank.temps[i] = i < 8 ? 30 + 5 * i : 77;
    for (int h = 0; h < HEATERS; h++) {
        m.tank.heaters[h] = 0.01;
        m.tank.heaters[HEATERS + h] = h / 8.0;
        m.tank.heaters[2 * HEATERS + h] = (7 - h) / 8.0;
        m.step.points[h] = 38 + 2 * draw(6);
        m.step.points[HEATERS + h] = m.step.points[h] + 4 + 2 * draw(6);
        m.step.present[HEATERS + h] = 1;
        m.report.rounds[h] = 70 + h;
    }
    for (int place = 0; place < PLACES; place++)
        if (place < PRESENT + HEATERS || place >= REPORTED) *at(&m, place) = (uint8_t)draw(2);
    for (int i = 0; i < 4; i++) m.report.totals[i] = 40 + i;
    for (int i = 0; i < 3 * HEATERS; i++) m.report.figures[i] = 100 + i;
    m.step.feed = 10;
    m.step.asked[0] = 1;
    m.step.asked[1] = HEATERS;
    m.step.volumes[0] = 2;
    return m;
}

/* Ways to be refused, early and late, and two to be accepted; of the last two, whether a heater is on or has set points decides. */
enum { KINDS = 8 };
static lent household_of(int kind) {
    lent m = household();
    if (kind == 2) m.tank.counts[0] = 0;
    if (kind == 3) m.tank.numbers[0] = -1;
    if (kind == 4) m.step.asked[1] = 3;
    if (kind == 5) m.step.volumes[0] = -1;
    if (kind == 6) m.step.present[HEATERS + draw(HEATERS)] = 0;
    if (kind == 7) m.tank.heaters[draw(HEATERS)] = 1e308, m.tank.numbers[3] = 1e-10;
    return m;
}

/* ---- all of it */

static unsigned long wrong;

static void must_agree(call *which, const lent *m, const char *what) {
    if (!agrees(which, m, not_zero)) {
        wrong++;
        printf("differs: %s\n", what);
    }
}

static call *const every[] = {by_step, by_method, by_make};
static const char *const names[] = {"step", "demand_hot_water", "make"};
enum { CALLS = 3, HOUSEHOLDS = 5 };

/* At which places a wrong reader was caught, for each call. */
static unsigned char caught[CALLS][WRONG_READERS][PLACES];

static void one_place(const lent *m, int place) {
    lent n = *m;
    for (int byte = 0; byte < 256; byte++) {
        *at(&n, place) = (uint8_t)byte;
        for (int c = 0; c < CALLS; c++) {
            char what[80];
            snprintf(what, sizeof what, "%s, place %d, byte %d", names[c], place, byte);
            must_agree(every[c], &n, what);
        }
    }
    const uint8_t telling[] = {2, 3, 128, 255};
    for (int k = 0; k < 4; k++)
        for (int c = 0; c < CALLS; c++)
            for (int r = 0; r < WRONG_READERS; r++) {
                *at(&n, place) = telling[k];
                if (!agrees(every[c], &n, wrong_readers[r])) caught[c][r][place] = 1;
            }
}

/* Every flag that is set is lent as some byte other than 0, none of them 1. */
static void every_place(const lent *m) {
    for (int k = 0; k < 256; k++) {
        lent n = *m;
        for (int place = 0; place < PLACES; place++)
            if (*at(&n, place) != 0) *at(&n, place) = (uint8_t)(2 + draw(254));
        for (int c = 0; c < CALLS; c++) must_agree(every[c], &n, names[c]);
    }
}

/* The step and the method leave the same where 0 and 1 are lent. */
static void both_ways(const lent *m) {
    lent a = *m, b = *m;
    if (by_step(&a) != by_method(&b) || memcmp(&a, &b, sizeof a) != 0) {
        wrong++;
        printf("differs: step and demand_hot_water on bytes of 0 and 1\n");
    }
}

/* Make reads the thermostats alone. What a step left as it was lent says nothing of how it was read: the report's flags are read by the method. */
static int is_read(call *which, int place) {
    if (which == by_make) return place < FLAGS;
    return which == by_method || place < REPORTED;
}

int main(void) {
    for (int i = 0; i < HOUSEHOLDS; i++)
        for (int kind = 0; kind < KINDS; kind++) {
            lent m = household_of(kind);
            both_ways(&m);
            for (int place = 0; place < PLACES; place++) one_place(&m, place);
            every_place(&m);
        }
    for (int c = 0; c < CALLS; c++)
        for (int r = 0; r < WRONG_READERS; r++)
            for (int place = 0; place < PLACES; place++)
                if (is_read(every[c], place) && !caught[c][r][place]) {
                    wrong++;
                    printf("%s: nothing shows how the byte at place %d is read (reader %d)\n", names[c], place, r);
                }
    printf("%lu calls, %lu accepted, %lu refused, %lu wrong\n", calls, accepted, refused, wrong);
    return wrong != 0;
}
