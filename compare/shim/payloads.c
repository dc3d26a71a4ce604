/* What no proof can speak of, since the logic has one not-a-number: that a refused step, a refused mix and a mix of one layer hand back every place bit for bit.
   All places, used and unused, are filled with patterns of not-a-number, each place with a payload of its own; the memory is compared after the call.
   Every step is run both ways: the exported step, which writes nothing where it is refused, and the method by value, whose answer is written back. */
#include "shim.h"
#include <stdio.h>
#include <string.h>
#include <sys/mman.h>
#include <sys/wait.h>
#include <unistd.h>

/* Quiet, signalling, and both with the sign set; the payload is never zero. */
static const uint64_t kinds[4] = {0x7ff8000000000000u, 0x7ff0000000000000u, 0xfff8000000000000u, 0xfff0000000000000u};
enum { PATTERNS = 5 };

/* The pattern of a place: one kind throughout, or, in the last pattern, the kinds in turn. */
static uint64_t pattern(int which, unsigned place) {
    uint64_t kind = kinds[which < 4 ? which : (int)(place % 4)];
    return kind | (0x0000a5c300000000u + 0x10001u * (place + 1));
}

static void fill(double *xs, size_t n, int which, unsigned from) {
    for (size_t i = 0; i < n; i++) {
        uint64_t b = pattern(which, from + (unsigned)i);
        memcpy(&xs[i], &b, 8);
    }
}

/* Bytes on both sides of what is lent, to see that nothing else is written. */
typedef struct {
    uint64_t before[16];
    tank_arrays tank;
    uint64_t between[16];
    report_arrays report;
    uint64_t after[16];
    step_arrays step;
    uint64_t end[16];
} lent;

static void fill_lent(lent *m, int which) {
    memset(m, 0, sizeof *m);
    for (int i = 0; i < 16; i++) m->before[i] = m->between[i] = m->after[i] = m->end[i] = pattern(4, 9000 + i);
    fill(m->tank.numbers, 6, which, 0);
    fill(m->tank.temps, LAYERS, which, 10);
    fill(m->tank.heaters, 3 * HEATERS, which, 50);
    fill(m->report.totals, 4, which, 100);
    fill(m->report.figures, 3 * HEATERS, which, 110);
    fill(&m->step.feed, 1, which, 140);
    fill(m->step.volumes, EVENTS, which, 150);
    fill(m->step.points, 2 * HEATERS, which, 220);
    for (int h = 0; h < HEATERS; h++) {
        m->tank.thermostats[h] = h % 2;
        m->tank.flags[h] = (h / 2) % 2;
        m->report.flags[h] = (h + 1) % 2;
        m->report.rounds[h] = 1000003u * (h + 1);
        m->step.present[h] = 0;
        m->step.present[HEATERS + h] = 1;
    }
    m->tank.counts[0] = 4;
    m->tank.counts[1] = 2;
    m->step.asked[0] = 1;
    m->step.asked[1] = 2;
}

/* What a step looks at before the one place that is wrong is made right, in the order of the checks; the rest stays a pattern. */
static void right_numbers(lent *m) {
    m->tank.numbers[0] = 64;
    m->tank.numbers[2] = m->tank.numbers[3] = m->tank.numbers[5] = 1;
}
static void right_temps(lent *m) {
    right_numbers(m);
    m->tank.numbers[1] = 0;
    m->tank.numbers[4] = 20;
    for (size_t i = 0; i < m->tank.counts[0] && i < LAYERS; i++) m->tank.temps[i] = 60;
}
static void right_heaters(lent *m) {
    right_temps(m);
    for (size_t h = 0; h < m->tank.counts[1] && h < HEATERS; h++) {
        m->tank.heaters[h] = 3;
        m->tank.heaters[HEATERS + h] = 0.5;
        m->tank.heaters[2 * HEATERS + h] = 0.25;
    }
}
static void right_draws(lent *m) {
    right_heaters(m);
    m->step.feed = 12;
    for (size_t i = 0; i < m->step.asked[0] && i < EVENTS; i++) m->step.volumes[i] = 16;
}
static void right_points(lent *m) {
    right_draws(m);
    for (size_t h = 0; h < m->step.asked[1] && h < HEATERS; h++) m->step.points[HEATERS + h] = 60;
}

/* One way to be refused: the number that it must draw, and how. */
typedef struct {
    int number;
    void (*prepare)(lent *);
} refusal;

static void no_layers(lent *m) { m->tank.counts[0] = 0; }
static void many_layers(lent *m) { m->tank.counts[0] = 33; }
static void most_layers(lent *m) { m->tank.counts[0] = (size_t)-1; }
static void many_heaters(lent *m) { m->tank.counts[1] = 9; }
static void bad_numbers(lent *m) { (void)m; }
static void bad_density(lent *m) { m->tank.numbers[0] = 64; }
static void bad_temps(lent *m) { right_numbers(m); }
static void bad_layer(lent *m) {
    double kept = m->tank.temps[3];
    right_temps(m);
    memcpy(&m->tank.temps[3], &kept, 8);
}
static void bad_heaters(lent *m) { right_temps(m); }
static void many_events(lent *m) {
    right_heaters(m);
    m->step.asked[0] = 65;
}
static void bad_entries(lent *m) {
    right_heaters(m);
    m->step.asked[1] = 3;
}
static void bad_feed(lent *m) { right_heaters(m); }
static void bad_volume(lent *m) {
    right_heaters(m);
    m->step.feed = 12;
}
static void bad_points(lent *m) { right_draws(m); }
/* The first heater's set points pass; the second has a lower one that is a pattern, and no upper one. */
static void pattern_alone(lent *m) {
    right_draws(m);
    m->step.present[1] = 1;
    m->step.present[HEATERS + 1] = 0;
    m->step.points[HEATERS] = 60;
}
static void lower_alone(lent *m) {
    pattern_alone(m);
    m->step.points[1] = 50;
}
static void lower_above(lent *m) {
    lower_alone(m);
    m->step.present[HEATERS + 1] = 1;
    m->step.points[HEATERS + 1] = 49;
}
static void unordered(lent *m) {
    right_points(m);
    m->step.feed = 1e307;
    m->step.volumes[0] = 32;
}
static void energy_large(lent *m) {
    right_points(m);
    m->tank.numbers[2] = 1e307;
}
/* Turns that are refused after an event that was worked: too much heat spoils the mixing, too great a loss a layer. */
static void heat_large(lent *m) {
    right_points(m);
    m->tank.flags[0] = m->tank.flags[1] = 1;
    m->tank.heaters[0] = 1e308;
    m->tank.heaters[1] = 1e308;
    m->tank.numbers[3] = 1e-10;
}
static void loss_large(lent *m) {
    right_points(m);
    m->tank.numbers[1] = 27;
    m->tank.numbers[4] = -1.7e308;
}

static const refusal refusals[] = {
    {1, no_layers},   {1, many_layers}, {1, most_layers}, {2, many_heaters}, {3, bad_numbers},
    {3, bad_density}, {4, bad_temps},   {4, bad_layer},   {5, bad_heaters},  {6, many_events},
    {6, bad_entries}, {7, bad_feed},    {7, bad_volume},  {8, lower_alone},  {9, unordered},
    {9, heat_large},  {10, energy_large}, {10, loss_large}, {12, bad_points}, {12, pattern_alone},
    {13, lower_above},
};

/* The two ways to step. */
typedef struct {
    const char *name;
    uint8_t (*step)(tank_arrays *, report_arrays *, const step_arrays *);
} way;

static const way ways[] = {{"step", step}, {"demand_hot_water", demand_hot_water}};
enum { WAYS = 2 };

static unsigned long calls, places, wrong;

/* Compares n bytes, as so many places, and counts those that differ. */
static void same(const void *got, const void *want, size_t bytes, size_t each, const char *what, int which) {
    for (size_t i = 0; i < bytes; i += each) {
        places++;
        if (memcmp((const char *)got + i, (const char *)want + i, each) != 0) {
            wrong++;
            printf("differs: %s, pattern %d, byte %zu\n", what, which, i);
        }
    }
}

static void number_is(int got, int want, const char *what, int which) {
    calls++;
    if (got != want) {
        wrong++;
        printf("number %d, not %d: %s, pattern %d\n", got, want, what, which);
    }
}

enum { REFUSALS = sizeof refusals / sizeof *refusals };

static void refused_steps(const way *w, int which) {
    for (size_t k = 0; k < REFUSALS; k++) {
        static lent m, kept;
        fill_lent(&m, which);
        refusals[k].prepare(&m);
        memcpy(&kept, &m, sizeof m);
        number_is(w->step(&m.tank, &m.report, &m.step), refusals[k].number, w->name, which);
        same(&m, &kept, sizeof m, 8, w->name, which);
    }
}

/* A refused step on memory that can be read and not written: whether it came to its end. */
static int ends_unwritten(const way *w, const refusal *refused) {
    size_t page = (size_t)sysconf(_SC_PAGESIZE), bytes = (sizeof(lent) + page - 1) / page * page;
    lent *m = mmap(NULL, bytes, PROT_READ | PROT_WRITE, MAP_PRIVATE | MAP_ANONYMOUS, -1, 0);
    int status = 1;
    if (m == MAP_FAILED) return -1;
    fill_lent(m, 1);
    refused->prepare(m);
    if (mprotect(m, bytes, PROT_READ) != 0) return -1;
    pid_t child = fork();
    if (child == 0) _exit(w->step(&m->tank, &m->report, &m->step) != refused->number);
    if (child < 0 || waitpid(child, &status, 0) != child) return -1;
    munmap(m, bytes);
    return WIFSIGNALED(status) ? 0 : WEXITSTATUS(status) == 0 ? 1 : -1;
}

/* The exported step writes nothing where it is refused. The method's answer is written: else a comparison after it would show nothing. */
static void written_back(void) {
    for (size_t k = 0; k < REFUSALS; k++) {
        if (ends_unwritten(&ways[0], &refusals[k]) != 1 || ends_unwritten(&ways[1], &refusals[k]) != 0) {
            wrong++;
            printf("refusal %d: the exported step wrote, or the method's answer was not written\n", refusals[k].number);
        }
    }
}

/* An accepted step: the tank's unused places as they were, the report's zero; a thermostat position that is absent is no place of its own, and stays too. */
static void accepted_steps(const way *w, int which) {
    static lent m, kept;
    static const double zero;
    fill_lent(&m, which);
    right_points(&m);
    fill(&m.tank.heaters[2 * HEATERS], 1, which, 66);
    memcpy(&kept, &m, sizeof m);
    number_is(w->step(&m.tank, &m.report, &m.step), 0, w->name, which);
    same(m.before, kept.before, sizeof m.before, 8, "before", which);
    same(m.tank.counts, kept.tank.counts, sizeof m.tank.counts, 8, "counts", which);
    same(m.tank.numbers, kept.tank.numbers, sizeof m.tank.numbers, 8, "numbers", which);
    same(&m.tank.temps[4], &kept.tank.temps[4], 28 * 8, 8, "unused layers", which);
    same(m.tank.heaters, kept.tank.heaters, sizeof m.tank.heaters, 8, "heaters", which);
    same(m.tank.thermostats, kept.tank.thermostats, HEATERS, 1, "thermostats", which);
    same(&m.tank.flags[2], &kept.tank.flags[2], 6, 1, "unused flags", which);
    same(m.between, kept.between, sizeof m.between, 8, "between", which);
    for (int h = 2; h < HEATERS; h++) {
        for (int j = 0; j < 3; j++) same(&m.report.figures[j * HEATERS + h], &zero, 8, 8, "unused figures", which);
        same(&m.report.flags[h], &zero, 1, 1, "unused report flags", which);
        same(&m.report.rounds[h], &zero, 8, 8, "unused rounds", which);
    }
    same(m.after, kept.after, sizeof m - offsetof(lent, after), 8, "arguments", which);
}

static void one_mix(size_t n, double volume, int first_is_number, int number, size_t rounds, int which) {
    static double m[48], kept[48];
    size_t r[1] = {77};
    fill(m, 48, which, 300);
    if (first_is_number) m[4] = 20;
    memcpy(kept, m, sizeof m);
    number_is(huszmago_mix(&m[4], n, volume, r), number, "mix", which);
    same(m, kept, sizeof m, 8, "mix", which);
    same(r, &rounds, 8, 8, "rounds", which);
}

static void mixes(int which) {
    double bad;
    fill(&bad, 1, which, 400);
    one_mix(0, 16, 0, 1, 0, which);
    for (size_t n = 33; n <= 40; n++) one_mix(n, 16, 0, 1, 0, which);
    for (size_t n = 1; n <= 32; n++) one_mix(n, bad, 0, 3, 0, which);
    one_mix(1, 16, 0, 0, 1, which);
    for (size_t n = 2; n <= 32; n++) {
        one_mix(n, 16, 0, 9, 0, which);
        one_mix(n, 16, 1, 9, 0, which);
    }
}

/* The comparison must be able to fail: one bit of a payload, turned, is seen, and so is a signalling pattern that was worked on and not only moved. */
static int notices(void) {
    static lent m, kept;
    volatile double one = 1.0;
    fill_lent(&m, 1);
    memcpy(&kept, &m, sizeof m);
    ((unsigned char *)&m.tank.temps[31])[2] ^= 1;
    int bit = memcmp(&m, &kept, sizeof m) != 0;
    memcpy(&m, &kept, sizeof m);
    m.report.totals[0] *= one;
    return bit && memcmp(&m, &kept, sizeof m) != 0;
}

static void is(double got, double want, const char *what) { same(&got, &want, 8, 8, what, -1); }

/* Figures of 01 with an answer in each array, to see that this file and the library mean the same places. */
static void figures(const way *w) {
    tank_arrays t = {{2, 2}, {32, 27, 1, 1, 20, 0.125}, {0}, {3, 3, 0, 0, 0, 0, 0, 0, 0.5, 0}, {0}, {0}};
    report_arrays r = {{0}, {0}, {0}, {0}};
    step_arrays a = {12, {0, 2}, {0}, {0}, {0}};
    number_is(make(36, &t), 0, "make", -1);
    number_is(w->step(&t, &r, &a), 0, "standby 27", -1);
    is(t.temps[0], 34.4375, "layer 0");
    is(t.temps[1], 34.4375, "layer 1");
    is(r.totals[2], 36, "average");
    is(r.totals[3], 37.5, "recoverable");
    is(r.figures[16], 0, "losses of the upper heater, given first");
    is(r.figures[17], 50, "losses of the lower heater");
    tank_arrays u = {{2, 1}, {32, 0, 1, 1, 20, 1}, {0}, {160}, {0}, {0}};
    step_arrays b = {12, {0, 1}, {0}, {1, 0, 0, 0, 0, 0, 0, 0, 1}, {41, 0, 0, 0, 0, 0, 0, 0, 50}};
    number_is(make(40, &u), 0, "make", -1);
    number_is(w->step(&u, &r, &b), 0, "set points 41 and 50", -1);
    is(u.temps[1], 45, "heated layer");
    is(r.figures[0], 160, "adjusted");
    is(r.figures[8], 160, "supplied");
    const uint8_t on[2] = {u.flags[0], r.flags[0]}, both[2] = {1, 1};
    same(on, both, 2, 1, "flags", -1);
    b.points[8] = 42;
    u.flags[0] = 0;
    u.temps[0] = u.temps[1] = 40;
    number_is(w->step(&u, &r, &b), 0, "set points 41 and 42", -1);
    is(u.temps[0], 42, "limited layer");
    is(r.figures[0], 64, "adjusted");
    double three[3] = {30, 40, 5};
    size_t rounds[1];
    const size_t two[1] = {2};
    number_is(huszmago_mix(three, 3, 16, rounds), 0, "mix 30, 40, 5", -1);
    for (int i = 0; i < 3; i++) is(three[i], 25, "mixed layer");
    same(rounds, two, 8, 8, "rounds", -1);
}

int main(void) {
    for (int which = 0; which < PATTERNS; which++) {
        for (int w = 0; w < WAYS; w++) {
            refused_steps(&ways[w], which);
            accepted_steps(&ways[w], which);
        }
        mixes(which);
    }
    for (int w = 0; w < WAYS; w++) figures(&ways[w]);
    written_back();
    if (!notices()) wrong++;
    printf("%lu calls, %lu places compared, %lu wrong\n", calls, places, wrong);
    return wrong != 0;
}
