/* What a step costs: its time by layers, heaters and events, and its stack. Prints the table of docs/PERFORMANCE.md. */
#define _XOPEN_SOURCE 700
#include "shim.h"
#include <stdio.h>
#include <string.h>
#include <time.h>
#include <ucontext.h>

static const size_t layers[] = {4, 10, 16, 32}, heaters[] = {0, 1, 2, 8}, events[] = {0, 4, 64};

static double now(void) {
    struct timespec t;
    clock_gettime(CLOCK_MONOTONIC, &t);
    return (double)t.tv_sec * 1e6 + (double)t.tv_nsec / 1e3;
}

/* A household's cylinder of 150 litres at 55, half-hour steps, a feed of 10; 12 litres an accepted step in all, and 3 kW in all. */
static void household(tank_arrays *t, report_arrays *r, step_arrays *a, size_t n, size_t h, size_t e) {
    memset(t, 0, sizeof *t);
    memset(r, 0, sizeof *r);
    memset(a, 0, sizeof *a);
    t->counts[0] = n;
    t->counts[1] = h;
    const double numbers[6] = {150, 1.7, 0.998, 0.001163, 18, 0.5};
    memcpy(t->numbers, numbers, sizeof numbers);
    for (size_t i = 0; i < h; i++) {
        t->heaters[i] = 3.0 / (double)h;
        t->heaters[HEATERS + i] = (double)i / (double)(h + 1);
        a->present[i] = a->present[HEATERS + i] = 1;
        a->points[i] = 52;
        a->points[HEATERS + i] = 60;
    }
    a->feed = 10;
    a->asked[0] = e;
    a->asked[1] = h;
    for (size_t i = 0; i < e; i++) a->volumes[i] = 12.0 / (double)e;
}

/* A stretch of steps, each from what the one before left; the least of several stretches, in microseconds a step. */
static double step_time(size_t n, size_t h, size_t e) {
    enum { STRETCHES = 20, STEPS = 600 };
    tank_arrays t;
    report_arrays r;
    step_arrays a;
    double least = 1e300;
    for (int k = 0; k < STRETCHES; k++) {
        household(&t, &r, &a, n, h, e);
        if (make(55, &t) != 0) return -1;
        double start = now();
        for (int i = 0; i < STEPS; i++)
            if (step(&t, &r, &a) != 0) return -1;
        double each = (now() - start) / STEPS;
        if (each < least) least = each;
    }
    return least;
}

/* Reading and writing the arrays, with a tank that is refused at once. */
static double shim_time(void) {
    enum { STRETCHES = 200, STEPS = 2000 };
    tank_arrays t;
    report_arrays r;
    step_arrays a;
    household(&t, &r, &a, 0, 0, 0);
    double least = 1e300;
    for (int k = 0; k < STRETCHES; k++) {
        double start = now();
        for (int i = 0; i < STEPS; i++)
            if (step(&t, &r, &a) != 1) return -1;
        double each = (now() - start) / STEPS;
        if (each < least) least = each;
    }
    return least;
}

/* One mixing of 32 layers, and its rounds. */
static void show_mix(const char *what, const double *temps) {
    enum { STRETCHES = 200, MIXES = 300 };
    double least = 1e300;
    size_t rounds[1];
    for (int k = 0; k < STRETCHES; k++) {
        double start = now();
        for (int i = 0; i < MIXES; i++) {
            double layers[LAYERS];
            memcpy(layers, temps, sizeof layers);
            huszmago_mix(layers, LAYERS, 4.7, rounds);
        }
        double each = (now() - start) / MIXES;
        if (each < least) least = each;
    }
    printf("mix, %s: %.2f, rounds %zu\n", what, least, rounds[0]);
}

/* Layers that all join, layers that none joins, and cold water above layers that rise less and less, so that each round reaches one layer further down. */
static void show_mixes(void) {
    double equal[LAYERS], rising[LAYERS], steep[LAYERS];
    for (int i = 0; i < LAYERS; i++) {
        equal[i] = 55;
        rising[i] = 40 + 0.5 * i;
        steep[i] = i < LAYERS - 1 ? 100 - 100.0 / (double)(1u << (i < 30 ? i : 30)) : -1e6;
    }
    show_mix("equal layers", equal);
    show_mix("rising layers", rising);
    show_mix("cold above rising layers", steep);
}

/* The stack: a step runs on a stretch of memory filled with one byte, and the deepest byte that it changed is looked up. */
enum { STACK = 1 << 20, FILL = 0xa5 };
static unsigned char stack[STACK] __attribute__((aligned(64)));
static ucontext_t outside, inside;
static unsigned char *entered;
static tank_arrays tank;
static report_arrays report;
static step_arrays asked;

static void on_stack(void) {
    unsigned char here;
    entered = &here;
    step(&tank, &report, &asked);
}

static size_t stack_of(size_t n, size_t h, size_t e, double feed) {
    household(&tank, &report, &asked, n, h, e);
    asked.feed = feed;
    if (n != 0) make(55, &tank);
    memset(stack, FILL, STACK);
    getcontext(&inside);
    inside.uc_stack.ss_sp = stack;
    inside.uc_stack.ss_size = STACK;
    inside.uc_link = &outside;
    makecontext(&inside, on_stack, 0);
    swapcontext(&outside, &inside);
    size_t deepest = 0;
    while (deepest < STACK && stack[deepest] == FILL) deepest++;
    return (size_t)(entered - (stack + deepest));
}

int main(void) {
    printf("| layers | heaters | no events | 4 events | 64 events |\n|---|---|---|---|---|\n");
    for (size_t i = 0; i < 4; i++)
        for (size_t j = 0; j < 4; j++) {
            printf("| %zu | %zu |", layers[i], heaters[j]);
            for (size_t k = 0; k < 3; k++) printf(" %.2f |", step_time(layers[i], heaters[j], events[k]));
            printf("\n");
        }
    printf("arrays read and written, no work: %.3f\n", shim_time());
    show_mixes();
    printf("stack, bytes: refused at once %zu; 4 layers, 1 heater, 4 events %zu; 32 layers, 8 heaters, 64 events %zu; the same with a feed of 70 %zu\n",
           stack_of(0, 0, 0, 10), stack_of(4, 1, 4, 10), stack_of(32, 8, 64, 10), stack_of(32, 8, 64, 70));
    return 0;
}
