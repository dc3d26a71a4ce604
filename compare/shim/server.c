/* The calls make, step and mix, asked from outside: a request is a byte (N make, T step, M mix), a 4-byte length and the bytes of what is lent, in the order of
   the call's arguments; the answer is a 4-byte length and lines with the number and every place lent after the call. A length of 2^32 - 1 says: no such call.
   Each step is asked of the method too, on the same memory: it must leave the same, with every flag written as 0 or 1.
   `server wrong CALL` turns one bit of an unused or refused place after each such call, to show that the comparison notices; `server wrong B` takes for
   present, in a step, only what is lent as 1. */
#include "shim.h"
#include <stdio.h>
#include <stdlib.h>
#include <string.h>

static unsigned char request[1 << 20];
static size_t request_length, taken;
static char answer[1 << 20];
static size_t answer_length;
static int wrong;

static void stop(const char *words) {
    fprintf(stderr, "server: %s\n", words);
    exit(2);
}

/* The next bytes of the request, into what is lent. */
static void take(void *to, size_t bytes) {
    if (bytes > request_length - taken) stop("a request is too short for its call");
    memcpy(to, request + taken, bytes);
    taken += bytes;
}

static void say(const char *name) { answer_length += (size_t)sprintf(answer + answer_length, "%s", name); }
static void say_count(uint64_t n) { answer_length += (size_t)sprintf(answer + answer_length, " %llu", (unsigned long long)n); }
static void say_end(void) { answer[answer_length++] = '\n'; }

/* A double's bits, also those of a not-a-number: they are copied, not worked on. */
static void say_double(const double *x) {
    static const char digits[] = "0123456789abcdef";
    uint64_t bits;
    memcpy(&bits, x, 8);
    answer[answer_length++] = ' ';
    for (int at = 60; at >= 0; at -= 4) answer[answer_length++] = digits[bits >> at & 15];
}

static void say_number(const char *name, uint8_t number) {
    say(name);
    say_count(number);
    say_end();
}

static void say_doubles(const char *name, const double *xs, size_t n) {
    say(name);
    for (size_t i = 0; i < n; i++) say_double(&xs[i]);
    say_end();
}

static void say_counts(const char *name, const size_t *xs, size_t n) {
    say(name);
    for (size_t i = 0; i < n; i++) say_count(xs[i]);
    say_end();
}

static void say_bytes(const char *name, const uint8_t *xs, size_t n) {
    say(name);
    for (size_t i = 0; i < n; i++) say_count(xs[i]);
    say_end();
}

/* Wrong on purpose, where it is asked for: the last bit of a double's payload. */
static void spoil(int call, double *x) {
    if (wrong == call) *(unsigned char *)x ^= 1;
}

static void misread(step_arrays *a) {
    for (size_t i = 0; wrong == 'B' && i < 2 * HEATERS; i++) a->present[i] = a->present[i] == 1;
}

/* Flags as they are written. */
static void write_flags(uint8_t *xs) {
    for (size_t i = 0; i < HEATERS; i++) xs[i] = xs[i] != 0;
}

/* Whether the method leaves in t and r what the step left in `tank` and `report`, with every flag written. */
static int method_leaves(tank_arrays t, report_arrays r, const step_arrays *a, uint8_t number, tank_arrays tank, report_arrays report) {
    write_flags(tank.thermostats);
    write_flags(tank.flags);
    write_flags(report.flags);
    return demand_hot_water(&t, &r, a) == number && memcmp(&t, &tank, sizeof t) == 0 && memcmp(&r, &report, sizeof r) == 0;
}

static void take_tank(tank_arrays *t) {
    take(t->counts, sizeof t->counts);
    take(t->numbers, sizeof t->numbers);
    take(t->temps, sizeof t->temps);
    take(t->heaters, sizeof t->heaters);
    take(t->thermostats, sizeof t->thermostats);
    take(t->flags, sizeof t->flags);
}

static void say_tank(const tank_arrays *t) {
    say_counts("counts", t->counts, 2);
    say_doubles("numbers", t->numbers, 6);
    say_doubles("temps", t->temps, LAYERS);
    say_doubles("heaters", t->heaters, 3 * HEATERS);
    say_bytes("thermostats", t->thermostats, HEATERS);
    say_bytes("flags", t->flags, HEATERS);
}

static void answer_make(void) {
    tank_arrays t;
    double initial;
    take(&initial, sizeof initial);
    take_tank(&t);
    say_number("N", make(initial, &t));
    spoil('N', &t.temps[LAYERS - 1]);
    say_tank(&t);
}

static void answer_step(void) {
    tank_arrays t;
    report_arrays r;
    step_arrays a, kept;
    take_tank(&t);
    take(r.totals, sizeof r.totals);
    take(r.figures, sizeof r.figures);
    take(r.flags, sizeof r.flags);
    take(r.rounds, sizeof r.rounds);
    memset(&a, 0, sizeof a);
    take(&a.feed, sizeof a.feed);
    take(a.asked, sizeof a.asked);
    take(a.volumes, sizeof a.volumes);
    take(a.present, sizeof a.present);
    take(a.points, sizeof a.points);
    memcpy(&kept, &a, sizeof a);
    misread(&a);
    const tank_arrays tank = t;
    const report_arrays report = r;
    uint8_t number = step(&t, &r, &a);
    int same = method_leaves(tank, report, &a, number, t, r);
    if (wrong == 'B') memcpy(a.present, kept.present, sizeof a.present);
    if (number != 0) spoil('T', &r.figures[3 * HEATERS - 1]);
    say_number("T", number);
    say_tank(&t);
    say_doubles("totals", r.totals, 4);
    say_doubles("figures", r.figures, 3 * HEATERS);
    say_bytes("line-flags", r.flags, HEATERS);
    say_counts("rounds", r.rounds, HEATERS);
    if (memcmp(&a, &kept, sizeof a) != 0) say("the arguments changed\n");
    if (!same) say("the method left something else\n");
}

static void answer_mix(void) {
    static double layers[sizeof request / 8];
    double volume;
    size_t rounds[1] = {77};
    take(&volume, sizeof volume);
    size_t n = (request_length - taken) / 8;
    take(layers, 8 * n);
    uint8_t number = huszmago_mix(layers, n, volume, rounds);
    if (number == 9) spoil('M', &layers[n - 1]);
    say("M");
    say_count(number);
    if (number == 0) {
        say_count(rounds[0]);
        for (size_t i = 0; i < n; i++) say_double(&layers[i]);
    } else {
        /* A refused mix leaves its layers, bit for bit, and has run no rounds. */
        if (memcmp(layers, request + 8, 8 * n) != 0) say(" but the layers changed");
        if (rounds[0] != 0) say(" but rounds were counted");
    }
    say_end();
}

int main(int count, char **words) {
    unsigned char head[5];
    if (count == 3 && strcmp(words[1], "wrong") == 0) wrong = words[2][0];
    while (fread(head, 1, 5, stdin) == 5) {
        uint32_t length;
        memcpy(&length, head + 1, 4);
        request_length = length;
        if (request_length > sizeof request) stop("a request is too long");
        if (fread(request, 1, request_length, stdin) != request_length) stop("a request is cut short");
        taken = answer_length = 0;
        int known = 1;
        if (head[0] == 'N') answer_make();
        else if (head[0] == 'T') answer_step();
        else if (head[0] == 'M') answer_mix();
        else known = 0;
        length = known ? (uint32_t)answer_length : UINT32_MAX;
        fwrite(&length, 4, 1, stdout);
        fwrite(answer, 1, answer_length, stdout);
        fflush(stdout);
    }
    return 0;
}
