/* The calls of the crate `shim`, and the layout of what is lent to them. An array's length is part of its type: a call reads and writes exactly so many
   places. A flag is one byte: read, 0 is false and every other value is true; written, it is 1 or 0. Each call answers the number of the refusal, 0 where it
   is accepted. Nothing is allocated and no pointer is kept.
   The arrays of one call may not overlap. Doubles are moved, not worked on, where a call is refused: the bits of a not-a-number stay what they are. */
#ifndef HUSZMAGO_SHIM_H
#define HUSZMAGO_SHIM_H

#include <stddef.h>
#include <stdint.h>

#ifdef __cplusplus
extern "C" {
#endif

enum { LAYERS = 32, HEATERS = 8, EVENTS = 64 };

/* A tank. */
typedef struct {
    size_t counts[2];            /* layers, heaters */
    double numbers[6];           /* volume, standby loss, density, specific heat, ambient, step length */
    double temps[LAYERS];        /* the bottom layer first */
    double heaters[3 * HEATERS]; /* all rated powers, then all positions, then all thermostat positions, as given */
    uint8_t thermostats[HEATERS]; /* whether a heater has a thermostat position of its own */
    uint8_t flags[HEATERS];      /* whether a heater is on */
} tank_arrays;

/* A report. */
typedef struct {
    double totals[4];            /* energy withdrawn, volume used, average draw-off temperature, recoverable losses */
    double figures[3 * HEATERS]; /* all adjusted inputs, then all energies supplied, then all losses, as given */
    uint8_t flags[HEATERS];
    size_t rounds[HEATERS];
} report_arrays;

/* A step's arguments. */
typedef struct {
    double feed;
    size_t asked[2];               /* events, set-point entries */
    double volumes[EVENTS];
    uint8_t present[2 * HEATERS];  /* whether each lower set point is there, then each upper one */
    double points[2 * HEATERS];    /* all lower set points, then all upper ones */
} step_arrays;

/* Makes a tank from the counts, numbers, heaters and thermostats lent, and writes it in all six arrays; where refused, zeros. `flags` is written and not
   read. */
uint8_t huszmago_make(double initial, size_t counts[2], double numbers[6], double temps[LAYERS], double heaters[3 * HEATERS], uint8_t thermostats[HEATERS],
                      uint8_t flags[HEATERS]);

/* Steps a tank: the first ten arrays are read, and hold the answer's tank and report after it. Accepted, the layers, the flags and the report are written; the
   rest stays, each byte of `thermostats` as it was lent. Refused, nothing is written. */
uint8_t huszmago_step(size_t counts[2], double numbers[6], double temps[LAYERS], double heaters[3 * HEATERS], uint8_t thermostats[HEATERS],
                      uint8_t flags[HEATERS], double totals[4], double figures[3 * HEATERS], uint8_t line_flags[HEATERS], size_t rounds[HEATERS], double feed,
                      const size_t asked[2], const double volumes[EVENTS], const uint8_t present[2 * HEATERS], const double points[2 * HEATERS]);

/* The same through the method `StorageTank::demand_hot_water`, by value: what it hands back stands in all ten arrays after it, refused or not; the heaters'
   numbers, which no step changes, stay as they were lent, and the other nine are written. Each flag is then 0 or 1, whatever byte was lent. */
uint8_t huszmago_demand_hot_water(size_t counts[2], double numbers[6], double temps[LAYERS], double heaters[3 * HEATERS], uint8_t thermostats[HEATERS],
                                  uint8_t flags[HEATERS], double totals[4], double figures[3 * HEATERS], uint8_t line_flags[HEATERS], size_t rounds[HEATERS],
                                  double feed, const size_t asked[2], const double volumes[EVENTS], const uint8_t present[2 * HEATERS],
                                  const double points[2 * HEATERS]);

/* Mixes n layers of one volume; any n. */
uint8_t huszmago_mix(double *layers, size_t n, double layer_volume, size_t rounds[1]);

static inline uint8_t make(double initial, tank_arrays *t) {
    return huszmago_make(initial, t->counts, t->numbers, t->temps, t->heaters, t->thermostats, t->flags);
}

static inline uint8_t step(tank_arrays *t, report_arrays *r, const step_arrays *a) {
    return huszmago_step(t->counts, t->numbers, t->temps, t->heaters, t->thermostats, t->flags, r->totals, r->figures, r->flags, r->rounds, a->feed, a->asked,
                         a->volumes, a->present, a->points);
}

static inline uint8_t demand_hot_water(tank_arrays *t, report_arrays *r, const step_arrays *a) {
    return huszmago_demand_hot_water(t->counts, t->numbers, t->temps, t->heaters, t->thermostats, t->flags, r->totals, r->figures, r->flags, r->rounds, a->feed,
                                     a->asked, a->volumes, a->present, a->points);
}

#ifdef __cplusplus
}
#endif

#endif
